//! A root that is a leaf alone and holds nothing: nothing above can close it, nothing is released with it, and of its items nothing comes
//! but that they are heard. So it is told without the engine, by whoever has its observer; what comes meanwhile, from within or of other
//! threads, stands in a list, which that one tells before it leaves. It is opened in the engine as soon as it holds something.
//!
//! Nothing else in this crate leaves out the engine.
use super::form::{is_none, AHeld, Lock};
use super::heard::Heard;
use super::leaf::or_panic;
use super::root::Root;
use super::scope::Inbox;
use super::way::{End, Tip, Way};
use super::words::Word;
use crate::engine::{effect, flag, kind, place, what, Command, Key, NOTHING};
use crate::rx::{atomic::AtomicUsize, panics::Panics, slab::Slab};
use crate::{Note, Refusal};
use std::collections::VecDeque;
use std::sync::atomic::Ordering::{Relaxed, SeqCst};

enum Waits<'a, T, E> {
    Note(Note<T, E>),
    Hold(Box<AHeld<'a>>),
}

#[derive(Clone, Copy, PartialEq)]
enum Phase {
    Alone,
    Entering,
    Inside,
}

struct List<'a, T, E> {
    waits: VecDeque<Waits<'a, T, E>>,
    phase: Phase, // if it leaves the first, that is under the observer's lock too
}

pub(crate) struct Lone<'a, T, E> {
    list: Lock<List<'a, T, E>>,
    /// How much waits. It is never none again once the root enters the engine.
    many: AtomicUsize,
}

const ENTERED: usize = 1 << (usize::BITS - 1);

/// What is to be done with the first that waits.
enum First<'a, T, E, O> {
    Nothing,
    /// It was told; the observer hears nothing more, perhaps.
    Told(Option<O>),
    /// It is opened in the engine.
    Enters(Word<'a>),
    /// It is closed, and holds nothing.
    Dropped(#[allow(dead_code)] Waits<'a, T, E>),
}

impl<'a, T, E> Lone<'a, T, E> {
    pub fn new() -> Self {
        Lone { list: Lock::new(List { waits: VecDeque::new(), phase: Phase::Alone }), many: AtomicUsize::new(0) }
    }

    /// What waits is not told.
    pub fn empty(&self) {
        let left = self.list.with(|list| {
            self.many.fetch_sub(list.waits.len(), SeqCst);
            std::mem::take(&mut list.waits)
        });
        drop(left) // outside the lock
    }

    /// Unless it is in the engine.
    fn push(&self, it: Waits<'a, T, E>) -> Option<Waits<'a, T, E>> {
        self.list.with(|list| {
            if list.phase == Phase::Inside {
                return Some(it);
            }
            list.waits.push_back(it);
            self.many.fetch_add(1, SeqCst);
            None
        })
    }

    fn pop(&self, list: &mut List<'a, T, E>) -> Option<Waits<'a, T, E>> {
        let it = list.waits.pop_front()?;
        self.many.fetch_sub(1, SeqCst);
        Some(it)
    }

    fn phase(&self) -> Phase {
        self.list.with(|list| list.phase)
    }

    /// Whether something waits for whoever has the observer.
    fn waits(&self) -> bool {
        self.list.with(|list| list.phase == Phase::Alone && !list.waits.is_empty())
    }
}

impl<'a, T, E, O: FnMut(Note<T, E>)> Heard<'a, T, E, O> {
    /// Tells it at once if nobody has the observer and nothing waits; else it waits.
    #[inline(always)]
    pub fn tell_alone(&self, note: Note<T, E>) -> Result<(), Refusal> {
        if self.root.is_stopped() {
            return Ok(());
        }
        let (mut note, mut over, mut panics) = (Some(note), None, Panics::default());
        let has_panicked = panics.run(|| {
            self.observer.try_with(|observer| {
                if self.lone.many.load(Relaxed) == 0 {
                    over = note.take().and_then(|it| self.tells(observer, it));
                }
            });
        });
        if note.is_none() && over.is_none() && !has_panicked && is_none(&self.lone.many) {
            return Ok(());
        }
        self.go_on_alone(note, over, has_panicked, panics)
    }

    #[cold]
    fn go_on_alone(&self, left: Option<Note<T, E>>, over: Option<O>, has_panicked: bool, mut panics: Panics) -> Result<(), Refusal> {
        if has_panicked {
            panics.run(|| Inbox::panicked(self));
        }
        panics.run(|| drop(over));
        match left.and_then(|it| self.lone.push(Waits::Note(it))) {
            Some(it) => self.give(self.root.key(), it)?, // it is in the engine by now
            None => self.tell_waiting(&mut panics),
        }
        panics.go_on();
        Ok(())
    }

    /// It is closed without an end: what waits is not told, and who has the observer now drops it behind that.
    pub fn left_alone(&self) {
        let mut panics = Panics::default();
        panics.run(|| self.lone.empty());
        if self.lone.phase() == Phase::Alone {
            self.lone.push(Waits::Note(Note::Completed)); // which a root that has stopped does not hear
            self.tell_waiting(&mut panics);
        } else {
            panics.run(|| self.leave()); // by the engine, which tells nobody else now
        }
        panics.go_on()
    }

    /// The leaf is closed at once, and its end stands behind what waits.
    pub fn end_alone(&self, end: Note<T, E>) -> Result<(), Refusal> {
        let mut panics = Panics::default();
        if let Some(word) = self.root.leave_alone() {
            panics.run(|| word.closed());
            panics.run(|| drop(word));
            panics.run(|| _ = self.tell_alone(end));
            panics.go_on();
            return Ok(());
        }
        match self.lone.phase() {
            Phase::Alone => Err(Refusal::Gone),
            _ => match self.lone.push(Waits::Note(end)) {
                Some(it) => self.give(self.root.key(), it),
                None => Ok(()), // who opens it in the engine ends it there
            },
        }
    }

    /// It goes into the engine, behind what it is being told.
    pub fn hold_alone(&self, resource: Box<AHeld<'a>>) -> Result<(), Refusal> {
        let mut panics = Panics::default();
        match self.lone.push(Waits::Hold(resource)) {
            Some(it) => self.give(self.root.key(), it)?,
            None => self.tell_waiting(&mut panics),
        }
        panics.go_on();
        Ok(())
    }

    /// Unless somebody has the observer, who looks again behind that.
    fn tell_waiting(&self, panics: &mut Panics) {
        while self.lone.waits() {
            let mut first = None;
            if panics.run(|| first = self.observer.try_with(|observer| self.tell_first(observer))) {
                panics.run(|| Inbox::panicked(self));
                continue;
            }
            match first {
                None => return,
                Some(First::Enters(word)) => self.enter(word, panics),
                Some(it) => _ = panics.run(|| drop(it)),
            }
        }
    }

    fn tell_first(&self, observer: &mut Option<O>) -> First<'a, T, E, O> {
        let first = self.lone.list.with(|list| {
            if let Some(Waits::Hold(_)) = list.waits.front() {
                if let Some(word) = self.root.take_alone(|_| ()) {
                    list.phase = Phase::Entering;
                    self.lone.many.fetch_or(ENTERED, SeqCst);
                    return Err(word);
                }
            }
            Ok(if list.phase == Phase::Alone { self.lone.pop(list) } else { None })
        });
        match first {
            Err(word) => First::Enters(word),
            Ok(None) => First::Nothing,
            Ok(Some(Waits::Note(note))) => First::Told(self.tells(observer, note)),
            Ok(Some(it)) => First::Dropped(it),
        }
    }

    /// Opens it in the engine, where all that waits goes, and what comes from then on.
    fn enter(&self, Word { hears, closes, .. }: Word<'a>, panics: &mut Panics) {
        let command = Command { what: what::OPEN, place: place::ROOT, kind: kind::LEAF, flags: flag::WISHES, node: NOTHING, ..Command::default() };
        let word = Word { hears: hears.clone(), merges: None, closes: closes.clone() };
        let mut made = Err(Refusal::NoMemory);
        panics.run(|| made = self.root.engine.make(command, word, None, |_| ()));
        let node = match made {
            Ok(made) => made.node,
            Err(why) => {
                let word = Word { hears, merges: None, closes };
                word.closing();
                self.lone.list.with(|list| list.phase = Phase::Alone);
                panics.run(|| word.leaves_alone());
                panics.run(|| or_panic(Err(why)));
                return;
            }
        };
        if self.root.set_late(node) {
            panics.run(|| self.root.close()); // from within the opening
        }
        while let Some(it) = self.lone.list.with(|list| self.lone.pop(list).or_else(|| {
            list.phase = Phase::Inside;
            closes.iter().for_each(|leaf| leaf.opened(node));
            None
        })) {
            panics.run(|| or_panic(self.give(node, it)));
        }
    }

    /// To the engine.
    fn give(&self, node: Key, it: Waits<'a, T, E>) -> Result<(), Refusal> {
        let from = Tip { node, end: End::Leaf };
        match it {
            Waits::Note(Note::Next(item)) => self.next(from, item),
            Waits::Note(Note::Error(error)) => self.error(from, error),
            Waits::Note(Note::Completed) => self.completed(from),
            Waits::Hold(resource) => self.hold(from, resource),
        }
    }
}

/// The roots of an engine that are alone.
pub(crate) struct Lones<'a> {
    all: Slab<(u64, Word<'a>)>,
    made: u64,
}

impl<'a> Lones<'a> {
    pub fn new() -> Self {
        Lones { all: Slab::new(), made: 0 }
    }

    pub fn many(&self) -> usize {
        self.all.many()
    }

    /// A number is given once.
    pub fn put(&mut self, word: Word<'a>) -> Key {
        let number = self.made;
        self.made += 1;
        Key { slot: self.all.put((number, word)), number }
    }

    pub fn take(&mut self, key: Key) -> Option<Word<'a>> {
        self.all.at(key.slot).filter(|it| it.0 == key.number)?;
        self.all.take(key.slot).map(|it| it.1)
    }

    /// Leaves none. Outside the lock each is told that it is closed.
    pub fn take_all(&mut self) -> Vec<Word<'a>> {
        let all: Vec<_> = std::mem::replace(&mut self.all, Slab::new()).into_iter().map(|it| it.1).collect();
        all.iter().for_each(Word::closing);
        all
    }
}

impl<'a> Root<'a> {
    /// It needs no engine until it holds something.
    pub fn stand_alone(&self, word: Word<'a>) {
        self.alone.set(self.engine.lones.with(|all| all.put(word)))
    }

    pub fn was_alone(&self) -> bool {
        self.alone.get() != NOTHING
    }

    /// For the one who ends or closes it: what others ask of its leaf is answered so from now on.
    pub fn leave_alone(&self) -> Option<Word<'a>> {
        self.take_alone(Word::closing)
    }

    /// Whoever takes it out does, under the lock, what is to be done with that.
    fn take_alone(&self, does: impl FnOnce(&Word<'a>)) -> Option<Word<'a>> {
        let key = self.alone.get();
        if key == NOTHING {
            return None;
        }
        self.engine.lones.with(|all| {
            let word = all.take(key)?;
            does(&word);
            Some(word)
        })
    }
}

impl Word<'_> {
    fn closing(&self) {
        self.closes.iter().for_each(|leaf| leaf.closing())
    }

    fn closed(&self) {
        self.closes.iter().for_each(|leaf| leaf.closed())
    }

    /// It is closed without an end.
    pub fn leaves_alone(self) {
        let mut panics = Panics::default();
        panics.run(|| self.closed());
        panics.run(|| self.hears.iter().for_each(|it| it.tell(effect::GONE, 0)));
        panics.run(|| drop(self));
        panics.go_on()
    }
}
