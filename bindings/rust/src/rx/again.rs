//! OrElse, Retry and Repeat: what is subscribed to in place of an observable that has ended, and has released what it had.
use super::form::{ARoot, Lock, Ref};
use super::heard::rooted;
use super::leaf::{or_panic, unless_gone, Emitter};
use super::root::{call, Root};
use super::scope::Thing;
use super::stage::Ends;
use super::{Fits, Moves, Observable};
use crate::rx::by;
use crate::{Note, Refusal};

/// What an observable's end comes to, a completion or a failure: another one, or the same end or another.
type Then<'a, T, E> = Result<Observable<'a, T, E>, Option<E>>;

struct Now<'a, T, E> {
    root: Option<Ref<ARoot<'a>>>,
    next: Option<(Observable<'a, T, E>, u64)>, // and who was told that it comes
    opener: Option<u64>,                       // who opens one now
}

/// A leaf that is told by one observable behind the other.
struct Sequel<'a, T, E, F> {
    to: Emitter<'a, T, E>,
    now: Lock<Now<'a, T, E>>,
    then: Lock<F>,
}

impl<'a, T: Moves + 'a, E: Moves + 'a, F: FnMut(Option<E>) -> Then<'a, T, E> + Moves + 'a> Sequel<'a, T, E, F> {
    /// Who ends as it is opened is followed by a turn of this loop, and not from within.
    fn open(self: &Ref<Self>, mut source: Observable<'a, T, E>) -> Result<(), Refusal> {
        let me = by();
        loop {
            let (own, hears) = (Root::beside(&self.to.leaf), self.clone());
            let (root, place) = rooted(own, Some(self.to.leaf.tip().node), move |note| hears.hear(note));
            let before = self.now.with(|it| {
                it.opener = Some(me);
                it.root.replace(root)
            });
            drop(before);
            let done = unless_gone(source.open(place));
            if self.to.is_closed() || done.is_err() {
                self.leave();
                return done;
            }
            let next = self.now.with(|it| {
                let is_mine = it.opener == Some(me);
                it.opener = it.opener.filter(|_| !is_mine);
                if is_mine && it.next.as_ref().is_some_and(|next| next.1 == me) { it.next.take() } else { None }
            });
            match next {
                Some(it) => source = it.0,
                None => return Ok(()),
            }
        }
    }

    fn leave(&self) {
        let (root, next) = self.now.with(|it| (it.root.take(), it.next.take()));
        if let Some(it) = root {
            it.root().close()
        }
        drop(next);
    }

    fn hear(self: &Ref<Self>, note: Note<T, E>) {
        let end = match note {
            Note::Next(item) => return self.to.pass(item),
            Note::Error(error) => Some(error),
            Note::Completed => None,
        };
        let leaf = &self.to.leaf;
        match call(|| leaf.way.root(), || self.then.with(|then| then(end))) {
            Err(end) => leaf.way.root().engine.tell_behind(Ends::of(leaf, end)),
            Ok(next) => {
                let is_opening = self.now.with(|it| {
                    it.next = Some((next, by()));
                    it.opener == Some(by())
                });
                if !is_opening {
                    leaf.way.root().engine.tell_behind(Ref::new(self.clone()))
                }
            }
        }
    }
}

impl<'a, T: Moves + 'a, E: Moves + 'a, F: FnMut(Option<E>) -> Then<'a, T, E> + Moves + 'a> Thing for Ref<Sequel<'a, T, E, F>> {
    fn tell(&self, _: u32, _: u64) {
        if let Some((next, _)) = self.now.with(|it| it.next.take()) {
            if !self.to.is_closed() {
                or_panic(self.open(next))
            }
        }
    }

    fn closed(&self) {
        self.leave()
    }

    fn panicked(&self) {
        self.to.leaf.way.root().panicked()
    }
}

impl<'a, T: Moves + 'a, E: Moves + 'a> Observable<'a, T, E> {
    fn sequel<F: FnMut(Option<E>) -> Then<'a, T, E> + Moves + 'a>(&self, begin: impl Fn() -> F + Fits + 'a) -> Self {
        let source = self.clone();
        Observable::new(move |at| {
            let to = Emitter::open(at)?;
            let (leaf, now) = (to.leaf.clone(), Lock::new(Now { root: None, next: None, opener: None }));
            let sequel = Ref::new(Sequel { to, now, then: Lock::new(begin()) });
            leaf.when_closed(Ref::new(sequel.clone()));
            sequel.open(source.clone())
        })
    }

    /// In place of an error, the observable that `f` makes of it.
    pub fn or_else(&self, f: impl Fn(E) -> Observable<'a, T, E> + Fits + 'a) -> Self {
        let f = Ref::new(f);
        self.sequel(move || {
            let mut f = Some(f.clone());
            move |end| match (end, f.take()) {
                (Some(error), Some(f)) => Ok(f(error)),
                (end, _) => Err(end),
            }
        })
    }

    /// Subscribes again where it fails: so many times in all, or `None` for as often as it takes.
    pub fn retry(&self, most: impl Into<Option<usize>>) -> Self {
        self.again(most.into(), |end| end.is_some())
    }

    /// Subscribes again where it completes: so many times in all, or `None` for ever.
    pub fn repeat(&self, many: impl Into<Option<usize>>) -> Self {
        self.again(many.into(), |end| end.is_none())
    }

    fn again(&self, most: Option<usize>, is_again: impl Fn(&Option<E>) -> bool + Fits + Copy + Moves + 'a) -> Self {
        if most == Some(0) {
            return Observable::empty();
        }
        let source = self.clone();
        self.sequel(move || {
            let (mut left, source) = (most, source.clone());
            move |end| {
                left = left.map(|it| it - 1);
                if is_again(&end) && left != Some(0) { Ok(source.clone()) } else { Err(end) }
            }
        })
    }
}
