//! An engine with the words of what is open in it: commands go in, and whoever makes one does what is handed out to him.
use super::form::{AHeld, AThing, Lock, Ref};
use super::lone::Lones;
use super::words::{Word, Words};
use crate::engine::{effect, what, Command, Crossing, Handed, Key, Stack, Stepped, NOTHING};
use crate::rx::{by, openings, panics::Panics, slab::Slab};
use crate::Refusal;
use std::any::Any;
use std::panic::{catch_unwind, resume_unwind, AssertUnwindSafe};

/// What a word stands for.
pub(crate) trait Thing {
    /// An effect, outside the lock.
    fn tell(&self, _kind: u32, _value: u64) {}
    /// The node has closed: what others ask of it is answered so. It is under the lock, before anybody can release what the node had, and
    /// does nothing yet, since others have closed with it.
    fn closing(&self) {}
    /// The node has closed, and all that closed with it knows that.
    fn closed(&self) {}
    /// `tell` panicked.
    fn panicked(&self) {}
    /// Of a leaf: it stood alone, and is in the engine from now on.
    fn opened(&self, _node: Key) {}
}

impl Thing for () {}

/// Where the values of one lane wait, in their order.
pub(crate) trait Inbox<V> {
    /// The value stands behind others; under the lock.
    fn keep(&self, value: V);
    /// It is told, outside the lock.
    fn hear(&self, value: V);
    /// `hear` panicked.
    fn panicked(&self);
}

/// What a call is to do next, outside the lock.
enum Due<'a> {
    Nothing,
    Tell(Ref<AThing<'a>>, u32, u64),
    Drop(Box<AHeld<'a>>),
}

/// What a command has closed; and what was handed out with that, which is begun behind it.
struct Closed<'a> {
    first: Ref<AThing<'a>>,
    others: Vec<Ref<AThing<'a>>>,
    handed: Option<Handed>,
}

/// What is told behind all that its call is handed out.
struct Behind<'a> {
    by: u64,
    depth: u64,
    thing: Ref<AThing<'a>>,
}

struct State<'a> {
    crossing: Crossing,
    step: Stepped,
    words: Words<'a>,
    tags: Slab<Box<AHeld<'a>>>,
    stacks: Vec<Stack>, // where no call is under way it is another's next
    behind: Vec<Behind<'a>>,
}

impl<'a> State<'a> {
    #[inline]
    fn stack(&self, by: u64) -> Option<usize> {
        self.stacks.iter().position(|it| it.by == by)
    }

    /// A call begins with a command. Answers its stack, and the status.
    #[inline]
    fn begin(&mut self, by: u64, command: &Command) -> (usize, u8) {
        let at = self.stack(by).unwrap_or_else(|| self.free_stack(by));
        self.stacks[at].depth += 1;
        (at, self.crossing.step(&self.stacks[at], command, &mut self.step))
    }

    #[cold]
    fn free_stack(&mut self, by: u64) -> usize {
        let at = self.stacks.iter().position(|it| it.depth == 0).unwrap_or_else(|| {
            self.stacks.push(Stack::default());
            self.stacks.len() - 1
        });
        self.stacks[at] = Stack { by, ..Stack::default() };
        at
    }

    /// What the command of a call has closed comes first.
    #[inline(always)]
    fn due(&mut self, at: usize, closed: &mut Option<Closed<'a>>) -> Due<'a> {
        if self.step.closed > 0 {
            *closed = self.closed();
        }
        if closed.is_some() { Due::Nothing } else { self.go_on(at) }
    }

    fn closed(&mut self) -> Option<Closed<'a>> {
        let rest = if self.step.closed > 1 { self.crossing.closings(&self.step).split_off(1) } else { Vec::new() };
        let all = std::iter::once(self.step.closings[0]).chain(rest).filter_map(|it| self.words.closed(it));
        let mut all = all.inspect(|it| it.closing());
        Some(Closed { first: all.next()?, others: all.collect(), handed: self.step.handed() })
    }

    #[inline]
    fn next(&mut self, by: u64) -> Due<'a> {
        let at = self.stack(by).expect("a call is under way");
        self.crossing.next(&self.stacks[at], &mut self.step);
        self.go_on(at)
    }

    /// Where nothing was handed out, the call ends behind what waits for that.
    #[inline]
    fn go_on(&mut self, at: usize) -> Due<'a> {
        if self.step.handed == 1 || !self.behind.is_empty() {
            return self.begin_next(at);
        }
        self.stacks[at].depth -= 1;
        Due::Nothing
    }

    fn begin_next(&mut self, at: usize) -> Due<'a> {
        while self.step.handed == 1 {
            let it = self.step.effect;
            self.stacks[at].begun = self.step.ticket;
            let known = match it.kind {
                effect::RELEASE => self.tags.take(it.user).map(Due::Drop),
                _ => self.words.told(&it).map(|thing| Due::Tell(thing, it.kind, it.value)),
            };
            if let Some(it) = known {
                return it;
            }
            self.crossing.next(&self.stacks[at], &mut self.step);
        }
        let Stack { by, depth, .. } = self.stacks[at];
        if let Some(first) = self.behind.iter().position(|it| it.by == by && it.depth >= depth) {
            return Due::Tell(self.behind.remove(first).thing, 0, 0);
        }
        self.stacks[at].depth -= 1;
        Due::Nothing
    }
}

/// A panic that goes on later.
struct Passed(Lock<Option<Box<dyn Any + Send>>>);

impl Thing for Passed {
    fn tell(&self, _: u32, _: u64) {
        if let Some(why) = self.0.with(Option::take) {
            resume_unwind(why)
        }
    }
}

/// What a command came to.
#[derive(Clone, Copy)]
pub(crate) struct Made {
    pub node: Key,
    pub other: Key,
    pub is_connected: bool,
    pub hub: u64,
}

pub(crate) struct Engine<'a> {
    state: Lock<State<'a>>,
    pub lones: Lock<Lones<'a>>,
}

impl<'a> Engine<'a> {
    fn new(max_events: u32) -> Result<Ref<Self>, Refusal> {
        let (crossing, step) = (Crossing::new(max_events)?, Stepped::default());
        let state = State { crossing, step, words: Words::new(), tags: Slab::new(), stacks: Vec::new(), behind: Vec::new() };
        Ok(Ref::new(Engine { state: Lock::new(state), lones: Lock::new(Lones::new()) }))
    }

    /// A command on a node that carries nothing.
    pub fn send(&self, what: u8, node: Key) -> Result<(), Refusal> {
        self.make(Command { what, node, ..Command::default() }, Word::default(), None, |_| ()).map(drop)
    }

    /// A resource of a node's goes in.
    pub fn hold(&self, node: Key, resource: Box<AHeld<'a>>) -> Result<(), Refusal> {
        self.make(Command { what: what::HOLD, node, ..Command::default() }, Word::default(), Some(resource), |_| ()).map(drop)
    }

    /// An item goes in. Whom it is for hears it at once if nothing stands before it.
    #[inline]
    pub fn emit<V>(&self, node: Key, value: V, to: &impl Inbox<V>) -> Result<(), Refusal> {
        let (by, mut value, mut status, mut is_own, mut closed) = (by(), Some(value), 0, false, None);
        let mut due = self.state.with(|state| {
            let at;
            (at, status) = state.begin(by, &Command { what: what::NEXT, node, ..Command::default() });
            is_own = state.step.own == 1;
            if is_own {
                state.stacks[at].begun = state.step.ticket;
                return Due::Nothing;
            }
            if state.step.copies > 0 {
                value.take().into_iter().for_each(|it| to.keep(it));
            }
            state.due(at, &mut closed)
        });
        let mut panics = Panics::default();
        if is_own {
            if panics.run(|| value.into_iter().for_each(|it| to.hear(it))) {
                panics.run(|| to.panicked());
            }
            due = self.state.with(|state| state.next(by));
        } else {
            panics.run(|| drop(value));
        }
        self.serve(by, closed, due, &mut panics);
        panics.go_on();
        Refusal::unless_done(status)
    }

    /// Makes a command; tells `keep`, under the lock, how many effects carry its value; then does what is handed out.
    pub fn make(
        &self, mut command: Command, word: Word<'a>, tag: Option<Box<AHeld<'a>>>, keep: impl FnOnce(u64),
    ) -> Result<Made, Refusal> {
        let (by, has_word, has_tag, mut closed) = (by(), !word.is_empty(), tag.is_some(), None);
        let (done, due) = self.state.with(|state| {
            if has_word {
                command.user = state.words.put(word);
            }
            if let Some(tag) = tag {
                command.value = state.tags.put(tag);
            }
            let (at, status) = state.begin(by, &command);
            if status == 0 {
                keep(state.step.copies);
            }
            let it = &state.step;
            let made = Made { node: it.node, other: it.other, is_connected: it.is_connected == 1, hub: it.hub };
            (if status == 0 { Ok(made) } else { Err(status) }, state.due(at, &mut closed))
        });
        let mut panics = Panics::default();
        let done = done.map_err(|status| {
            self.give_back(has_word.then_some(command.user), has_tag.then_some(command.value), &mut panics);
            Refusal::of(status)
        });
        self.serve(by, closed, due, &mut panics);
        panics.go_on();
        done
    }

    /// What a command that was refused had is dropped outside the lock.
    #[cold]
    fn give_back(&self, word: Option<u64>, tag: Option<u64>, panics: &mut Panics) {
        let back = self.state.with(|state| (word.map(|it| state.words.take(it)), tag.map(|it| state.tags.take(it))));
        panics.run(|| drop(back));
    }

    /// As a thing that is told of a closing makes a command: it is one more of the call that closed it. What that was handed out already
    /// is the same again, and what comes of the command is done behind all else.
    pub fn make_behind(&self, mut command: Command, word: Word<'a>) -> Result<(), Refusal> {
        let (status, back) = self.state.with(|state| {
            let at = state.stack(by()).expect("it is told within a call");
            command.user = state.words.put(word);
            let status = state.crossing.step(&state.stacks[at], &command, &mut state.step);
            (status, (status != 0).then(|| state.words.take(command.user)))
        });
        drop(back);
        self.tell_behind(Ref::new(())); // so the call asks once more
        Refusal::unless_done(status)
    }

    /// For a thing that is being told: another is told once all is done that its call is handed out.
    pub fn tell_behind(&self, thing: Ref<AThing<'a>>) {
        let by = by();
        self.state.with(|state| {
            let depth = state.stack(by).map_or(1, |at| state.stacks[at].depth.max(1));
            state.behind.push(Behind { by, depth, thing })
        })
    }

    /// For a thing that is being told, which tells others in its turn: a panic of theirs has closed what it had to, and goes on once all
    /// is done that is due by now, not through the thing.
    pub fn pass_on<R>(&self, work: impl FnOnce() -> R) -> Option<R> {
        catch_unwind(AssertUnwindSafe(work)).map_err(|why| self.go_on_behind(why)).ok()
    }

    /// For a thing that is being told, and opens a source, which may tell at once.
    pub fn opening<R>(&self, work: impl FnOnce() -> R) -> R {
        openings(|all| all.push(self.place()));
        let done = catch_unwind(AssertUnwindSafe(work));
        openings(Vec::pop);
        done.unwrap_or_else(|why| resume_unwind(why))
    }

    fn place(&self) -> usize {
        self as *const Self as usize
    }

    /// What a source tells: as it is opened by a thing that is being told, a panic of others does not go through either.
    #[inline]
    pub fn tell_from_source(&self, work: impl FnOnce() -> Result<(), Refusal>) -> Result<(), Refusal> {
        catch_unwind(AssertUnwindSafe(work)).unwrap_or_else(|why| match openings(|all| all.contains(&self.place())) {
            Some(true) => Ok(self.go_on_behind(why)),
            _ => resume_unwind(why),
        })
    }

    #[cold]
    fn go_on_behind(&self, why: Box<dyn Any + Send>) {
        self.tell_behind(Ref::new(Passed(Lock::new(Some(why)))))
    }

    /// Tells what has closed, and does what the call is handed out, until there is nothing more.
    #[inline(always)]
    fn serve(&self, by: u64, closed: Option<Closed<'a>>, mut due: Due<'a>, panics: &mut Panics) {
        if let Some(closed) = closed {
            due = self.close(by, closed, panics);
        }
        while !matches!(due, Due::Nothing) {
            due = self.act(by, due, panics);
        }
    }

    fn close(&self, by: u64, Closed { first, others, handed }: Closed<'a>, panics: &mut Panics) -> Due<'a> {
        let mut close = |it: Ref<AThing<'a>>| {
            panics.run(|| it.closed());
            panics.run(|| drop(it));
        };
        close(first);
        others.into_iter().for_each(close);
        self.state.with(|state| {
            let at = state.stack(by).expect("a call is under way");
            state.step.hand(handed);
            state.go_on(at)
        })
    }

    fn act(&self, by: u64, due: Due<'a>, panics: &mut Panics) -> Due<'a> {
        match due {
            Due::Nothing => (),
            Due::Tell(thing, kind, value) => {
                if panics.run(|| thing.tell(kind, value)) {
                    panics.run(|| thing.panicked());
                }
                panics.run(|| drop(thing));
            }
            Due::Drop(resource) => _ = panics.run(|| drop(resource)),
        }
        self.state.with(|state| state.next(by))
    }
}

/// An engine, and the end of all that is open in it: dropping it disposes of every subscription and releases every resource.
///
/// What borrows nothing needs none ([`Observable::observe`](super::Observable::observe)).
pub struct Scope<'a> {
    pub(crate) engine: Ref<Engine<'a>>,
}

impl<'a> Scope<'a> {
    /// An engine of its own; refused for want of memory.
    pub fn new() -> Result<Self, Refusal> {
        Self::with_room(0)
    }

    /// An engine whose history has at most so many events at a time, those that closing needs counted in; 0 lets it choose.
    pub fn with_room(max_events: u32) -> Result<Self, Refusal> {
        Ok(Scope { engine: Engine::new(max_events)? })
    }

    /// How many words and tags the engine has, and how many subscriptions need none: 0 if nothing is open or waits.
    pub fn words(&self) -> usize {
        self.engine.state.with(|it| it.words.many() + it.tags.many()) + self.engine.lones.with(|it| it.many())
    }

    /// How much is open, held and was handed out.
    pub fn totals(&self) -> crate::engine::Totals {
        let mut totals = self.engine.state.with(|it| it.crossing.totals());
        totals.nodes += self.engine.lones.with(|it| it.many()) as u64;
        totals
    }

    /// Disposes of all that is open.
    ///
    /// # Panics
    /// If a `drop` or what is told panics; all is disposed of before that goes on.
    pub fn shut(&self) {
        let mut panics = Panics::default();
        loop {
            let alone = self.engine.lones.with(|it| it.take_all());
            let many = alone.len();
            alone.into_iter().for_each(|it| _ = panics.run(|| it.leaves_alone()));
            let before = self.totals();
            if before.nodes == 0 && before.leases == 0 {
                return panics.go_on();
            }
            panics.run(|| _ = self.engine.send(what::SHUT, NOTHING)); // it closes one of what is open, or all
            if many == 0 && self.totals().events == before.events {
                return panics.go_on();
            }
        }
    }
}

impl Drop for Scope<'_> {
    fn drop(&mut self) {
        let mut panics = Panics::default();
        panics.run(|| self.shut());
        panics.go_on_in_drop();
    }
}
