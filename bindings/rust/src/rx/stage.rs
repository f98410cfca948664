//! A stage: a root of its own hears the source, and a leaf in its place tells what comes of that. So an operator hears each note in its
//! turn, and the end of the whole source, which no function on the way of its items does.
use super::form::{Lock, Ref};
use super::leaf::{or_panic, Emitter, Leaf};
use super::root::call;
use super::scope::Thing;
use super::{Fits, Moves, Observable};
use crate::Note;

/// The end of a leaf, which is told behind all that is released by then: what is subscribed to next finds that released.
pub(crate) struct Ends<'a, T, E> {
    leaf: Ref<Leaf<'a, T, E>>,
    error: Lock<Option<E>>,
}

impl<'a, T, E> Ends<'a, T, E> {
    pub fn of(leaf: &Ref<Leaf<'a, T, E>>, error: Option<E>) -> Ref<Self> {
        Ref::new(Ends { leaf: leaf.clone(), error: Lock::new(error) })
    }
}

impl<T, E> Thing for Ends<'_, T, E> {
    fn tell(&self, _: u32, _: u64) {
        let (way, tip) = (&self.leaf.way, self.leaf.tip());
        or_panic(match self.error.with(Option::take) {
            Some(error) => way.error(tip, error),
            None => way.completed(tip),
        })
    }

    fn panicked(&self) {
        self.leaf.way.root().panicked()
    }
}

/// Through which a stage tells.
pub(crate) struct Out<'a, T, E> {
    to: Emitter<'a, T, E>,
    is_over: bool,
}

impl<'a, T: Moves + 'a, E: Moves + 'a> Out<'a, T, E> {
    pub fn new(to: Emitter<'a, T, E>) -> Self {
        Out { to, is_over: false }
    }

    pub fn next(&self, item: T) {
        self.to.pass(item)
    }

    /// It completes, or fails, and hears nothing more. Only who is being told calls this.
    pub fn end(&mut self, error: Option<E>) {
        self.is_over = true;
        self.to.leaf.way.root().engine.tell_behind(Ends::of(&self.to.leaf, error))
    }

    pub fn is_over(&self) -> bool {
        self.is_over || self.to.is_closed()
    }

    /// Lets an operator hear what it is told, unless it is over. If that panics, the subscription is closed.
    pub fn hear(&mut self, hear: impl FnOnce(&mut Self)) {
        if !self.is_over() {
            let leaf = self.to.leaf.clone();
            call(|| leaf.way.root(), || hear(self))
        }
    }
}

impl<'a, T: Moves + 'a, E: Moves + 'a> Observable<'a, T, E> {
    /// `begin` makes, for each subscription, what hears this source.
    pub(crate) fn stage<U: Moves + 'a, G: Moves + 'a, O: FnMut(Note<T, E>, &mut Out<'a, U, G>) + Moves + 'a>(
        &self, begin: impl Fn() -> O + Fits + 'a,
    ) -> Observable<'a, U, G> {
        let source = self.clone();
        Observable::new(move |at| {
            let to = Emitter::open(at)?;
            let (leaf, mut out, mut hear) = (to.leaf.clone(), Out::new(to), begin());
            source.open_to(&leaf, move |note| out.hear(|out| hear(note, out)))
        })
    }

    /// A stage that tells something as its source completes. It remembers a value for each subscription.
    pub(crate) fn summing<S: Moves + 'a, U: Moves + 'a, L: IntoIterator<Item = U>>(
        &self, first: impl Fn() -> S + Fits + 'a, hear: impl Fn(&mut S, T, &Out<'a, U, E>) -> Result<(), E> + Fits + 'a,
        last: impl Fn(S) -> Result<L, E> + Fits + 'a,
    ) -> Observable<'a, U, E> {
        let (hear, last) = (Ref::new(hear), Ref::new(last));
        self.stage(move || {
            let (mut sum, hear, last) = (Some(first()), hear.clone(), last.clone());
            move |note, out| {
                let done = match (note, sum.as_mut()) {
                    (Note::Next(item), Some(sum)) => return hear(sum, item, out).unwrap_or_else(|error| out.end(Some(error))),
                    (Note::Error(error), _) => Err(error),
                    _ => sum.take().map_or(Ok(()), |sum| last(sum).map(|all| all.into_iter().for_each(|it| out.next(it)))),
                };
                out.end(done.err())
            }
        })
    }
}
