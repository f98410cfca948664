//! Observables, and what observes them: a closure or a channel.
use super::form::{with_default, ARoot, AWay, Opens, Ref};
use super::heard::rooted;
use super::leaf::{unless_gone, Emitter, Leaf};
use super::place::Place;
use super::root::{Follows, Root};
use super::scope::Scope;
use super::{Fits, Moves};
use crate::rx::panics::Panics;
use crate::{Note, Refusal};
use std::panic::{catch_unwind, resume_unwind, AssertUnwindSafe};
use std::sync::mpsc;

/// A source that is observed as often as one likes: items of the type `T`, then at most one end; an error is of the type `E`.
/// It and its functions may borrow for `'a`.
pub struct Observable<'a, T, E = std::convert::Infallible> {
    pub(crate) opens: Ref<Opens<'a, T, E>>,
}

impl<T, E> Clone for Observable<'_, T, E> {
    fn clone(&self) -> Self {
        Observable { opens: self.opens.clone() }
    }
}

impl<'a, T, E> Observable<'a, T, E> {
    pub(crate) fn new(opens: impl Fn(Place<'a, T, E>) -> Result<(), Refusal> + Fits + 'a) -> Self {
        Observable { opens: Ref::new(opens) }
    }

    pub(crate) fn open(&self, place: Place<'a, T, E>) -> Result<(), Refusal> {
        (self.opens)(place)
    }

    /// The same place, with another way into the one above.
    pub(crate) fn through<U: 'a, F: 'a>(
        &self, way: impl Fn(Ref<AWay<'a, U, F>>) -> Ref<AWay<'a, T, E>> + Fits + 'a,
    ) -> Observable<'a, U, F>
    where
        T: 'a,
        E: 'a,
    {
        let source = self.clone();
        Observable::new(move |place| source.open(place.by(&way)))
    }
}

impl<'a, T: Moves + 'a, E: Moves + 'a> Observable<'a, T, E> {
    /// Opens a root of its own, which is disposed of with this leaf. So what releases at the end of this one does so, though the leaf goes
    /// on.
    pub(crate) fn open_to<U: 'a, F: 'a>(
        &self, leaf: &Ref<Leaf<'a, U, F>>, observer: impl FnMut(Note<T, E>) + Moves + 'a,
    ) -> Result<(), Refusal> {
        let (root, place) = rooted(Root::beside(leaf), Some(leaf.tip().node), observer);
        leaf.when_closed(Ref::new(Follows(root.clone())));
        let done = self.open(place);
        if leaf.is_closed() || done.is_err() {
            root.root().close();
        }
        done
    }

    /// Opens a leaf, and a root of its own that tells it all.
    pub(crate) fn open_beside(&self, at: Place<'a, T, E>) -> Result<(), Refusal> {
        let to = Emitter::open(at)?;
        let leaf = to.leaf.clone();
        self.open_to(&leaf, move |note| match note {
            Note::Next(item) => to.pass(item),
            Note::Error(error) => to.error(error),
            Note::Completed => to.completed(),
        })
    }

    /// Observes within a scope; refused if the engine has no memory, or no place for one more share, and then nothing is open.
    pub fn observe_in(&self, scope: &Scope<'a>, observer: impl FnMut(Note<T, E>) + Moves + 'a) -> Result<Subscription<'a>, Refusal> {
        let (root, place) = rooted(Root::new(scope.engine.clone()), None, observer);
        let done = catch_unwind(AssertUnwindSafe(|| unless_gone(self.open(place))));
        if !matches!(done, Ok(Ok(()))) {
            let mut panics = Panics::default();
            panics.run(|| root.root().close());
            done.unwrap_or_else(|why| resume_unwind(why))?;
        }
        Ok(Subscription { root: Some(root) })
    }
}

impl<T: Moves + 'static, E: Moves + 'static> Observable<'static, T, E> {
    /// Observes by a closure, which is called by one thread at a time.
    ///
    /// ```
    /// use cellarcliff::{local::Observable, Note};
    /// let mut heard = std::sync::mpsc::channel();
    /// Observable::<i32>::of([1, 2]).observe(move |note| heard.0.send(note).unwrap()).detach();
    /// assert_eq!(heard.1.iter().collect::<Vec<_>>(), [Note::Next(1), Note::Next(2), Note::Completed]);
    /// ```
    ///
    /// # Panics
    /// If the engine has no memory; [`observe_in`](Self::observe_in) answers then.
    pub fn observe(&self, observer: impl FnMut(Note<T, E>) + Moves + 'static) -> Subscription<'static> {
        with_default(|scope| self.observe_in(scope, observer)).unwrap_or_else(|why| panic!("the engine refuses a subscription: {why:?}"))
    }

    /// Observes the items alone.
    pub fn each(&self, mut observer: impl FnMut(T) + Moves + 'static) -> Subscription<'static> {
        self.observe(move |note| {
            if let Note::Next(item) = note {
                observer(item)
            }
        })
    }

    /// Observes by a channel without a bound, which ends behind the last note.
    pub fn channel(&self) -> (Subscription<'static>, mpsc::Receiver<Note<T, E>>) {
        let (to, from) = mpsc::channel();
        let subscription = self.observe(move |note| {
            let _ = to.send(note); // who has dropped the receiver wants no more
        });
        (subscription, from)
    }

    /// Observes the items alone by a channel without a bound, which ends behind the last.
    pub fn items(&self) -> (Subscription<'static>, mpsc::Receiver<T>) {
        let (to, from) = mpsc::channel();
        let subscription = self.each(move |item| {
            let _ = to.send(item);
        });
        (subscription, from)
    }
}

/// What is observed, until it is dropped.
#[must_use = "dropping it disposes of the subscription at once; `detach` keeps it open"]
pub struct Subscription<'a> {
    root: Option<Ref<ARoot<'a>>>,
}

impl Subscription<'_> {
    /// Ends the subscription: its resources are released when it returns, unless another thread is telling its observer.
    pub fn dispose(self) {}

    /// Leaves it open until it ends by itself, or its scope does.
    pub fn detach(mut self) {
        self.root = None;
    }

    /// Whether nothing more is told.
    pub fn is_closed(&self) -> bool {
        self.root.as_ref().is_some_and(|it| it.root().is_stopped())
    }
}

impl Drop for Subscription<'_> {
    fn drop(&mut self) {
        if let Some(root) = self.root.take() {
            let mut panics = Panics::default();
            panics.run(|| root.root().close());
            panics.run(|| drop(root));
            panics.go_on_in_drop();
        }
    }
}
