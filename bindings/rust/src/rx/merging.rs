//! FlatMap and Switch: an observable for each item; and Merge.
use super::create::tell_all;
use super::form::{AThing, AWay, Lock, Ref};
use super::leaf::{or_panic, unless_gone};
use super::place::{Place, Spot};
use super::root::{Root, Rooted};
use super::scope::{Inbox, Thing};
use super::way::{End, Tip, Way};
use super::{Fits, Moves, Observable};
use crate::engine::{effect, kind, place, Key};
use crate::Refusal;
use std::borrow::Borrow;
use std::collections::VecDeque;
use crate::rx::{atomic::AtomicBool, panics::Panics};
use std::sync::atomic::Ordering::Relaxed;
use std::sync::OnceLock;

/// The way of a source into a FlatMap or Switch: items are projected, errors and the end go the way of what is above.
pub(crate) struct Projects<'a, M, U, E> {
    pub to: Ref<M>,
    pub above: Ref<AWay<'a, U, E>>,
}

impl<'a, M, U, E> Rooted<'a> for Projects<'a, M, U, E> {
    fn root(&self) -> &Root<'a> {
        self.above.root()
    }
}

impl<'a, T, M: Inbox<T>, U, E> Way<'a, T, E> for Projects<'a, M, U, E> {
    fn next(&self, from: Tip, item: T) -> Result<(), Refusal> {
        self.above.root().engine.emit(from.node, item, &*self.to)
    }

    fn error(&self, from: Tip, error: E) -> Result<(), Refusal> {
        self.above.error(from, error)
    }

    fn completed(&self, from: Tip) -> Result<(), Refusal> {
        self.above.completed(from)
    }
}

/// The open node of a FlatMap or Switch, and the way of what is below it.
pub(crate) struct Above<'a, U, E> {
    pub node: Key,
    pub way: Ref<AWay<'a, U, E>>,
}

impl<'a, U, E> Above<'a, U, E> {
    pub fn inner(&self) -> Place<'a, U, E> {
        Place { spot: Spot::below(place::INNER, self.node), way: self.way.clone() }
    }

    /// It owes an inner observable, and fails instead.
    pub fn fail(&self, error: E) -> Result<(), Refusal> {
        self.way.error(Tip { node: self.node, end: End::Merging }, error)
    }

    pub fn is_stopped(&self) -> bool {
        self.way.root().is_stopped()
    }
}

/// Opens a FlatMap or Switch, and the source below it.
pub(crate) fn open_merging<'a, T: 'a, U: 'a, E: 'a, M: Inbox<T> + Thing + Fits + 'a>(
    mut at: Place<'a, U, E>, source: &Observable<'a, T, E>, kind: u8, it: Ref<M>, above: impl Fn(&M) -> &OnceLock<Above<'a, U, E>>,
) -> Result<(), Refusal> {
    let closes: Ref<AThing<'a>> = match at.spot.closes.take() {
        Some(above) => Ref::new(Both(it.clone(), above)),
        None => it.clone(),
    };
    at.spot.closes = Some(closes);
    let node = at.open(kind, Some(it.clone()), None)?.node;
    let _ = above(&it).set(Above { node, way: at.way.clone() });
    source.open(at.down(place::SOURCE, node).by(|above| Ref::new(Projects { to: it, above })))
}

struct Merging<'a, T, U, E, F> {
    items: Lock<VecDeque<T>>,
    above: OnceLock<Above<'a, U, E>>,
    is_closed: AtomicBool,
    kind: u8,
    f: Ref<F>,
}

impl<'a, T, U, E, F: Fn(T) -> Result<Observable<'a, U, E>, E>> Merging<'a, T, U, E, F> {
    fn project(&self, item: T) -> Result<(), Refusal> {
        let above = self.above.get().expect("a node is opened before its source");
        if self.is_closed.load(Relaxed) || above.is_stopped() {
            return Ok(());
        }
        match (self.f)(item) {
            Ok(inner) => unless_gone(above.way.root().engine.opening(|| self.begin(above.inner(), inner))),
            Err(error) => above.fail(error),
        }
    }
}

impl<'a, T, U, E, F> Merging<'a, T, U, E, F> {
    /// Of a Switch a node is opened first, which closes the one before: that has released before this acquires.
    fn begin(&self, mut at: Place<'a, U, E>, inner: Observable<'a, U, E>) -> Result<(), Refusal> {
        if self.kind == kind::SWITCH {
            let node = at.open(kind::PASS, None, None)?.node;
            at = at.down(place::SOURCE, node);
        }
        inner.open(at)
    }

    fn close(&self) {
        if let Some(above) = self.above.get() {
            above.way.root().panicked()
        }
    }
}

impl<'a, T, U, E, F: Fn(T) -> Result<Observable<'a, U, E>, E>> Inbox<T> for Merging<'a, T, U, E, F> {
    fn keep(&self, item: T) {
        self.items.with(|it| it.push_back(item))
    }

    fn hear(&self, item: T) {
        or_panic(self.project(item))
    }

    fn panicked(&self) {
        self.close()
    }
}

impl<'a, T, U, E, F: Fn(T) -> Result<Observable<'a, U, E>, E>> Thing for Merging<'a, T, U, E, F> {
    fn tell(&self, kind: u32, _: u64) {
        if kind == effect::PROJECT {
            if let Some(item) = self.items.with(VecDeque::pop_front) {
                self.hear(item)
            }
        }
    }

    fn closed(&self) {
        self.is_closed.store(true, Relaxed);
    }

    fn panicked(&self) {
        self.close()
    }
}

/// Is told of a closing for two.
pub(crate) struct Both<A: ?Sized, B: ?Sized>(pub Ref<A>, pub Ref<B>);

impl<A: Thing + ?Sized, B: Thing + ?Sized> Thing for Both<A, B> {
    fn closing(&self) {
        self.0.closing();
        self.1.closing();
    }

    fn closed(&self) {
        let mut panics = Panics::default();
        panics.run(|| self.0.closed());
        panics.run(|| self.1.closed());
        panics.go_on();
    }
}

impl<'a, T: Moves + 'a, E: Moves + 'a> Observable<'a, T, E> {
    fn merging<U: 'a>(
        &self, kind: u8, f: impl Fn(T) -> Result<Observable<'a, U, E>, E> + Fits + 'a,
    ) -> Observable<'a, U, E> {
        let (source, f) = (self.clone(), Ref::new(f));
        Observable::new(move |at| {
            let (items, above) = (Lock::new(VecDeque::new()), OnceLock::new());
            let it = Ref::new(Merging { items, above, is_closed: AtomicBool::new(false), kind, f: f.clone() });
            open_merging(at, &source, kind, it, |it| &it.above)
        })
    }

    /// An observable for each item, all at once.
    pub fn flat_map<U: 'a>(&self, f: impl Fn(T) -> Observable<'a, U, E> + Fits + 'a) -> Observable<'a, U, E> {
        self.merging(kind::FLAT, move |it| Ok(f(it)))
    }

    /// As [`flat_map`](Self::flat_map), or fails.
    pub fn try_flat_map<U: 'a>(&self, f: impl Fn(T) -> Result<Observable<'a, U, E>, E> + Fits + 'a) -> Observable<'a, U, E> {
        self.merging(kind::FLAT, f)
    }

    /// An observable for each item; the one before is closed, and has released what it had, before this one is subscribed to; or another
    /// thread, which is telling the observer then, releases it behind that.
    pub fn switch_map<U: 'a>(&self, f: impl Fn(T) -> Observable<'a, U, E> + Fits + 'a) -> Observable<'a, U, E> {
        self.merging(kind::SWITCH, move |it| Ok(f(it)))
    }

    /// As [`switch_map`](Self::switch_map), or fails.
    pub fn try_switch_map<U: 'a>(&self, f: impl Fn(T) -> Result<Observable<'a, U, E>, E> + Fits + 'a) -> Observable<'a, U, E> {
        self.merging(kind::SWITCH, f)
    }

    /// The items of all observables.
    pub fn merge(all: impl IntoIterator<Item = impl Borrow<Observable<'a, T, E>>>) -> Self {
        Observable::of_observables(cloned(all)).flat_map(|it| it)
    }

    /// The items of this one and another.
    pub fn merge_with(&self, other: impl Borrow<Observable<'a, T, E>>) -> Self {
        Observable::merge([self, other.borrow()])
    }
}

/// What is given as observables or as references to them.
pub(crate) fn cloned<'a, T: 'a, E: 'a>(all: impl IntoIterator<Item = impl Borrow<Observable<'a, T, E>>>) -> Vec<Observable<'a, T, E>> {
    all.into_iter().map(|it| it.borrow().clone()).collect()
}

impl<'a, T: 'a, E: 'a> Observable<'a, Observable<'a, T, E>, E> {
    pub(crate) fn of_observables(all: Vec<Observable<'a, T, E>>) -> Self {
        Observable::create(move |to| tell_all(&to, all.iter().cloned()))
    }
}
