//! Functions on items: map, filter, inspect, and those that may fail. They are called in the thread that emits, before the engine has
//! the item; several threads that emit may call them at once.
use super::form::{AHeld, AWay, Ref};
use super::root::{call, Root, Rooted};
use super::way::{Tip, Way};
use super::{Fits, Observable};
use crate::Refusal;

/// The way of an item through a function, which maps it, leaves it out, or fails.
pub(crate) struct Step<W: ?Sized, F> {
    pub way: Ref<W>,
    pub f: F,
}

impl<'a, W: Rooted<'a> + ?Sized, F> Rooted<'a> for Step<W, F> {
    fn root(&self) -> &Root<'a> {
        self.way.root()
    }
}

impl<'a, T, U, E, F: Fn(T) -> Result<Option<U>, E>> Way<'a, T, E> for Step<AWay<'a, U, E>, F> {
    #[inline]
    fn next(&self, from: Tip, item: T) -> Result<(), Refusal> {
        match call(|| self.way.root(), || (self.f)(item)) {
            Ok(Some(item)) => self.way.next(from, item),
            Ok(None) => Ok(()),
            Err(error) => self.way.error(from, error),
        }
    }

    fn error(&self, from: Tip, error: E) -> Result<(), Refusal> {
        self.way.error(from, error)
    }

    fn completed(&self, from: Tip) -> Result<(), Refusal> {
        self.way.completed(from)
    }

    fn hold(&self, from: Tip, resource: Box<AHeld<'a>>) -> Result<(), Refusal> {
        self.way.hold(from, resource)
    }
}

struct Errors<W: ?Sized, F> {
    way: Ref<W>,
    f: Ref<F>,
}

impl<'a, W: Rooted<'a> + ?Sized, F> Rooted<'a> for Errors<W, F> {
    fn root(&self) -> &Root<'a> {
        self.way.root()
    }
}

impl<'a, T, E, G, F: Fn(E) -> G> Way<'a, T, E> for Errors<AWay<'a, T, G>, F> {
    fn next(&self, from: Tip, item: T) -> Result<(), Refusal> {
        self.way.next(from, item)
    }

    fn error(&self, from: Tip, error: E) -> Result<(), Refusal> {
        let error = call(|| self.way.root(), || (self.f)(error));
        self.way.error(from, error)
    }

    fn completed(&self, from: Tip) -> Result<(), Refusal> {
        self.way.completed(from)
    }

    fn hold(&self, from: Tip, resource: Box<AHeld<'a>>) -> Result<(), Refusal> {
        self.way.hold(from, resource)
    }
}

impl<'a, T: 'a, E: 'a> Observable<'a, T, E> {
    /// Maps each item, leaves it out (`None`), or fails.
    pub fn try_filter_map<U: 'a>(&self, f: impl Fn(T) -> Result<Option<U>, E> + Fits + 'a) -> Observable<'a, U, E> {
        let f = Ref::new(f);
        self.through(move |way| {
            let f = f.clone();
            Ref::new(Step { way, f: move |it| f(it) })
        })
    }

    /// Maps each item.
    pub fn map<U: 'a>(&self, f: impl Fn(T) -> U + Fits + 'a) -> Observable<'a, U, E> {
        self.try_filter_map(move |it| Ok(Some(f(it))))
    }

    /// Maps each item, or fails.
    pub fn try_map<U: 'a>(&self, f: impl Fn(T) -> Result<U, E> + Fits + 'a) -> Observable<'a, U, E> {
        self.try_filter_map(move |it| f(it).map(Some))
    }

    /// Maps each item or leaves it out.
    pub fn filter_map<U: 'a>(&self, f: impl Fn(T) -> Option<U> + Fits + 'a) -> Observable<'a, U, E> {
        self.try_filter_map(move |it| Ok(f(it)))
    }

    /// The items for which it is true.
    pub fn filter(&self, f: impl Fn(&T) -> bool + Fits + 'a) -> Observable<'a, T, E> {
        self.try_filter_map(move |it| Ok(f(&it).then_some(it)))
    }

    /// Calls `f` with each item on its way.
    pub fn inspect(&self, f: impl Fn(&T) + Fits + 'a) -> Self {
        self.map(move |it| {
            f(&it);
            it
        })
    }

    /// Turns an error into one of another type.
    pub fn map_err<G: 'a>(&self, f: impl Fn(E) -> G + Fits + 'a) -> Observable<'a, T, G> {
        let f = Ref::new(f);
        self.through(move |way| Ref::new(Errors { way, f: f.clone() }))
    }
}
