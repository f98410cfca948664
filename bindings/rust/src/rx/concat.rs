//! Concat: observables one behind the other. Each has released what it had before the next is subscribed to.
use super::merging::cloned;
use super::{Fits, Moves, Observable};
use std::borrow::Borrow;

impl<'a, T: Moves + 'a, E: Moves + 'a> Observable<'a, T, E> {
    /// The items of all observables, one behind the other.
    pub fn concat(all: impl IntoIterator<Item = impl Borrow<Observable<'a, T, E>>>) -> Self {
        Observable::of_observables(cloned(all)).concat_map(|it| it)
    }

    /// The items of this one, then those of another.
    pub fn concat_with(&self, other: impl Borrow<Observable<'a, T, E>>) -> Self {
        Observable::concat([self, other.borrow()])
    }

    /// These items, then those of this one.
    pub fn start_with<I: IntoIterator<Item = T> + Clone + Fits + 'a>(&self, items: I) -> Self {
        Observable::concat([&Observable::of(items), self])
    }

    /// The items of this one, then these.
    pub fn end_with<I: IntoIterator<Item = T> + Clone + Fits + 'a>(&self, items: I) -> Self {
        Observable::concat([self, &Observable::of(items)])
    }
}
