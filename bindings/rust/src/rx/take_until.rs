//! TakeUntil: the source, until another observable tells an item.
use super::form::{AWay, Ref};
use super::leaf::unless_gone;
use super::place::{Place, Spot};
use super::root::{Root, Rooted};
use super::way::{Tip, Way};
use super::{Moves, Observable};
use crate::engine::{kind, place, what};
use crate::Refusal;
use std::borrow::Borrow;

/// The way of a notifier's leaf: an item ends the node, whatever it is; an error takes the way of the source's errors.
pub(crate) struct Notifies<W: ?Sized>(pub Ref<W>);

impl<'a, W: Rooted<'a> + ?Sized> Rooted<'a> for Notifies<W> {
    fn root(&self) -> &Root<'a> {
        self.0.root()
    }
}

impl<'a, T, N, E> Way<'a, N, E> for Notifies<AWay<'a, T, E>> {
    fn next(&self, from: Tip, _: N) -> Result<(), Refusal> {
        self.0.root().engine.send(what::NEXT, from.node)
    }

    fn error(&self, from: Tip, error: E) -> Result<(), Refusal> {
        self.0.error(from, error)
    }

    fn completed(&self, _: Tip) -> Result<(), Refusal> {
        Ok(())
    }
}

impl<'a, T: 'a, E: Moves + 'a> Observable<'a, T, E> {
    /// Completes when the other tells an item. The end of the other ends nothing.
    pub fn take_until<N: Moves + 'a>(&self, notifier: impl Borrow<Observable<'a, N, E>>) -> Self {
        let (source, notifier) = (self.clone(), notifier.borrow().clone());
        Observable::new(move |mut at| {
            let node = at.open(kind::UNTIL, None, None)?.node;
            let below = Place { spot: Spot::below(place::NOTIFIER, node), way: Ref::new(Notifies(at.way.clone())) as Ref<AWay<'a, N, E>> };
            source.open(at.down(place::SOURCE, node))?;
            unless_gone(notifier.open_beside(below))
        })
    }
}
