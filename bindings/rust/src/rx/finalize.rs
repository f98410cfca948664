//! Finalize: a function that is called once for each subscription, behind its end.
use super::form::Ref;
use super::{Fits, Observable};
use crate::engine::{kind, place};

struct Last<F: Fn()>(Ref<F>);

impl<F: Fn()> Drop for Last<F> {
    fn drop(&mut self) {
        (self.0)()
    }
}

impl<'a, T: 'a, E: 'a> Observable<'a, T, E> {
    /// Calls `last` once for each subscription, however that ends.
    pub fn finalize(&self, last: impl Fn() + Fits + 'a) -> Self {
        let (source, last) = (self.clone(), Ref::new(last));
        Observable::new(move |mut at| {
            let node = at.open(kind::PASS, None, Some(Box::new(Last(last.clone()))))?.node;
            source.open(at.down(place::SOURCE, node))
        })
    }
}
