//! Using: a resource for each subscription, which is dropped once, when that is closed.
use super::leaf::Emitter;
use super::{Fits, Moves, Observable};
use crate::engine::{kind, place};
use crate::rx::panics::discard;
use std::panic::{catch_unwind, resume_unwind, AssertUnwindSafe};

/// A resource in the engine's hands. Its release is a drop.
pub(crate) trait Held {}
impl<R> Held for R {}

impl<'a, T: 'a, E: 'a> Observable<'a, T, E> {
    /// Acquires a resource for each subscription, of which the source is made. It is dropped once, behind the end.
    pub fn using<R: Moves + 'a>(
        acquire: impl Fn() -> R + Fits + 'a, source: impl Fn(&R) -> Observable<'a, T, E> + Fits + 'a,
    ) -> Self {
        Observable::try_using(move || Ok(acquire()), move |it| Ok(source(it)))
    }

    /// This source with a resource for each subscription, which is acquired before the source is subscribed to, and dropped once, behind
    /// the end.
    pub fn holding<R: Moves + 'a>(&self, acquire: impl Fn() -> R + Fits + 'a) -> Self {
        let source = self.clone();
        Observable::using(acquire, move |_| source.clone())
    }

    /// As [`using`](Self::using), or fails; a resource that was acquired is dropped behind that.
    pub fn try_using<R: Moves + 'a>(
        acquire: impl Fn() -> Result<R, E> + Fits + 'a, source: impl Fn(&R) -> Result<Observable<'a, T, E>, E> + Fits + 'a,
    ) -> Self {
        Observable::new(move |mut at| {
            let resource = match acquire() {
                Ok(it) => it,
                Err(error) => return Emitter::open(at).map(|to| to.error(error)),
            };
            let source = match catch_unwind(AssertUnwindSafe(|| source(&resource))) {
                Ok(it) => it,
                Err(why) => {
                    // a drop that panics as this panic unwinds would end the process
                    catch_unwind(AssertUnwindSafe(|| drop(resource))).unwrap_or_else(discard);
                    resume_unwind(why)
                }
            };
            let node = at.open(kind::PASS, None, Some(Box::new(resource)))?.node;
            let below = at.down(place::SOURCE, node);
            match source {
                Ok(it) => it.open(below),
                Err(error) => Emitter::open(below).map(|to| to.error(error)),
            }
        })
    }
}
