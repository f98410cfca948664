//! Sources: of a function, of items, and those that only end.
use super::leaf::Emitter;
use super::{Fits, Moves, Observable};
use crate::rx::panics::Panics;

/// Tells all items, then completes. A panic in whatever hears one keeps the others from nobody else.
pub(crate) fn tell_all<T, E>(to: &Emitter<T, E>, items: impl IntoIterator<Item = T>) {
    let mut panics = Panics::default();
    for item in items {
        if to.is_closed() {
            break;
        }
        panics.run(|| to.next(item));
    }
    panics.run(|| to.completed());
    panics.go_on()
}

impl<'a, T: 'a, E: 'a> Observable<'a, T, E> {
    /// Of a function that is called for each subscription. What it returns is dropped once, when the source is closed.
    pub fn create<R: Moves + 'a>(subscribe: impl Fn(Emitter<'a, T, E>) -> R + Fits + 'a) -> Self {
        Observable::new(move |place| {
            if std::mem::needs_drop::<R>() {
                let emitter = Emitter::open(place)?;
                emitter.hold(subscribe(emitter.clone()));
            } else {
                subscribe(Emitter::open_source(place)?);
            }
            Ok(())
        })
    }

    /// Tells all items, then completes.
    pub fn of<I: IntoIterator<Item = T> + Clone + Fits + 'a>(items: I) -> Self {
        Observable::create(move |to| tell_all(&to, items.clone()))
    }

    /// Completes at once.
    pub fn empty() -> Self {
        Observable::create(|to| to.completed())
    }

    /// Tells nothing.
    pub fn never() -> Self {
        Observable::create(drop)
    }

    /// Fails at once.
    pub fn fail(error: E) -> Self
    where
        E: Clone + Fits,
    {
        Observable::create(move |to| to.error(error.clone()))
    }

    /// Of a function that makes an observable for each subscription.
    pub fn defer(make: impl Fn() -> Observable<'a, T, E> + Fits + 'a) -> Self {
        Observable::new(move |place| make().open(place))
    }

    /// As [`defer`](Self::defer), or fails.
    pub fn try_defer(make: impl Fn() -> Result<Observable<'a, T, E>, E> + Fits + 'a) -> Self {
        Observable::new(move |place| match make() {
            Ok(it) => it.open(place),
            Err(error) => Emitter::open(place).map(|to| to.error(error)),
        })
    }
}
