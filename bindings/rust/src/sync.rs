//! Observables that threads share: `Send + Sync`, and so are their functions; items, errors and resources are `Send`.
//!
//! [`local`](crate::local) has the same names for one thread.
#![allow(clippy::duplicate_mod)]

pub(crate) mod form {
    use super::observables::{place::Place, root::Rooted, scope::Thing, using::Held, way::Way, Scope};
    use crate::engine::helgrind::{acquired, released};
    use crate::rx::atomic::AtomicUsize;
    use crate::Refusal;
    use std::sync::atomic::Ordering::SeqCst;
    pub(crate) use std::sync::{Arc as Ref, Weak};
    use std::sync::{Mutex, OnceLock, PoisonError, TryLockError};

    /// What a function has to be: `Send + Sync`.
    pub trait Fits: Send + Sync {}
    impl<T: Send + Sync + ?Sized> Fits for T {}
    /// What an item, an error or a resource has to be: `Send`.
    pub trait Moves: Send {}
    impl<T: Send + ?Sized> Moves for T {}

    pub(crate) type ARoot<'a> = dyn Rooted<'a> + Send + Sync + 'a;
    pub(crate) type AHeld<'a> = dyn Held + Send + 'a;
    pub(crate) type AThing<'a> = dyn Thing + Send + Sync + 'a;
    pub(crate) type AWay<'a, T, E> = dyn Way<'a, T, E> + Send + Sync + 'a;
    pub(crate) type Opens<'a, T, E> = dyn Fn(Place<'a, T, E>) -> Result<(), Refusal> + Send + Sync + 'a;

    pub(crate) struct Lock<T>(Mutex<T>);

    impl<T> Lock<T> {
        pub fn new(value: T) -> Self {
            Lock(Mutex::new(value))
        }

        /// What is done under it is short. A user's function that panicked there has ended its subscription.
        #[inline]
        pub fn with<R>(&self, f: impl FnOnce(&mut T) -> R) -> R {
            let mut value = self.0.lock().unwrap_or_else(PoisonError::into_inner);
            acquired(self);
            let done = f(&mut value);
            released(self);
            done
        }

        /// Not if somebody has it.
        #[inline]
        pub fn try_with<R>(&self, f: impl FnOnce(&mut T) -> R) -> Option<R> {
            let mut value = match self.0.try_lock() {
                Ok(it) => it,
                Err(TryLockError::Poisoned(it)) => it.into_inner(),
                Err(TryLockError::WouldBlock) => return None,
            };
            acquired(self);
            let done = f(&mut value);
            released(self);
            Some(done)
        }
    }

    /// Whether it is none for all who look behind this thread's last step: it writes what it read, so whoever adds to it comes before that,
    /// and is seen, or behind, and sees that step.
    #[inline]
    pub(crate) fn is_none(many: &AtomicUsize) -> bool {
        many.compare_exchange(0, 0, SeqCst, SeqCst).is_ok()
    }

    /// The engine of what borrows nothing: all threads have one.
    pub(crate) fn with_default<R>(f: impl FnOnce(&Scope<'static>) -> R) -> R {
        static HERE: OnceLock<Scope<'static>> = OnceLock::new();
        f(HERE.get_or_init(|| Scope::new().expect("there is memory for an engine")))
    }
}
#[path = "rx/observables.rs"]
mod observables;
pub use form::{Fits, Moves};
pub use observables::*;
