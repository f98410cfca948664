//! Observables of one thread: their items, functions and resources need not be `Send`, and may borrow what outlives a [`Scope`].
//!
//! [`sync`](crate::sync) has the same names for several threads.
#![allow(clippy::duplicate_mod)]

pub(crate) mod form {
    use super::observables::{place::Place, root::Rooted, scope::Thing, using::Held, way::Way, Scope};
    use crate::rx::{atomic::AtomicUsize, panics::discard};
    use crate::Refusal;
    use std::cell::RefCell;
    use std::panic::{catch_unwind, AssertUnwindSafe};
    pub(crate) use std::rc::{Rc as Ref, Weak};
    use std::sync::atomic::Ordering::Relaxed;

    /// What a function has to be: here, anything.
    pub trait Fits {}
    impl<T: ?Sized> Fits for T {}
    /// What an item, an error or a resource has to be: here, anything.
    pub trait Moves {}
    impl<T: ?Sized> Moves for T {}

    pub(crate) type ARoot<'a> = dyn Rooted<'a> + 'a;
    pub(crate) type AHeld<'a> = dyn Held + 'a;
    pub(crate) type AThing<'a> = dyn Thing + 'a;
    pub(crate) type AWay<'a, T, E> = dyn Way<'a, T, E> + 'a;
    pub(crate) type Opens<'a, T, E> = dyn Fn(Place<'a, T, E>) -> Result<(), Refusal> + 'a;

    pub(crate) struct Lock<T>(RefCell<T>);

    impl<T> Lock<T> {
        pub fn new(value: T) -> Self {
            Lock(RefCell::new(value))
        }

        #[inline]
        pub fn with<R>(&self, f: impl FnOnce(&mut T) -> R) -> R {
            f(&mut self.0.borrow_mut())
        }

        /// Not if somebody has it.
        #[inline]
        pub fn try_with<R>(&self, f: impl FnOnce(&mut T) -> R) -> Option<R> {
            self.0.try_borrow_mut().ok().map(|mut it| f(&mut it))
        }
    }

    /// Whether it is none for all who look behind this thread's last step: there are no others.
    #[inline]
    pub(crate) fn is_none(many: &AtomicUsize) -> bool {
        many.load(Relaxed) == 0
    }

    struct Here(Scope<'static>);

    impl Drop for Here {
        /// What panics as a thread ends goes no further: the standard library would end the process.
        fn drop(&mut self) {
            catch_unwind(AssertUnwindSafe(|| self.0.shut())).unwrap_or_else(discard)
        }
    }

    thread_local! {
        static HERE: Here = Here(Scope::new().expect("there is memory for an engine"));
    }

    /// The engine of what borrows nothing: each thread has one.
    pub(crate) fn with_default<R>(f: impl FnOnce(&Scope<'static>) -> R) -> R {
        HERE.with(|it| f(&it.0))
    }
}
#[path = "rx/observables.rs"]
mod observables;
pub use form::{Fits, Moves};
pub use observables::*;
