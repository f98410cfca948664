//! Panics of a user's functions: what is to be done besides is done, then the first of them goes on.
use std::any::Any;
use std::panic::{catch_unwind, resume_unwind, AssertUnwindSafe};

/// The hook has told it. Its own drop may panic again, and so may what comes of that; but not for ever.
#[cold]
pub(crate) fn discard(mut why: Box<dyn Any + Send>) {
    for _ in 0..8 {
        match catch_unwind(AssertUnwindSafe(|| drop(why))) {
            Ok(()) => return,
            Err(other) => why = other,
        }
    }
    std::mem::forget(why)
}

#[derive(Default)]
pub(crate) struct Panics(Option<Box<dyn Any + Send>>);

impl Panics {
    /// Answers whether it panicked.
    #[inline]
    pub fn run(&mut self, work: impl FnOnce()) -> bool {
        match catch_unwind(AssertUnwindSafe(work)) {
            Ok(()) => false,
            Err(why) => {
                self.keep(why);
                true
            }
        }
    }

    #[cold]
    fn keep(&mut self, why: Box<dyn Any + Send>) {
        match self.0 {
            None => self.0 = Some(why),
            Some(_) => discard(why),
        }
    }

    #[inline]
    pub fn go_on(self) {
        if let Some(why) = self.0 {
            resume_unwind(why)
        }
    }

    /// For a `drop`: nothing goes on if the thread panics already, which would abort.
    pub fn go_on_in_drop(self) {
        match self.0 {
            Some(why) if std::thread::panicking() => discard(why),
            _ => self.go_on(),
        }
    }
}
