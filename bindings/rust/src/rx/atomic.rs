//! The standard library's atomics. For helgrind, which takes a plain load beside a store for a race whatever their order, each load and
//! store is one that locks the bus.
#[cfg(not(cellarcliff_helgrind))]
pub(crate) use std::sync::atomic::{AtomicBool, AtomicU64, AtomicU8, AtomicUsize};

#[cfg(cellarcliff_helgrind)]
macro_rules! locked {
    ($($name:ident: $of:ty),*) => {
        $(
            pub(crate) struct $name(std::sync::atomic::$name);

            #[allow(dead_code)]
            impl $name {
                pub const fn new(value: $of) -> Self {
                    Self(std::sync::atomic::$name::new(value))
                }
                pub fn load(&self, _: Ordering) -> $of {
                    self.0.fetch_or(<$of>::default(), SeqCst)
                }
                pub fn store(&self, value: $of, _: Ordering) {
                    self.0.swap(value, SeqCst);
                }
                pub fn swap(&self, value: $of, _: Ordering) -> $of {
                    self.0.swap(value, SeqCst)
                }
                pub fn fetch_or(&self, value: $of, _: Ordering) -> $of {
                    self.0.fetch_or(value, SeqCst)
                }
                pub fn compare_exchange(&self, old: $of, new: $of, _: Ordering, _: Ordering) -> Result<$of, $of> {
                    self.0.compare_exchange(old, new, SeqCst, SeqCst)
                }
                pub fn fetch_update(&self, _: Ordering, _: Ordering, f: impl Fn($of) -> Option<$of>) -> Result<$of, $of> {
                    loop {
                        let old = self.load(SeqCst);
                        let Some(new) = f(old) else { return Err(old) };
                        if self.compare_exchange(old, new, SeqCst, SeqCst).is_ok() {
                            return Ok(old);
                        }
                    }
                }
            }
        )*
    };
}

#[cfg(cellarcliff_helgrind)]
mod all {
    use std::sync::atomic::Ordering::{self, SeqCst};
    locked!(AtomicBool: bool, AtomicU8: u8, AtomicU64: u64, AtomicUsize: usize);
    impl AtomicU64 {
        pub fn fetch_add(&self, value: u64, _: Ordering) -> u64 {
            self.0.fetch_add(value, SeqCst)
        }
    }
    impl AtomicUsize {
        pub fn fetch_sub(&self, value: usize, _: Ordering) -> usize {
            self.0.fetch_sub(value, SeqCst)
        }
        pub fn fetch_add(&self, value: usize, _: Ordering) -> usize {
            self.0.fetch_add(value, SeqCst)
        }
    }
}
#[cfg(cellarcliff_helgrind)]
pub(crate) use all::*;
