//! The operators, each in a file that `local` and `sync` compile with their own locks and counts; and what is the same for both.

pub(crate) mod atomic;
pub(crate) mod late;
pub(crate) mod panics;
pub(crate) mod slab;

use std::cell::{Cell, RefCell};
use crate::rx::atomic::AtomicU64;
use std::sync::atomic::Ordering::Relaxed;

/// The word of who calls: one for each thread.
#[inline]
pub(crate) fn by() -> u64 {
    thread_local! {
        static BY: Cell<u64> = const { Cell::new(0) };
    }
    match BY.with(Cell::get) {
        0 => first(&BY),
        it => it,
    }
}

#[cold]
fn first(by: &'static std::thread::LocalKey<Cell<u64>>) -> u64 {
    static NEXT: AtomicU64 = AtomicU64::new(1);
    let it = NEXT.fetch_add(1, Relaxed);
    by.with(|by| by.set(it));
    it
}

/// In which engines this thread opens a source as a thing is being told, one within another; nothing as the thread ends.
pub(crate) fn openings<R>(f: impl FnOnce(&mut Vec<usize>) -> R) -> Option<R> {
    thread_local! {
        static ALL: RefCell<Vec<usize>> = const { RefCell::new(Vec::new()) };
    }
    ALL.try_with(|all| f(&mut all.borrow_mut())).ok()
}
