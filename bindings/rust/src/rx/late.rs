//! The key of a node that is about to be opened.
use crate::engine::{Key, NOTHING};
use crate::rx::atomic::AtomicU64;
use std::sync::atomic::Ordering::{Acquire, Relaxed, Release};

/// Before it is set it names nothing. It is set once; who reads the number reads its slot too.
pub(crate) struct LateKey {
    slot: AtomicU64,
    number: AtomicU64,
}

impl LateKey {
    pub fn new(key: Key) -> Self {
        LateKey { slot: AtomicU64::new(key.slot), number: AtomicU64::new(key.number) }
    }

    pub fn set(&self, key: Key) {
        self.slot.store(key.slot, Relaxed);
        self.number.store(key.number, Release);
    }

    #[inline]
    pub fn get(&self) -> Key {
        let number = self.number.load(Acquire);
        if number == NOTHING.number { NOTHING } else { Key { slot: self.slot.load(Relaxed), number } }
    }
}
