//! The crossing: the engine's calls, as the header `cellarcliff.h` has them, made safe. The operators stand on it; a program needs it
//! only for a face of its own.
//!
//! A word, a tag or a value is a number here, which the engine never reads. So no address goes in, and nothing that comes out has to
//! be believed: the faces in [`local`](crate::local) and [`sync`](crate::sync) pass places in tables of their own.
#![allow(unsafe_code)]

#[cfg(test)]
pub(crate) mod counted;
mod ffi;
pub(crate) mod helgrind;
#[cfg(test)]
mod tests;

use crate::Refusal;
pub use ffi::{Command, Effect, Handed, Key, Stack, Stepped, Totals, ROOM};

macro_rules! codes {
    ($(#[$doc:meta])* $name:ident: $type:ty { $($code:ident = $number:expr),* $(,)? }) => {
        $(#[$doc])*
        #[allow(missing_docs)]
        pub mod $name {
            $(pub const $code: $type = $number;)*
        }
    };
}

codes! {
    /// What a command does.
    what: u8 {
        OPEN = 0, USING = 1, HOLD = 2, NEXT = 3, COMPLETE = 4, ERROR = 5, FAIL = 6, DECLINE = 7, DISPOSE = 8, CONNECT = 9,
        DISCONNECT = 10, PUT = 11, SHUT = 12, ABORT = 13, APPLY = 14, REMOVE = 15, LEASE = 16, GIVE_BACK = 17,
    }
}
codes! {
    /// Where a node is opened.
    place: u8 { ROOT = 0, SOURCE = 1, INNER = 2, NOTIFIER = 3 }
}
codes! {
    /// What a node is.
    kind: u8 { LEAF = 0, PASS = 1, FLAT = 2, SWITCH = 3, UNTIL = 4, SHARED = 5, PUBLISHED = 6 }
}
codes! {
    /// What a command asks for besides.
    flag: u8 { WISHES = 1, LANE_OF_NODE = 2, OF_PROJECTIONS = 4, QUEUES = 8 }
}
codes! {
    /// What an effect is.
    effect: u32 { NEXT = 0, PROJECT = 1, COMPLETED = 2, FAILED = 3, GONE = 4, RELEASE = 5, PUT = 6, MERGED = 7 }
}

/// The hub of a share that was not seen yet.
pub const UNKNOWN_HUB: u64 = u64::MAX;
/// A key that names nothing.
pub const NOTHING: Key = Key { slot: u64::MAX, number: u64::MAX };
const ABI: u32 = 0x0003_0000;

/// An engine. Dropping it loses what still stands in it, which is numbers.
pub struct Crossing {
    handle: ffi::Handle,
}

impl Crossing {
    /// An engine whose history keeps at most so many events; 0 lets it choose.
    ///
    /// # Panics
    /// If the library is another one than this crate was written for.
    pub fn new(max_events: u32) -> Result<Crossing, Refusal> {
        // SAFETY: both take and answer numbers
        let (abi, sizes) = unsafe { (ffi::cellar_abi(), [0, 1, 3, 4, 6, 7].map(|it| ffi::cellar_size(it))) };
        assert!(abi >> 16 == ABI >> 16 && abi >= ABI && sizes == [8, 64, 32, 64, 24, 192], "the library cellarcliff is another one: {abi:x}");
        let mut handle = ffi::Handle { at: 0 };
        // SAFETY: a live handle that keeps nothing
        match unsafe { ffi::cellar_new(&mut handle, max_events) } {
            0 => Ok(Crossing { handle }),
            status => Err(Refusal::of(status)),
        }
    }

    /// Makes a command as a call of this stack; answers its status. Whatever that is, the step may have something to do for this call.
    #[inline]
    pub fn step(&mut self, stack: &Stack, command: &Command, step: &mut Stepped) -> u8 {
        // SAFETY: live structs of the layouts that `new` compared, none of which overlaps another
        unsafe { ffi::cellar_step(&mut self.handle, stack, command, step) }
    }

    /// What this call is to do next.
    #[inline]
    pub fn next(&mut self, stack: &Stack, step: &mut Stepped) {
        // SAFETY: as in `step`
        unsafe { ffi::cellar_next(&mut self.handle, stack, step) };
    }

    /// What the call of the depth `from`, further out, is doing counts as told. What stands behind it is this call's if it is to be done
    /// `now`.
    pub fn pass(&mut self, stack: &Stack, from: u64, now: bool) {
        // SAFETY: as in `step`
        unsafe { ffi::cellar_pass(&mut self.handle, stack, from, now.into()) };
    }

    /// This call ends in the midst: what it did not begin is left to others.
    pub fn stop(&mut self, stack: &Stack) {
        // SAFETY: as in `step`
        unsafe { ffi::cellar_stop(&mut self.handle, stack) };
    }

    /// All closings of the last step.
    pub fn closings(&mut self, step: &Stepped) -> Vec<u64> {
        let all = step.closed as usize;
        let mut words = step.closings[..all.min(ROOM)].to_vec();
        words.resize(all, 0);
        let (mut at, mut count) = (all.min(ROOM), 0);
        while at < all {
            let rest = &mut words[at..];
            // SAFETY: the buffer is live and has as many words as its length says
            let status = unsafe { ffi::cellar_closings(&mut self.handle, at as u64, rest.as_mut_ptr(), rest.len(), &mut count) };
            assert!(status == 0 && count > 0, "the rest of the closings is asked for under their lock");
            at += count as usize;
        }
        words
    }

    /// What is open, held and was handed out.
    pub fn totals(&mut self) -> Totals {
        let mut totals = Totals::default();
        // SAFETY: as in `step`
        unsafe { ffi::cellar_totals(&mut self.handle, &mut totals) };
        totals
    }

    /// Frees the engine if nothing is open or waits; answers the status.
    pub fn finish(&mut self) -> u8 {
        // SAFETY: a live handle
        unsafe { ffi::cellar_finish(&mut self.handle) }
    }
}

impl Drop for Crossing {
    fn drop(&mut self) {
        // SAFETY: a live handle, which may keep nothing any more
        unsafe { ffi::cellar_drop(&mut self.handle) }
    }
}
