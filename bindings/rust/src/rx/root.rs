//! A subscription's root, or the connection of a share: what a panic closes, and what a subscription disposes of.
use super::form::{ARoot, AThing, Ref};
use super::leaf::Leaf;
use super::scope::{Engine, Thing};
use crate::engine::{what, Key, NOTHING};
use crate::rx::{late::LateKey, panics::discard};
use std::panic::{catch_unwind, resume_unwind, AssertUnwindSafe};
use crate::rx::atomic::AtomicBool;
use std::sync::atomic::Ordering::{Relaxed, SeqCst};

pub(crate) struct Root<'a> {
    pub engine: Ref<Engine<'a>>,
    share: Option<Ref<AThing<'a>>>, // whose connection it is
    above: Option<Ref<ARoot<'a>>>,  // what it is beside
    key: LateKey,
    pub(super) alone: LateKey, // its number among those that stand alone
    is_stopped: AtomicBool,
}

/// What ends at a root.
pub(crate) trait Rooted<'a> {
    fn root(&self) -> &Root<'a>;
}

impl<'a> Rooted<'a> for Root<'a> {
    fn root(&self) -> &Root<'a> {
        self
    }
}

impl<'a> Root<'a> {
    pub fn new(engine: Ref<Engine<'a>>) -> Self {
        Root { engine, share: None, above: None, key: LateKey::new(NOTHING), alone: LateKey::new(NOTHING), is_stopped: AtomicBool::new(false) }
    }

    /// Of the connection of a share.
    pub fn of_share(engine: Ref<Engine<'a>>, share: Ref<AThing<'a>>) -> Self {
        Root { share: Some(share), ..Root::new(engine) }
    }

    /// Of an observable that tells this leaf, by an observer of its own.
    pub fn beside<T: 'a, E: 'a>(leaf: &Ref<Leaf<'a, T, E>>) -> Self {
        Root { above: Some(leaf.clone()), ..Root::new(leaf.way.root().engine.clone()) }
    }

    #[inline]
    pub fn is_stopped(&self) -> bool {
        self.is_stopped.load(Relaxed)
    }

    #[inline]
    pub fn stop(&self) {
        self.is_stopped.store(true, Relaxed);
    }

    pub fn key(&self) -> Key {
        self.key.get()
    }

    /// Its node is open.
    pub fn set(&self, key: Key) {
        self.key.set(key)
    }

    /// As `set`, where others may have closed it before its key was known: answers whether it is to be closed now. One of this and
    /// `close` comes behind the other, and sees what that has written.
    pub fn set_late(&self, key: Key) -> bool {
        self.key.set(key);
        self.is_stopped.fetch_or(false, SeqCst)
    }

    /// A function or an observer panicked: the subscription is closed, and all that stands beside it.
    pub fn panicked(&self) {
        match (&self.above, &self.share) {
            (Some(it), _) => it.root().panicked(),
            (None, Some(it)) => {
                self.stop();
                it.panicked()
            }
            (None, None) => self.close(),
        }
    }

    /// Nothing more is told; all is released.
    pub fn close(&self) {
        self.stop();
        if let Some(word) = self.leave_alone() {
            return word.leaves_alone();
        }
        let mut node = self.key.get();
        if node == NOTHING {
            self.is_stopped.fetch_or(true, SeqCst);
            node = self.key.get();
        }
        if node != NOTHING {
            let _ = self.engine.send(what::DISPOSE, node); // refused if it is closed
        }
    }
}

/// Calls a user's function; if that panics, the subscription is closed before the panic goes on.
#[inline]
pub(crate) fn call<'r, 'a: 'r, R>(root: impl FnOnce() -> &'r Root<'a>, f: impl FnOnce() -> R) -> R {
    catch_unwind(AssertUnwindSafe(f)).unwrap_or_else(|why| {
        if let Err(other) = catch_unwind(AssertUnwindSafe(|| root().panicked())) {
            discard(other)
        }
        resume_unwind(why)
    })
}

/// Disposes of a root with the leaf that it tells.
pub(crate) struct Follows<R: ?Sized>(pub Ref<R>);

impl<'a, R: Rooted<'a> + ?Sized> Thing for Follows<R> {
    fn closed(&self) {
        self.0.root().close()
    }
}
