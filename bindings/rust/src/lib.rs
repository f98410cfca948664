//! Observables over a proved engine: each resource that goes in is released exactly once.
//!
//! [`local`] has observables of one thread, [`sync`] those that threads share; both have the same names.
//!
//! ```
//! use cellarcliff::{local::Subject, Note};
//!
//! let words = Subject::<&str>::new();
//! let file = || std::fs::File::open("Cargo.toml").expect("there is one");
//! let whole = words.observable().holding(file);                           // a file for each subscription
//! let (subscription, heard) = whole.map(str::len).take(2).channel();
//! words.next("a");
//! words.next("abc");                                                      // the last: the file is closed as this returns
//! assert_eq!(heard.iter().collect::<Vec<_>>(), [Note::Next(1), Note::Next(3), Note::Completed]);
//! assert_eq!((subscription.is_closed(), words.observers()), (true, 0));
//! ```
//!
//! # What happens where
//!
//! - **Telling.** What an emission comes to is told before it returns, in its own thread. What an observer emits from within stands behind
//!   what it is being told. Another thread's emission into the same subscription is told by the thread that is telling.
//! - **Releases.** Dropping a [`local::Subscription`] has released its resources when it returns, from within an observer too, unless
//!   another thread is telling that observer, or it was closed before, by a call that is still under way.
//! - **Functions.** Those on items ([`map`](local::Observable::map), [`scan`](local::Observable::scan)) are called by who emits, before the
//!   engine has the item. Where an operator has to hear the end of its source ([`fold`](local::Observable::fold),
//!   [`zip`](local::Observable::zip), [`retry`](local::Observable::retry)), the source has a root of its own in the same lane, and a
//!   function is called as that is told.
//! - **Panics.** If an observer, a function on items or a `drop` panics, everything else that is due is told and released first. The
//!   subscription is closed whose observer or function panicked; of a source that is shared all that subscribed, of a published one the
//!   connection. Then the first panic goes on to whoever emitted, subscribed or disposed.
//! - **Memory.** What the engine cannot have it refuses, and nothing has changed. [`local::Scope::new`], `observe_in`, `connect_in` and
//!   `try_next` answer that; their plain forms panic, and so does what is subscribed to from within, or told on by an operator that has a
//!   root of its own. Closing asks the engine for none. What this crate's own lists and counts cannot have aborts, as in all of Rust.
//! - **Speed.** A subscription that hears one source, through functions on items alone, and holds nothing, is in no engine until it holds
//!   something: what is emitted is told by whoever has its observer. Else a command takes a lock once, and once more for each thing that
//!   comes of it; an item that nothing stands before is in no table, and goes from the emitter to the observer.
//! - **Engines.** What borrows nothing uses one engine for each thread (`local`) or one for all (`sync`). A thread's own ends with the
//!   thread: it closes what is open in it, and a panic goes no further then. A [`local::Scope`] is an engine of its own, in which functions
//!   may borrow; dropping it closes all that is open in it.
//!
//! This crate is tested, not proved; nor is proved what a caller does with a resource once it has it.
#![deny(missing_docs)]
#![deny(unsafe_code)]
#![deny(unsafe_op_in_unsafe_fn)]

#[cfg(test)]
extern crate self as cellarcliff; // as the programs of the tests name it

pub mod engine;
pub mod local;
mod note;
mod refusal;
mod rx;
pub mod sync;

pub use note::Note;
pub use refusal::Refusal;
