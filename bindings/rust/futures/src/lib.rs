//! Streams and observables, both ways, and tokio tasks as resources.
//!
//! - [`from_stream`]: a stream as a source; the stream is dropped when its subscription closes, before the call returns that closes it.
//! - [`into_stream`]: an observable as a stream, with a bounded queue and a choice of what gives way; [`IntoStream`] has it as a method.
//! - [`task`]: a tokio task for each subscription, which is aborted once.
#![deny(missing_docs)]
#![forbid(unsafe_code)]

mod source;
mod stream;
mod task;

pub use source::from_stream;
pub use stream::{into_stream, IntoStream, Items, Overflow};
pub use task::{task, Task};
