//! Observables over the locks and counts that the module above has as its `form`: `local` and `sync` each compile these files.
use super::form::{self, Fits, Moves};

mod again;
mod at_most;
mod concat;
mod create;
mod finalize;
mod heard;
mod items;
mod joined;
mod leaf;
mod lone;
mod merging;
mod notes;
mod observer;
pub(super) mod place;
pub(super) mod root;
pub(super) mod scope;
mod share;
mod stage;
mod states;
mod subject;
mod sums;
mod take;
mod take_until;
pub(super) mod using;
pub(super) mod way;
mod words;

pub use leaf::Emitter;
pub use observer::{Observable, Subscription};
pub use scope::Scope;
pub use share::{Connectable, Connection};
pub use subject::Subject;
