//! The way of an item from a leaf into the engine: the functions of map, filter and their like, called before the engine has it.
use super::form::AHeld;
use super::root::Rooted;
use crate::engine::Key;
use crate::Refusal;

/// What a command of a leaf is: on its node; of a FlatMap or Switch, which fails; or past the engine, to a root's own observer, which a
/// share tells so, and a leaf that is alone.
#[derive(Clone, Copy, PartialEq)]
pub(crate) enum End {
    Leaf,
    Merging,
    Direct,
    Alone,
}

/// Where a way begins.
#[derive(Clone, Copy)]
pub(crate) struct Tip {
    pub node: Key,
    pub end: End,
}

/// It ends at a root, or at the connection of a share.
pub(crate) trait Way<'a, T, E>: Rooted<'a> {
    fn next(&self, from: Tip, item: T) -> Result<(), Refusal>;
    fn error(&self, from: Tip, error: E) -> Result<(), Refusal>;
    fn completed(&self, from: Tip) -> Result<(), Refusal>;
    fn hold(&self, from: Tip, resource: Box<AHeld<'a>>) -> Result<(), Refusal> {
        self.root().engine.hold(from.node, resource)
    }
}
