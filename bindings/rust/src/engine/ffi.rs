//! cellarcliff.h: its structs, and its calls. This module and its parent are the only ones with `unsafe`.

/// The key of a node, a resource, a lease or a connection.
#[repr(C)]
#[derive(Clone, Copy, Debug, Default, PartialEq, Eq, Hash)]
pub struct Key {
    /// Where it is kept.
    pub slot: u64,
    /// Given once.
    pub number: u64,
}

/// `struct cellar_command`.
#[repr(C)]
#[derive(Clone, Copy, Debug, Default)]
pub struct Command {
    /// What to do, one of [`what`](super::what).
    pub what: u8,
    /// One of [`place`](super::place).
    pub place: u8,
    /// One of [`kind`](super::kind).
    pub kind: u8,
    /// Of [`flag`](super::flag), added up.
    pub flags: u8,
    /// Of a share: how many shares stand below it, as far as can be seen.
    pub level: u32,
    /// Of a share: what the last answer had. A hint.
    pub hub: u64,
    /// The node, or the one above.
    pub node: Key,
    /// The face's word for the node.
    pub user: u64,
    /// The item, the error, the tag, or the share's word.
    pub value: u64,
    /// Who calls.
    pub by: u64,
    /// Zero.
    pub spare: u64,
}

/// `struct cellar_effect`.
#[repr(C)]
#[derive(Clone, Copy, Debug, Default, PartialEq, Eq)]
pub struct Effect {
    /// Whom it is for: the word of a node, or a tag.
    pub user: u64,
    /// The item or the error.
    pub value: u64,
    /// Who made the command that it came of.
    pub by: u64,
    /// One of [`effect`](super::effect).
    pub kind: u32,
    /// 1 if it carries `value`.
    pub carries: u32,
}

/// `struct cellar_stack`: one for each stack of calls.
#[repr(C)]
#[derive(Clone, Copy, Debug, Default)]
pub struct Stack {
    /// Its word, which no other stack has.
    pub by: u64,
    /// How many calls are under way on it, this one included.
    pub depth: u64,
    /// The ticket of what it began last.
    pub begun: u64,
}

/// How many closings stand in what a step answers.
pub const ROOM: usize = 8;

/// `struct cellar_stepped`.
#[repr(C)]
#[derive(Clone, Copy, Debug, Default)]
pub struct Stepped {
    /// What was opened.
    pub node: Key,
    /// The connection, the resource or the lease.
    pub other: Key,
    /// 1 if a connection was opened with the subscriber.
    pub is_connected: u64,
    /// Of a share: its hub.
    pub hub: u64,
    /// How many effects carry the value.
    pub copies: u64,
    /// How many nodes were closed that wished to be heard of.
    pub closed: u64,
    /// The words of the first of them.
    pub closings: [u64; ROOM],
    /// 1 if `effect` is to be done.
    pub handed: u64,
    /// 1 if it is the item of this very command, alone.
    pub own: u64,
    /// Of `effect`.
    pub ticket: u64,
    pub(super) spare: u64,
    /// What was handed out.
    pub effect: Effect,
}

/// What is to be done: an effect, and its ticket.
#[derive(Clone, Copy, Debug)]
pub struct Handed {
    /// No other effect has it.
    pub ticket: u64,
    /// What to do.
    pub effect: Effect,
}

impl Stepped {
    /// What was handed out; nothing, if the call has nothing more to do.
    #[inline]
    pub fn handed(&self) -> Option<Handed> {
        (self.handed == 1).then_some(Handed { ticket: self.ticket, effect: self.effect })
    }

    /// As it was handed out before another command came between.
    pub(crate) fn hand(&mut self, it: Option<Handed>) {
        self.handed = it.is_some().into();
        if let Some(Handed { ticket, effect }) = it {
            (self.ticket, self.effect) = (ticket, effect)
        }
    }
}

/// `struct cellar_totals`.
#[repr(C)]
#[derive(Clone, Copy, Debug, Default, PartialEq, Eq)]
pub struct Totals {
    /// Open nodes.
    pub nodes: u64,
    /// Held resources.
    pub held: u64,
    /// Releases that stand in lanes.
    pub waiting: u64,
    /// Leases that are out.
    pub leases: u64,
    /// All tags that ever went in.
    pub accepted: u64,
    /// All tags whose release was taken.
    pub taken: u64,
    /// All events.
    pub events: u64,
    /// Effects that stand in lanes.
    pub effects: u64,
}

#[repr(C)]
pub(crate) struct Handle {
    pub at: u64,
}

const _: () = assert!(
    std::mem::size_of::<Command>() == 64 && std::mem::size_of::<Effect>() == 32 && std::mem::size_of::<Totals>() == 64
        && std::mem::size_of::<Handle>() == 8 && std::mem::size_of::<Stack>() == 24 && std::mem::size_of::<Stepped>() == 192
);

#[cfg(test)]
pub(super) use super::counted::*;

#[cfg(not(test))]
extern "C" {
    pub(super) fn cellar_abi() -> u32;
    pub(super) fn cellar_size(which: u32) -> u32;
    pub(super) fn cellar_new(engine: *mut Handle, max_events: u32) -> u8;
    pub(super) fn cellar_step(engine: *mut Handle, stack: *const Stack, command: *const Command, step: *mut Stepped) -> u8;
    pub(super) fn cellar_next(engine: *mut Handle, stack: *const Stack, step: *mut Stepped) -> u8;
    pub(super) fn cellar_pass(engine: *mut Handle, stack: *const Stack, from: u64, now: u8) -> u8;
    pub(super) fn cellar_stop(engine: *mut Handle, stack: *const Stack) -> u8;
    pub(super) fn cellar_closings(engine: *mut Handle, from: u64, words: *mut u64, room: usize, count: *mut u64) -> u8;
    pub(super) fn cellar_totals(engine: *mut Handle, totals: *mut Totals) -> u8;
    pub(super) fn cellar_finish(engine: *mut Handle) -> u8;
    pub(super) fn cellar_drop(engine: *mut Handle);
}
