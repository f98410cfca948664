//! The calls of cellarcliff.h in Rust, for the tests of this crate's own code: a small engine that keeps count. It looks at each pointer,
//! word, handle and stack, and lets no two calls on one handle run at once. What the header leaves open it does by chance, if it is made for
//! a seed: whether an item is told to be the own one, how tickets grow, what is first among the ends, the releases and the closings of
//! one command, which slots and hubs there are.
#![allow(unsafe_op_in_unsafe_fn)]

use super::ffi::{Command, Effect, Handle, Key, Stack, Stepped, Totals};
use super::{effect, flag, kind, place, what};
use std::collections::{BTreeMap, BTreeSet, VecDeque};
use std::sync::{Mutex, MutexGuard, PoisonError};

const GONE: u8 = 17;
const CONNECTED: u8 = 24;
const NOT_CONNECTED: u8 = 25;
/// An engine of so many events is refused.
pub(crate) const REFUSED: u32 = 13;

/// The place of a connection, which no command names.
const CONNECTION: u8 = 9;

/// The share of a subscriber or a connection: its kind and its word.
type Share = (u8, u64);

struct Node {
    above: Option<u64>,
    share: Option<Share>,
    place: u8,
    kind: u8,
    user: u64,
    wishes: bool,
    lane: u64,
    projects: u64,
    owes: u64,
    is_over: bool, // its source
    tags: Vec<u64>,
}

#[derive(Default)]
struct Lane {
    front: VecDeque<Effect>,
    queue: VecDeque<Effect>,
    server: Option<u64>,
}

/// A call of a stack: its word and its depth.
type Turn = (u64, u64);

/// What a turn was handed last, of which lane; of one that is served further out it is handed what is free there, and no more.
struct Task {
    lane: u64,
    is_inside: bool,
    effect: Effect,
    ticket: u64,
    is_begun: bool,
}

/// What a word is owed: as a root, a FlatMap, a node whose closing is heard, a tag, what was put.
#[derive(Clone, Copy, PartialEq, Eq, PartialOrd, Ord)]
enum Role {
    Hears,
    Merges,
    Closes,
    Tag,
    Put,
}

/// In what order the effects of one command come into their lanes.
#[derive(Clone, Copy, PartialEq, Eq, PartialOrd, Ord)]
enum Rank {
    Note,
    Last,
    Release,
}

#[derive(Default)]
struct Counted {
    chance: u64, // 0: none
    slot: u64,   // of the first key
    nodes: BTreeMap<u64, Node>,
    lanes: Vec<Lane>,
    made: u64,
    owed: BTreeMap<(Role, u64), u64>,
    closings: Vec<u64>,
    comes: Vec<(Rank, u64, Effect)>, // of this command
    due: Vec<(u64, bool)>, // the lanes of this command, and whether the caller serves them further out
    agenda: Vec<(Turn, u64, bool)>,
    tasks: BTreeMap<Turn, Task>,
    ticket: u64,
    copies: u64,
    events: u64,
}

/// All engines that live, by what their handles keep; how many were made and freed, and what was owed to words of those that were freed.
pub(crate) struct Count {
    live: BTreeMap<u64, Counted>,
    pub made: u64,
    pub freed: u64,
    pub lost: u64,
}

static COUNT: Mutex<Count> = Mutex::new(Count { live: BTreeMap::new(), made: 0, freed: 0, lost: 0 });
static BUSY: Mutex<BTreeSet<u64>> = Mutex::new(BTreeSet::new());

fn locked<T>(it: &Mutex<T>) -> MutexGuard<'_, T> {
    it.lock().unwrap_or_else(PoisonError::into_inner)
}

pub(crate) fn count() -> MutexGuard<'static, Count> {
    locked(&COUNT)
}

impl Counted {
    fn owe(&mut self, role: Role, word: u64) {
        *self.owed.entry((role, word)).or_insert(0) += 1;
    }

    fn pay(&mut self, role: Role, word: u64) {
        let left = self.owed.get_mut(&(role, word)).expect("a word is told what it is not owed");
        *left -= 1;
        if *left == 0 {
            self.owed.remove(&(role, word));
        }
    }

    fn push(&mut self, lane: u64, by: u64, kind: u32, user: u64, value: Option<u64>) {
        let rank = match kind {
            effect::RELEASE => Rank::Release,
            effect::GONE | effect::MERGED => Rank::Last,
            _ => Rank::Note,
        };
        self.copies += value.is_some() as u64;
        let (carries, value) = (value.is_some().into(), value.unwrap_or_else(|| self.any(usize::MAX) as u64));
        self.comes.push((rank, lane, Effect { user, value, by, kind, carries }));
    }

    /// What comes of a command stands in its lanes, and the caller is to serve those that nobody serves.
    fn spread(&mut self, by: u64) {
        let mut touched = vec![];
        let mut comes = std::mem::take(&mut self.comes);
        if comes.iter().all(|it| it.2.kind != effect::NEXT) {
            self.shuffle(&mut comes) // those who hear an item stand in the order in which they came
        }
        comes.sort_by_key(|it| it.0);
        for (rank, lane, it) in comes {
            let at = &mut self.lanes[lane as usize];
            if rank == Rank::Release && at.server == Some(by) { &mut at.front } else { &mut at.queue }.push_back(it);
            if !touched.contains(&lane) {
                touched.push(lane);
            }
        }
        for lane in touched {
            let at = &self.lanes[lane as usize];
            match at.server {
                None => self.due.push((lane, false)),
                Some(server) if server == by && !at.front.is_empty() => self.due.push((lane, true)),
                Some(_) => (),
            }
        }
    }

    fn subscribers(&self, share: Option<Share>) -> Vec<u64> {
        self.nodes.iter().filter(|it| it.1.share == share && it.1.place == place::ROOT).map(|it| *it.0).collect()
    }

    fn connection(&self, share: Share) -> Option<u64> {
        self.nodes.iter().find(|it| it.1.share == Some(share) && it.1.place == CONNECTION).map(|it| *it.0)
    }

    /// Closes a node and all below it; its own word and tags last. The last subscriber of a share that is connected while it has one
    /// closes the connection.
    fn close(&mut self, number: u64, by: u64) -> Node {
        let below: Vec<u64> = self.nodes.iter().filter(|it| it.1.above == Some(number)).map(|it| *it.0).collect();
        below.into_iter().for_each(|it| drop(self.close(it, by)));
        let node = self.nodes.remove(&number).unwrap();
        self.events += 1;
        if node.wishes {
            self.pay(Role::Closes, node.user);
            self.closings.push(node.user);
        }
        node.tags.iter().for_each(|tag| self.push(node.lane, by, effect::RELEASE, *tag, None));
        if node.kind == kind::FLAT || node.kind == kind::SWITCH {
            self.push(node.projects, by, effect::MERGED, node.user, None);
        }
        if let Some(share) = node.share.filter(|it| it.0 == kind::SHARED && node.place == place::ROOT && self.subscribers(Some(*it)).is_empty()) {
            self.connection(share).into_iter().for_each(|it| drop(self.close(it, by)));
        }
        node
    }

    /// A node ends: completed, or failed with this error.
    fn end(&mut self, number: u64, by: u64, error: Option<u64>) {
        let node = self.close(number, by);
        let Some(above) = node.above else {
            if node.place == CONNECTION {
                return self.subscribers(node.share).into_iter().for_each(|it| self.end(it, by, error));
            }
            return self.push(node.lane, by, if error.is_some() { effect::FAILED } else { effect::COMPLETED }, node.user, error);
        };
        self.nodes.get_mut(&above).unwrap().is_over |= node.place == place::SOURCE;
        if error.is_some() || node.place != place::NOTIFIER && self.is_done(above) {
            self.end(above, by, error)
        }
    }

    /// Its source is over, and nothing is open in it or owed.
    fn is_done(&self, number: u64) -> bool {
        let node = &self.nodes[&number];
        node.is_over && node.owes == 0 && !self.nodes.values().any(|it| it.above == Some(number) && it.place == place::INNER)
    }

    fn next(&mut self, leaf: u64, by: u64, value: u64) {
        let mut number = leaf;
        loop {
            let node = &self.nodes[&number];
            let Some(above) = node.above else {
                let hear = if node.place == CONNECTION { self.subscribers(node.share) } else { vec![number] };
                for it in hear {
                    let (lane, user) = (self.nodes[&it].lane, self.nodes[&it].user);
                    self.push(lane, by, effect::NEXT, user, Some(value));
                }
                return;
            };
            match node.place {
                place::NOTIFIER => return self.end(above, by, None),
                place::SOURCE if [kind::FLAT, kind::SWITCH].contains(&self.nodes[&above].kind) => {
                    let at = self.nodes.get_mut(&above).unwrap();
                    at.owes += 1;
                    let (lane, user) = (at.projects, at.user);
                    return self.push(lane, by, effect::PROJECT, user, Some(value));
                }
                _ => number = above,
            }
        }
    }

    fn lane(&mut self) -> u64 {
        self.lanes.push(Lane::default());
        self.lanes.len() as u64 - 1
    }

    fn open(&mut self, it: &Command, answer: &mut Stepped) -> u8 {
        let is_root = it.place == place::ROOT;
        let named = self.nodes.get(&it.node.number).map(|it| (it.kind, it.lane));
        if named.is_none() && (!is_root || it.flags & flag::LANE_OF_NODE != 0) {
            return GONE;
        }
        let above = (!is_root).then_some(it.node.number);
        if it.place == place::INNER {
            if named.unwrap().0 == kind::SWITCH {
                let before = self.nodes.iter().find(|one| one.1.above == above && one.1.place == place::INNER).map(|it| *it.0);
                before.into_iter().for_each(|one| drop(self.close(one, it.by)));
            }
            let at = self.nodes.get_mut(&it.node.number).unwrap();
            at.owes = at.owes.checked_sub(1).expect("it is owed");
        }
        let (kind, merges) = if it.what == what::USING { (kind::PASS, false) } else { (it.kind, [kind::FLAT, kind::SWITCH].contains(&it.kind)) };
        let share = (kind > kind::UNTIL).then_some((kind, it.value));
        let lane = if is_root && it.flags & flag::LANE_OF_NODE == 0 { self.lane() } else { named.unwrap().1 };
        let projects = if merges { self.lane() } else { lane };
        let wishes = it.flags & flag::WISHES != 0;
        for (role, owes) in [(Role::Hears, is_root), (Role::Merges, merges), (Role::Closes, wishes)] {
            if owes {
                self.owe(role, it.user);
            }
        }
        let node = Node { above, share, place: it.place, kind, user: it.user, wishes, lane, projects, owes: 0, is_over: false, tags: vec![] };
        answer.node = self.insert(node);
        if let Some(share) = share.filter(|it| it.0 == kind::SHARED && self.connection(*it).is_none()) {
            (answer.is_connected, answer.other) = (1, self.connect(share));
        }
        if it.what == what::USING { self.hold(answer.node.number, it.value) } else { 0 }
    }

    fn insert(&mut self, node: Node) -> Key {
        self.nodes.insert(self.made, node);
        self.made += 1;
        self.key(self.made - 1)
    }

    fn key(&self, number: u64) -> Key {
        Key { slot: self.slot.wrapping_mul(number | 1), number }
    }

    fn connect(&mut self, share: Share) -> Key {
        let (lane, kind) = (self.lane(), kind::PASS);
        let above = None;
        self.insert(Node {
            above, share: Some(share), place: CONNECTION, kind, user: 0, wishes: false, lane, projects: lane, owes: 0, is_over: false, tags: vec![],
        })
    }

    fn hold(&mut self, number: u64, tag: u64) -> u8 {
        self.owe(Role::Tag, tag);
        self.nodes.get_mut(&number).unwrap().tags.push(tag);
        0
    }

    fn perform(&mut self, it: &Command, answer: &mut Stepped) -> u8 {
        let (number, by) = (it.node.number, it.by);
        match it.what {
            what::OPEN | what::USING => return self.open(it, answer),
            what::SHUT => {
                let is_root = |it: &(&u64, &Node)| it.1.place == place::ROOT;
                let root = self.nodes.iter().find(is_root).or_else(|| self.nodes.iter().find(|it| it.1.place == CONNECTION)).map(|it| *it.0);
                let Some(root) = root else { return GONE };
                self.let_go(root, by);
                return 0;
            }
            what::CONNECT => {
                let share = (kind::PUBLISHED, it.value);
                if self.connection(share).is_some() {
                    return CONNECTED;
                }
                answer.other = self.connect(share);
                return 0;
            }
            what::DISCONNECT => {
                let Some(connection) = self.connection((kind::PUBLISHED, it.value)) else { return NOT_CONNECTED };
                self.let_go(connection, by);
                return 0;
            }
            _ if it.node != self.key(number) || !self.nodes.contains_key(&number) => return GONE,
            what::HOLD => return self.hold(number, it.value),
            what::NEXT => self.next(number, by, it.value),
            what::COMPLETE => self.end(number, by, None),
            what::ERROR | what::FAIL => self.end(number, by, Some(it.value)),
            what::DECLINE => {
                let at = self.nodes.get_mut(&number).unwrap();
                at.owes = at.owes.checked_sub(1).expect("it is owed");
                if self.is_done(number) {
                    self.end(number, by, None)
                }
            }
            what::DISPOSE => self.let_go(number, by),
            what::PUT => {
                self.owe(Role::Put, it.user);
                let lane = self.nodes[&number].lane;
                self.push(lane, by, effect::PUT, it.user, None);
            }
            other => panic!("no command: {other}"),
        }
        0
    }

    /// A root or a connection closes without an end.
    fn let_go(&mut self, number: u64, by: u64) {
        let node = self.close(number, by);
        if node.place == place::ROOT {
            self.push(node.lane, by, effect::GONE, node.user, None);
        }
    }

    /// A number below so many: 0, unless it is made for a seed.
    fn any(&mut self, below: usize) -> usize {
        if self.chance == 0 {
            return 0;
        }
        self.chance = self.chance.wrapping_mul(6_364_136_223_846_793_005).wrapping_add(1_442_695_040_888_963_407);
        (self.chance >> 33) as usize % below
    }

    /// Some order, or the one that it has.
    fn shuffle<T>(&mut self, all: &mut [T]) {
        for at in (1..all.len()).rev() {
            let many = self.any(at + 1);
            all.swap(at, at - many)
        }
    }

    /// What this stack began last is begun. It began nothing that was not handed out.
    fn note(&mut self, stack: &Stack) {
        assert!(stack.depth > 0 && stack.begun <= self.ticket, "{stack:?}");
        self.tasks.iter_mut().filter(|it| it.0 .0 == stack.by && it.1.ticket == stack.begun).for_each(|it| it.1.is_begun = true);
    }

    /// Whether the item of this command, which is all that comes of it, is handed out at once.
    fn is_own(&mut self, it: &Command, turn: Turn) -> bool {
        let is_free = !self.tasks.contains_key(&turn) && self.agenda.iter().all(|it| it.0 != turn);
        let is_alone = it.what == what::NEXT && it.flags & flag::QUEUES == 0 && self.closings.is_empty() && self.copies == 1;
        let is_first = matches!(self.due[..], [(lane, false)] if self.lanes[lane as usize].queue.len() == 1);
        is_free && is_alone && is_first && self.any(3) == 0
    }

    fn step(&mut self, stack: &Stack, command: Option<&Command>, step: &mut Stepped) -> u8 {
        self.note(stack);
        *step = Stepped::default();
        let (turn, mut status) = ((stack.by, stack.depth), 0);
        if let Some(it) = command {
            assert_eq!(it.spare, 0);
            (self.closings, self.due, self.copies) = (vec![], vec![], 0);
            status = self.perform(&Command { by: stack.by, ..*it }, step);
            self.spread(stack.by);
            let mut closings = std::mem::take(&mut self.closings);
            self.shuffle(&mut closings);
            (step.hub, step.copies, step.closed, self.closings) = (self.any(usize::MAX) as u64, self.copies, closings.len() as u64, closings);
            step.closings.iter_mut().zip(&self.closings).for_each(|(to, word)| *to = *word);
            step.own = self.is_own(it, turn).into();
            for (lane, is_inside) in std::mem::take(&mut self.due) {
                self.agenda.retain(|it| it.1 != lane);
                self.agenda.push((turn, lane, is_inside));
            }
        }
        if let Some((ticket, effect)) = self.go_on(turn) {
            (step.handed, step.ticket, step.effect) = (1, ticket, effect);
        }
        status
    }

    /// The turn is served, then each deeper one of its stack. Nothing is astray, since no call ends in the midst.
    fn go_on(&mut self, turn: Turn) -> Option<(u64, Effect)> {
        let has = self.tasks.keys().copied().chain(self.agenda.iter().map(|it| it.0));
        let deeper: BTreeSet<_> = has.filter(|it| it.0 == turn.0 && it.1 > turn.1).collect();
        std::iter::once(turn).chain(deeper).find_map(|it| self.serve(it))
    }

    /// What was not begun is handed out again; then the rest of the lane in hand; then what the lanes have that are due.
    fn serve(&mut self, turn: Turn) -> Option<(u64, Effect)> {
        if let Some(it) = self.tasks.get(&turn) {
            if !it.is_begun {
                return Some((it.ticket, it.effect));
            }
            let (lane, is_inside) = (it.lane, it.is_inside);
            if let Some(it) = self.hand(turn, lane, is_inside, Some(turn.0)) {
                return Some(it);
            }
            self.tasks.remove(&turn);
        }
        loop {
            let first = self.agenda.iter().position(|it| it.0 == turn)?;
            let (_, lane, is_inside) = self.agenda.remove(first);
            if let Some(it) = self.hand(turn, lane, is_inside, is_inside.then_some(turn.0)) {
                return Some(it);
            }
        }
    }

    fn hand(&mut self, turn: Turn, lane: u64, is_inside: bool, server: Option<u64>) -> Option<(u64, Effect)> {
        let at = &mut self.lanes[lane as usize];
        if at.server != server {
            return None;
        }
        let it = at.front.pop_front().or_else(|| if is_inside { None } else { at.queue.pop_front() });
        if !is_inside {
            at.server = it.map(|_| turn.0);
        }
        let effect = it?;
        match effect.kind {
            effect::COMPLETED | effect::FAILED | effect::GONE => self.pay(Role::Hears, effect.user),
            effect::MERGED => self.pay(Role::Merges, effect.user),
            effect::RELEASE => self.pay(Role::Tag, effect.user),
            effect::PUT => self.pay(Role::Put, effect.user),
            kind => assert!(self.owed.contains_key(&(if kind == effect::NEXT { Role::Hears } else { Role::Merges }, effect.user))),
        }
        self.ticket += 1 + self.any(3) as u64;
        self.tasks.insert(turn, Task { lane, is_inside, effect, ticket: self.ticket, is_begun: false });
        Some((self.ticket, effect))
    }
}

/// Looks at the pointers of a call, and lets no other on the handle run beside it.
unsafe fn call<R>(handle: *mut Handle, pointers: &[*const u8], work: impl FnOnce(&mut Counted) -> R) -> R {
    for (place, it) in pointers.iter().enumerate() {
        assert!(!it.is_null() && *it as usize % 8 == 0 && *it != handle as *const u8 && !pointers[..place].contains(it));
    }
    let at = (*handle).at;
    assert!(locked(&BUSY).insert(at), "two calls on one handle");
    let done = work(count().live.get_mut(&at).expect("a call on a handle that keeps nothing"));
    locked(&BUSY).remove(&at);
    done
}

pub unsafe extern "C" fn cellar_abi() -> u32 {
    super::ABI
}

pub unsafe extern "C" fn cellar_size(which: u32) -> u32 {
    [8, 64, 0, 32, 64, 32, 24, 192][which as usize]
}

pub unsafe extern "C" fn cellar_new(engine: *mut Handle, max_events: u32) -> u8 {
    assert_eq!((*engine).at, 0, "a handle that keeps an engine");
    if max_events == REFUSED {
        return 4;
    }
    let mut count = count();
    count.made += 1;
    let chance = u64::from(max_events);
    let it = Counted { chance, slot: 7 + chance.wrapping_mul(0x9E37_79B9_7F4A_7C15), ..Counted::default() };
    (*engine).at = count.made;
    let at = count.made;
    count.live.insert(at, it);
    0
}

pub unsafe extern "C" fn cellar_step(engine: *mut Handle, stack: *const Stack, command: *const Command, step: *mut Stepped) -> u8 {
    call(engine, &[stack.cast(), command.cast(), step.cast_const().cast()], |it| it.step(&*stack, Some(&*command), &mut *step))
}

pub unsafe extern "C" fn cellar_next(engine: *mut Handle, stack: *const Stack, step: *mut Stepped) -> u8 {
    call(engine, &[stack.cast(), step.cast_const().cast()], |it| it.step(&*stack, None, &mut *step))
}

pub unsafe extern "C" fn cellar_pass(_: *mut Handle, _: *const Stack, _: u64, _: u8) -> u8 {
    unreachable!("no operator lets a lane go")
}

pub unsafe extern "C" fn cellar_stop(_: *mut Handle, _: *const Stack) -> u8 {
    unreachable!("no call ends in the midst")
}

pub unsafe extern "C" fn cellar_closings(engine: *mut Handle, from: u64, words: *mut u64, room: usize, many: *mut u64) -> u8 {
    call(engine, &[words.cast_const().cast(), many.cast_const().cast()], |it| {
        let found = &it.closings[from as usize..it.closings.len().min(from as usize + room)];
        std::ptr::copy_nonoverlapping(found.as_ptr(), words, found.len());
        *many = found.len() as u64;
    });
    0
}

pub unsafe extern "C" fn cellar_totals(engine: *mut Handle, totals: *mut Totals) -> u8 {
    *totals = call(engine, &[totals.cast_const().cast()], |it| Totals { nodes: it.nodes.len() as u64, events: it.events, ..Totals::default() });
    0
}

fn free(at: u64) {
    let mut count = count();
    let it = count.live.remove(&at).expect("a handle that keeps an engine");
    count.freed += 1;
    count.lost += it.owed.values().sum::<u64>();
}

pub unsafe extern "C" fn cellar_finish(engine: *mut Handle) -> u8 {
    if call(engine, &[], |it| !it.owed.is_empty()) {
        return 6;
    }
    free(std::mem::take(&mut (*engine).at));
    0
}

pub unsafe extern "C" fn cellar_drop(engine: *mut Handle) {
    let at = std::mem::take(&mut (*engine).at);
    if at != 0 {
        free(at)
    }
}
