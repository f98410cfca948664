//! What a random program is: pipelines, and what is done with them, each thing where it happens.

/// What is done at the top, or from within a function, an observer or a release.
#[derive(Clone, Debug)]
pub enum Act {
    /// An item of a subject.
    Emit(usize),
    /// A subject completes, or fails.
    End(usize, bool),
    /// A pipeline is observed.
    Subscribe(usize),
    /// The oldest subscription of so many is disposed of.
    Dispose(usize),
    /// A resource is held for one who subscribed to such a source.
    Hold(usize),
    Connect(usize),
    Disconnect(usize),
    Panic,
    /// All that is open in an engine is closed.
    Shut(usize),
    /// It is done by a thread that comes and goes, while this one waits. A local world has no other thread: that has one of its own.
    Spawn(Box<Act>),
}

/// What is done as a function is called for the nth time, and so many times from then on.
#[derive(Clone, Debug)]
pub struct Hook {
    pub nth: u32,
    pub times: u32,
    pub act: Act,
}

/// An operator; what else it needs: a number, another source, what its function does.
#[derive(Clone, Debug)]
pub struct Op {
    pub name: &'static str,
    pub number: usize,
    pub other: Source,
    pub hook: Option<Hook>,
}

#[derive(Clone, Copy, Debug)]
pub enum Source {
    Subject(usize),
    /// Of a function that keeps who is to be told: what the subject is told, each of them is.
    Made(usize),
    /// A pipeline that stands before this one.
    Pipe(usize),
}

#[derive(Clone, Debug)]
pub struct Pipe {
    pub source: Source,
    pub ops: Vec<Op>,
    /// What each observer of it does, and what it does as it is dropped.
    pub hook: Option<Hook>,
    pub last: Option<Hook>,
}

#[derive(Clone, Debug)]
pub struct Program {
    pub threads: usize,
    pub is_sync: bool,
    pub engines: usize,
    pub subjects: usize,
    pub pipes: Vec<Pipe>,
    pub acts: Vec<Act>,
    /// What an item, or an error, does as it is dropped, and as it is cloned.
    pub dropped: Option<Hook>,
    pub cloned: Option<Hook>,
}

/// Operators that tell each item once, in order, and call a function of which this says what it may do.
pub const EXACT: [&str; 27] = [
    "map", "try_map", "filter", "filter_map", "inspect", "tap", "map_err", "enumerate", "scan", "materialize", "distinct",
    "distinct_until_changed", "buffer_count", "default_if_empty", "fail_if_empty", "take", "take_while", "take_through", "using", "holding",
    "finalize", "defer", "flat_map", "concat_map", "flat_map_at_most", "switch_map", "start_with",
];
/// Those that do so as long as no source of theirs has ended.
pub const UNTIL_AN_END: [&str; 6] = ["retry", "repeat", "or_else", "concat_with", "end_with", "create"];
/// Those that tell the items of two.
pub const OF_BOTH: [&str; 2] = ["merge", "merge_with"];
/// Those that leave items out, or tell them at the end, in their order.
pub const LESS: [&str; 25] = [
    "skip", "skip_while", "skip_last", "pairwise", "exhaust_map", "take_last", "last", "first", "fold", "reduce", "count", "max", "min",
    "all", "any", "to_vec", "zip", "zip_with", "with_latest_from", "skip_until", "take_until", "publish", "ref_count",
    "at_most_open", "switch_map_open",
];
/// Those that may tell an item again.
pub const AGAIN: [&str; 4] = ["combine_latest", "combine_latest_with", "flat_map_other", "switch_map_other"];

struct Random(u64);

impl Random {
    fn below(&mut self, most: usize) -> usize {
        self.0 = self.0.wrapping_add(0x9E37_79B9_7F4A_7C15);
        let it = (self.0 ^ (self.0 >> 30)).wrapping_mul(0xBF58_476D_1CE4_E5B9);
        let it = (it ^ (it >> 27)).wrapping_mul(0x94D0_49BB_1331_11EB);
        ((it ^ (it >> 31)) % most as u64) as usize
    }

    fn one_in(&mut self, many: usize) -> bool {
        self.below(many) == 0
    }

    fn act(&mut self, subjects: usize, pipes: usize, may_panic: bool) -> Act {
        match self.below(24) {
            22 | 23 => Act::Hold(self.below(subjects)),
            21 if self.one_in(4) => Act::Shut(self.below(2)),
            20 | 21 => Act::Spawn(Box::new(self.act(subjects, pipes, may_panic))),
            0 => Act::End(self.below(subjects), self.one_in(2)),
            1..=3 => Act::Subscribe(self.below(pipes)),
            4 | 5 => Act::Dispose(self.below(8)),
            6 => Act::Connect(self.below(pipes)),
            7 => Act::Disconnect(self.below(pipes)),
            8 | 9 if may_panic => Act::Panic,
            _ => Act::Emit(self.below(subjects)),
        }
    }

    fn hook(&mut self, subjects: usize, pipes: usize) -> Option<Hook> {
        self.one_in(3).then(|| {
            let times = if self.one_in(12) { 1 + self.below(100) as u32 } else { 1 };
            Hook { nth: self.below(4) as u32, times, act: self.act(subjects, pipes, true) }
        })
    }

    /// Of an item it is once, and tells nothing: it may be dropped while a function holds the lock of its operator.
    fn hook_of_items(&mut self, pipes: usize, acts: usize) -> Option<Hook> {
        let act = match self.below(acts) {
            0 | 1 => Act::Panic,
            2 => Act::Dispose(self.below(8)),
            3 => Act::Disconnect(self.below(pipes)),
            _ => Act::Subscribe(self.below(pipes)),
        };
        self.one_in(8).then_some(Hook { nth: self.below(30) as u32, times: 1, act })
    }

    fn source(&mut self, subjects: usize, before: usize) -> Source {
        match self.below(4) {
            0 | 1 if before > 0 => Source::Pipe(self.below(before)),
            2 => Source::Made(self.below(subjects)),
            _ => Source::Subject(self.below(subjects)),
        }
    }

    fn op(&mut self, subjects: usize, before: usize, pipes: usize) -> Op {
        let all: &[&'static str] = match self.below(20) {
            0..=8 => &EXACT,
            9..=11 => &["share"],
            12..=14 => &OF_BOTH,
            15 | 16 => &UNTIL_AN_END,
            17 | 18 => &LESS,
            _ => &AGAIN,
        };
        let (name, number) = (all[self.below(all.len())], self.below(5));
        Op { name, number, other: self.source(subjects, before), hook: self.hook(subjects, pipes) }
    }
}

impl Program {
    pub fn new(seed: u64) -> Program {
        let mut it = Random(seed.wrapping_mul(0xD134_2543_DE82_EF95));
        let threads = if it.one_in(4) { 4 } else { 1 };
        let (is_sync, subjects, many) = (threads > 1 || it.one_in(3), 1 + it.below(3), 1 + it.below(5));
        let pipes = (0..many).map(|before| {
            let ops = (0..it.below(5)).map(|_| it.op(subjects, before, many)).collect();
            let last = if it.one_in(4) { it.hook(subjects, many) } else { None };
            Pipe { source: it.source(subjects, before), ops, hook: it.hook(subjects, many), last }
        });
        let pipes = pipes.collect();
        let mut acts: Vec<_> = (0..1 + it.below(4)).map(|_| Act::Subscribe(it.below(many))).collect();
        acts.extend((0..2 + it.below(12) * threads).map(|_| it.act(subjects, many, false)));
        let (engines, dropped, cloned) = (1 + it.one_in(4) as usize, it.hook_of_items(many, 5), it.hook_of_items(many, 1));
        Program { threads, is_sync, engines, subjects, pipes, acts, dropped, cloned }
    }

    /// Whether an engine may be shut in it, in an order that nobody promises.
    pub fn shuts(&self) -> bool {
        format!("{self:?}").contains("Shut(")
    }

    /// Whether one thread does all in its engines.
    pub fn is_alone(&self) -> bool {
        self.threads == 1 && !(self.is_sync && format!("{self:?}").contains("Spawn("))
    }

    /// This program with one thing left out.
    pub fn smaller(&self) -> Vec<Program> {
        let mut all = vec![];
        let mut without = |f: &dyn Fn(&mut Program)| {
            let mut it = self.clone();
            f(&mut it);
            all.push(it);
        };
        (0..self.acts.len()).for_each(|at| without(&|it| drop(it.acts.remove(at))));
        for (at, pipe) in self.pipes.iter().enumerate() {
            (0..pipe.ops.len()).for_each(|op| without(&|it| drop(it.pipes[at].ops.remove(op))));
            (0..pipe.ops.len()).filter(|op| pipe.ops[*op].hook.is_some()).for_each(|op| without(&|it| it.pipes[at].ops[op].hook = None));
            if pipe.hook.is_some() {
                without(&|it| it.pipes[at].hook = None);
            }
            if pipe.last.is_some() {
                without(&|it| it.pipes[at].last = None);
            }
        }
        if self.engines > 1 {
            without(&|it| it.engines = 1);
        }
        if self.dropped.is_some() {
            without(&|it| it.dropped = None);
        }
        if self.cloned.is_some() {
            without(&|it| it.cloned = None);
        }
        if self.is_sync && self.threads == 1 {
            without(&|it| it.is_sync = false);
        }
        all
    }
}
