//! Runs a program in one of the two forms.
use super::form::{Connectable, Connection, Emitter, Observable, Scope, Subject, Subscription};
use super::super::program::{Act, Hook, Op, Pipe, Program, Source, AGAIN, LESS, OF_BOTH, UNTIL_AN_END};
use super::super::{is_order, Counted, Counts, Told};
use cellarcliff::Note;
use std::collections::BTreeMap;
use std::hash::{Hash, Hasher};
use std::panic::{catch_unwind, resume_unwind, AssertUnwindSafe};
use std::sync::atomic::{AtomicBool, AtomicIsize, AtomicU32, AtomicUsize, Ordering::SeqCst};
use std::sync::{Arc, Mutex, MutexGuard, OnceLock, PoisonError, Weak};

type Obs = Observable<'static, Item, Item>;

/// What a panic of the program's own carries.
struct Planned;

/// The number of what no subject told, and a time that has not come.
const NONE: usize = usize::MAX;
/// So many observers at most, of which each may do something; so many items; and so many acts, one within another.
const MANY: usize = 40;
const ITEMS: usize = 160;
const DEPTH: usize = 110;

/// How many items live, and what they do. Where the drop of one panics, the compiler leaks what its function was about to return.
struct Live {
    many: AtomicIsize,
    may_leak: AtomicBool,
    dropped: Arc<Once>,
    cloned: Arc<Once>,
    world: OnceLock<Weak<World>>,
}

impl Live {
    /// Who hears what is not known any more.
    fn call(&self, hook: &Once, place: &str) {
        let Some(world) = self.world.get().and_then(Weak::upgrade).filter(|_| !std::thread::panicking()) else { return };
        if let Some(act) = hook.act() {
            world.state().is_short = true;
            world.does(act, place)
        }
    }
}

/// An item or an error. How many live is counted.
struct Item {
    number: usize,
    live: Arc<Live>,
}

impl Item {
    fn new(number: usize, live: &Arc<Live>) -> Item {
        live.many.fetch_add(1, SeqCst);
        Item { number, live: live.clone() }
    }

    fn none(&self) -> Item {
        Item::new(NONE, &self.live)
    }
}

impl Clone for Item {
    fn clone(&self) -> Item {
        self.live.call(&self.live.cloned, "a clone");
        Item::new(self.number, &self.live)
    }
}

impl Drop for Item {
    fn drop(&mut self) {
        self.live.many.fetch_sub(1, SeqCst);
        if let Err(why) = catch_unwind(AssertUnwindSafe(|| self.live.call(&self.live.dropped, "the drop of an item"))) {
            self.live.may_leak.store(true, SeqCst);
            resume_unwind(why)
        }
    }
}

impl PartialEq for Item {
    fn eq(&self, other: &Item) -> bool {
        self.number == other.number
    }
}

impl Eq for Item {}

impl PartialOrd for Item {
    fn partial_cmp(&self, other: &Item) -> Option<std::cmp::Ordering> {
        Some(self.cmp(other))
    }
}

impl Ord for Item {
    fn cmp(&self, other: &Item) -> std::cmp::Ordering {
        self.number.cmp(&other.number)
    }
}

impl Hash for Item {
    fn hash<H: Hasher>(&self, to: &mut H) {
        self.number.hash(to)
    }
}

/// An item that a subject told, and when that began and ended.
struct Emitted {
    subject: usize,
    begun: usize,
    ended: usize,
}

/// What one observer heard.
struct Seen {
    pipe: usize,
    opened: usize,
    heard: Vec<usize>,
    is_over: bool,
    subscription: Option<Subscription<'static>>,
    released: Option<Arc<AtomicBool>>, // what it holds itself
}

#[derive(Default)]
struct State {
    clock: usize,
    items: Vec<Emitted>,
    seen: Vec<Seen>,
    is_ended: Vec<bool>,
    is_broken: Vec<bool>, // pipelines in which a function panicked
    connections: Vec<Option<Connection<'static, Item, Item>>>,
    is_short: bool, // of hubs in an order: who hears what is not known any more
    told: Told,
    wrong: Option<String>,
}

impl State {
    fn now(&mut self) -> usize {
        self.clock += 1;
        self.clock
    }

    fn notes(&mut self, what: &'static str, which: usize) {
        self.told.push((what, which))
    }
}

/// What an observer of a pipeline has to hear of each subject.
#[derive(Clone, Default)]
struct Shape {
    /// How often each item.
    times: BTreeMap<usize, usize>,
    /// And how often at most, with what follows an end.
    most: BTreeMap<usize, usize>,
    /// In their order, if not all.
    in_order: bool,
    /// It may end though no subject does.
    ends: bool,
    /// It may stand though each subject has ended.
    stays: bool,
    /// As long as none of these has ended.
    until: Vec<usize>,
    /// As long as no function of these has panicked.
    pipes: Vec<usize>,
}

impl Shape {
    /// Of this one and another.
    fn with(&mut self, other: &Shape) {
        for (subject, times) in &other.times {
            *self.times.entry(*subject).or_insert(0) += times;
        }
        self.follows(other);
        self.ends |= other.ends;
        self.until.extend(&other.until);
        self.pipes.extend(&other.pipes);
    }

    /// The other is heard behind its end.
    fn follows(&mut self, other: &Shape) {
        for (subject, times) in &other.most {
            *self.most.entry(*subject).or_insert(0) += times;
        }
        self.in_order &= other.in_order;
    }

    /// Nothing more is known than the order.
    fn loosen(&mut self, in_order: bool) {
        self.in_order &= in_order;
        self.pipes.push(NONE);
    }
}

/// Who subscribed to a source that is made of a function; and how that ended: whether it failed.
#[derive(Default)]
struct Made {
    all: Vec<Emitter<'static, Item, Item>>,
    end: Option<bool>,
}

/// Does the same with each; then the first panic goes on.
fn with_each<T>(all: impl IntoIterator<Item = T>, mut work: impl FnMut(T)) {
    let panics = all.into_iter().filter_map(|it| catch_unwind(AssertUnwindSafe(|| work(it))).err());
    if let Some(first) = panics.reduce(|first, _| first) {
        resume_unwind(first)
    }
}

pub struct World {
    live: Arc<Live>,
    pub open: Arc<AtomicIsize>,
    depth: AtomicUsize,
    one_thread: bool,
    is_alone: bool, // no other thread tells anything, so what closes has released
    state: Mutex<State>,
    scopes: Vec<Scope<'static>>,
    subjects: Vec<Subject<'static, Item, Item>>,
    made: Vec<Mutex<Made>>,
    shapes: Vec<Shape>,
    pipes: Vec<Obs>,
    hooks: Vec<[Option<Hook>; 2]>,
    published: Vec<Option<Connectable<'static, Item, Item>>>,
    counts: Mutex<Counts>,
}

/// A resource, with what its release does.
struct Res {
    world: Weak<World>,
    hook: Arc<Once>,
}

impl Drop for Res {
    fn drop(&mut self) {
        let Some(world) = self.world.upgrade() else { return };
        if world.open.fetch_sub(1, SeqCst) <= 0 {
            world.wrong("a resource is released twice".into());
        }
        world.state().notes("a release", 0);
        self.hook.call(&world, "a release");
    }
}

/// What an observer has, with what it does as it is dropped.
struct Last {
    world: Weak<World>,
    hook: Arc<Once>,
    at: usize,
    _many: Counted,
}

impl Drop for Last {
    fn drop(&mut self) {
        let Some(world) = self.world.upgrade() else { return };
        world.state().notes("the drop of", self.at);
        if !std::thread::panicking() {
            self.hook.call(&world, "the drop of an observer")
        }
    }
}

/// What a subscription holds itself.
struct Released(Arc<AtomicBool>, #[allow(dead_code)] Counted);

impl Drop for Released {
    fn drop(&mut self) {
        self.0.store(true, SeqCst)
    }
}

/// One of those of which at most so many are open at a time.
struct Within(Arc<AtomicUsize>);

impl Within {
    fn new(name: &str, open: &Arc<AtomicUsize>, most: usize, world: &Weak<World>) -> Within {
        if open.fetch_add(1, SeqCst) >= most {
            world.upgrade().into_iter().for_each(|it| it.wrong(format!("more than {most} of {name} are open at a time")))
        }
        Within(open.clone())
    }
}

impl Drop for Within {
    fn drop(&mut self) {
        self.0.fetch_sub(1, SeqCst);
    }
}

/// A hook, and how often its function was called.
struct Once {
    hook: Option<Hook>,
    called: AtomicU32,
    place: &'static str,
    pipe: usize,
}

impl Once {
    fn new(hook: &Option<Hook>, place: &'static str, pipe: usize) -> Arc<Once> {
        Arc::new(Once { hook: hook.clone(), called: AtomicU32::new(0), place, pipe })
    }

    fn act(&self) -> Option<&Act> {
        let hook = self.hook.as_ref()?;
        let nth = self.called.fetch_add(1, SeqCst);
        (hook.nth..hook.nth + hook.times).contains(&nth).then_some(&hook.act)
    }

    fn call(&self, world: &Arc<World>, place: &str) {
        if let Some(act) = self.act() {
            world.called(self.pipe, || world.does(act, place))
        }
    }
}

fn name_of(act: &Act) -> &'static str {
    match act {
        Act::Emit(_) => "emits",
        Act::End(_, false) => "completes",
        Act::End(_, true) => "fails",
        Act::Subscribe(_) => "subscribes",
        Act::Dispose(_) => "disposes",
        Act::Hold(_) => "holds",
        Act::Connect(_) => "connects",
        Act::Disconnect(_) => "disconnects",
        Act::Panic => "panics",
        Act::Shut(_) => "shuts",
        Act::Spawn(_) => "waits for a thread",
    }
}

impl World {
    fn state(&self) -> MutexGuard<'_, State> {
        self.state.lock().unwrap_or_else(PoisonError::into_inner)
    }

    fn wrong(&self, why: String) {
        self.state().wrong.get_or_insert(why);
    }

    fn count(&self, what: &str) {
        *self.counts.lock().unwrap_or_else(PoisonError::into_inner).entry(what.into()).or_insert(0) += 1;
    }

    /// If it panics, be it by what another does, the pipeline of this function is closed.
    fn called(&self, pipe: usize, work: impl FnOnce()) {
        if let Err(why) = catch_unwind(AssertUnwindSafe(work)) {
            self.state().is_broken[pipe] = true;
            resume_unwind(why)
        }
    }

    fn does(self: &Arc<Self>, act: &Act, place: &str) {
        self.count(&format!("{} from within {place}", name_of(act)));
        self.act(act)
    }

    fn act(self: &Arc<Self>, act: &Act) {
        let depth = self.depth.fetch_add(1, SeqCst) + 1;
        if self.one_thread && depth > 1 {
            self.count(&if depth < 10 { format!("at depth {depth}") } else { format!("at depth {} and more", depth / 10 * 10) });
        }
        let done = if depth > DEPTH { Ok(()) } else { catch_unwind(AssertUnwindSafe(|| self.perform(act))) };
        self.depth.fetch_sub(1, SeqCst);
        if let Err(why) = done {
            let told = why.downcast_ref::<String>().map(|it| it.as_str()).or(why.downcast_ref::<&str>().copied()).unwrap_or("");
            if ["HubOrder", "NoHub", "emits into its own source"].iter().any(|it| told.ends_with(it)) {
                self.state().is_short = true
            } else if !why.is::<Planned>() {
                self.wrong(format!("a panic of the crate's own in {act:?}: {told:?}"))
            }
            resume_unwind(why)
        }
    }

    fn perform(self: &Arc<Self>, act: &Act) {
        match *act {
            Act::Emit(subject) => {
                let number = {
                    let mut state = self.state();
                    if state.items.len() == ITEMS {
                        return;
                    }
                    let begun = state.now();
                    state.items.push(Emitted { subject, begun, ended: NONE });
                    state.items.len() - 1
                };
                let done = catch_unwind(AssertUnwindSafe(|| {
                    let made = self.made(subject).all.clone();
                    let told = catch_unwind(AssertUnwindSafe(|| self.subjects[subject].next(Item::new(number, &self.live))));
                    with_each(made, |to| to.next(Item::new(number, &self.live)));
                    told.unwrap_or_else(|why| resume_unwind(why))
                }));
                let mut state = self.state();
                state.items[number].ended = state.now();
                drop(state);
                done.unwrap_or_else(|why| resume_unwind(why))
            }
            Act::End(subject, fails) => {
                self.state().is_ended[subject] = true;
                let made = {
                    let mut made = self.made(subject);
                    made.end.get_or_insert(fails);
                    std::mem::take(&mut made.all)
                };
                let told = catch_unwind(AssertUnwindSafe(|| {
                    if fails { self.subjects[subject].error(Item::new(NONE, &self.live)) } else { self.subjects[subject].completed() }
                }));
                with_each(made, |to| self.end(to, fails));
                told.unwrap_or_else(|why| resume_unwind(why))
            }
            Act::Hold(subject) => {
                let to = {
                    let made = self.made(subject);
                    made.all.get(made.all.len() / 2).cloned()
                };
                if let Some(to) = to {
                    self.count("resources of who subscribed");
                    self.open.fetch_add(1, SeqCst);
                    let world = Arc::downgrade(self);
                    to.hold(Closed(Res { world: world.clone(), hook: Once::new(&None, "", 0) }, to.clone(), world))
                }
            }
            Act::Subscribe(pipe) => self.subscribe(pipe),
            Act::Dispose(at) => {
                let (subscription, released) = {
                    let mut state = self.state();
                    let at = at.min(state.seen.len().saturating_sub(1));
                    let Some(seen) = state.seen.get_mut(at) else { return };
                    (seen.subscription.take(), seen.released.clone())
                };
                let is_due = subscription.is_some() && self.is_alone && self.depth.load(SeqCst) == 1; // else what is under way may have closed it
                drop(subscription); // outside the lock
                if is_due && released.is_some_and(|it| !it.load(SeqCst)) {
                    self.wrong("what a subscription holds is not released as it has been disposed of".into())
                }
            }
            Act::Connect(at) => {
                let Some(it) = &self.published[at] else { return };
                match it.connect_in(&self.scopes[0]) {
                    Ok(connection) => drop(self.state().connections[at].replace(connection)),
                    Err(why) if is_order(&why) => (),
                    Err(why) => self.wrong(format!("a connection is refused: {why:?}")),
                }
            }
            Act::Disconnect(at) => {
                let connection = self.state().connections[at].take();
                if let Some(it) = connection {
                    it.disconnect()
                }
            }
            Act::Panic => resume_unwind(Box::new(Planned)),
            Act::Shut(at) => {
                self.state().is_short = true; // what another engine's subscribers share may have been here
                self.scopes[at % self.scopes.len()].shut()
            }
            Act::Spawn(ref act) => super::spawn(self, act),
        }
    }

    fn made(&self, subject: usize) -> MutexGuard<'_, Made> {
        self.made[subject].lock().unwrap_or_else(PoisonError::into_inner)
    }

    fn end(&self, to: Emitter<'static, Item, Item>, fails: bool) {
        if fails { to.error(Item::new(NONE, &self.live)) } else { to.completed() }
    }

    fn keeps(&self, subject: usize, to: Emitter<'static, Item, Item>) {
        let (mut made, mut gone) = (self.made(subject), vec![]);
        match made.end {
            Some(fails) => {
                drop(made);
                self.end(to, fails)
            }
            None => {
                let (closed, open) = std::mem::take(&mut made.all).into_iter().partition(Emitter::is_closed);
                (made.all, gone) = (open, closed);
                made.all.push(to);
                drop(made)
            }
        }
        drop(gone) // outside the lock
    }

    fn subscribe(self: &Arc<Self>, pipe: usize) {
        let at = {
            let mut state = self.state();
            if state.seen.len() == MANY {
                return;
            }
            state.seen.push(Seen { pipe, opened: NONE, heard: vec![], is_over: false, subscription: None, released: None });
            state.seen.len() - 1
        };
        let [hook, last] = &self.hooks[pipe];
        let (world, busy, hook) = (Arc::downgrade(self), AtomicBool::new(false), Once::new(hook, "an observer", pipe));
        let last = Last { world: world.clone(), hook: Once::new(last, "the drop of an observer", pipe), at, _many: Counted::new(&self.open) };
        let observer = move |note: Note<Item, Item>| {
            let Some(world) = last.world.upgrade() else { return };
            if busy.swap(true, SeqCst) {
                world.wrong(format!("the observer {at} is told two at a time"));
            }
            {
                let mut state = world.state();
                state.notes("heard by", at);
                let (what, number) = match &note {
                    Note::Next(item) => ("the item", item.number),
                    Note::Error(_) => ("an error", 0),
                    Note::Completed => ("the end", 0),
                };
                state.notes(what, number);
                let seen = &mut state.seen[at];
                if seen.is_over {
                    state.wrong.get_or_insert(format!("the observer {at} is told behind its end"));
                } else if let Note::Next(item) = &note {
                    seen.heard.push(item.number);
                } else {
                    seen.is_over = true;
                }
            }
            let done = catch_unwind(AssertUnwindSafe(|| hook.call(&world, hook.place)));
            busy.store(false, SeqCst);
            if let Err(why) = done {
                resume_unwind(why)
            }
        };
        let mut whole = self.pipes[pipe].clone();
        if at % 3 == 2 {
            let (released, world) = (Arc::new(AtomicBool::new(false)), Arc::downgrade(self));
            self.state().seen[at].released = Some(released.clone());
            whole = whole.holding(move || Released(released.clone(), Counted::new(&world.upgrade().expect("it subscribes").open)));
        }
        match whole.observe_in(&self.scopes[at % self.scopes.len()], observer) {
            Ok(subscription) => {
                self.count("subscriptions");
                self.state().seen[at].subscription = Some(subscription)
            }
            Err(why) if is_order(&why) => self.state().is_short = true,
            Err(why) => self.wrong(format!("a subscription is refused: {why:?}")),
        }
    }

    /// Does what is done at the top; what panics of the program's own goes no further.
    pub fn top(self: &Arc<Self>, act: &Act) {
        let done = catch_unwind(AssertUnwindSafe(|| self.act(act)));
        self.state().notes("done, and how many panics", done.is_err().into());
    }

    /// Behind what was done at the top: each observer that was open before, and is, has heard what it had to. Those that were opened
    /// since have to from now on: a share that is being connected may have told them nothing.
    pub fn check(&self) {
        let mut state = self.state();
        let mut wrong = None;
        for (at, seen) in state.seen.iter().enumerate() {
            let shape = &self.shapes[seen.pipe];
            if shape.in_order && shape.most.values().all(|it| *it == 1) {
                let mut latest = BTreeMap::new();
                for number in seen.heard.iter().filter(|it| **it != NONE) {
                    let it = &state.items[*number];
                    let (begun, before) = latest.entry(it.subject).or_insert((0, NONE));
                    if it.ended < *begun || before == number {
                        wrong = Some(format!("the observer {at} hears {number} behind {before}"));
                    }
                    if it.begun > *begun {
                        (*begun, *before) = (it.begun, *number);
                    }
                }
            }
            let is_open = seen.subscription.as_ref().is_some_and(|it| !it.is_closed()) && seen.opened != NONE;
            let is_sure = !state.is_short && !shape.pipes.iter().any(|it| *it == NONE || state.is_broken[*it]) && !shape.until.iter().any(|it| state.is_ended[*it]);
            if !is_open || !is_sure {
                continue;
            }
            for (number, it) in state.items.iter().enumerate().filter(|it| it.1.begun > seen.opened && !state.is_ended[it.1.subject]) {
                let (times, wanted) = (seen.heard.iter().filter(|it| **it == number).count(), shape.times.get(&it.subject).copied().unwrap_or(0));
                if times != wanted {
                    wrong = Some(format!("the observer {at} of the pipeline {} hears {number} {times} times, and not {wanted}", seen.pipe));
                }
            }
        }
        let now = state.now();
        state.seen.iter_mut().filter(|it| it.opened == NONE && it.subscription.is_some()).for_each(|it| it.opened = now);
        if let Some(why) = wrong {
            state.wrong.get_or_insert(why);
        }
    }

    /// Ends all: then nothing is open, and each resource was released.
    fn finish(self: &Arc<Self>) {
        (0..self.subjects.len()).for_each(|at| self.top(&Act::End(at, false)));
        let is_open = |it: &Seen| it.subscription.as_ref().is_some_and(|it| !it.is_closed()) && !self.shapes[it.pipe].stays;
        let stands = self.state().seen.iter().position(is_open);
        if let Some(at) = stands {
            self.wrong(format!("the observer {at} stands though each subject has ended"));
        }
        loop {
            let mut state = self.state();
            let subscription = state.seen.iter_mut().find_map(|it| it.subscription.take());
            let connection = state.connections.iter_mut().find_map(Option::take);
            drop(state);
            if subscription.is_none() && connection.is_none() {
                break;
            }
            drop(catch_unwind(AssertUnwindSafe(|| drop(subscription))));
            drop(catch_unwind(AssertUnwindSafe(|| connection.into_iter().for_each(|it| it.disconnect()))));
        }
        let (nodes, words) = self.scopes.iter().fold((0, 0), |sum, it| (sum.0 + it.totals().nodes, sum.1 + it.words()));
        let open = self.open.load(SeqCst);
        let made = self.made.iter().map(|it| it.lock().unwrap_or_else(PoisonError::into_inner).all.len());
        let listeners: usize = self.subjects.iter().map(|it| it.observers()).chain(made).sum();
        if open != 0 || nodes != 0 || words != 0 || listeners != 0 {
            self.wrong(format!("{open} resources, {nodes} nodes, {words} words and {listeners} listeners are left"));
        }
    }
}

/// Builds pipelines, each with what its observers have to hear.
struct Builder<'p> {
    program: &'p Program,
    world: Weak<World>,
    live: Arc<Live>,
    subjects: Vec<Subject<'static, Item, Item>>,
    pipes: Vec<Obs>,
    shapes: Vec<Shape>,
    published: Vec<Option<Connectable<'static, Item, Item>>>,
}

impl Builder<'_> {
    fn source(&self, it: Source) -> (Obs, Shape) {
        match it {
            Source::Subject(at) => {
                let times = BTreeMap::from([(at, 1)]);
                (self.subjects[at].observable(), Shape { most: times.clone(), times, in_order: true, ..Shape::default() })
            }
            Source::Made(at) => {
                let world = self.world.clone();
                let source = Observable::create(move |to| world.upgrade().into_iter().for_each(|it| it.keeps(at, to.clone())));
                (source, self.source(Source::Subject(at)).1)
            }
            Source::Pipe(at) => (self.pipes[at].clone(), self.shapes[at].clone()),
        }
    }

    fn pipe(&mut self, at: usize, pipe: &Pipe) {
        let (mut whole, mut shape) = self.source(pipe.source);
        shape.pipes.push(at);
        self.published.push(None);
        for op in &pipe.ops {
            let (other, others) = self.source(op.other);
            let uses_other = matches!(op.name, "or_else" | "concat_with") || [&OF_BOTH[..], &LESS, &AGAIN].iter().any(|all| all.contains(&op.name));
            shape.stays |= matches!(op.name, "create" | "publish" | "at_most_open" | "switch_map_open") || uses_other && others.stays;
            match op.name {
                it if OF_BOTH.contains(&it) => {
                    shape.with(&others);
                    if shape.ends {
                        shape.loosen(true)
                    }
                }
                it if UNTIL_AN_END.contains(&it) => {
                    shape.until.extend(shape.times.keys());
                    if matches!(it, "or_else" | "concat_with") {
                        shape.follows(&others)
                    }
                    if shape.ends {
                        shape.loosen(true)
                    }
                }
                "take" | "take_while" => shape.ends = true,
                "distinct" | "distinct_until_changed" if shape.times.values().any(|it| *it > 1) => shape.loosen(true),
                it if LESS.contains(&it) || AGAIN.contains(&it) => {
                    shape.pipes.extend(&others.pipes);
                    shape.loosen(LESS.contains(&it));
                }
                _ => (),
            }
            whole = self.apply(at, op, whole, other);
        }
        self.pipes.push(whole);
        self.shapes.push(shape);
    }

    fn apply(&mut self, pipe: usize, op: &Op, it: Obs, other: Obs) -> Obs {
        let (world, once, number) = (self.world.clone(), Once::new(&op.hook, op.name, pipe), op.number);
        let counts = world.clone();
        let acts = move || {
            if let Some(world) = world.upgrade() {
                once.call(&world, once.place)
            }
        };
        let (world, once) = (counts, Once::new(&op.hook, op.name, pipe));
        let acquire = move || {
            let it = world.upgrade().expect("a program acquires as it runs");
            it.count("resources");
            it.open.fetch_add(1, SeqCst);
            Res { world: world.clone(), hook: once.clone() }
        };
        let none = Item::new(NONE, &self.live);
        let one = |it: Item| Obs::of([it]);
        match op.name {
            "map" => it.map(move |it| (acts(), it).1),
            "try_map" => it.try_map(move |it| Ok((acts(), it).1)),
            "filter" => it.filter(move |_| (acts(), true).1),
            "filter_map" => it.filter_map(move |it| Some((acts(), it).1)),
            "inspect" => it.inspect(move |_| acts()),
            "tap" => it.tap(move |_| acts()),
            "map_err" => it.map_err(move |it| (acts(), it).1),
            "enumerate" => it.enumerate().map(move |it| (acts(), it.1).1),
            "scan" => it.scan(none, |_, it| it),
            "materialize" => it.materialize().map(move |it| (acts(), it).1).dematerialize(),
            "distinct" => it.distinct_by(|it: &Item| if it.number == NONE { None } else { Some(it.clone()) }),
            "distinct_until_changed" => it.distinct_until_changed(),
            "buffer_count" => it.buffer_count(1, 1).filter_map(move |mut it| (acts(), it.pop()).1),
            "default_if_empty" => it.default_if_empty(none),
            "fail_if_empty" => it.fail_if_empty(move || (acts(), none.none()).1),
            "take" => it.take(number + 1),
            "take_while" => {
                let left = AtomicU32::new(number as u32 + 3);
                it.take_while(move |_| (acts(), left.fetch_sub(1, SeqCst) > 1).1)
            }
            "take_through" => it.take_through(move |_| (acts(), false).1),
            "using" => {
                let source = it.clone();
                Observable::using(acquire, move |_| (acts(), source.clone()).1)
            }
            "holding" => it.holding(acquire),
            "finalize" => {
                let (opens, ends) = (self.world.clone(), self.world.clone());
                let last = it.finalize(move || {
                    if let Some(world) = ends.upgrade() {
                        world.count("finalizers");
                        world.open.fetch_sub(1, SeqCst);
                    }
                    acts()
                });
                Observable::defer(move || {
                    opens.upgrade().into_iter().for_each(|it| _ = it.open.fetch_add(1, SeqCst));
                    last.clone()
                })
            }
            "defer" => Observable::defer(move || (acts(), it.clone()).1),
            "flat_map" => it.flat_map(move |it| (acts(), one(it)).1),
            "concat_map" => it.concat_map(move |it| (acts(), one(it)).1),
            "flat_map_at_most" => it.flat_map_at_most(2, move |it| (acts(), one(it)).1),
            "switch_map" => it.switch_map(move |it| (acts(), one(it)).1),
            "start_with" => it.start_with([none]),
            "end_with" => it.end_with([none]),
            "retry" => it.retry(number + 1),
            "repeat" => it.repeat(number % 2 + 1),
            "or_else" => it.or_else(move |_| (acts(), other.clone()).1),
            "concat_with" => it.concat_with(other),
            "create" => {
                let source = it.clone();
                let (acquire, world) = (acquire, self.world.clone());
                let held = Observable::<Item, Item>::create(move |to| {
                    acts();
                    Closed(acquire(), to, world.clone())
                });
                source.merge_with(held)
            }
            "merge" => Observable::merge([it, other]),
            "merge_with" => it.merge_with(&other),
            "share" => it.share(),
            "publish" => {
                let published = it.publish();
                self.published[pipe] = Some(published.clone());
                published.observable()
            }
            "ref_count" => it.publish().ref_count(),
            "skip" => it.skip(number),
            "skip_while" => it.skip_while(move |it| it.number < number),
            "skip_last" => it.skip_last(number),
            "pairwise" => it.pairwise().map(move |it| (acts(), it.1).1),
            "switch_map_open" => {
                let world = self.world.clone();
                Observable::defer(move || {
                    let (open, world) = (Arc::default(), world.clone());
                    let most = if world.upgrade().is_some_and(|it| it.is_alone) { 1 } else { usize::MAX };
                    it.switch_map(move |it| {
                        let (open, world) = (Arc::clone(&open), world.clone());
                        Observable::never().start_with([it]).holding(move || Within::new("switch_map", &open, most, &world))
                    })
                })
            }
            "at_most_open" => {
                let (world, most) = (self.world.clone(), number % 2 + 1);
                Observable::defer(move || {
                    let (open, world, until) = (Arc::default(), world.clone(), other.clone());
                    it.flat_map_at_most(most, move |it| {
                        let (open, world) = (Arc::clone(&open), world.clone());
                        Observable::never().start_with([it]).take_until(&until).holding(move || Within::new("flat_map_at_most", &open, most, &world))
                    })
                })
            }
            "exhaust_map" => it.exhaust_map(move |it| (acts(), one(it)).1),
            "take_last" => it.take_last(number),
            "last" => it.last(),
            "first" => it.first(),
            "fold" => it.fold(none, move |_, it| (acts(), it).1),
            "reduce" => it.reduce(move |_, it| (acts(), it).1),
            "count" => it.count().map(move |_| (acts(), none.none()).1),
            "max" => it.max(),
            "min" => it.min(),
            "all" => it.all(move |_| (acts(), true).1).map(move |_| none.none()),
            "any" => it.any(move |_| (acts(), false).1).map(move |_| none.none()),
            "to_vec" => it.to_vec().map(move |_| (acts(), none.none()).1),
            "zip" => Observable::zip([&it, &other]).filter_map(move |it| (acts(), it.into_iter().next()).1),
            "zip_with" => it.zip_with(&other).map(move |it| (acts(), it.0).1),
            "with_latest_from" => it.with_latest_from(&other).map(move |it| (acts(), it.0).1),
            "skip_until" => it.skip_until(&other),
            "take_until" => it.take_until(&other),
            "combine_latest" => Observable::combine_latest([&it, &other]).filter_map(move |mut it| (acts(), it.pop()).1),
            "combine_latest_with" => it.combine_latest_with(&other).map(move |it| (acts(), it.0).1),
            "flat_map_other" => it.flat_map(move |_| (acts(), other.take(2)).1),
            "switch_map_other" => it.switch_map(move |_| (acts(), other.clone()).1),
            name => unreachable!("{name}"),
        }
    }
}

/// A resource of a source: as it is released, that is closed.
struct Closed(#[allow(dead_code)] Res, super::form::Emitter<'static, Item, Item>, Weak<World>);

impl Drop for Closed {
    fn drop(&mut self) {
        if let Some(world) = self.2.upgrade().filter(|_| !self.1.is_closed()) {
            world.wrong("a resource is released while its source is open".into())
        }
    }
}

/// Runs a program: what is wrong in it, or what was told.
pub fn run(program: &Program, counts: &Mutex<Counts>, room: u32) -> Result<Told, String> {
    let (dropped, cloned) = (Once::new(&program.dropped, "", 0), Once::new(&program.cloned, "", 0));
    let live = Arc::new(Live { many: AtomicIsize::new(0), may_leak: AtomicBool::new(false), dropped, cloned, world: OnceLock::new() });
    let world = Arc::new_cyclic(|world| {
        let subjects: Vec<_> = (0..program.subjects).map(|_| Subject::new()).collect();
        let mut all = Builder { program, world: world.clone(), live: live.clone(), subjects, pipes: vec![], shapes: vec![], published: vec![] };
        program.pipes.iter().enumerate().for_each(|(at, pipe)| all.pipe(at, pipe));
        let many = program.pipes.len();
        let connections = (0..many).map(|_| None).collect();
        let state = State { is_ended: vec![false; program.subjects], is_broken: vec![false; many], connections, ..State::default() };
        World {
            live: live.clone(), open: Arc::default(), depth: AtomicUsize::new(0), one_thread: program.threads == 1, is_alone: program.is_alone(), state: Mutex::new(state),
            scopes: (0..program.engines).map(|_| Scope::with_room(room).expect("there is memory")).collect(),
            subjects: all.subjects, made: (0..program.subjects).map(|_| Mutex::default()).collect(), shapes: all.shapes, pipes: all.pipes,
            hooks: all.program.pipes.iter().map(|it| [it.hook.clone(), it.last.clone()]).collect(), published: all.published, counts: Mutex::default(),
        }
    });
    let _ = live.world.set(Arc::downgrade(&world));
    super::perform(&world, program);
    world.finish();
    let mut state = world.state();
    let (wrong, told, items, heard) = (state.wrong.take(), std::mem::take(&mut state.told), state.items.len(), state.seen.iter().map(|it| it.heard.len()).sum::<usize>());
    drop(state);
    let mut counts = counts.lock().unwrap();
    for (what, many) in [("programs", 1), ("items", items), ("heard", heard)] {
        *counts.entry(what.into()).or_insert(0) += many as u64;
    }
    program.pipes.iter().flat_map(|it| &it.ops).for_each(|it| *counts.entry(format!("operator {}", it.name)).or_insert(0) += 1);
    std::mem::take(&mut *world.counts.lock().unwrap()).into_iter().for_each(|(what, many)| *counts.entry(what).or_insert(0) += many);
    let users = Arc::strong_count(&world);
    drop(world);
    match wrong {
        Some(why) => Err(why),
        None if users != 1 || live.many.load(SeqCst) != 0 && !live.may_leak.load(SeqCst) => Err(format!("{} items are left, and {users} use the program", live.many.load(SeqCst))),
        None => Ok(told),
    }
}
