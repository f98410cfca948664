//! Random programs: pipelines over all operators, whose functions, observers, resources and items emit, end, subscribe, dispose, connect,
//! shut an engine, panic and wait for another thread from within, up to a hundred deep, in one engine or two, by one thread or four. Each
//! program says for each observer what it has to hear, so a run needs nothing to compare with.
pub mod program;

#[path = "."]
mod local {
    use super::program::Program;
    use cellarcliff::local as form;
    #[path = "run.rs"]
    mod run;
    pub use run::run;

    fn perform(world: &std::sync::Arc<run::World>, it: &Program) {
        for act in &it.acts {
            world.top(act);
            world.check();
        }
    }

    /// The thread's engine ends with it, and what it left open there.
    fn spawn(world: &std::sync::Arc<run::World>, _: &super::program::Act) {
        let open = world.open.clone();
        let all = move || {
            let subject = form::Subject::<u32>::new();
            let held = subject.observable().holding(move || super::Counted::new(&open));
            held.share().merge_with(held.take(2)).each(drop).detach();
            subject.next(1);
        };
        std::thread::spawn(all).join().unwrap();
    }
}

#[path = "."]
mod sync {
    use super::program::{Act, Program};
    use cellarcliff::sync as form;
    #[path = "run.rs"]
    mod run;
    pub use run::run;

    /// By several threads it first subscribes, and looks behind all.
    fn perform(world: &std::sync::Arc<run::World>, it: &Program) {
        let at_first = if it.threads == 1 { it.acts.len() } else { it.acts.iter().take_while(|it| matches!(it, Act::Subscribe(_))).count() };
        let (first, others) = it.acts.split_at(at_first);
        for act in first {
            world.top(act);
            world.check();
        }
        std::thread::scope(|scope| {
            let begin = |thread| {
                let all = move || others.iter().skip(thread).step_by(it.threads).for_each(|act| world.top(act));
                super::deep().spawn_scoped(scope, all).unwrap()
            };
            let all: Vec<_> = (0..it.threads).map(begin).collect();
            all.into_iter().for_each(|it| it.join().unwrap()) // the C library may free the stack of one that is detached as it exits twice
        });
        world.check();
    }

    fn spawn(world: &std::sync::Arc<run::World>, act: &Act) {
        std::thread::scope(|scope| super::deep().spawn_scoped(scope, || world.top(act)).unwrap().join().unwrap())
    }
}

/// A thread in which what calls itself a hundred deep has room.
fn deep() -> std::thread::Builder {
    std::thread::Builder::new().stack_size(256 << 20)
}

/// One of so many.
struct Counted(Arc<AtomicIsize>);

impl Counted {
    fn new(many: &Arc<AtomicIsize>) -> Self {
        many.fetch_add(1, SeqCst);
        Counted(many.clone())
    }
}

impl Drop for Counted {
    fn drop(&mut self) {
        self.0.fetch_sub(1, SeqCst);
    }
}

use cellarcliff::Refusal;
use program::Program;
use std::collections::{hash_map::DefaultHasher, BTreeMap};
use std::hash::{Hash, Hasher};
use std::sync::atomic::{AtomicIsize, AtomicU64, Ordering::SeqCst};
use std::sync::{Arc, Mutex};
use std::sync::mpsc::RecvTimeoutError;
use std::time::Duration;

/// What programs came to, by name.
pub type Counts = BTreeMap<String, u64>;

/// What was heard and dropped, in its order.
pub type Told = Vec<(&'static str, usize)>;

fn digest(told: Told, is_whole: bool) -> String {
    let mut hasher = DefaultHasher::new();
    told.hash(&mut hasher);
    let whole: String = if is_whole { told.iter().map(|(what, which)| format!("\n    {what} {which}")).collect() } else { String::new() };
    format!("{:016x}{whole}", hasher.finish())
}

/// Which form, and how many events its engine is made for, which the test engine takes for its own switches.
fn run(it: &Program, counts: &Mutex<Counts>, room: u32) -> Result<Told, String> {
    let form = if it.threads > 1 || it.is_sync { sync::run } else { local::run };
    form(it, counts, room)
}

/// The smallest program that still goes wrong, by leaving out one thing after another.
fn shrink(mut least: Program, mut why: String, room: u32) -> (Program, String) {
    let tries = if least.threads > 1 { 40 } else { 1 };
    while let Some(found) = least.smaller().into_iter().find_map(|it| {
        (0..tries).find_map(|_| run(&it, &Mutex::default(), room).err()).map(|why| (it, why))
    }) {
        (least, why) = found;
    }
    (least, why)
}

/// Ends the process if a worker has the same seed for five minutes.
fn watch(at: &[AtomicU64], stopped: std::sync::mpsc::Receiver<()>) {
    let seeds = || at.iter().map(|it| it.load(SeqCst)).collect::<Vec<_>>();
    let mut before = seeds();
    while stopped.recv_timeout(Duration::from_secs(300)) == Err(RecvTimeoutError::Timeout) {
        let now = seeds();
        if let Some(seed) = now.iter().zip(&before).find_map(|(now, before)| (now == before && *now != u64::MAX).then_some(now)) {
            eprintln!("the program of the seed {seed} stands");
            std::process::abort()
        }
        before = now;
    }
}

/// Runs the programs of these seeds by so many workers; says what the first comes to that goes wrong, as small as it gets. Where TOLD is set,
/// it prints a digest of what each told that has one thread, or with `whole` all of it.
pub fn run_all(seeds: std::ops::Range<u64>, room: u32, workers: usize) -> Result<Counts, String> {
    let (counts, wrong, next) = (Mutex::new(Counts::new()), Mutex::new(None), AtomicU64::new(seeds.start));
    let tells = std::env::var("TOLD").ok();
    let one = |seed| {
        let program = Program::new(seed);
        let told = run(&program, &counts, room).map_err(|why| {
            eprintln!("seed {seed}: {why}; looking for a smaller one");
            let (least, least_why) = shrink(program.clone(), why.clone(), room);
            format!("seed {seed}: {why}\nat least: {least_why}\n{least:?}")
        })?;
        if tells.is_some() && program.threads == 1 {
            let shuts = if program.shuts() { "shuts" } else { "keeps" };
            println!("told {seed} {shuts} {}", digest(told, tells.as_deref() == Some("whole")));
            if tells.as_deref() == Some("whole") {
                println!("{program:?}")
            }
        }
        Ok(())
    };
    let at: Vec<_> = (0..workers).map(|_| AtomicU64::new(u64::MAX)).collect();
    let works = |at: &AtomicU64| {
        while wrong.lock().unwrap().is_none() {
            let seed = next.fetch_add(1, SeqCst);
            if seed >= seeds.end {
                break;
            }
            at.store(seed, SeqCst);
            if let Err(why) = one(seed) {
                wrong.lock().unwrap().get_or_insert(why);
            }
        }
        at.store(u64::MAX, SeqCst)
    };
    let (stop, stopped) = std::sync::mpsc::channel();
    std::thread::scope(|scope| {
        let watches = scope.spawn(|| watch(&at, stopped));
        let all: Vec<_> = at.iter().map(|at| deep().spawn_scoped(scope, || works(at)).unwrap()).collect();
        all.into_iter().for_each(|it| it.join().unwrap());
        drop(stop);
        watches.join().unwrap()
    });
    match wrong.into_inner().unwrap() {
        Some(why) => Err(why),
        None => Ok(counts.into_inner().unwrap()),
    }
}

/// What an engine may refuse to a share, for want of hubs in that order, is no fault of a program.
pub fn is_order(why: &Refusal) -> bool {
    matches!(why, Refusal::HubOrder | Refusal::NoHub)
}
