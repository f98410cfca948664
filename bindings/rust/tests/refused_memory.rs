//! Memory refused, at each place in turn. What the engine cannot have it answers, and nothing has changed: so for its own requests, which
//! go to the C library, and for a history that is full. What Rust's own lists cannot have aborts, as everywhere in Rust, and does
//! nothing else. Each walk ends at the first run in which nothing is refused.
use cellarcliff::engine::{flag, kind, what, Command, Crossing, Stack, Stepped, NOTHING};
use cellarcliff::local::{Observable, Scope, Subject};
use cellarcliff::Refusal;
use std::alloc::{GlobalAlloc, Layout};
use std::cell::Cell;
use std::ffi::c_void;
use std::os::unix::process::ExitStatusExt;
use std::panic::{catch_unwind, AssertUnwindSafe};
use std::process::{Child, Command as Program, ExitStatus};
use std::rc::Rc;
use std::time::{Duration, Instant};

/// More requests than any of these runs makes; and longer than any takes.
const BOUND: isize = 2000;
const PATIENCE: Duration = Duration::from_secs(60);

thread_local! {
    /// How many requests are granted before one is refused: of Rust, and of the library.
    static LEFT: [Cell<isize>; 2] = const { [Cell::new(isize::MAX), Cell::new(isize::MAX)] };
}
const RUST: usize = 0;
const LIBRARY: usize = 1;

fn is_refused(whose: usize) -> bool {
    let left = LEFT.with(|it| it[whose].replace(it[whose].get() - 1));
    left == 0
}

/// Refuses one request of this thread, and answers whether it came to that.
fn refusing(whose: usize, at: isize, work: impl FnOnce()) -> bool {
    LEFT.with(|it| it[whose].set(at));
    work();
    LEFT.with(|it| it[whose].replace(isize::MAX)) < 0
}

extern "C" {
    fn __libc_malloc(size: usize) -> *mut c_void;
    fn __libc_calloc(count: usize, size: usize) -> *mut c_void;
    fn __libc_realloc(old: *mut c_void, size: usize) -> *mut c_void;
    fn __libc_memalign(align: usize, size: usize) -> *mut c_void;
    fn __libc_free(at: *mut c_void);
}

struct Refusing;

unsafe impl GlobalAlloc for Refusing {
    unsafe fn alloc(&self, layout: Layout) -> *mut u8 {
        if is_refused(RUST) { std::ptr::null_mut() } else { __libc_memalign(layout.align().max(16), layout.size()).cast() }
    }
    unsafe fn dealloc(&self, at: *mut u8, _: Layout) {
        __libc_free(at.cast())
    }
}

#[global_allocator]
static REFUSING: Refusing = Refusing;

/// These stand before the C library's, so the library asks them.
///
/// # Safety
/// As of the C library's.
#[no_mangle]
pub unsafe extern "C" fn malloc(size: usize) -> *mut c_void {
    if is_refused(LIBRARY) { std::ptr::null_mut() } else { __libc_malloc(size) }
}
/// # Safety
/// As of the C library's.
#[no_mangle]
pub unsafe extern "C" fn calloc(count: usize, size: usize) -> *mut c_void {
    if is_refused(LIBRARY) { std::ptr::null_mut() } else { __libc_calloc(count, size) }
}
/// # Safety
/// As of the C library's.
#[no_mangle]
pub unsafe extern "C" fn realloc(old: *mut c_void, size: usize) -> *mut c_void {
    if is_refused(LIBRARY) { std::ptr::null_mut() } else { __libc_realloc(old, size) }
}

#[test]
fn an_engine_that_is_full_refuses_and_closes_all_the_same() {
    let (mut engine, mut step, mut stack) = (Crossing::new(12).unwrap(), Stepped::default(), Stack { by: 1, depth: 1, begun: 0 });
    let open = Command { what: what::OPEN, kind: kind::LEAF, flags: flag::WISHES, node: NOTHING, ..Command::default() };
    let many = (0..100).take_while(|_| engine.step(&stack, &open, &mut step) == 0).count();
    assert!(many > 0 && many < 100);
    let before = engine.totals();
    assert_eq!(engine.step(&stack, &open, &mut step), 16, "{:?}", Refusal::Full);
    assert_eq!(engine.totals(), before);
    let (mut closed, mut told) = (0, 0);
    while engine.totals().nodes > 0 {
        // which closes one of what is open, or all
        assert_eq!(engine.step(&stack, &Command { what: what::SHUT, node: NOTHING, ..Command::default() }, &mut step), 0);
        closed += engine.closings(&step).len();
        while step.handed == 1 {
            told += 1;
            stack.begun = step.ticket;
            engine.next(&stack, &mut step);
        }
    }
    assert_eq!((closed, told), (many, many));
    assert_eq!((engine.totals().nodes, engine.totals().effects, engine.finish()), (0, 0, 0));
}

struct File(Rc<Cell<i32>>);

impl Drop for File {
    fn drop(&mut self) {
        self.0.set(self.0.get() - 1);
    }
}

/// A tree of most operators, some items, and its end; answers whether anything was refused.
fn work(scope: &Scope<'static>) -> bool {
    let (subject, stop, open) = (Subject::<u32>::new(), Subject::<u32>::new(), Rc::new(Cell::new(0)));
    let (source, count) = (subject.observable(), open.clone());
    let acquire = move || {
        count.set(count.get() + 1);
        File(count.clone())
    };
    let file = Observable::using(acquire, move |_| source.clone());
    let (one, two) = (file.clone(), file.clone());
    let inner = file.share().flat_map(move |_| one.take(1)).concat_map(move |_| two.take(1)).switch_map(|it| Observable::of([it]));
    let joined = inner.retry(2).with_latest_from(&subject.observable()).map(|it| it.0).distinct_until_changed();
    let whole = joined.take_until(stop.observable()).finalize(|| ()).take(5).default_if_empty(7);
    let done = catch_unwind(AssertUnwindSafe(|| {
        let subscription = whole.observe_in(scope, drop)?;
        (0..4).for_each(|it| subject.next(it));
        stop.next(1);
        drop(subscription);
        Ok::<(), Refusal>(())
    }));
    assert_eq!((open.get(), subject.observers(), stop.observers(), scope.words(), scope.totals().nodes), (0, 0, 0, 0, 0));
    !matches!(done, Ok(Ok(())))
}

#[test]
fn a_tree_that_is_refused_in_the_midst_leaves_nothing_open() {
    let refused = (1..400).filter(|room| Scope::with_room(*room).map_or(true, |scope| work(&scope))).count();
    assert!(refused > 20, "{refused}"); // a share alone asks for the events of all hubs
}

#[test]
fn what_the_engine_cannot_have_is_answered_and_leaves_nothing_open() {
    let (mut refused, mut answered) = (0, 0);
    for at in 0.. {
        assert!(at < BOUND, "it asks for more each time");
        let mut is_answered = false;
        let came = refusing(LIBRARY, at, || is_answered = Scope::new().map_or_else(|why| why == Refusal::NoMemory, |scope| work(&scope)));
        if !came {
            assert!(!is_answered);
            break;
        }
        (refused, answered) = (refused + 1, answered + is_answered as i32);
    }
    println!("{refused} requests refused, {answered} answered");
    // a request that only makes room for later may be done without
    assert!(refused >= 10 && answered * 2 > refused, "{refused} requests refused, {answered} answered");
}

fn ended(child: &mut Child) -> ExitStatus {
    let begun = Instant::now();
    while begun.elapsed() < PATIENCE {
        if let Some(it) = child.try_wait().unwrap() {
            return it;
        }
        std::thread::sleep(Duration::from_millis(1));
    }
    child.kill().unwrap();
    panic!("a run with a request refused does not end")
}

#[test]
fn what_rust_cannot_have_aborts_and_does_nothing_else() {
    if let Ok(at) = std::env::var("REFUSED_AT") {
        let scope = Scope::new().unwrap();
        let mut is_refused = true;
        let came = refusing(RUST, at.parse().unwrap(), || is_refused = work(&scope));
        assert!(!is_refused);
        std::process::exit(if came { 3 } else { 0 });
    }
    let (me, mut aborted) = (std::env::current_exe().unwrap(), 0);
    for at in 0.. {
        assert!(at < BOUND, "it asks for more each time");
        let mut child = Program::new(&me);
        child.args(["--exact", "what_rust_cannot_have_aborts_and_does_nothing_else"]).env("REFUSED_AT", at.to_string());
        child.env("RUST_BACKTRACE", "0").stdout(std::process::Stdio::null()).stderr(std::process::Stdio::null());
        let status = ended(&mut child.spawn().unwrap());
        if status.success() {
            break;
        }
        assert!(status.signal() == Some(6), "request {at}: {status}");
        aborted += 1;
    }
    assert!(aborted > 50, "{aborted}");
}
