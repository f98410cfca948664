//! Storms of eight threads. Under helgrind they are built with `--cfg cellarcliff_helgrind`, which tells it of the locks that it cannot see.
use cellarcliff::sync::{Emitter, Observable, Subject};
use std::panic::{catch_unwind, AssertUnwindSafe};
use std::sync::atomic::{AtomicIsize, AtomicUsize, Ordering::SeqCst};
use std::thread;

/// Runs it in eight threads, each with its number; each is joined. What is made once is made before them, since helgrind does not see
/// the order of that: the engine of all threads, and a table that the first unwinding makes.
fn storm(work: impl Fn(u32) + Clone + Send + 'static) {
    drop(Observable::<u32>::never().each(drop));
    drop(catch_unwind(|| std::panic::resume_unwind(Box::new("the first"))));
    let begin = |thread| {
        let work = work.clone();
        thread::spawn(move || work(thread))
    };
    let all: Vec<_> = (0..8).map(begin).collect();
    all.into_iter().for_each(|it| it.join().unwrap());
}

/// A resource that is counted by one of these.
struct Socket(&'static AtomicIsize);

impl Socket {
    fn open(count: &'static AtomicIsize) -> Self {
        count.fetch_add(1, SeqCst);
        Socket(count)
    }
}

impl Drop for Socket {
    fn drop(&mut self) {
        assert!(self.0.fetch_sub(1, SeqCst) > 0);
    }
}

#[test]
fn eight_threads_emit_into_one_subject_and_each_item_is_told_once() {
    static TOLD: [AtomicUsize; 2] = [const { AtomicUsize::new(0) }; 2];
    let subject = Subject::<usize>::new();
    let subscription = subject.observable().map(|it| it + 1).each(|it| {
        TOLD[0].fetch_add(1, SeqCst);
        TOLD[1].fetch_add(it, SeqCst);
    });
    let emits = subject.clone();
    storm(move |thread| (0..500).for_each(|it| emits.next(thread as usize * 500 + it)));
    drop(subscription);
    assert_eq!((TOLD[0].load(SeqCst), TOLD[1].load(SeqCst), subject.observers()), (4000, 8_002_000, 0));
}

#[test]
fn eight_threads_emit_into_a_share_and_beside_it_and_each_item_is_told_once() {
    static TOLD: [AtomicUsize; 2] = [const { AtomicUsize::new(0) }; 2];
    let (subject, other) = (Subject::<usize>::new(), Subject::<usize>::new());
    let shared = subject.observable().share();
    let first = shared.each(|_| thread::yield_now()); // so that items wait for the second, which nobody tells yet
    let second = shared.merge_with(&other.observable()).each(|it| {
        TOLD[0].fetch_add(1, SeqCst);
        TOLD[1].fetch_add(it, SeqCst);
    });
    storm(move |thread| (0..500).for_each(|it| if thread % 2 == 0 { &subject } else { &other }.next(thread as usize * 500 + it)));
    drop((first, second));
    assert_eq!((TOLD[0].load(SeqCst), TOLD[1].load(SeqCst)), (4000, 7_998_000));
}

#[test]
fn what_waits_in_skip_last_is_told_in_the_order_in_which_each_of_eight_threads_emitted_it() {
    static LAST: [AtomicUsize; 8] = [const { AtomicUsize::new(0) }; 8];
    let subject = Subject::<(u32, usize)>::new();
    let subscription = subject.observable().skip_last(3).each(|(thread, it)| assert_eq!(LAST[thread as usize].swap(it, SeqCst) + 1, it));
    let emits = subject.clone();
    storm(move |thread| (1..=500).for_each(|it| emits.next((thread, it))));
    drop(subscription);
    assert_eq!(LAST.iter().map(|it| it.load(SeqCst)).sum::<usize>(), 4000 - 3);
}

/// A resource of a source, which finds that closed.
struct Closed(Emitter<'static, u32>);

impl Drop for Closed {
    fn drop(&mut self) {
        assert!(self.0.is_closed());
    }
}

#[test]
fn a_resource_finds_its_source_closed_whichever_of_eight_threads_releases_it() {
    let subject = Subject::<u32>::new();
    let whole = subject.observable().merge_with(Observable::create(Closed));
    let emits = subject.clone();
    storm(move |thread| {
        for round in 0..60 {
            let subscription = whole.each(|_| thread::yield_now());
            emits.next(thread + round);
            drop(subscription);
        }
    });
    assert_eq!(subject.observers(), 0);
}

#[test]
fn eight_threads_subscribe_and_dispose_and_each_resource_is_dropped_once() {
    static OPEN: AtomicIsize = AtomicIsize::new(0);
    let subject = Subject::<u32>::new();
    let source = subject.observable();
    let whole = Observable::using(|| Socket::open(&OPEN), move |_| source.clone());
    let (shared, emits) = (whole.share(), subject.clone());
    storm(move |thread| {
        for round in 0..60 {
            let one = whole.each(drop);
            let (inner, other) = (whole.clone(), shared.clone());
            let two = shared.switch_map(move |it| if it % 2 == 0 { inner.clone() } else { other.clone() }).take(3).each(drop);
            emits.next(thread + round);
            drop(one);
            emits.next(round);
            drop(two);
        }
    });
    assert_eq!((OPEN.load(SeqCst), subject.observers()), (0, 0));
}

#[test]
fn eight_threads_use_most_operators_and_each_resource_is_dropped_once() {
    static OPEN: AtomicIsize = AtomicIsize::new(0);
    let (subject, stop) = (Subject::<u32>::new(), Subject::<u32>::new());
    let source = subject.observable();
    let whole = Observable::using(|| Socket::open(&OPEN), move |_| source.clone());
    let (shared, published) = (whole.share(), whole.publish());
    let (emits, stops, connects) = (subject.clone(), stop.clone(), published.clone());
    storm(move |thread| {
        for round in 0..30 {
            let inner = if (thread + round) % 2 == 0 { whole.clone() } else { shared.clone() };
            let (one, two, three) = (inner.clone(), inner.clone(), inner.clone());
            let held = [
                shared.flat_map(move |_| one.take(2)).take_until(stops.observable()).each(drop),
                whole.concat_map(move |_| two.take(1)).each(drop),
                shared.switch_map(move |_| three.clone()).scan(0, |sum, it| sum + it).take(5).each(drop),
                published.observable().each(drop),
            ];
            let connection = published.connect();
            (0..3).for_each(|it| emits.next(it));
            if round % 5 == thread % 5 {
                stops.next(round);
            }
            connection.disconnect();
            drop(held);
        }
    });
    connects.connect().disconnect();
    assert_eq!((OPEN.load(SeqCst), subject.observers(), stop.observers()), (0, 0, 0));
}

#[test]
fn eight_threads_use_what_stands_on_roots_of_its_own_and_each_resource_is_dropped_once() {
    static OPEN: AtomicIsize = AtomicIsize::new(0);
    let (subject, other) = (Subject::<u32>::new(), Subject::<u32>::new());
    let (source, beside) = (subject.observable(), other.observable());
    let whole = Observable::using(|| Socket::open(&OPEN), move |_| source.clone());
    let shared = Observable::using(|| Socket::open(&OPEN), move |_| beside.clone()).share();
    let (emits, emits_beside) = (subject.clone(), other.clone());
    storm(move |thread| {
        for round in 0..20 {
            let held = [
                whole.zip_with(&shared).skip(1).each(drop),
                whole.combine_latest_with(&shared).take_while(|it| it.0 < 5).each(drop),
                shared.with_latest_from(&whole).distinct_until_changed().take(2).last().each(drop),
                whole.take(1).repeat(3).pairwise().each(drop),
                shared.take(1).concat_with(&whole).fold(0, |sum, it| sum + it).each(drop),
            ];
            (0..3).for_each(|it| emits.next(it + thread + round));
            emits_beside.next(round);
            drop(held);
        }
    });
    assert_eq!((OPEN.load(SeqCst), subject.observers(), other.observers()), (0, 0, 0));
}

#[test]
fn observers_and_functions_that_panic_in_eight_threads_lose_no_resource() {
    static OPEN: AtomicIsize = AtomicIsize::new(0);
    static CAUGHT: AtomicUsize = AtomicUsize::new(0);
    let subject = Subject::<u32>::new();
    let source = subject.observable();
    let whole = Observable::using(|| Socket::open(&OPEN), move |_| source.clone());
    let (shared, emits) = (whole.share(), subject.clone());
    storm(move |thread| {
        for round in 0..20 {
            let breaks = move |it: u32| if (it + round) % 7 == thread % 7 { std::panic::resume_unwind(Box::new("broken")) } else { it };
            let inner = whole.clone();
            let held = [
                whole.map(breaks).each(drop),
                shared.each(move |it| _ = breaks(it)),
                whole.flat_map(move |it| (breaks(it), inner.take(1)).1).each(drop),
            ];
            for it in 0..5 {
                // what panics here may be another thread's observer, which this thread serves
                CAUGHT.fetch_add(catch_unwind(AssertUnwindSafe(|| emits.next(it))).is_err() as usize, SeqCst);
            }
            drop(catch_unwind(AssertUnwindSafe(|| drop(held))));
        }
    });
    assert_eq!((OPEN.load(SeqCst), subject.observers()), (0, 0));
    assert!(CAUGHT.load(SeqCst) > 0);
}
