//! Measures an item, one that goes through a root of an operator's own, a subscription with a resource and an item, and an item of a
//! flat_map, in both forms, and an item of plain closures, in a cell and behind a mutex: nanoseconds of processor time, of each the least and the median of nine
//! rounds. `tools/measure-rust` has the same work done in C over the same engine, in turns with this.
use cellarcliff::{local, sync};
use std::cell::{Cell, RefCell};
use std::hint::black_box;
use std::rc::Rc;
use std::sync::atomic::{AtomicU64, Ordering::Relaxed};
use std::sync::{Arc, Mutex};

const MANY: u64 = 100_000;
static RELEASED: AtomicU64 = AtomicU64::new(0);

/// A resource, which is a number as in C.
struct Resource(u64);

impl Drop for Resource {
    fn drop(&mut self) {
        RELEASED.store(RELEASED.load(Relaxed) + self.0, Relaxed);
    }
}

extern "C" {
    fn clock_gettime(clock: i32, time: *mut [i64; 2]) -> i32;
}

/// Of this thread, in nanoseconds: what the standard library does not tell.
fn now() -> f64 {
    let mut time = [0; 2];
    // SAFETY: a time is two words of 64 bits on Linux
    assert_eq!(unsafe { clock_gettime(3, &mut time) }, 0); // CLOCK_THREAD_CPUTIME_ID
    time[0] as f64 * 1e9 + time[1] as f64
}

fn measure(name: &str, many: u64, mut work: impl FnMut()) {
    work();
    let mut rounds: Vec<f64> = (0..9).map(|_| {
        let begun = now();
        work();
        (now() - begun) / many as f64
    }).collect();
    rounds.sort_by(f64::total_cmp);
    println!("{name}: {:.1} {:.1}", rounds[0], rounds[4]);
}

macro_rules! works {
    ($form:ident) => {
        let kept = Arc::new(Mutex::new(None));
        let keeps = kept.clone();
        let source = $form::Observable::<u64>::create(move |to| {
            keeps.lock().unwrap().replace(to);
        });
        for (name, source) in [("an item", source.clone()), ("an item of a retry", source.retry(None))] {
            let subscription = source.each(|it| {
                black_box(it);
            });
            let emitter = kept.lock().unwrap().take().unwrap();
            measure(&format!("{}, {name}", stringify!($form)), MANY, || (0..MANY).for_each(|it| emitter.next(it)));
            drop((subscription, emitter));
        }

        let source = $form::Observable::<u64>::create(|to| to.next(1));
        let whole = $form::Observable::using(|| Resource(1), move |_| source.clone());
        RELEASED.store(0, Relaxed);
        measure(concat!(stringify!($form), ", using, an item, disposed of"), MANY / 4, || {
            for _ in 0..MANY / 4 {
                drop(whole.each(|it| {
                    black_box(it);
                }));
            }
        });
        assert_eq!(RELEASED.load(Relaxed), 10 * MANY / 4);

        let subject = $form::Subject::<u64>::new();
        let subscription = subject.observable().flat_map(|it| $form::Observable::of([it])).each(|it| {
            black_box(it);
        });
        measure(concat!(stringify!($form), ", an item of a flat_map"), MANY / 4, || (0..MANY / 4).for_each(|it| subject.next(it)));
        drop(subscription);
    };
}

fn main() {
    let heard = Rc::new(Cell::new(0));
    let sum = heard.clone();
    let observers: RefCell<Vec<Box<dyn FnMut(u64)>>> = RefCell::new(vec![Box::new(move |it| sum.set(sum.get() + it))]);
    let next = |it: u64| black_box(&observers).borrow_mut().iter_mut().for_each(|to| to(black_box(it)));
    measure("plain closures, an item", MANY, || (0..MANY).for_each(&next));
    let sum = Arc::new(AtomicU64::new(0));
    let adds = sum.clone();
    let observers: Mutex<Vec<Box<dyn FnMut(u64) + Send>>> = Mutex::new(vec![Box::new(move |it| adds.store(adds.load(Relaxed) + it, Relaxed))]);
    let next = |it: u64| black_box(&observers).lock().unwrap().iter_mut().for_each(|to| to(black_box(it)));
    measure("plain closures behind a mutex, an item", MANY, || (0..MANY).for_each(&next));
    works!(local);
    works!(sync);
    assert!(heard.get() > 0 && sum.load(Relaxed) > 0);
}
