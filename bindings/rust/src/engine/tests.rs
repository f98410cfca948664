//! The handles' own code, and the operators', over the calls that keep count.
use super::counted::{count, REFUSED};
use super::{flag, kind, place, what, Command, Crossing, Stack, Stepped, NOTHING};
use crate::{local, sync, Note, Refusal};
use std::cell::{Cell, RefCell};
use std::panic::{catch_unwind, AssertUnwindSafe};
use std::rc::Rc;
use std::sync::atomic::{AtomicI64, Ordering::SeqCst};
use std::sync::{Mutex, PoisonError};

#[path = "../../tests/programs/mod.rs"]
mod programs;

/// How many engines were made and freed while this ran alone, and what words of theirs were never told.
fn counting(work: impl FnOnce()) -> (u64, u64, u64) {
    static ALONE: Mutex<()> = Mutex::new(());
    let _alone = ALONE.lock().unwrap_or_else(PoisonError::into_inner);
    let counts = || {
        let it = count();
        (it.made, it.freed, it.lost)
    };
    let before = counts();
    work();
    let after = counts();
    (after.0 - before.0, after.1 - before.1, after.2 - before.2)
}

#[test]
fn each_handle_is_freed_once_wherever_it_went() {
    let counts = counting(|| {
        let mut handles: Vec<_> = (0..20).map(|_| Crossing::new(0).unwrap()).collect(); // which grows, so they are moved
        handles.swap(0, 19);
        assert_eq!(handles[3].finish(), 0);
        assert!(matches!(Crossing::new(REFUSED), Err(Refusal::NoMemory)));
        std::thread::spawn(move || drop(handles)).join().unwrap();
        assert!(local::Scope::with_room(REFUSED).is_err());
        let engine = Box::new(Crossing::new(0).unwrap());
        assert!(catch_unwind(AssertUnwindSafe(move || {
            let _engine = engine;
            panic!("it is freed as the stack unwinds")
        })).is_err());
    });
    assert_eq!(counts, (21, 21, 0));
}

#[test]
fn a_step_that_closes_more_than_it_has_room_for_is_read_whole() {
    let counts = counting(|| {
        let (mut engine, mut step, mut stack) = (Crossing::new(0).unwrap(), Stepped::default(), Stack { by: 1, depth: 1, begun: 0 });
        let (mut node, mut root) = (NOTHING, NOTHING);
        for user in 0..30 {
            let place = if user == 0 { place::ROOT } else { place::SOURCE };
            let open = Command { what: what::OPEN, place, kind: kind::FLAT, flags: flag::WISHES, node, user, ..Command::default() };
            assert_eq!(engine.step(&stack, &open, &mut step), 0);
            node = step.node;
            root = if user == 0 { node } else { root };
        }
        assert_eq!(engine.step(&stack, &Command { what: what::DISPOSE, node: root, ..Command::default() }, &mut step), 0);
        assert_eq!((engine.closings(&step), engine.finish()), ((0..30).rev().collect(), 6));
        let mut told = 0;
        while step.handed == 1 {
            told += 1;
            stack.begun = step.ticket;
            engine.next(&stack, &mut step);
        }
        assert_eq!((told, engine.finish()), (31, 0));
    });
    assert_eq!(counts, (1, 1, 0));
}

struct File<'a>(&'a Cell<i64>);

impl Drop for File<'_> {
    fn drop(&mut self) {
        self.0.set(self.0.get() - 1);
    }
}

/// Most operators in one tree.
fn tree<'a>(subject: &local::Subject<'a, u32>, stop: &local::Subject<'a, u32>, open: &'a Cell<i64>) -> local::Observable<'a, u32> {
    let source = subject.observable();
    let acquire = move || {
        open.set(open.get() + 1);
        File(open)
    };
    let file = local::Observable::using(acquire, move |_| source.clone());
    let (one, two) = (file.clone(), file.clone());
    let inner = file.flat_map(move |_| one.take(1)).flat_map_at_most(2, move |_| two.take(1));
    let joined = inner.switch_map(|it| local::Observable::of([it, it])).with_latest_from(&subject.observable()).map(|it| it.0).retry(2);
    joined.tap(|_| ()).take_until(stop.observable()).finalize(|| ()).map(|it| it + 1).take(9).default_if_empty(7)
}

#[test]
fn a_tree_of_operators_is_told_all_that_its_words_are_owed_however_it_ends() {
    for end in 0..5 {
        let open = Cell::new(0);
        let counts = counting(|| {
            let heard = RefCell::new(vec![]);
            let scope = local::Scope::new().unwrap();
            let (subject, stop) = (local::Subject::new(), local::Subject::new());
            let whole = tree(&subject, &stop, &open);
            let subscription = whole.observe_in(&scope, |note| heard.borrow_mut().push(note)).unwrap();
            (0..4).for_each(|it| subject.next(it));
            match end {
                0 => drop(subscription),
                1 => (subscription.detach(), stop.next(1)).1,
                2 => (subscription.detach(), subject.completed()).1,
                3 => (subscription.detach(), (0..30).for_each(|it| subject.next(it))).1,
                _ => subscription.detach(), // the scope ends it
            }
            if end < 4 {
                assert_eq!((open.get(), scope.words(), subject.observers(), stop.observers()), (0, 0, 0, 0), "{end}");
                assert_eq!(heard.borrow().last() == Some(&Note::Completed), end > 0);
            }
        });
        assert_eq!((counts, open.get()), ((1, 1, 0), 0), "{end}");
    }
}

/// Two hear each item of a shared source; on its way to the first another is emitted for the second, behind what stands in its lane.
#[test]
fn each_item_is_told_once_whatever_is_handed_out_in_its_place() {
    for seed in 0..REFUSED {
        let heard = RefCell::new(vec![]);
        let counts = counting(|| {
            let scope = local::Scope::with_room(seed).unwrap();
            let (subject, other) = (local::Subject::<i32>::new(), local::Subject::<i32>::new());
            let (heard, shared, within) = (&heard, subject.observable().share(), other.clone());
            let hears = |name| move |note| if let Note::Next(it) = note { heard.borrow_mut().push((name, it)) };
            let _one = shared.inspect(move |it| if *it == 1 { within.next(2) }).observe_in(&scope, hears('A')).unwrap();
            let _two = shared.merge_with(&other.observable()).observe_in(&scope, hears('B')).unwrap();
            [1, 3].into_iter().for_each(|it| subject.next(it));
        });
        let mut heard = heard.into_inner();
        heard.sort();
        assert_eq!((heard, counts), (vec![('A', 1), ('A', 3), ('B', 1), ('B', 2), ('B', 3)], (1, 1, 0)));
    }
}

#[test]
fn random_programs_hear_and_release_all_whatever_is_handed_out() {
    let (made, freed, lost) = counting(|| {
        for room in 0..REFUSED {
            let first = u64::from(room) * 40;
            programs::run_all(first..first + 40, room, 1).unwrap_or_else(|why| panic!("{why}"));
        }
    });
    assert!(made > 520, "some have two, and some threads of their own");
    assert_eq!((freed, lost), (made, 0));
}

#[test]
fn a_panic_anywhere_in_a_tree_leaves_no_word_untold() {
    for at in 0..60 {
        let open = Cell::new(0);
        let counts = counting(|| {
            let (scope, left) = (local::Scope::with_room(at as u32 % REFUSED).unwrap(), Rc::new(Cell::new(at)));
            let breaks = move || {
                left.set(left.get() - 1);
                if left.get() == -1 {
                    std::panic::panic_any("broken")
                }
            };
            let (subject, stop) = (local::Subject::new(), local::Subject::new());
            let [one, two, three, four] = [(); 4].map(|()| breaks.clone());
            let whole = tree(&subject, &stop, &open).map(move |it| (one(), it).1).flat_map(move |it| {
                two();
                local::Observable::of([it])
            }).finalize(three);
            let done = catch_unwind(AssertUnwindSafe(|| {
                let subscription = whole.observe_in(&scope, move |_| four()).unwrap();
                (0..8).for_each(|it| subject.next(it));
                drop(subscription);
            }));
            assert!(done.is_ok() || done.unwrap_err().downcast_ref() == Some(&"broken"));
            assert_eq!((open.get(), scope.words(), subject.observers(), stop.observers()), (0, 0, 0, 0), "{at}");
        });
        assert_eq!((counts, open.get()), ((1, 1, 0), 0), "{at}");
    }
}

#[test]
fn eight_threads_never_call_one_handle_at_once_and_release_each_resource_once() {
    static OPEN: AtomicI64 = AtomicI64::new(0);
    struct Socket;
    impl Drop for Socket {
        fn drop(&mut self) {
            assert!(OPEN.fetch_sub(1, SeqCst) > 0);
        }
    }
    let counts = counting(|| {
        let engine = sync::Scope::new().unwrap();
        let subject = sync::Subject::<u32>::new();
        let source = subject.observable();
        let whole = sync::Observable::using(|| (OPEN.fetch_add(1, SeqCst), Socket).1, move |_| source.clone());
        std::thread::scope(|scope| {
            for thread in 0..8 {
                let (engine, subject, whole) = (&engine, &subject, &whole);
                scope.spawn(move || {
                    for round in 0..30 {
                        let (one, two) = (whole.clone(), whole.clone());
                        let all = [
                            whole.flat_map(move |_| one.take(2)).observe_in(engine, drop).unwrap(),
                            whole.switch_map(move |_| two.clone()).take(5).observe_in(engine, drop).unwrap(),
                            whole.concat_map(|it| sync::Observable::of([it])).observe_in(engine, drop).unwrap(),
                        ];
                        (0..3).for_each(|it| subject.next(thread * round + it));
                        drop(all);
                    }
                });
            }
        });
        assert_eq!((OPEN.load(SeqCst), engine.words(), subject.observers()), (0, 0, 0));
    });
    assert_eq!(counts, (1, 1, 0));
}
