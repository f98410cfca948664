//! Roots that are a leaf alone: no engine has them until they hold something.
use cellarcliff::{local, sync, Note, Refusal};
use std::cell::{Cell, RefCell};
use std::panic::{catch_unwind, AssertUnwindSafe};
use std::rc::Rc;
use std::sync::atomic::{AtomicUsize, Ordering::SeqCst};
use std::sync::{Arc, Mutex};

/// Counts how often it was dropped.
struct File(Arc<AtomicUsize>);

impl Drop for File {
    fn drop(&mut self) {
        self.0.fetch_add(1, SeqCst);
    }
}

/// A source that keeps who subscribed.
fn kept() -> (local::Observable<'static, i32>, Rc<RefCell<Option<local::Emitter<'static, i32>>>>) {
    let kept = Rc::new(RefCell::new(None));
    let keeps = kept.clone();
    (local::Observable::create(move |to| drop(keeps.borrow_mut().replace(to))), kept)
}

/// An observer that writes down what it hears, behind what it does.
fn hears(does: impl Fn(i32) + 'static) -> (impl FnMut(Note<i32>) + 'static, Rc<RefCell<Vec<Note<i32>>>>) {
    let heard = Rc::new(RefCell::new(vec![]));
    let notes = heard.clone();
    let observer = move |note| {
        if let Note::Next(it) = note {
            does(it)
        }
        notes.borrow_mut().push(note)
    };
    (observer, heard)
}

#[test]
fn it_is_counted_and_no_command_is_made_of_its_items() {
    let scope = local::Scope::new().unwrap();
    let subject = local::Subject::<i32>::new();
    let subscription = subject.observable().map(|it| it + 1).observe_in(&scope, drop).unwrap();
    let before = scope.totals();
    (0..10).for_each(|it| subject.next(it));
    assert_eq!((scope.totals(), before.nodes, scope.words()), (before, 1, 1));
    drop(subscription);
    assert_eq!((scope.totals().nodes, scope.words(), subject.observers()), (0, 0, 0));
}

#[test]
fn a_resource_that_it_holds_while_its_observer_is_told_keeps_the_order_and_is_dropped_behind_the_end() {
    let (dropped, scope) = (Arc::new(AtomicUsize::new(0)), local::Scope::new().unwrap());
    let (source, to) = kept();
    let (within, count) = (to.clone(), dropped.clone());
    let (observer, heard) = hears(move |it| {
        let to = within.borrow().clone().unwrap();
        match it {
            1 => {
                to.next(2);
                to.hold(File(count.clone()));
                to.next(3);
            }
            3 => to.next(4),
            4 => to.completed(),
            _ => (),
        }
    });
    let subscription = source.observe_in(&scope, observer).unwrap();
    let emitter = to.borrow().clone().unwrap();
    emitter.next(1);
    let all = [Note::Next(1), Note::Next(2), Note::Next(3), Note::Next(4), Note::Completed];
    assert_eq!((&heard.borrow()[..], subscription.is_closed()), (&all[..], true));
    assert_eq!((scope.totals().accepted, scope.totals().held, scope.words()), (1, 0, 0), "the engine had it");
    emitter.hold(File(dropped.clone()));
    assert_eq!(dropped.load(SeqCst), 2, "what comes behind the end is dropped at once");
}

#[test]
fn what_it_holds_and_disposes_of_within_its_observer_is_dropped_as_that_returns() {
    let dropped = Arc::new(AtomicUsize::new(0));
    let (source, to) = kept();
    let subscription = Rc::new(RefCell::new(None::<local::Subscription>));
    let (within, count, holder) = (to.clone(), dropped.clone(), subscription.clone());
    let (observer, heard) = hears(move |_| {
        let to = within.borrow().clone().unwrap();
        to.hold(File(count.clone()));
        to.next(2);
        drop(holder.borrow_mut().take());
        assert!(to.is_closed());
        assert_eq!(count.load(SeqCst), 1);
    });
    let scope = local::Scope::new().unwrap();
    subscription.borrow_mut().replace(source.observe_in(&scope, observer).unwrap());
    let emitter = to.borrow().clone().unwrap();
    emitter.next(1);
    assert_eq!((&heard.borrow()[..], scope.words(), scope.totals().nodes), (&[Note::Next(1)][..], 0, 0));
}

#[test]
fn what_ends_within_its_observer_is_closed_at_once_and_hears_its_end_behind() {
    let (source, to) = kept();
    let within = to.clone();
    let (observer, heard) = hears(move |it| {
        let to = within.borrow().clone().unwrap();
        if it == 1 {
            to.next(2);
            to.completed();
            to.next(3);
            assert!(to.is_closed());
        }
    });
    let subscription = source.observe(observer);
    let emitter = to.borrow().clone().unwrap();
    emitter.next(1);
    assert_eq!((&heard.borrow()[..], subscription.is_closed()), (&[Note::Next(1), Note::Next(2), Note::Completed][..], true));
}

#[test]
fn a_panic_of_its_observer_closes_it_and_what_waits_is_not_told() {
    let (source, to) = kept();
    let (within, told) = (to.clone(), Rc::new(Cell::new(0)));
    let count = told.clone();
    let subscription = source.each(move |it| {
        count.set(count.get() + 1);
        if it == 1 {
            let to = within.borrow().clone().unwrap();
            [2, 3].into_iter().for_each(|it| to.next(it));
        } else {
            std::panic::panic_any("broken")
        }
    });
    let emitter = to.borrow().clone().unwrap();
    let done = catch_unwind(AssertUnwindSafe(|| emitter.next(1)));
    assert_eq!((done.unwrap_err().downcast_ref(), told.get()), (Some(&"broken"), 2));
    assert!(subscription.is_closed() && emitter.is_closed());
}

#[test]
fn a_scope_that_is_shut_closes_it_and_drops_its_observer() {
    let (dropped, scope) = (Arc::new(AtomicUsize::new(0)), local::Scope::new().unwrap());
    let subject = local::Subject::<i32>::new();
    for _ in 0..3 {
        let file = File(dropped.clone());
        subject.observable().observe_in(&scope, move |_| _ = &file).unwrap().detach();
    }
    scope.shut();
    assert_eq!((dropped.load(SeqCst), subject.observers(), scope.words()), (3, 0, 0));
    subject.observable().observe_in(&scope, drop).unwrap().detach();
    drop(scope);
    assert_eq!(subject.observers(), 0);
}

#[test]
fn a_root_that_came_to_hold_something_drops_its_observer_as_it_is_disposed_of() {
    let dropped = Arc::new(AtomicUsize::new(0));
    let (source, to) = kept();
    let file = File(dropped.clone());
    let subscription = source.each(move |_| _ = &file);
    let emitter = to.borrow_mut().take().unwrap();
    emitter.hold(File(dropped.clone()));
    subscription.dispose();
    assert_eq!((dropped.load(SeqCst), emitter.is_closed()), (2, true), "though its emitter is kept");
}

/// As it is dropped it holds a resource for a source, which finds that closed.
struct Holds(local::Emitter<'static, i32>, Rc<Cell<u32>>);

struct Finds(local::Emitter<'static, i32>, Rc<Cell<u32>>);

impl Drop for Holds {
    fn drop(&mut self) {
        self.0.hold(Finds(self.0.clone(), self.1.clone()))
    }
}

impl Drop for Finds {
    fn drop(&mut self) {
        assert!(self.0.is_closed());
        self.1.set(self.1.get() + 1)
    }
}

#[test]
fn what_is_held_for_another_as_a_scope_is_shut_finds_its_source_closed() {
    let (scope, many) = (local::Scope::new().unwrap(), Rc::new(Cell::new(0)));
    let ((one, to_one), (other, to_other)) = (kept(), kept());
    let [first, second] = [(); 2].map(|()| Rc::new(RefCell::new(None::<Holds>)));
    let keeps = |it: &Rc<RefCell<Option<Holds>>>| {
        let it = it.clone();
        move |_| _ = it.borrow().is_some()
    };
    one.observe_in(&scope, keeps(&first)).unwrap().detach();
    other.observe_in(&scope, keeps(&second)).unwrap().detach();
    first.borrow_mut().replace(Holds(to_other.borrow_mut().take().unwrap(), many.clone()));
    second.borrow_mut().replace(Holds(to_one.borrow_mut().take().unwrap(), many.clone()));
    drop((first, second));
    scope.shut();
    assert_eq!((many.get(), scope.words()), (2, 0));
}

#[test]
fn what_the_engine_cannot_open_as_it_holds_something_is_closed() {
    let refusing = (1..400).map_while(|room| local::Scope::with_room(room).ok());
    let (mut refused, mut closed) = (0, 0);
    for scope in refusing {
        let dropped = Arc::new(AtomicUsize::new(0));
        let (source, to) = kept();
        let alone = source.observe_in(&scope, drop).unwrap();
        let full = (0..400).map_while(|_| local::Observable::<i32>::never().holding(|| ()).observe_in(&scope, drop).ok()).collect::<Vec<_>>();
        if full.len() == 400 {
            break;
        }
        let emitter = to.borrow().clone().unwrap();
        let done = catch_unwind(AssertUnwindSafe(|| emitter.hold(File(dropped.clone()))));
        let Err(why) = done else { continue };
        assert_eq!(why.downcast_ref::<String>(), Some(&format!("the engine refuses a call: {:?}", Refusal::Full)));
        assert_eq!((dropped.load(SeqCst), alone.is_closed()), (1, emitter.is_closed()));
        closed += alone.is_closed() as usize; // or there was room for all but the resource
        drop((full, alone));
        assert_eq!(scope.words(), 0);
        refused += 1;
    }
    assert!(closed > 0 && closed < refused, "{closed} of {refused}");
}

#[test]
fn a_root_that_is_disposed_of_while_another_thread_tells_it_drops_its_observer() {
    for _ in 0..300 {
        let (dropped, kept) = (Arc::new(AtomicUsize::new(0)), Arc::new(Mutex::new(None)));
        let (file, keeps) = (File(dropped.clone()), kept.clone());
        let source = sync::Observable::<usize>::create(move |to| drop(keeps.lock().unwrap().replace(to)));
        let subscription = source.each(move |_| _ = &file);
        let to: sync::Emitter<usize> = kept.lock().unwrap().take().unwrap();
        std::thread::scope(|scope| {
            scope.spawn(|| (0..20).for_each(|it| to.next(it)));
            scope.spawn(|| subscription.dispose());
        });
        assert_eq!((dropped.load(SeqCst), to.is_closed()), (1, true), "though its emitter is kept");
    }
}

#[test]
fn threads_that_emit_while_it_comes_to_hold_something_keep_their_order() {
    for round in 0..200 {
        let (heard, kept, dropped) = (Arc::new(Mutex::new(vec![])), Arc::new(Mutex::new(None)), Arc::new(AtomicUsize::new(0)));
        let (notes, keeps) = (heard.clone(), kept.clone());
        let source = sync::Observable::<usize>::create(move |to| drop(keeps.lock().unwrap().replace(to)));
        let subscription = source.each(move |it| notes.lock().unwrap().push(it));
        let to: sync::Emitter<usize> = kept.lock().unwrap().take().unwrap();
        std::thread::scope(|scope| {
            for thread in 0..4 {
                let (to, dropped) = (to.clone(), dropped.clone());
                scope.spawn(move || {
                    for it in 0..50 {
                        if thread == 0 && it == round % 50 {
                            to.hold(File(dropped.clone()))
                        }
                        to.next(thread * 50 + it)
                    }
                });
            }
        });
        to.completed();
        assert_eq!((dropped.load(SeqCst), subscription.is_closed()), (1, true));
        let heard = heard.lock().unwrap();
        for thread in 0..4 {
            let of = heard.iter().copied().filter(|it| it / 50 == thread);
            assert!(of.eq(thread * 50..(thread + 1) * 50), "each once and in order: {heard:?}");
        }
    }
}
