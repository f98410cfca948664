//! Observers that emit, subscribe, dispose and complete from within.
use cellarcliff::{local, Note};
use std::cell::{Cell, RefCell};
use std::rc::Rc;

/// Counts how often it was dropped.
struct File(Rc<Cell<u32>>);

impl Drop for File {
    fn drop(&mut self) {
        self.0.set(self.0.get() + 1);
    }
}

fn with_file(dropped: &Rc<Cell<u32>>, source: local::Observable<'static, i32>) -> local::Observable<'static, i32> {
    let dropped = dropped.clone();
    local::Observable::using(move || File(dropped.clone()), move |_| source.clone())
}

#[test]
fn an_observer_that_emits_from_within_is_told_behind_what_it_hears() {
    let subject = local::Subject::<i32>::new();
    let (heard, within) = (Rc::new(RefCell::new(vec![])), subject.clone());
    let notes = heard.clone();
    let _subscription = subject.observable().each(move |it| {
        if it < 5 {
            within.next(it + 1);
        }
        notes.borrow_mut().push(it);
    });
    subject.next(1);
    assert_eq!(*heard.borrow(), [1, 2, 3, 4, 5]);
}

#[test]
fn an_item_that_is_emitted_as_a_shared_one_is_told_keeps_that_from_nobody() {
    let (subject, other) = (local::Subject::<i32>::new(), local::Subject::<i32>::new());
    let shared = subject.observable().share();
    let (heard, within) = (Rc::new(RefCell::new(vec![])), other.clone());
    let (one, two) = (heard.clone(), heard.clone());
    let _one = shared.each(move |it| {
        one.borrow_mut().push(('A', it));
        if it == 1 {
            within.next(2)
        }
    });
    let _two = shared.merge_with(&other.observable()).each(move |it| two.borrow_mut().push(('B', it)));
    subject.next(1);
    subject.next(3);
    assert_eq!(*heard.borrow(), [('A', 1), ('B', 2), ('B', 1), ('A', 3), ('B', 3)]);
}

#[test]
fn an_observer_that_disposes_from_within_has_released_as_that_returns() {
    let (dropped, kept) = (Rc::new(Cell::new(0)), Rc::new(RefCell::new(None::<local::Subscription>)));
    let subject = local::Subject::<i32>::new();
    let (holder, count, told) = (kept.clone(), dropped.clone(), Rc::new(Cell::new(0)));
    let many = told.clone();
    let subscription = with_file(&dropped, subject.observable()).each(move |_| {
        many.set(many.get() + 1);
        drop(holder.borrow_mut().take());
        assert_eq!(count.get(), 1);
    });
    *kept.borrow_mut() = Some(subscription);
    subject.next(1);
    subject.next(2);
    assert_eq!((told.get(), dropped.get()), (1, 1));
}

#[test]
fn an_observer_that_completes_its_source_and_subscribes_again_hears_both() {
    let subject = local::Subject::<i32>::new();
    let (heard, within, kept) = (Rc::new(RefCell::new(vec![])), subject.clone(), Rc::new(RefCell::new(vec![])));
    let (notes, holder) = (heard.clone(), kept.clone());
    let _subscription = subject.observable().observe(move |note| {
        if note == Note::Next(1) {
            let notes = notes.clone();
            holder.borrow_mut().push(within.observable().observe(move |note| notes.borrow_mut().push((2, note))));
            within.completed();
        }
        notes.borrow_mut().push((1, note));
    });
    subject.next(1);
    let mut heard = heard.borrow().clone();
    heard.sort_by_key(|it| it.0);
    assert_eq!(heard, [(1, Note::Next(1)), (1, Note::Completed), (2, Note::Completed)]);
}

#[test]
fn an_error_behind_the_end_may_subscribe_as_it_is_dropped() {
    type Broken = local::Subject<'static, i32, Again>;
    #[derive(Clone)]
    struct Again(Rc<RefCell<Option<Broken>>>);
    impl Drop for Again {
        fn drop(&mut self) {
            let subject = self.0.borrow_mut().take();
            subject.into_iter().for_each(|it| it.observable().each(drop).detach());
        }
    }
    let (subject, again) = (Broken::new(), Again(Rc::default()));
    subject.error(again.clone());
    *again.0.borrow_mut() = Some(subject.clone());
    subject.error(again.clone());
    assert!(again.0.borrow().is_none() && subject.observers() == 0);
}

#[test]
fn what_borrows_from_the_stack_is_observed_within_a_scope() {
    let (total, text) = (Cell::new(0), String::from("abc"));
    {
        let scope = local::Scope::new().unwrap();
        let subject = local::Subject::<usize>::new();
        let longer = subject.observable().map(|it| it + text.len());
        let subscription = longer.observe_in(&scope, |note| if let Note::Next(it) = note { total.set(total.get() + it) }).unwrap();
        subject.next(1);
        subscription.detach();
        subject.next(2);
    }
    assert_eq!(total.get(), 9);
}
