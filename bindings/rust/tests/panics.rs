//! A panic in an observer, in a function on items, in a `drop`: nothing leaks, nothing is released twice, and the panic goes on.
use cellarcliff::local::{Observable, Scope, Subject, Subscription};
use cellarcliff::Note;
use std::cell::{Cell, RefCell};
use std::panic::{catch_unwind, panic_any, resume_unwind, AssertUnwindSafe};
use std::rc::Rc;
use std::sync::atomic::{AtomicU32, Ordering::SeqCst};
use std::sync::Arc;

/// Counts how often it was dropped.
struct File(Rc<Cell<u32>>);

impl Drop for File {
    fn drop(&mut self) {
        self.0.set(self.0.get() + 1);
    }
}

fn panics(work: impl FnOnce()) -> String {
    let why = catch_unwind(AssertUnwindSafe(work)).expect_err("it panics");
    why.downcast_ref::<&str>().map(|it| it.to_string()).or_else(|| why.downcast_ref::<String>().cloned()).unwrap()
}

fn with_file(dropped: &Rc<Cell<u32>>, source: Observable<'static, i32>) -> Observable<'static, i32> {
    let dropped = dropped.clone();
    Observable::using(move || File(dropped.clone()), move |_| source.clone())
}

#[test]
fn a_panic_in_an_observer_goes_to_who_emitted_and_releases_what_it_had() {
    let (dropped, heard) = (Rc::new(Cell::new(0)), Rc::new(RefCell::new(vec![])));
    let subject = Subject::<i32>::new();
    let bad = with_file(&dropped, subject.observable()).each(|it| if it == 2 { panic!("broken") });
    let notes = heard.clone();
    let good = subject.observable().each(move |it| notes.borrow_mut().push(it));
    subject.next(1);
    assert_eq!(panics(|| subject.next(2)), "broken");
    assert_eq!((dropped.get(), subject.observers()), (1, 1));
    subject.next(3);
    assert_eq!(*heard.borrow(), [1, 2, 3], "another observer hears all");
    drop((bad, good));
    assert_eq!((dropped.get(), subject.observers()), (1, 0));
}

#[test]
fn a_panic_in_a_mapper_goes_to_who_emitted_and_releases_what_it_had() {
    let dropped = Rc::new(Cell::new(0));
    let subject = Subject::<i32>::new();
    let subscription = with_file(&dropped, subject.observable()).map(|it| if it == 2 { panic!("broken") } else { it }).each(drop);
    subject.next(1);
    assert_eq!(panics(|| subject.next(2)), "broken");
    assert_eq!((dropped.get(), subject.observers()), (1, 0));
    drop(subscription);
    assert_eq!(dropped.get(), 1);
}

#[test]
fn a_panic_in_a_function_that_makes_an_inner_observable_releases_what_it_had() {
    let dropped = Rc::new(Cell::new(0));
    let (subject, inner) = (Subject::<i32>::new(), Subject::<i32>::new());
    let (within, count) = (inner.clone(), dropped.clone());
    let _subscription = with_file(&dropped, subject.observable())
        .flat_map(move |it| if it == 2 { panic!("broken") } else { with_file(&count, within.observable()) })
        .each(drop);
    subject.next(1);
    assert_eq!(inner.observers(), 1);
    assert_eq!(panics(|| subject.next(2)), "broken");
    assert_eq!((dropped.get(), subject.observers(), inner.observers()), (2, 0, 0));
}

#[test]
fn a_panic_as_it_subscribes_leaves_nothing_open() {
    let dropped = Rc::new(Cell::new(0));
    let source = Observable::<i32>::create(|_| -> () { panic!("broken") });
    let whole = with_file(&dropped, source);
    assert_eq!(panics(|| drop(whole.each(drop))), "broken");
    assert_eq!(dropped.get(), 1);
}

struct Breaks(Rc<Cell<u32>>);

impl Drop for Breaks {
    fn drop(&mut self) {
        self.0.set(self.0.get() + 1);
        panic!("broken");
    }
}

#[test]
fn a_panic_in_a_drop_goes_on_and_the_other_resources_are_dropped_too() {
    let (dropped, broke) = (Rc::new(Cell::new(0)), Rc::new(Cell::new(0)));
    let subject = Subject::<i32>::new();
    let (source, count) = (with_file(&dropped, subject.observable()), broke.clone());
    let breaking = Observable::using(move || Breaks(count.clone()), move |_| source.clone());
    let whole = with_file(&dropped, breaking);
    let subscription = whole.each(drop);
    assert_eq!(panics(|| subscription.dispose()), "broken");
    assert_eq!((dropped.get(), broke.get(), subject.observers()), (2, 1, 0));
    whole.each(drop).detach();
    assert_eq!(panics(|| subject.completed()), "broken");
    assert_eq!((dropped.get(), broke.get()), (4, 2));
}

#[test]
fn the_first_of_two_panics_goes_on() {
    let (dropped, broke) = (Rc::new(Cell::new(0)), Rc::new(Cell::new(0)));
    let (subject, count) = (Subject::<i32>::new(), broke.clone());
    let source = with_file(&dropped, subject.observable());
    let breaking = Observable::using(move || Breaks(count.clone()), move |_| source.clone());
    let subscription = with_file(&dropped, breaking).each(|_| panic!("the observer"));
    assert_eq!(panics(|| subject.next(1)), "the observer");
    drop(subscription);
    assert_eq!((dropped.get(), broke.get(), subject.observers()), (2, 1, 0));
}

#[test]
fn what_is_disposed_of_as_a_panic_unwinds_is_released_and_that_panic_goes_on() {
    let (dropped, broke) = (Rc::new(Cell::new(0)), Rc::new(Cell::new(0)));
    let (subject, count) = (Subject::<i32>::new(), broke.clone());
    let source = with_file(&dropped, subject.observable());
    let breaking = Observable::using(move || Breaks(count.clone()), move |_| source.clone());
    let why = panics(|| {
        let scope = Scope::new().unwrap();
        breaking.observe_in(&scope, drop).unwrap().detach();
        let _subscription = breaking.each(drop);
        panic!("the program")
    });
    assert_eq!((why.as_str(), dropped.get(), broke.get(), subject.observers()), ("the program", 2, 2, 0));
}

/// Of two subscribers of a share over this way the one that is given panics at 2, and closes; the other hears each item.
fn keeps_nothing_from_the_other(
    way: fn(&Observable<'static, i32>) -> Observable<'static, i32>,
    breaking: impl Fn(&Observable<'static, i32>) -> Subscription<'static>,
) {
    let (subject, heard) = (Subject::<i32>::new(), Rc::new(RefCell::new(vec![])));
    let (shared, notes) = (way(&subject.observable()).share(), heard.clone());
    let bad = breaking(&shared);
    let _good = shared.each(move |it| notes.borrow_mut().push(it));
    subject.next(1);
    assert_eq!(panics(|| subject.next(2)), "broken");
    subject.next(3);
    assert_eq!((bad.is_closed(), heard.borrow().as_slice()), (true, [1, 2, 3].as_slice()));
}

#[test]
fn a_panic_of_one_subscriber_of_a_share_keeps_nothing_from_a_root_of_an_operators_own() {
    let ways: [fn(&Observable<'static, i32>) -> Observable<'static, i32>; 3] =
        [|it| it.tap(|_| ()), |it| it.retry(3), |it| it.materialize().dematerialize()];
    for way in ways {
        keeps_nothing_from_the_other(way, |shared| shared.map(|it| if it == 2 { panic_any("broken") }).each(drop));
    }
}

#[test]
fn a_drop_that_panics_leaves_open_nothing_that_is_joined_below_it() {
    let subject = Subject::<i32>::new();
    let both = Observable::combine_latest([subject.observable(), subject.observable(), subject.observable()]);
    let subscription = Observable::using(|| Loud(2), move |_| both.concat_with(Observable::never())).each(drop);
    assert_eq!((subject.observers(), panics(|| drop(subscription)).as_str(), subject.observers()), (3, "broken", 0));
}

#[test]
fn a_panic_in_a_function_that_makes_a_source_goes_on_though_the_drop_of_its_resource_panics_too() {
    struct Broken(Rc<Cell<u32>>);
    impl Drop for Broken {
        fn drop(&mut self) {
            self.0.set(self.0.get() + 1);
            panic_any("a drop")
        }
    }
    let dropped = Rc::new(Cell::new(0));
    let count = dropped.clone();
    let using = Observable::<i32>::using(move || Broken(count.clone()), |_| panic_any("a source"));
    assert_eq!((panics(|| using.each(drop).detach()).as_str(), dropped.get()), ("a source", 1));
}

#[test]
fn a_panic_as_a_source_is_connected_leaves_nothing_open() {
    let scope = Scope::new().unwrap();
    let published = Observable::<i32>::using(|| (), |_| panic_any("a source")).publish();
    assert_eq!((panics(|| drop(published.connect_in(&scope))).as_str(), scope.totals().nodes), ("a source", 0));
}

#[test]
fn a_panic_of_one_subscriber_of_a_share_keeps_nothing_that_an_inner_observable_tells_at_once_from_the_other() {
    let ways: [fn(&Observable<'static, i32>) -> Observable<'static, i32>; 5] = [
        |it| it.share().flat_map(|it| Observable::of([it])),
        |it| it.flat_map(|it| Observable::of([it])),
        |it| it.switch_map(|it| Observable::of([it])),
        |it| it.concat_map(|it| Observable::of([it])),
        |it| it.flat_map_at_most(2, |it| Observable::of([it])),
    ];
    for way in ways {
        keeps_nothing_from_the_other(way, |shared| shared.each(|it| if it == 2 { panic_any("broken") }));
    }
}

#[test]
fn a_panic_of_one_subscriber_of_a_share_keeps_nothing_from_the_other() {
    let (dropped, heard) = (Rc::new(Cell::new(0)), Rc::new(RefCell::new(vec![])));
    let (subject, notes) = (Subject::<i32>::new(), heard.clone());
    let shared = with_file(&dropped, subject.observable()).share();
    let bad = [shared.each(|it| if it == 2 { panic!("broken") }), shared.map(|it| if it == 3 { panic!("broken") }).each(drop)];
    let good = shared.flat_map(|it| Observable::of([it, it])).each(move |it| notes.borrow_mut().push(it));
    subject.next(1);
    assert_eq!(panics(|| subject.next(2)), "broken");
    assert_eq!(panics(|| subject.next(3)), "broken");
    subject.next(4);
    assert_eq!((heard.borrow().as_slice(), dropped.get()), (&[1, 1, 2, 2, 3, 3, 4, 4][..], 0));
    assert!(bad.iter().all(|it| it.is_closed()));
    drop(good);
    assert_eq!((dropped.get(), subject.observers()), (1, 0));
}

/// Drops loudly, if it is told so.
#[derive(Clone)]
struct Loud(i32);

impl Drop for Loud {
    fn drop(&mut self) {
        if self.0 == 2 && !std::thread::panicking() {
            panic!("broken")
        }
    }
}

type Makes = Box<dyn Fn(&Observable<'static, i32>) -> Observable<'static, i32>>;

/// Each operator with a function that panics at 2.
fn breaking(dropped: &Rc<Cell<u32>>) -> Vec<(&'static str, Makes)> {
    let broken = |it: i32| if it == 2 { panic!("broken") } else { it };
    let count = dropped.clone();
    let inner = move |it: i32| with_file(&count, Observable::of([broken(it)]));
    let [one, two, three, four] = [(); 4].map(|()| inner.clone());
    vec![
        ("filter", Box::new(move |it| it.filter(move |it| broken(*it) > 0))),
        ("scan", Box::new(move |it| it.scan(0, move |sum, it| sum + broken(it)))),
        ("inspect", Box::new(move |it| it.inspect(move |it| _ = broken(*it)))),
        ("skip_while", Box::new(move |it| it.skip_while(move |it| broken(*it) > 0))),
        ("take_while", Box::new(move |it| it.take_while(move |it| broken(*it) > 0))),
        ("distinct_by", Box::new(move |it| it.distinct_by(move |it| broken(*it)))),
        ("distinct_until_changed_by", Box::new(move |it| it.distinct_until_changed_by(move |it| broken(*it)))),
        ("fold", Box::new(move |it| it.fold(0, move |sum, it| sum + broken(it)))),
        ("reduce", Box::new(move |it| it.reduce(move |sum, it| sum + broken(it)))),
        ("tap", Box::new(move |it| it.tap(move |note| if let Note::Next(it) = note { broken(*it); }))),
        ("take_until", Box::new(move |it| it.take_until(it.map(broken).filter(|it| *it > 5)))),
        ("retry", Box::new(move |it| it.map(broken).retry(None))),
        ("zip_with", Box::new(move |it| it.zip_with(&it.map(broken)).map(|it| it.0))),
        ("combine_latest_with", Box::new(move |it| it.map(broken).combine_latest_with(it).map(|it| it.0))),
        ("with_latest_from", Box::new(move |it| it.with_latest_from(&it.map(broken)).map(|it| it.0))),
        ("flat_map", Box::new(move |it| it.flat_map(one.clone()))),
        ("switch_map", Box::new(move |it| it.switch_map(two.clone()))),
        ("concat_map", Box::new(move |it| it.concat_map(three.clone()))),
        ("flat_map_at_most", Box::new(move |it| it.flat_map_at_most(2, four.clone()))),
        ("defer", Box::new(move |it| it.flat_map(move |it| Observable::defer(move || Observable::of([broken(it)]))))),
        ("using", Box::new(move |it| it.flat_map(move |it| Observable::using(move || broken(it), |it| Observable::of([*it]))))),
        ("create", Box::new(move |it| it.flat_map(move |it| Observable::create(move |to| to.next(broken(it)))))),
        ("finalize", Box::new(move |it| it.flat_map(move |it| Observable::of([it]).finalize(move || _ = broken(it))))),
        ("a drop of an item", Box::new(move |it| it.map(Loud).filter(|it| it.0 != 2).map(|it| it.0))),
    ]
}

#[test]
fn a_panic_in_any_function_of_an_operator_releases_what_it_had() {
    let dropped = Rc::new(Cell::new(0));
    for (name, make) in breaking(&dropped).into_iter().chain(breaking(&dropped).into_iter().map(|(name, make)| {
        let shared: Makes = Box::new(move |it| make(it).share());
        (name, shared)
    })) {
        dropped.set(0);
        let subject = Subject::<i32>::new();
        let subscription = make(&with_file(&dropped, subject.observable())).each(drop);
        subject.next(1);
        let before = dropped.get();
        assert_eq!(panics(|| subject.next(2)), "broken", "{name}");
        assert!(name == "finalize" || subscription.is_closed(), "{name}"); // a release that panics ends nothing
        drop(subscription);
        assert!(subject.observers() == 0 && dropped.get() > before, "{name}");
        let at_the_end = dropped.get();
        subject.next(3);
        assert_eq!(dropped.get(), at_the_end, "{name}");
    }
}

/// A payload that panics as it is dropped.
struct Payload;

impl Drop for Payload {
    fn drop(&mut self) {
        panic!("the payload")
    }
}

#[test]
fn a_second_panic_whose_payload_panics_is_no_end_of_the_program() {
    struct Bad(Rc<Cell<u32>>);
    impl Drop for Bad {
        fn drop(&mut self) {
            self.0.set(self.0.get() + 1);
            panic_any(Payload)
        }
    }
    let (subject, count) = (Subject::<i32>::new(), Rc::new(Cell::new(0)));
    let (source, kept) = (subject.observable(), count.clone());
    let whole = Observable::using(move || Bad(kept.clone()), move |_| source.clone());
    let subscription = whole.each(|_| panic!("the observer"));
    assert_eq!(panics(|| subject.next(1)), "the observer");
    drop(subscription);
    assert_eq!((count.get(), subject.observers()), (1, 0));
}

#[test]
fn a_panic_above_a_share_closes_whatever_subscribed_and_above_a_publication_its_connection() {
    let subject = Subject::<i32>::new();
    let broken = subject.observable().map(|it| if it == 2 { panic_any("broken") } else { it });
    let (shared, published, heard) = (broken.share(), broken.publish(), Rc::new(Cell::new(0)));
    let (one, two) = (heard.clone(), heard.clone());
    let all = [shared.each(drop), shared.take(9).each(drop), shared.zip_with(&subject.observable()).each(drop)];
    let waits = published.observable().each(move |it| one.set(it));
    let ref_counted = published.ref_count().each(move |it| two.set(it));
    published.connect();
    assert_eq!((panics(|| subject.next(2)).as_str(), subject.observers()), ("broken", 0));
    assert!(all.iter().all(Subscription::is_closed) && ref_counted.is_closed() && !waits.is_closed());
    published.connect();
    let _again = shared.each(drop);
    subject.next(3);
    assert_eq!((heard.get(), subject.observers()), (3, 2));
}

#[test]
fn a_panic_of_one_subscriber_keeps_neither_the_end_nor_the_next_item_of_a_shared_source_from_the_other() {
    let subject = Subject::<i32>::new();
    let ends: [Makes; 3] = [
        Box::new(|it| it.take(2)),
        Box::new(|it| it.take_through(|it| *it == 2)),
        Box::new(|it| it.flat_map(|it| Observable::of([it, 2])).take(2)),
    ];
    for make in ends {
        let (published, heard) = (make(&subject.observable()).publish(), Rc::new(RefCell::new(vec![])));
        let notes = heard.clone();
        let _bad = published.observable().each(|it| if it == 2 { panic_any("broken") });
        let _good = published.observable().observe(move |it| notes.borrow_mut().push(it));
        published.connect();
        assert_eq!(panics(|| [1, 2].into_iter().for_each(|it| subject.next(it))), "broken");
        assert_eq!((heard.take(), subject.observers()), (vec![Note::Next(1), Note::Next(2), Note::Completed], 0));
    }
    let (published, heard) = (Observable::<i32>::of([1, 2]).publish(), Rc::new(RefCell::new(vec![])));
    let notes = heard.clone();
    let _bad = published.observable().each(|_| panic_any("broken"));
    let _good = published.observable().observe(move |it| notes.borrow_mut().push(it));
    assert_eq!(panics(|| _ = published.connect()), "broken");
    assert_eq!(heard.take(), [Note::Next(1), Note::Next(2), Note::Completed]);
}

#[test]
fn whatever_subscribed_to_a_share_whose_source_panics_as_it_is_subscribed_to_is_closed() {
    let (again, kept) = (Rc::new(RefCell::new(None::<Observable<'static, i32>>)), Rc::new(RefCell::new(None)));
    let (within, holder) = (again.clone(), kept.clone());
    let source = Observable::<i32>::create(move |_| {
        let shared = within.borrow_mut().take();
        *holder.borrow_mut() = shared.map(|it| it.each(drop));
        panic_any("broken")
    });
    let shared = source.share();
    *again.borrow_mut() = Some(shared.clone());
    assert_eq!(panics(|| shared.each(drop).detach()), "broken");
    assert!(kept.borrow().as_ref().is_some_and(Subscription::is_closed));
}

#[test]
fn whatever_subscribes_as_the_others_of_a_share_are_closed_is_connected_anew() {
    let (subject, kept) = (Subject::<i32>::new(), Rc::new(RefCell::new(None)));
    let shared = subject.observable().flat_map(|it| Observable::of([if it == 1 { panic_any("broken") } else { it }])).share();
    let (again, holder) = (shared.clone(), kept.clone());
    let first = shared.finalize(move || *holder.borrow_mut() = Some(again.channel())).each(drop);
    let second = shared.each(drop);
    assert_eq!(panics(|| subject.next(1)), "broken");
    assert!(first.is_closed() && second.is_closed());
    subject.next(2);
    subject.completed();
    assert_eq!(kept.take().unwrap().1.iter().collect::<Vec<_>>(), [Note::Next(2), Note::Completed]);
}

#[test]
fn drops_that_panic_as_their_thread_ends_go_no_further() {
    struct Breaks(Arc<AtomicU32>);
    impl Drop for Breaks {
        fn drop(&mut self) {
            self.0.fetch_add(1, SeqCst);
            resume_unwind(Box::new("broken"))
        }
    }
    let dropped = Arc::new(AtomicU32::new(0));
    let count = dropped.clone();
    let leaves_open = move || (0..3).for_each(|_| {
        let count = count.clone();
        Observable::<i32>::never().holding(move || Breaks(count.clone())).each(drop).detach()
    });
    std::thread::spawn(leaves_open).join().unwrap();
    assert_eq!(dropped.load(SeqCst), 3);
}

#[test]
fn a_function_that_remembers_and_emits_into_its_own_source_panics() {
    let subject = cellarcliff::sync::Subject::<i32>::new();
    let within = subject.clone();
    let _subscription = subject.observable().scan(0, move |sum, it| (within.next(it), sum + it).1).each(drop);
    assert_eq!(panics(|| subject.next(1)), "a function that remembers emits into its own source");
    assert_eq!(subject.observers(), 0);
}

#[test]
fn an_item_or_an_error_that_cannot_be_cloned_closes_the_subscription_that_it_was_for() {
    /// As often as it can be cloned.
    struct Rare(Rc<Cell<u32>>);
    impl Clone for Rare {
        fn clone(&self) -> Self {
            self.0.set(self.0.get().checked_sub(1).unwrap_or_else(|| panic_any("no more")));
            Rare(self.0.clone())
        }
    }
    let (dropped, heard) = (Rc::new(Cell::new(0)), Rc::new(Cell::new(0)));
    for is_error in [false, true] {
        let subject = Subject::<Rare, Rare>::new();
        let (source, count, many) = (subject.observable(), dropped.clone(), heard.clone());
        let first = source.holding(move || File(count.clone())).observe(drop);
        let _second = source.observe(move |_| many.set(many.get() + 1));
        // what a subject remembers of its end is a copy too
        let rare = Rare(Rc::new(Cell::new(is_error as u32)));
        let message = panics(|| if is_error { subject.error(rare) } else { subject.next(rare) });
        assert_eq!((message.as_str(), first.is_closed(), dropped.get(), subject.observers()), ("no more", true, 1, !is_error as usize));
        dropped.set(0);
    }
    assert_eq!(heard.get(), 1, "of the error no copy is left");
}
