//! What the shared cases cannot say: types of items and errors, what borrows, channels, memory, and storms of threads.
use cellarcliff::{local, sync, Note};
use std::alloc::{GlobalAlloc, Layout, System};
use std::cell::Cell;
use std::rc::Rc;
use std::sync::atomic::{AtomicIsize, AtomicUsize, Ordering::SeqCst};

/// Counts the bytes that are in use.
struct Counting;
static IN_USE: AtomicIsize = AtomicIsize::new(0);

unsafe impl GlobalAlloc for Counting {
    unsafe fn alloc(&self, layout: Layout) -> *mut u8 {
        IN_USE.fetch_add(layout.size() as isize, SeqCst);
        System.alloc(layout)
    }
    unsafe fn dealloc(&self, at: *mut u8, layout: Layout) {
        IN_USE.fetch_sub(layout.size() as isize, SeqCst);
        System.dealloc(at, layout)
    }
}

#[global_allocator]
static COUNTING: Counting = Counting;

#[derive(Debug, PartialEq, Clone)]
enum Broken {
    Parse(String),
}

#[test]
fn items_and_errors_are_of_any_type() {
    let words = local::Subject::<&'static str, std::num::ParseIntError>::new();
    let numbers = words.observable().try_map(|it| it.parse::<u32>()).map_err(|why| Broken::Parse(why.to_string()));
    let (_subscription, heard) = numbers.scan(Vec::new(), |all, it| [all.clone(), vec![it]].concat()).channel();
    ["1", "2", "x", "3"].into_iter().for_each(|it| words.next(it));
    let wanted = [Note::Next(vec![1]), Note::Next(vec![1, 2]), Note::Error(Broken::Parse("invalid digit found in string".into()))];
    assert_eq!(heard.try_iter().collect::<Vec<_>>(), wanted);
    assert_eq!(words.observers(), 0);
}

#[test]
fn an_item_that_cannot_be_cloned_goes_through() {
    struct Once(u32);
    let heard = Rc::new(Cell::new(0));
    let sum = heard.clone();
    let source = local::Observable::<Once>::create(|to| (1..4).for_each(|it| to.next(Once(it))));
    let inner = source.flat_map(|it| local::Observable::create(move |to| to.next(Once(it.0 * 10))));
    let _subscription = inner.filter(|it| it.0 != 20).each(move |it| sum.set(sum.get() + it.0));
    assert_eq!(heard.get(), 40);
}

#[test]
fn a_shared_source_is_subscribed_to_once_and_a_tree_in_another_scope_may_use_it() {
    let subject = local::Subject::<u32>::new();
    let shared = subject.observable().share();
    let (one, first) = shared.channel();
    let (scope, sum) = (local::Scope::new().unwrap(), Rc::new(Cell::new(0)));
    let total = sum.clone();
    let two = shared.flat_map(|it| local::Observable::of([it, it])).take(3);
    let subscription = two.observe_in(&scope, move |it| if let Note::Next(it) = it { total.set(total.get() + it) }).unwrap();
    assert_eq!(subject.observers(), 1);
    (1..4).for_each(|it| subject.next(it));
    assert_eq!((sum.get(), subscription.is_closed()), (4, true));
    drop(one);
    assert_eq!((subject.observers(), scope.words(), first.try_iter().count()), (0, 0, 3));
}

#[test]
fn what_shares_the_source_of_another_scope_is_closed_with_that() {
    let subject = local::Subject::<u32>::new();
    let shared = subject.observable().share();
    let (first, second) = (local::Scope::new().unwrap(), local::Scope::new().unwrap());
    let all = [shared.observe_in(&first, drop), shared.observe_in(&second, drop), shared.map(|it| it + 1).observe_in(&second, drop)];
    drop(first);
    assert!(all.iter().all(|it| it.as_ref().is_ok_and(|it| it.is_closed())));
    assert_eq!((second.words(), subject.observers()), (0, 0));
}

#[test]
fn a_resource_that_cannot_be_had_is_an_error_and_releases_those_around_it() {
    struct File(Rc<Cell<i32>>);
    impl Drop for File {
        fn drop(&mut self) {
            self.0.set(self.0.get() - 1);
        }
    }
    let open = Rc::new(Cell::new(0));
    let (outer, inner) = (open.clone(), open.clone());
    let acquire = move || {
        outer.set(outer.get() + 1);
        File(outer.clone())
    };
    let second = local::Observable::<u32, &str>::try_using(
        move || if inner.get() == 1 { Err("there is none") } else { Ok(()) }, |_| Ok(local::Observable::never()),
    );
    let whole = local::Observable::using(acquire, move |_| second.clone());
    let (subscription, heard) = whole.channel();
    assert_eq!((heard.iter().collect::<Vec<_>>(), subscription.is_closed(), open.get()), (vec![Note::Error("there is none")], true, 0));
}

#[test]
fn at_most_two_inner_observables_are_open_at_a_time() {
    let (subject, inner) = (local::Subject::<usize>::new(), [(); 4].map(|()| local::Subject::<usize>::new()));
    let sources = inner.clone().map(|it| it.observable());
    let (_subscription, heard) = subject.observable().flat_map_at_most(2, move |it| sources[it].clone()).items();
    let open = || [0, 1, 2, 3].map(|it| inner[it].observers());
    (0..4).for_each(|it| subject.next(it));
    assert_eq!(open(), [1, 1, 0, 0]);
    inner[1].completed();
    assert_eq!(open(), [1, 0, 1, 0]);
    (0..4).for_each(|it| inner[it].next(it));
    inner[0].completed();
    inner[2].completed();
    subject.completed();
    assert_eq!(open(), [0, 0, 0, 1]);
    inner[3].next(3);
    inner[3].completed();
    assert_eq!(heard.iter().collect::<Vec<_>>(), [0, 2, 3]);
}

#[test]
fn what_threads_share_may_go_to_each_of_them() {
    fn fits<T: Send + Sync>() {}
    fits::<sync::Observable<'static, Cell<u8>, Cell<u8>>>();
    fits::<sync::Subject<'static, Cell<u8>>>();
    fits::<sync::Emitter<'static, Cell<u8>>>();
    fits::<sync::Subscription<'static>>();
    fits::<sync::Scope<'static>>();
    fits::<sync::Connectable<'static, u8>>();
}

#[test]
fn a_connection_is_made_and_ended_by_hand() {
    let subject = local::Subject::<u32>::new();
    let published = subject.observable().publish();
    let (_one, heard) = published.observable().map(|it| it + 1).channel();
    subject.next(1);
    let connection = published.connect();
    subject.next(2);
    published.connect().disconnect();
    subject.next(3);
    connection.disconnect();
    assert_eq!((heard.try_iter().collect::<Vec<_>>(), subject.observers()), (vec![Note::Next(3)], 0));
}

#[test]
fn a_scope_that_is_dropped_releases_all_and_keeps_no_word() {
    struct File<'a>(&'a Cell<u32>);
    impl Drop for File<'_> {
        fn drop(&mut self) {
            self.0.set(self.0.get() + 1);
        }
    }
    let dropped = Cell::new(0);
    {
        let (scope, subject) = (local::Scope::new().unwrap(), local::Subject::<u32>::new());
        let source = subject.observable();
        let file = local::Observable::using(|| File(&dropped), move |_| source.clone());
        let inner = file.clone();
        for whole in [file.clone(), file.concat_map(move |_| inner.clone()), file.take(2).finalize(|| ())] {
            whole.observe_in(&scope, drop).unwrap().detach();
        }
        subject.next(1);
        assert_eq!((dropped.get(), scope.totals().held), (0, 5));
        scope.shut();
        assert_eq!((dropped.get(), scope.words(), subject.observers()), (4, 0, 0));
    }
    assert_eq!(dropped.get(), 4);
}

#[test]
fn a_million_items_and_a_thousand_cycles_keep_memory_flat() {
    let subject = sync::Subject::<u64>::new();
    let (source, told) = (subject.observable(), std::sync::Arc::new(AtomicUsize::new(0)));
    let inner = source.clone();
    let whole = sync::Observable::using(|| vec![0u8; 64], move |_| inner.clone()).map(|it| it + 1).filter(|it| it % 2 == 0);
    let count = told.clone();
    let one = whole.retry(None).each(move |_| {
        count.fetch_add(1, SeqCst);
    });
    let cycles = |many: u64| {
        for it in 0..many {
            let two = whole.share().take(2).each(drop);
            subject.next(it);
            drop(two);
            sync::Observable::<u64>::of([it]).repeat(3).last().each(drop).detach();
        }
    };
    (0..100_000).for_each(|it| subject.next(it)); // past the engine's own checkpoint
    cycles(1000);
    let before = IN_USE.load(SeqCst);
    (0..1_000_000).for_each(|it| subject.next(it));
    cycles(1000);
    let grown = IN_USE.load(SeqCst) - before;
    assert!(grown < 200_000, "{grown} bytes more"); // other tests run beside
    assert_eq!(told.load(SeqCst), 551_000);
    drop(one);
    assert_eq!(subject.observers(), 0);
}
