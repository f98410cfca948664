//! What the shared cases cannot say of the operators that stand on a root of their own: types, resources, disposal in the midst, memory.
use cellarcliff::{local, sync, Note};
use std::cell::{Cell, RefCell};
use std::rc::Rc;

type Obs = local::Observable<'static, i32, &'static str>;
type Makes = fn(&Obs) -> Obs;

/// Each operator that stands on roots of its own, or ends by itself.
const ALL: [(&str, Makes); 20] = [
    ("take_while", |it| it.take_while(|it| *it < 9)),
    ("take_through", |it| it.take_through(|it| *it > 9)),
    ("fold", |it| it.fold(0, |sum, it| sum + it)),
    ("reduce", |it| it.reduce(|sum, it| sum + it)),
    ("count", |it| it.count().map(|it| it as i32)),
    ("to_vec", |it| it.to_vec().map(|it| it.len() as i32)),
    ("last", |it| it.last()),
    ("take_last", |it| it.take_last(2)),
    ("default_if_empty", |it| it.default_if_empty(7)),
    ("fail_if_empty", |it| it.fail_if_empty(|| "empty")),
    ("all", |it| it.all(|it| *it < 9).map(|it| it as i32)),
    ("any", |it| it.any(|it| *it > 9).map(|it| it as i32)),
    ("tap", |it| it.tap(|_| ())),
    ("materialize", |it| it.materialize().dematerialize()),
    ("concat_with", |it| it.concat_with(it)),
    ("or_else", |it| it.or_else(local::Observable::fail)),
    ("retry", |it| it.retry(3)),
    ("zip_with", |it| it.zip_with(it).map(|it| it.0 + it.1)),
    ("combine_latest_with", |it| it.combine_latest_with(it).map(|it| it.0 + it.1)),
    ("with_latest_from", |it| it.with_latest_from(it).map(|it| it.0 + it.1)),
];

/// How many are open now.
#[derive(Clone, Default)]
struct Open(Rc<Cell<i32>>);

struct File(Open);

impl Open {
    fn file(&self) -> File {
        self.0.set(self.0.get() + 1);
        File(self.clone())
    }

    fn with_file(&self, source: Obs) -> Obs {
        let open = self.clone();
        source.holding(move || open.file())
    }
}

impl Drop for File {
    fn drop(&mut self) {
        let left = self.0 .0.get() - 1;
        assert!(left >= 0);
        self.0 .0.set(left);
    }
}

#[test]
fn each_leaves_nothing_open_however_it_ends() {
    for (name, make) in ALL {
        for end in 0..4 {
            let (subject, open, scope) = (local::Subject::new(), Open::default(), local::Scope::new().unwrap());
            let whole = open.with_file(make(&open.with_file(subject.observable())));
            let subscription = whole.observe_in(&scope, drop).unwrap();
            (0..3).for_each(|it| subject.next(it));
            assert!(open.0.get() >= 2, "{name}");
            match end {
                0 => drop(subscription),
                1 => (subscription.detach(), subject.completed()).1,
                2 => (subscription.detach(), (0..3).for_each(|_| subject.error("broken"))).1,
                _ => (subscription.detach(), scope.shut()).1,
            }
            if end == 1 {
                subject.completed();
            }
            assert_eq!((open.0.get(), scope.words(), subject.observers()), (0, 0, 0), "{name}, end {end}");
        }
    }
}

#[test]
fn each_that_is_disposed_of_from_within_has_released_as_that_returns() {
    for (name, make) in ALL {
        let (subject, open, told) = (local::Subject::new(), Open::default(), Rc::new(Cell::new(0)));
        let kept = Rc::new(RefCell::new(None::<local::Subscription>));
        let (holder, count, many) = (kept.clone(), open.clone(), told.clone());
        let subscription = make(&open.with_file(subject.observable())).each(move |_| {
            many.set(many.get() + 1);
            drop(holder.borrow_mut().take());
            assert_eq!(count.0.get(), 0, "{name}");
        });
        *kept.borrow_mut() = Some(subscription);
        (0..4).for_each(|it| subject.next(it));
        subject.completed();
        drop(kept.borrow_mut().take());
        assert_eq!((open.0.get(), subject.observers()), (0, 0), "{name}");
        assert!(told.get() <= 1, "{name}");
    }
}

#[test]
fn what_is_joined_may_be_of_two_types_and_need_not_be_cloned() {
    struct Once(u32);
    let (numbers, words) = (local::Subject::<u32>::new(), local::Subject::<&str>::new());
    let zipped = numbers.observable().map(Once).zip_with(&words.observable().map(String::from));
    let (_zip, zip) = zipped.map(|(it, word)| format!("{}{word}", it.0)).items();
    let (_latest, latest) = numbers.observable().combine_latest_with(words.observable()).items();
    let (_with, with) = numbers.observable().map(Once).with_latest_from(&words.observable()).map(|(it, word)| (it.0, word)).items();
    numbers.next(1);
    words.next("a");
    words.next("b");
    numbers.next(2);
    assert_eq!(zip.try_iter().collect::<Vec<_>>(), ["1a", "2b"]);
    assert_eq!(latest.try_iter().collect::<Vec<_>>(), [(1, "a"), (1, "b"), (2, "b")]);
    assert_eq!(with.try_iter().collect::<Vec<_>>(), [(2, "b")]);
}

#[test]
fn a_retry_has_released_before_it_acquires_again() {
    let (open, most) = (Open::default(), Rc::new(Cell::new(0)));
    let (count, greatest) = (open.clone(), most.clone());
    let failing = local::Observable::<i32, &str>::create(move |to| {
        let file = count.file();
        greatest.set(greatest.get().max(count.0.get()));
        to.next(1);
        to.error("broken");
        file
    });
    let (subscription, heard) = failing.retry(3).channel();
    assert_eq!(heard.iter().collect::<Vec<_>>(), [Note::Next(1), Note::Next(1), Note::Next(1), Note::Error("broken")]);
    assert_eq!((open.0.get(), most.get(), subscription.is_closed()), (0, 1, true));
}

#[test]
fn a_source_that_ends_at_once_is_repeated_without_a_deeper_stack() {
    let many = 100_000;
    let told = Rc::new(Cell::new(0));
    let count = told.clone();
    let once = local::Observable::<u32>::of([1]);
    let within = local::Observable::<u32>::of([1]).flat_map(move |_| once.repeat(None)); // in a lane that is served further out
    for source in [local::Observable::of([1]).repeat(None), within] {
        told.set(0);
        let sum = count.clone();
        source.take(many).each(move |it| sum.set(sum.get() + it)).detach();
        assert_eq!(told.get(), many as u32);
    }
}

#[test]
fn a_thousand_operators_one_above_another_have_room_in_eight_megabytes() {
    type Makes = fn(local::Observable<'static, u32>) -> local::Observable<'static, u32>;
    let all: [(usize, Makes); 9] = [
        (1000, |it| it.map(|it| it)), (1000, |it| it.scan(0, |_, it| it)), (1000, |it| it.finalize(|| ())), (1000, |it| it.tap(|_| ())),
        (1000, |it| it.take(2)), (1000, |it| it.retry(2)), (1000, |it| it.concat_map(|it| local::Observable::of([it]))),
        (1000, |it| it.merge_with(local::Observable::never())), (300, |it| it.share()),
    ];
    let work = move || for (many, make) in all {
        let subject = local::Subject::<u32>::new();
        let (subscription, heard) = (0..many).fold(subject.observable(), |it, _| make(it)).items();
        subject.next(1);
        drop(subscription);
        assert_eq!((heard.iter().collect::<Vec<_>>(), subject.observers()), (vec![1], 0));
    };
    std::thread::Builder::new().stack_size(8 << 20).spawn(work).unwrap().join().unwrap();
}

#[test]
fn threads_share_what_is_joined_and_repeated() {
    let (one, other) = (sync::Subject::<u64>::new(), sync::Subject::<u64>::new());
    let (subscription, heard) = one.observable().zip_with(&other.observable()).skip(10).enumerate().to_vec().items();
    let tells = |subject: &sync::Subject<'static, u64>| {
        let subject = subject.clone();
        std::thread::spawn(move || {
            (0..1000).for_each(|it| subject.next(it));
            subject.completed()
        })
    };
    let threads = [tells(&one), tells(&other)];
    threads.into_iter().for_each(|it| it.join().unwrap());
    let told = heard.iter().next().unwrap();
    assert_eq!((told.len(), told[0], told[989]), (990, (0, (10, 10)), (989, (999, 999))));
    assert_eq!((subscription.is_closed(), one.observers(), other.observers()), (true, 0, 0));
}
