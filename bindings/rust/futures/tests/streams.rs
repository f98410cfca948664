//! Streams both ways, and tasks that are aborted once.
use cellarcliff::sync::{Observable, Subject};
use cellarcliff::Note;
use cellarcliff_futures::*;
use futures::executor::block_on;
use futures::stream::{self, FusedStream, Stream, StreamExt};
use std::future::Future;
use std::panic::{catch_unwind, resume_unwind, AssertUnwindSafe};
use std::pin::Pin;
use std::sync::atomic::{AtomicUsize, Ordering::SeqCst};
use std::sync::{Arc, Mutex};
use std::task::{Context, Poll, Wake, Waker};
use std::time::Duration;

fn runtime() -> tokio::runtime::Runtime {
    tokio::runtime::Builder::new_multi_thread().worker_threads(2).enable_time().build().unwrap()
}

/// A stream that counts its drops.
struct Counted<S>(S, Arc<AtomicUsize>);

impl<S: Stream + Unpin> Stream for Counted<S> {
    type Item = S::Item;
    fn poll_next(mut self: Pin<&mut Self>, context: &mut Context<'_>) -> Poll<Option<S::Item>> {
        Pin::new(&mut self.0).poll_next(context)
    }
}

impl<S> Drop for Counted<S> {
    fn drop(&mut self) {
        self.1.fetch_add(1, SeqCst);
    }
}

#[test]
fn a_stream_is_a_source_and_is_dropped_at_its_end() {
    let (runtime, dropped) = (runtime(), Arc::new(AtomicUsize::new(0)));
    let (count, on) = (dropped.clone(), runtime.handle().clone());
    let source = from_stream(move || Counted(stream::iter([Ok(1), Ok(2), Err("broken")]), count.clone()), move |it| drop(on.spawn(it)));
    let (_subscription, heard) = source.map(|it| it + 1).channel();
    assert_eq!(heard.iter().collect::<Vec<_>>(), [Note::Next(2), Note::Next(3), Note::Error("broken")]);
    drop(runtime);
    assert_eq!(dropped.load(SeqCst), 1);
}

#[test]
fn a_stream_that_waits_is_dropped_as_its_subscription_is_disposed_of() {
    let (runtime, dropped) = (runtime(), Arc::new(AtomicUsize::new(0)));
    let (count, on) = (dropped.clone(), runtime.handle().clone());
    let source = from_stream::<u32, (), _>(move || Counted(stream::pending(), count.clone()), move |it| drop(on.spawn(it)));
    for round in 0..100 {
        let subscription = source.each(drop);
        if round % 2 == 0 {
            std::thread::sleep(Duration::from_micros(50));
        }
        subscription.dispose();
        assert_eq!(dropped.load(SeqCst), round + 1);
    }
}

#[test]
fn a_stream_that_ends_its_own_subscription_as_it_is_polled_is_dropped_as_the_poll_returns() {
    let (stop, dropped) = (Subject::<(), ()>::new(), Arc::new(AtomicUsize::new(0)));
    let (stops, count, ended) = (stop.clone(), dropped.clone(), Arc::new(AtomicUsize::new(0)));
    let seen = ended.clone();
    let make = move || {
        let (stops, count, seen) = (stops.clone(), count.clone(), seen.clone());
        let ends = move |it: &Result<u32, ()>| if *it == Ok(3) {
            while stops.observers() == 0 {} // whoever subscribes has not come so far
            stops.next(());
            seen.store(10 + count.load(SeqCst), SeqCst);
        };
        Counted(stream::iter((1..10).map(Ok)).inspect(ends), dropped.clone())
    };
    let source = from_stream(make, |it| drop(std::thread::spawn(move || block_on(it))));
    let (_subscription, heard) = source.take_until(stop.observable()).channel();
    assert_eq!(heard.iter().collect::<Vec<_>>(), [Note::Next(1), Note::Next(2), Note::Completed]);
    while ended.load(SeqCst) == 0 {}
    assert_eq!(ended.load(SeqCst), 10); // it was not dropped within its own poll
}

#[test]
fn an_endless_stream_whose_future_runs_as_it_is_spawned_ends_with_its_subscription() {
    let source = from_stream::<u32, (), _>(|| stream::repeat(Ok(1)), |it| block_on(it));
    assert_eq!(source.take(2).channel().1.iter().count(), 3);
}

#[test]
fn an_observable_is_a_stream_with_a_bounded_queue() {
    let subject = Subject::<u32, &str>::new();
    let source = subject.observable();
    let (oldest, dropped) = ((&source).into_stream(2, Overflow::Oldest), into_stream(&source, 1, Overflow::Oldest));
    let newest = source.into_stream(2, Overflow::Newest);
    assert_eq!(subject.observers(), 3);
    drop(dropped);
    assert_eq!(subject.observers(), 2);
    (1..5).for_each(|it| subject.next(it));
    subject.error("broken");
    assert_eq!((oldest.lost(), newest.lost()), (2, 2));
    assert_eq!(block_on(oldest.collect::<Vec<_>>()), [Ok(3), Ok(4), Err("broken")]);
    assert_eq!(block_on(newest.collect::<Vec<_>>()), [Ok(1), Ok(2), Err("broken")]);
}

#[test]
fn whoever_emits_waits_for_room_and_nothing_is_lost() {
    let subject = Subject::<u32>::new();
    let items = into_stream(&subject.observable(), 3, Overflow::Wait);
    let emits = std::thread::spawn(move || {
        (0..1000).for_each(|it| subject.next(it));
        subject.completed();
    });
    assert_eq!(block_on(items.map(Result::unwrap).collect::<Vec<_>>()), (0..1000).collect::<Vec<_>>());
    emits.join().unwrap();
}

#[test]
fn a_task_is_aborted_once_with_its_subscription() {
    struct Ends(Arc<AtomicUsize>);
    impl Drop for Ends {
        fn drop(&mut self) {
            self.0.fetch_add(1, SeqCst);
        }
    }
    let (runtime, ended) = (runtime(), Arc::new(AtomicUsize::new(0)));
    let count = ended.clone();
    let ticks = task::<u32, std::convert::Infallible, _>(runtime.handle().clone(), move |to| {
        let ends = Ends(count.clone());
        async move {
            let _ends = ends;
            for it in 0.. {
                to.next(it);
                tokio::time::sleep(Duration::from_millis(1)).await;
            }
        }
    });
    let words = Subject::<u32>::new();
    let latest = ticks.clone();
    let (subscription, heard) = words.observable().switch_map(move |_| latest.clone()).channel();
    for it in 0..5 {
        words.next(it);
        while heard.recv() != Ok(Note::Next(0)) {} // some of the task before may have been told still
    }
    let three = ticks.take(3).channel().1;
    drop((subscription, three));
    drop(runtime);
    assert_eq!(ended.load(SeqCst), 6);
}

#[test]
fn a_stream_goes_through_an_observable_and_is_a_stream_again() {
    let runtime = runtime();
    let on = runtime.handle().clone();
    let source: Observable<u32, String> = from_stream(|| stream::iter((0..100).map(Ok)), move |it| drop(on.spawn(it)));
    let shared = source.filter(|it| it % 2 == 0).share();
    let mut all = shared.into_stream(100, Overflow::Newest);
    assert_eq!((block_on(all.by_ref().collect::<Vec<_>>()).len(), all.is_terminated()), (50, true));
}

type Spawned = Pin<Box<dyn Future<Output = ()> + Send>>;

/// A waker that panics.
struct Panics;

impl Wake for Panics {
    fn wake(self: Arc<Self>) {
        resume_unwind(Box::new("a waker"))
    }
}

fn panics(work: impl FnOnce()) -> &'static str {
    catch_unwind(AssertUnwindSafe(work)).expect_err("it panics").downcast_ref::<&str>().unwrap()
}

/// What it hands `spawn` is polled by hand.
fn by_hand() -> (impl Fn(Spawned) + Send + Sync, Arc<Mutex<Vec<Spawned>>>) {
    let all = Arc::new(Mutex::new(vec![]));
    let spawned = all.clone();
    (move |it| spawned.lock().unwrap().push(it), all)
}

#[test]
fn a_stream_ends_where_a_panic_closes_its_subscription() {
    let subject = Subject::<u32>::new();
    let broken = subject.observable().map(|it| if it == 2 { resume_unwind(Box::new("broken")) } else { it });
    let heard = broken.into_stream(8, Overflow::Oldest);
    let waits = std::thread::spawn(move || block_on(heard.collect::<Vec<_>>()));
    subject.next(1);
    assert_eq!((panics(|| subject.next(2)), subject.observers()), ("broken", 0));
    assert_eq!(waits.join().unwrap(), [Ok(1)]);
}

#[test]
fn what_is_polled_after_its_end_has_nothing_more() {
    let subject = Subject::<u32, &str>::new();
    let mut heard = subject.observable().into_stream(8, Overflow::Oldest);
    subject.next(1);
    subject.error("broken");
    let mut next = || block_on(heard.next());
    assert_eq!([next(), next(), next(), next()], [Some(Ok(1)), Some(Err("broken")), None, None]);
    let (spawn, all) = by_hand();
    let (_subscription, heard) = from_stream(|| stream::iter([Ok::<_, ()>(1)]), spawn).channel();
    let mut context = Context::from_waker(futures::task::noop_waker_ref());
    for _ in 0..3 {
        assert_eq!(all.lock().unwrap()[0].as_mut().poll(&mut context), Poll::Ready(()));
    }
    assert_eq!(heard.iter().collect::<Vec<_>>(), [Note::Next(1), Note::Completed]);
}

#[test]
fn a_waker_that_panics_loses_no_item_and_no_stream() {
    let (panicking, subject, dropped) = (Waker::from(Arc::new(Panics)), Subject::<u32>::new(), Arc::new(AtomicUsize::new(0)));
    let mut context = Context::from_waker(&panicking);
    let mut heard = subject.observable().into_stream(8, Overflow::Oldest);
    assert_eq!(Pin::new(&mut heard).poll_next(&mut context), Poll::Pending);
    assert_eq!((panics(|| subject.next(1)), subject.observers()), ("a waker", 0));
    assert_eq!(block_on(heard.collect::<Vec<_>>()), [Ok(1)]);

    let ((spawn, all), count) = (by_hand(), dropped.clone());
    let waits = from_stream::<u32, (), _>(move || Counted(stream::pending(), count.clone()), spawn).each(drop);
    assert_eq!(all.lock().unwrap()[0].as_mut().poll(&mut context), Poll::Pending);
    assert_eq!((panics(|| waits.dispose()), dropped.load(SeqCst)), ("a waker", 1));
    assert_eq!(all.lock().unwrap()[0].as_mut().poll(&mut context), Poll::Ready(()));
}

#[test]
fn a_stream_that_panics_closes_its_subscription_and_is_dropped_once() {
    let (dropped, (spawn, all)) = (Arc::new(AtomicUsize::new(0)), by_hand());
    let count = dropped.clone();
    let breaks = |it: &u32| if *it == 2 { resume_unwind(Box::new("broken")) };
    let source = from_stream::<_, (), _>(move || Counted(stream::iter(1..4).inspect(breaks).map(Ok), count.clone()), spawn);
    let (subscription, heard) = source.channel();
    let mut context = Context::from_waker(futures::task::noop_waker_ref());
    assert_eq!(panics(|| _ = all.lock().unwrap()[0].as_mut().poll(&mut context)), "broken");
    assert_eq!((heard.iter().collect::<Vec<_>>(), subscription.is_closed(), dropped.load(SeqCst)), (vec![Note::Next(1)], true, 1));
}
