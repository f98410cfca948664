//! An observable as a stream.
use cellarcliff::sync::{Observable, Subscription};
use cellarcliff::Note;
use futures::stream::{FusedStream, Stream};
use std::collections::VecDeque;
use std::pin::Pin;
use std::sync::{Arc, Mutex, PoisonError};
use std::task::{Context, Poll, Waker};

/// What gives way where the queue is full.
#[derive(Clone, Copy, Debug, PartialEq, Eq)]
pub enum Overflow {
    /// The item that has waited longest.
    Oldest,
    /// The item that comes.
    Newest,
    /// Whoever emits waits until there is room. The stream has to be polled by another thread.
    Wait,
}

struct Queue<T, E> {
    items: VecDeque<T>,
    end: Option<Result<(), E>>,
    is_over: bool,
    lost: u64,
    waker: Option<Waker>,
}

struct Shared<T, E> {
    queue: Mutex<Queue<T, E>>,
    room: std::sync::Condvar,
}

/// What the observer has. As that is dropped, though it heard no end, the stream has one.
struct Hears<T, E>(Arc<Shared<T, E>>);

impl<T, E> Drop for Hears<T, E> {
    fn drop(&mut self) {
        let mut queue = self.0.lock();
        queue.end.get_or_insert(Ok(()));
        let waker = if queue.is_over { None } else { queue.waker.take() };
        drop(queue);
        if let Some(it) = waker {
            it.wake()
        }
    }
}

/// The items of an observable; an error is the last. It ends too where its subscription is closed by a panic. Dropping it disposes of the
/// subscription.
pub struct Items<T, E> {
    shared: Arc<Shared<T, E>>,
    subscription: Option<Subscription<'static>>,
}

impl<T, E> Unpin for Items<T, E> {}

/// An observable as a stream, by a method of its own.
///
/// ```
/// use cellarcliff::sync::Observable;
/// use cellarcliff_futures::{IntoStream, Overflow};
/// use futures::{executor::block_on, StreamExt};
///
/// let source = Observable::<u32>::of([1, 2]);
/// for heard in [(&source).into_stream(8, Overflow::Oldest), source.into_stream(8, Overflow::Wait)] {
///     assert_eq!(block_on(heard.map(Result::unwrap).collect::<Vec<_>>()), [1, 2]);
/// }
/// ```
pub trait IntoStream {
    /// The stream.
    type Items: Stream;
    /// As [`into_stream`].
    fn into_stream(self, room: usize, overflow: Overflow) -> Self::Items;
}

impl<T: Send + 'static, E: Send + 'static> IntoStream for &Observable<'static, T, E> {
    type Items = Items<T, E>;

    fn into_stream(self, room: usize, overflow: Overflow) -> Items<T, E> {
        into_stream(self, room, overflow)
    }
}

impl<T: Send + 'static, E: Send + 'static> IntoStream for Observable<'static, T, E> {
    type Items = Items<T, E>;

    fn into_stream(self, room: usize, overflow: Overflow) -> Items<T, E> {
        into_stream(&self, room, overflow)
    }
}

/// Subscribes at once; at most `room` items wait (at least one), and `overflow` says what gives way.
pub fn into_stream<T: Send + 'static, E: Send + 'static>(source: &Observable<'static, T, E>, room: usize, overflow: Overflow) -> Items<T, E> {
    let queue = Queue { items: VecDeque::with_capacity(room.max(1)), end: None, is_over: false, lost: 0, waker: None };
    let shared = Arc::new(Shared { queue: Mutex::new(queue), room: Default::default() });
    let hears = Hears(shared.clone());
    let subscription = source.observe(move |note| hears.hear(note, room.max(1), overflow));
    Items { shared, subscription: Some(subscription) }
}

impl<T, E> Shared<T, E> {
    fn lock(&self) -> std::sync::MutexGuard<'_, Queue<T, E>> {
        self.queue.lock().unwrap_or_else(PoisonError::into_inner)
    }
}

impl<T, E> Hears<T, E> {
    fn hear(&self, note: Note<T, E>, room: usize, overflow: Overflow) {
        let mut queue = self.0.lock();
        let mut lost = None;
        match note {
            Note::Completed => queue.end = Some(Ok(())),
            Note::Error(error) => queue.end = Some(Err(error)),
            Note::Next(item) => {
                while overflow == Overflow::Wait && queue.items.len() >= room && !queue.is_over {
                    queue = self.0.room.wait(queue).unwrap_or_else(PoisonError::into_inner);
                }
                if queue.items.len() < room {
                    queue.items.push_back(item);
                } else {
                    queue.lost += 1;
                    lost = Some(if overflow == Overflow::Oldest {
                        let oldest = queue.items.pop_front();
                        queue.items.push_back(item);
                        oldest
                    } else {
                        Some(item)
                    });
                }
            }
        }
        let waker = queue.waker.take();
        drop(queue);
        drop(lost); // outside the lock
        if let Some(it) = waker {
            it.wake()
        }
    }
}

impl<T, E> Items<T, E> {
    /// How many items gave way.
    pub fn lost(&self) -> u64 {
        self.shared.lock().lost
    }
}

impl<T, E> Stream for Items<T, E> {
    type Item = Result<T, E>;

    fn poll_next(self: Pin<&mut Self>, context: &mut Context<'_>) -> Poll<Option<Self::Item>> {
        let mut queue = self.shared.lock();
        if let Some(item) = queue.items.pop_front() {
            self.shared.room.notify_one();
            return Poll::Ready(Some(Ok(item)));
        }
        match queue.end.take() {
            Some(Err(error)) => {
                queue.end = Some(Ok(()));
                Poll::Ready(Some(Err(error)))
            }
            Some(Ok(())) => {
                queue.end = Some(Ok(()));
                Poll::Ready(None)
            }
            None => {
                let before = queue.waker.replace(context.waker().clone());
                drop(queue);
                drop(before); // outside the lock
                Poll::Pending
            }
        }
    }
}

impl<T, E> FusedStream for Items<T, E> {
    fn is_terminated(&self) -> bool {
        let queue = self.shared.lock();
        queue.items.is_empty() && matches!(queue.end, Some(Ok(())))
    }
}

impl<T, E> Drop for Items<T, E> {
    fn drop(&mut self) {
        self.shared.lock().is_over = true;
        self.shared.room.notify_all();
        drop(self.subscription.take());
        let left = std::mem::take(&mut self.shared.lock().items);
        drop(left);
    }
}
