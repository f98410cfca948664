//! A stream as a source.
use cellarcliff::sync::{Emitter, Observable};
use futures::Stream;
use std::cell::Cell;
use std::future::Future;
use std::panic::{catch_unwind, resume_unwind, AssertUnwindSafe};
use std::pin::Pin;
use std::sync::{Arc, Condvar, Mutex, PoisonError};
use std::task::{Context, Poll, Waker};

thread_local! {
    /// How many streams this thread polls, one within another.
    static POLLS: Cell<usize> = const { Cell::new(0) };
}

/// The stream, as long as its subscription is open and while nobody polls it, and who waits for it.
struct Kept<S> {
    stream: Option<Pin<Box<S>>>,
    waker: Option<Waker>,
    is_polled: bool,
    is_closed: bool,
}

struct Shared<S> {
    kept: Mutex<Kept<S>>,
    polled: Condvar,
}

impl<S> Shared<S> {
    fn with<R>(&self, f: impl FnOnce(&mut Kept<S>) -> R) -> R {
        f(&mut self.kept.lock().unwrap_or_else(PoisonError::into_inner))
    }
}

/// While a stream is polled.
struct Polling<'a, S>(&'a Shared<S>);

impl<'a, S> Polling<'a, S> {
    /// Nothing, if the subscription is closed.
    fn begin(shared: &'a Shared<S>) -> Option<(Self, Pin<Box<S>>)> {
        let stream = shared.with(|it| {
            let stream = it.stream.take()?;
            it.is_polled = true;
            Some(stream)
        })?;
        POLLS.with(|it| it.set(it.get() + 1));
        Some((Polling(shared), stream))
    }
}

impl<S> Drop for Polling<'_, S> {
    fn drop(&mut self) {
        POLLS.with(|it| it.set(it.get() - 1));
        self.0.with(|it| it.is_polled = false);
        self.0.polled.notify_all();
    }
}

struct Held<S>(Arc<Shared<S>>);

impl<S> Drop for Held<S> {
    fn drop(&mut self) {
        let (stream, waker) = self.0.with(|it| {
            it.is_closed = true;
            (it.stream.take(), it.waker.take())
        });
        // the future finds no stream, and ends
        let woken = catch_unwind(AssertUnwindSafe(|| waker.into_iter().for_each(Waker::wake)));
        drop(stream);
        let is_within = POLLS.with(Cell::get) > 0; // whom this would wait for may be this thread, or may wait for it
        let mut kept = self.0.kept.lock().unwrap_or_else(PoisonError::into_inner);
        while kept.is_polled && !is_within {
            kept = self.0.polled.wait(kept).unwrap_or_else(PoisonError::into_inner);
        }
        drop(kept);
        woken.unwrap_or_else(|why| resume_unwind(why))
    }
}

/// The stream panicked, which closes the subscription.
struct Broken;

/// Tells what the stream has. It has the stream while it polls, without the lock, since polling may close the subscription.
struct Tells<T, E, S> {
    to: Emitter<'static, Result<T, Broken>, E>,
    shared: Arc<Shared<S>>,
}

impl<T: 'static, E: 'static, S: Stream<Item = Result<T, E>>> Tells<T, E, S> {
    fn poll_next(&self, context: &mut Context<'_>) -> Poll<Option<S::Item>> {
        if self.to.is_closed() {
            return Poll::Ready(None);
        }
        let Some((_polling, mut stream)) = Polling::begin(&self.shared) else { return Poll::Ready(None) };
        let polled = catch_unwind(AssertUnwindSafe(|| {
            let polled = stream.as_mut().poll_next(context);
            let waker = polled.is_pending().then(|| context.waker().clone());
            (polled, waker)
        }));
        let (polled, waker) = match polled {
            Ok(it) => it,
            Err(why) => {
                // a drop that panics as this panic unwinds would end the process
                drop(catch_unwind(AssertUnwindSafe(|| drop(stream))));
                drop(catch_unwind(AssertUnwindSafe(|| self.to.next(Err(Broken)))));
                resume_unwind(why)
            }
        };
        let over = self.shared.with(|it| {
            if it.is_closed {
                return Some(stream);
            }
            (it.stream, it.waker) = (Some(stream), waker);
            None
        });
        match over {
            Some(stream) => {
                drop(stream);
                Poll::Ready(None)
            }
            None => polled,
        }
    }
}

impl<T: 'static, E: 'static, S: Stream<Item = Result<T, E>>> Future for Tells<T, E, S> {
    type Output = ();

    fn poll(self: Pin<&mut Self>, context: &mut Context<'_>) -> Poll<()> {
        loop {
            match self.poll_next(context) {
                Poll::Pending => return Poll::Pending,
                Poll::Ready(Some(Ok(item))) => {
                    self.to.next(Ok(item));
                    continue;
                }
                Poll::Ready(Some(Err(error))) => self.to.error(error),
                Poll::Ready(None) => self.to.completed(),
            }
            return Poll::Ready(());
        }
    }
}

/// Makes a stream for each subscription, and hands `spawn` a future that tells its items. The end of the stream completes, an `Err`
/// fails. The stream is dropped when the subscription closes, before the call returns that closes it: if another thread polls it then, the
/// call waits for that poll. A call from within the poll of such a stream waits for none; the stream is dropped as its own poll returns.
/// A panic of the stream closes its subscription, and goes on to whoever polls the future. If that is dropped before its end, no more is told.
pub fn from_stream<T, E, S>(
    make: impl Fn() -> S + Send + Sync + 'static, spawn: impl Fn(Pin<Box<dyn Future<Output = ()> + Send>>) + Send + Sync + 'static,
) -> Observable<'static, T, E>
where
    T: Send + 'static,
    E: Send + 'static,
    S: Stream<Item = Result<T, E>> + Send + 'static,
{
    let polled = Observable::create(move |to| {
        let kept = Kept { stream: Some(Box::pin(make())), waker: None, is_polled: false, is_closed: false };
        let shared = Arc::new(Shared { kept: Mutex::new(kept), polled: Condvar::new() });
        let held = Held(shared.clone());
        spawn(Box::pin(Tells { to, shared }));
        held
    });
    polled.map(|it| it.unwrap_or_else(|Broken| resume_unwind(Box::new("the stream of a source panicked"))))
}
