//! A tokio task as a resource.
use cellarcliff::sync::{Emitter, Observable};
use std::future::Future;
use tokio::runtime::Handle;
use tokio::task::JoinHandle;

/// A task that is aborted when this is dropped: a resource of [`Observable::using`], or of what is created.
pub struct Task<T>(JoinHandle<T>);

impl<T: Send + 'static> Task<T> {
    /// Spawns it on a runtime.
    pub fn spawn(on: &Handle, work: impl Future<Output = T> + Send + 'static) -> Self {
        Task(on.spawn(work))
    }
}

impl<T> Drop for Task<T> {
    fn drop(&mut self) {
        self.0.abort()
    }
}

/// Spawns a task for each subscription, which is given the end of the engine. It is aborted once, when the subscription closes: at
/// its next await, if it is at work then. One that panics tells nothing more.
pub fn task<T: Send + 'static, E: Send + 'static, W: Future<Output = ()> + Send + 'static>(
    on: Handle, work: impl Fn(Emitter<'static, T, E>) -> W + Send + Sync + 'static,
) -> Observable<'static, T, E> {
    Observable::create(move |to| Task::spawn(&on, work(to)))
}
