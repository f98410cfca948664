//! Take and TakeWhile: the first items. The node is a TakeUntil, whose notifier is told behind the last.
use super::form::{AWay, Ref};
use super::leaf::Emitter;
use super::place::{Place, Spot};
use super::root::{call, Root, Rooted};
use super::take_until::Notifies;
use super::way::{Tip, Way};
use super::{Fits, Observable};
use crate::engine::{kind, place};
use crate::rx::panics::Panics;
use crate::Refusal;
use crate::rx::atomic::{AtomicBool, AtomicUsize};
use std::sync::atomic::Ordering::SeqCst;

/// The way of an item that may be the last.
struct Ending<'a, T, E, F> {
    way: Ref<AWay<'a, T, E>>,
    notifier: Emitter<'a, (), E>,
    next: F,
}

impl<'a, T, E, F> Rooted<'a> for Ending<'a, T, E, F> {
    fn root(&self) -> &Root<'a> {
        self.way.root()
    }
}

impl<'a, T, E, F: Fn(&AWay<'a, T, E>, &Emitter<'a, (), E>, Tip, T) -> Result<(), Refusal>> Way<'a, T, E> for Ending<'a, T, E, F> {
    fn next(&self, from: Tip, item: T) -> Result<(), Refusal> {
        (self.next)(&*self.way, &self.notifier, from, item)
    }

    fn error(&self, from: Tip, error: E) -> Result<(), Refusal> {
        self.way.error(from, error)
    }

    fn completed(&self, from: Tip) -> Result<(), Refusal> {
        self.way.completed(from)
    }
}

/// Tells the last item, and then the end, which a panic in whatever hears the item keeps from nobody else.
fn tell_last(tell: impl FnOnce() -> Result<(), Refusal>, end: impl FnOnce()) -> Result<(), Refusal> {
    let (mut panics, mut done) = (Panics::default(), Ok(()));
    panics.run(|| done = tell());
    panics.run(end);
    panics.go_on();
    done
}

impl<'a, T: 'a, E: 'a> Observable<'a, T, E> {
    /// The same source, by a way that has a notifier: who tells that ends it. `begin` makes, for each subscription, what hears an item.
    fn ending<F: Fn(&AWay<'a, T, E>, &Emitter<'a, (), E>, Tip, T) -> Result<(), Refusal> + Fits + 'a>(
        &self, begin: impl Fn() -> F + Fits + 'a,
    ) -> Self {
        let source = self.clone();
        Observable::new(move |mut at| {
            let node = at.open(kind::UNTIL, None, None)?.node;
            let notifies = Ref::new(Notifies(at.way.clone()));
            let notifier = Emitter::open(Place { spot: Spot::below(place::NOTIFIER, node), way: notifies })?;
            source.open(at.down(place::SOURCE, node).by(|way| Ref::new(Ending { way, notifier, next: begin() })))
        })
    }

    /// The first items; of `0` none, and the source is not subscribed to.
    pub fn take(&self, many: usize) -> Self {
        if many == 0 {
            return Observable::empty();
        }
        self.ending(move || {
            let (begun, told) = (AtomicUsize::new(0), AtomicUsize::new(0));
            move |way, notifier, from, item| {
                if begun.fetch_update(SeqCst, SeqCst, |it| (it < many).then_some(it + 1)).is_err() {
                    return Ok(());
                }
                // the end stands behind all items, whichever thread told the last
                let end = || if told.fetch_add(1, SeqCst) + 1 == many { notifier.next(()) };
                tell_last(|| way.next(from, item), end)
            }
        })
    }

    /// The first item; nothing if there is none.
    pub fn first(&self) -> Self {
        self.take(1)
    }

    /// The items before the first for which it is false.
    pub fn take_while(&self, f: impl Fn(&T) -> bool + Fits + 'a) -> Self {
        self.taking_while(false, move |it| Ok(f(it)))
    }

    /// As [`take_while`](Self::take_while), or fails.
    pub fn try_take_while(&self, f: impl Fn(&T) -> Result<bool, E> + Fits + 'a) -> Self {
        self.taking_while(false, f)
    }

    /// The items up to the first for which it is true, and that one too.
    pub fn take_through(&self, f: impl Fn(&T) -> bool + Fits + 'a) -> Self {
        self.taking_while(true, move |it| Ok(!f(it)))
    }

    /// As [`take_through`](Self::take_through), or fails.
    pub fn try_take_through(&self, f: impl Fn(&T) -> Result<bool, E> + Fits + 'a) -> Self {
        self.taking_while(true, move |it| f(it).map(|it| !it))
    }

    fn taking_while(&self, with_last: bool, f: impl Fn(&T) -> Result<bool, E> + Fits + 'a) -> Self {
        let f = Ref::new(f);
        self.ending(move || {
            let (f, is_over) = (f.clone(), AtomicBool::new(false));
            move |way, notifier, from, item| {
                if is_over.load(SeqCst) {
                    return Ok(());
                }
                match call(|| way.root(), || f(&item)) {
                    Ok(true) => way.next(from, item),
                    Err(error) => way.error(from, error),
                    Ok(false) if is_over.swap(true, SeqCst) => Ok(()),
                    Ok(false) => {
                        tell_last(|| if with_last { way.next(from, item) } else { Ok(()) }, || notifier.next(()))
                    }
                }
            }
        })
    }
}
