//! FlatMap with a bound: at most so many inner observables at a time; ConcatMap, where that is one; and ExhaustMap, where none waits. The
//! node is a FlatMap, whose face puts an inner one off until one before has closed and has released what it had, or declines it.
use super::form::{Lock, Ref};
use super::leaf::{or_panic, unless_gone};
use super::merging::{open_merging, Above};
use super::scope::{Inbox, Thing};
use super::words::Word;
use super::{Fits, Moves, Observable};
use crate::engine::{effect, kind, what, Command};
use crate::Refusal;
use std::collections::VecDeque;
use std::sync::OnceLock;

struct Queue<T> {
    items: VecDeque<T>,
    busy: usize,
    is_closed: bool,
}

struct Parts<'a, T, U, E, F> {
    items: Lock<VecDeque<T>>, // whose turn to be projected has not come
    queue: Lock<Queue<T>>,    // who waits for an end
    most: usize,
    waits: bool,
    above: OnceLock<Above<'a, U, E>>,
    f: Ref<F>,
}

struct AtMost<'a, T, U, E, F>(Ref<Parts<'a, T, U, E, F>>);

/// Is told of the closing of an inner observable, and then, behind all releases, that the next may be opened.
struct Turn<'a, T, U, E, F>(Ref<Parts<'a, T, U, E, F>>);

impl<'a, T, U, E, F> Parts<'a, T, U, E, F> {
    fn close(&self) {
        if let Some(above) = self.above.get() {
            above.way.root().panicked()
        }
    }
}

impl<'a, T: Moves + 'a, U: 'a, E: Moves + 'a, F: Fn(T) -> Result<Observable<'a, U, E>, E> + Fits + 'a> Parts<'a, T, U, E, F> {
    fn decline(&self) -> Result<(), Refusal> {
        self.above.get().map_or(Ok(()), |above| above.way.root().engine.send(what::DECLINE, above.node))
    }

    fn begin(self: &Ref<Self>, item: T) -> Result<(), Refusal> {
        let above = self.above.get().expect("a node is opened before its source");
        if above.is_stopped() || self.queue.with(|it| it.is_closed) {
            return Ok(());
        }
        match (self.f)(item) {
            Ok(inner) => {
                let mut at = above.inner();
                at.spot.closes = Some(Ref::new(Turn(self.clone())));
                unless_gone(above.way.root().engine.opening(|| inner.open(at)))
            }
            Err(error) => above.fail(error),
        }
    }
}

impl<'a, T: Moves + 'a, U: 'a, E: Moves + 'a, F: Fn(T) -> Result<Observable<'a, U, E>, E> + Fits + 'a> Inbox<T> for AtMost<'a, T, U, E, F> {
    fn keep(&self, item: T) {
        self.0.items.with(|it| it.push_back(item))
    }

    fn hear(&self, item: T) {
        let turn = self.0.queue.with(|queue| {
            if queue.busy < self.0.most {
                queue.busy += 1;
                return Ok(item);
            }
            if !self.0.waits {
                return Err(Some(item));
            }
            queue.items.push_back(item);
            Err(None)
        });
        match turn {
            Ok(item) => or_panic(self.0.begin(item)),
            Err(None) => (),
            Err(Some(item)) => {
                drop(item);
                or_panic(self.0.decline())
            }
        }
    }

    fn panicked(&self) {
        self.0.close()
    }
}

impl<'a, T: Moves + 'a, U: 'a, E: Moves + 'a, F: Fn(T) -> Result<Observable<'a, U, E>, E> + Fits + 'a> Thing for AtMost<'a, T, U, E, F> {
    fn tell(&self, kind: u32, _: u64) {
        if kind == effect::PROJECT {
            if let Some(item) = self.0.items.with(VecDeque::pop_front) {
                self.hear(item)
            }
        }
    }

    fn closed(&self) {
        let left = self.0.queue.with(|queue| {
            queue.is_closed = true;
            std::mem::take(&mut queue.items)
        });
        drop(left);
    }

    fn panicked(&self) {
        self.0.close()
    }
}

impl<'a, T: Moves + 'a, U: 'a, E: Moves + 'a, F: Fn(T) -> Result<Observable<'a, U, E>, E> + Fits + 'a> Thing for Turn<'a, T, U, E, F> {
    fn closed(&self) {
        let Some(above) = self.0.above.get() else { return };
        let command = Command { what: what::PUT, node: above.node, ..Command::default() };
        let done = unless_gone(above.way.root().engine.make_behind(command, Word::hears(Ref::new(Turn(self.0.clone())))));
        if done.is_err() {
            self.0.close() // else the next waits for ever
        }
        or_panic(done)
    }

    fn tell(&self, _: u32, _: u64) {
        let next = self.0.queue.with(|queue| {
            let next = queue.items.pop_front();
            queue.busy -= next.is_none() as usize;
            next
        });
        if let Some(item) = next {
            or_panic(self.0.begin(item))
        }
    }

    fn panicked(&self) {
        self.0.close()
    }
}

impl<'a, T: Moves + 'a, E: Moves + 'a> Observable<'a, T, E> {
    /// An observable for each item, one behind the other: the one before has released what it had. The function is called when its
    /// turn comes.
    pub fn concat_map<U: 'a>(&self, f: impl Fn(T) -> Observable<'a, U, E> + Fits + 'a) -> Observable<'a, U, E> {
        self.try_concat_map(move |it| Ok(f(it)))
    }

    /// As [`concat_map`](Self::concat_map), or fails.
    pub fn try_concat_map<U: 'a>(&self, f: impl Fn(T) -> Result<Observable<'a, U, E>, E> + Fits + 'a) -> Observable<'a, U, E> {
        self.try_flat_map_at_most(1, f)
    }

    /// An observable for each item, at most so many at a time (at least one). The function is called when its turn comes.
    pub fn flat_map_at_most<U: 'a>(&self, most: usize, f: impl Fn(T) -> Observable<'a, U, E> + Fits + 'a) -> Observable<'a, U, E> {
        self.try_flat_map_at_most(most, move |it| Ok(f(it)))
    }

    /// As [`flat_map_at_most`](Self::flat_map_at_most), or fails.
    pub fn try_flat_map_at_most<U: 'a>(
        &self, most: usize, f: impl Fn(T) -> Result<Observable<'a, U, E>, E> + Fits + 'a,
    ) -> Observable<'a, U, E> {
        self.bounded(most, true, f)
    }

    /// An observable for an item that comes while none of another is open. The others are left out.
    pub fn exhaust_map<U: 'a>(&self, f: impl Fn(T) -> Observable<'a, U, E> + Fits + 'a) -> Observable<'a, U, E> {
        self.try_exhaust_map(move |it| Ok(f(it)))
    }

    /// As [`exhaust_map`](Self::exhaust_map), or fails.
    pub fn try_exhaust_map<U: 'a>(&self, f: impl Fn(T) -> Result<Observable<'a, U, E>, E> + Fits + 'a) -> Observable<'a, U, E> {
        self.bounded(1, false, f)
    }

    fn bounded<U: 'a>(
        &self, most: usize, waits: bool, f: impl Fn(T) -> Result<Observable<'a, U, E>, E> + Fits + 'a,
    ) -> Observable<'a, U, E> {
        let (source, f, most) = (self.clone(), Ref::new(f), most.max(1));
        Observable::new(move |at| {
            let queue = Lock::new(Queue { items: VecDeque::new(), busy: 0, is_closed: false });
            let parts = Parts { items: Lock::new(VecDeque::new()), queue, most, waits, above: OnceLock::new(), f: f.clone() };
            open_merging(at, &source, kind::FLAT, Ref::new(AtMost(Ref::new(parts))), |it| &it.0.above)
        })
    }
}
