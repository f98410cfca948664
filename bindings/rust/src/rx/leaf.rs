//! A source's end of the engine.
use super::form::{AThing, AWay, Lock, Ref};
use super::place::Place;
use super::root::{Root, Rooted};
use super::scope::Thing;
use super::way::{End, Tip};
use super::words::Word;
use crate::engine::{kind, Key, NOTHING};
use crate::rx::{late::LateKey, panics::Panics};
use crate::Refusal;
use crate::rx::atomic::AtomicU8;
use std::sync::atomic::Ordering::{Relaxed, SeqCst};

// What a leaf is: open, and it may be that things stand in its list; or closed, and it may be that these are still to be told.
const OPEN: u8 = 0;
const LISTED: u8 = 1;
const CLOSING: u8 = 2;
const CLOSED: u8 = 3;

pub(crate) struct Leaf<'a, T, E> {
    pub way: Ref<AWay<'a, T, E>>,
    node: LateKey,
    state: AtomicU8,
    closes: Lock<Vec<Ref<AThing<'a>>>>,
}

impl<'a, T, E> Leaf<'a, T, E> {
    fn new(way: Ref<AWay<'a, T, E>>) -> Ref<Self> {
        Ref::new(Leaf { way, node: LateKey::new(NOTHING), state: AtomicU8::new(OPEN), closes: Lock::new(Vec::new()) })
    }

    #[inline]
    pub fn tip(&self) -> Tip {
        let node = self.node.get();
        Tip { node, end: if node == NOTHING { End::Alone } else { End::Leaf } }
    }

    #[inline]
    pub fn is_closed(&self) -> bool {
        self.state.load(Relaxed) >= CLOSING
    }

    /// Is told when the leaf closes; at once, if it is closed.
    pub fn when_closed(&self, thing: Ref<AThing<'a>>) {
        let late = self.closes.with(|all| {
            all.push(thing);
            match self.state.compare_exchange(OPEN, LISTED, SeqCst, SeqCst) {
                Err(CLOSED) => all.pop(), // it found no list, or a list without this one
                _ => None,
            }
        });
        if let Some(thing) = late {
            thing.closed();
        }
    }
}

impl<'a, T, E> Rooted<'a> for Leaf<'a, T, E> {
    fn root(&self) -> &Root<'a> {
        self.way.root()
    }
}

impl<T, E> Thing for Leaf<'_, T, E> {
    fn opened(&self, node: Key) {
        self.node.set(node)
    }

    fn closing(&self) {
        let _ = self.state.compare_exchange(OPEN, CLOSED, SeqCst, SeqCst).or_else(|_| self.state.compare_exchange(LISTED, CLOSING, SeqCst, SeqCst));
    }

    fn closed(&self) {
        if self.state.load(Relaxed) == CLOSING {
            self.state.store(CLOSED, SeqCst);
            let (all, mut panics) = (self.closes.with(std::mem::take), Panics::default());
            all.into_iter().for_each(|it| _ = panics.run(|| it.closed()));
            panics.go_on();
        }
    }
}

/// Through which a source tells its items and its end. It may be kept, cloned, and used after its subscription is closed, which
/// then does nothing.
pub struct Emitter<'a, T, E = std::convert::Infallible> {
    pub(crate) leaf: Ref<Leaf<'a, T, E>>,
}

impl<T, E> Clone for Emitter<'_, T, E> {
    fn clone(&self) -> Self {
        Emitter { leaf: self.leaf.clone() }
    }
}

/// What is closed takes nothing, and that is no fault.
pub(crate) fn unless_gone<T>(done: Result<T, Refusal>) -> Result<(), Refusal> {
    match done {
        Ok(_) | Err(Refusal::Gone) => Ok(()),
        Err(why) => Err(why),
    }
}

/// As the standard library does where it has no memory for an answer.
pub(crate) fn or_panic(done: Result<(), Refusal>) {
    if let Err(why) = unless_gone(done) {
        panic!("the engine refuses a call: {why:?}")
    }
}

impl<'a, T: 'a, E: 'a> Emitter<'a, T, E> {
    pub(crate) fn open(place: Place<'a, T, E>) -> Result<Self, Refusal> {
        let Place { mut spot, way } = place;
        let above = spot.closes.take();
        let leaf = Leaf::new(way);
        above.into_iter().for_each(|it| leaf.when_closed(it));
        spot.closes = Some(leaf.clone());
        leaf.node.set(spot.open(leaf.way.root(), kind::LEAF, None, None)?.node);
        Ok(Emitter { leaf })
    }

    /// Of a source that holds nothing, as far as is known: at a root it stands alone.
    pub(crate) fn open_source(mut place: Place<'a, T, E>) -> Result<Self, Refusal> {
        let Some(hears) = place.spot.hears_alone() else { return Emitter::open(place) };
        let leaf = Leaf::new(place.way);
        leaf.way.root().stand_alone(Word { hears: Some(hears), merges: None, closes: Some(leaf.clone()) });
        Ok(Emitter { leaf })
    }
}

impl<'a, T, E> Emitter<'a, T, E> {
    /// Tells an item that a root of an operator's own was told. Who panics then is another, and keeps nothing from that root.
    pub(crate) fn pass(&self, item: T) {
        self.leaf.way.root().engine.pass_on(|| self.try_next(item)).into_iter().for_each(or_panic)
    }

    /// Tells an item. What is due is told before it returns, but for what stands behind an observer that is being told.
    ///
    /// # Panics
    /// If a function panics that this calls; but where an operator opens this source in its turn, whoever emitted that has the panic,
    /// behind all that is due. If the engine has no memory ([`try_next`](Self::try_next) answers then).
    #[inline]
    pub fn next(&self, item: T) {
        or_panic(self.leaf.way.root().engine.tell_from_source(|| self.try_next(item)))
    }

    /// Tells an item; refused if the engine has no memory, and then nobody was told.
    #[inline]
    pub fn try_next(&self, item: T) -> Result<(), Refusal> {
        if self.is_closed() {
            return Ok(());
        }
        unless_gone(self.leaf.way.next(self.leaf.tip(), item))
    }

    /// Fails.
    pub fn error(&self, error: E) {
        if !self.is_closed() {
            or_panic(self.leaf.way.error(self.leaf.tip(), error))
        }
    }

    /// Completes.
    pub fn completed(&self) {
        if !self.is_closed() {
            or_panic(self.leaf.way.completed(self.leaf.tip()))
        }
    }

    /// Whether nobody listens any more.
    #[inline]
    pub fn is_closed(&self) -> bool {
        self.leaf.is_closed()
    }

    /// Keeps a resource until the source is closed, then drops it once; at once, if it is closed.
    ///
    /// # Panics
    /// If the engine has no memory: the resource is dropped then, and the subscription closed if it was in no engine before.
    pub fn hold<R: super::Moves + 'a>(&self, resource: R) {
        or_panic(self.leaf.way.hold(self.leaf.tip(), Box::new(resource)))
    }
}
