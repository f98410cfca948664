//! Publish, RefCount and Share: one subscription to a source for many, by a hub of the engine.
//!
//! A share whose observer is a root of its own tells it directly. Below another operator a leaf stands in its place, which is told
//! by a root of the share's and is disposed of with it.
use super::form::{with_default, AThing, AWay, Lock, Ref, Weak};
use super::leaf::{or_panic, unless_gone, Emitter, Leaf};
use super::place::{Place, Spot};
use super::root::{call, Follows, Root, Rooted};
use super::scope::{Engine, Scope, Thing};
use super::stage::Ends;
use super::words::Word;
use super::way::{End, Tip, Way};
use super::{Fits, Moves, Observable};
use crate::engine::{effect, flag, kind, place, what, Command, Key, NOTHING, UNKNOWN_HUB};
use crate::rx::{panics::Panics, slab::Slab};
use crate::Refusal;
use crate::rx::atomic::AtomicU64;
use std::sync::atomic::Ordering::Relaxed;
use std::sync::OnceLock;

/// A value and how many effects still carry it.
type Copies<T> = Lock<Slab<(Ref<T>, u64)>>;

struct Share<'a, T, E> {
    source: Observable<'a, T, E>,
    kind: u8,
    hub: AtomicU64,
    connection: AtomicU64,
    engine: OnceLock<Ref<Engine<'a>>>,
    items: Copies<T>,
    errors: Copies<E>,
    subscribers: Lock<Subscribers<'a, T, E>>,
    /// Of `publish`: how its source ended, which who comes later hears. The engine's hubs remember no end.
    end: Lock<Option<Ended<E>>>,
    remembers: bool,
}

/// Whatever subscribed, and the word by which the next subscribes: another one since a source broke, which is left to whatever has it.
struct Subscribers<'a, T, E> {
    word: u64,
    all: Slab<Weak<Subscriber<'a, T, E>>>,
}

fn new_word() -> u64 {
    static WORDS: AtomicU64 = AtomicU64::new(1);
    WORDS.fetch_add(1, Relaxed)
}

/// A completion, or a failure.
type Ended<E> = Option<Ref<E>>;

fn copy<T: Clone>(of: &Copies<T>, at: u64) -> Option<T> {
    let it = of.with(|all| {
        let (value, many) = all.at(at)?;
        *many -= 1;
        if *many == 0 { all.take(at).map(|it| it.0) } else { Some(value.clone()) }
    })?;
    Some(Ref::try_unwrap(it).unwrap_or_else(|it| (*it).clone()))
}

impl<T, E> Share<'_, T, E> {
    fn ended(&self, how: Ended<E>) {
        if self.remembers {
            self.end.with(|it| *it = Some(how))
        }
    }
}

/// The way from the shared source into the engine.
struct IntoShare<'a, T, E> {
    share: Ref<Share<'a, T, E>>,
    root: Root<'a>,
}

impl<'a, T, E> IntoShare<'a, T, E> {
    /// `sent` is called under the engine's lock, before anybody is told.
    fn send<V>(&self, node: Key, what: u8, values: &Copies<V>, value: Ref<V>, sent: impl FnOnce()) -> Result<(), Refusal> {
        let at = values.with(|it| it.put((value, u64::MAX)));
        let mut copies = 0;
        let done = self.root.engine.make(Command { what, node, value: at, ..Command::default() }, Word::default(), None, |many| {
            copies = many;
            values.with(|it| it.at(at).expect("it was put there").1 = many);
            sent()
        });
        if copies == 0 {
            drop(values.with(|it| it.take(at)));
        }
        done.map(drop)
    }
}

impl<'a, T, E> Rooted<'a> for IntoShare<'a, T, E> {
    fn root(&self) -> &Root<'a> {
        &self.root
    }
}

impl<'a, T, E> Way<'a, T, E> for IntoShare<'a, T, E> {
    fn next(&self, from: Tip, item: T) -> Result<(), Refusal> {
        self.send(from.node, what::NEXT, &self.share.items, Ref::new(item), || ())
    }

    fn error(&self, from: Tip, error: E) -> Result<(), Refusal> {
        let (what, error) = (if from.end == End::Merging { what::FAIL } else { what::ERROR }, Ref::new(error));
        self.send(from.node, what, &self.share.errors, error.clone(), || self.share.ended(Some(error)))
    }

    fn completed(&self, from: Tip) -> Result<(), Refusal> {
        let command = Command { what: what::COMPLETE, node: from.node, ..Command::default() };
        self.root.engine.make(command, Word::default(), None, |_| self.share.ended(None)).map(drop)
    }
}

/// Whom a share tells: a root's observer, or a leaf in place of one.
enum To<'a, T, E> {
    Root(Ref<AWay<'a, T, E>>),
    Leaf(Ref<Leaf<'a, T, E>>),
}

impl<'a, T, E> To<'a, T, E> {
    fn way(&self) -> (&AWay<'a, T, E>, Tip) {
        match self {
            To::Root(way) => (&**way, Tip { node: NOTHING, end: End::Direct }),
            To::Leaf(leaf) => (&*leaf.way, leaf.tip()),
        }
    }

    fn is_closed(&self) -> bool {
        match self {
            To::Root(way) => way.root().is_stopped(),
            To::Leaf(leaf) => leaf.is_closed(),
        }
    }
}

/// A subscriber: what the share tells it goes its way from here.
struct Subscriber<'a, T, E> {
    share: Ref<Share<'a, T, E>>,
    to: To<'a, T, E>,
    hears: Option<Ref<AThing<'a>>>,
    word: u64,
    at: u64,
}

impl<T, E> Drop for Subscriber<'_, T, E> {
    fn drop(&mut self) {
        drop(self.share.subscribers.with(|it| it.all.take(self.at)))
    }
}

impl<'a, T, E> Subscriber<'a, T, E> {
    fn new(share: &Ref<Share<'a, T, E>>, to: To<'a, T, E>, hears: Option<Ref<AThing<'a>>>) -> Ref<Self> {
        Ref::new_cyclic(|me| {
            let (word, at) = share.subscribers.with(|it| (it.word, it.all.put(me.clone())));
            Subscriber { share: share.clone(), to, hears, word, at }
        })
    }

    /// Closes the subscription that what it is told goes to.
    fn close(&self) {
        self.to.way().0.root().panicked();
        if let Some(it) = &self.hears {
            it.panicked()
        }
    }
}

impl<'a, T: Moves + 'a, E: Moves + 'a> Subscriber<'a, T, E> {
    /// Who panics behind a leaf is another, and has closed what it had to.
    fn next(&self, item: T) -> Result<(), Refusal> {
        let (way, tip) = self.to.way();
        match (&self.to, self.share.engine.get()) {
            (To::Leaf(_), Some(engine)) => engine.pass_on(|| way.next(tip, item)).unwrap_or(Ok(())),
            _ => way.next(tip, item),
        }
    }

    /// Of a leaf the end comes behind all that the share's own end releases: what is subscribed to next finds that released.
    fn end(&self, error: Option<E>) -> Result<(), Refusal> {
        match (&self.to, error) {
            (To::Leaf(leaf), error) => {
                if let Some(engine) = self.share.engine.get() {
                    engine.tell_behind(Ends::of(leaf, error))
                }
                Ok(())
            }
            (To::Root(_), Some(error)) => self.to.way().0.error(self.to.way().1, error),
            (To::Root(_), None) => self.to.way().0.completed(self.to.way().1),
        }
    }
}

impl<'a, T: Clone + Moves + 'a, E: Clone + Moves + 'a> Thing for Subscriber<'a, T, E> {
    fn tell(&self, kind: u32, value: u64) {
        or_panic(match kind {
            effect::NEXT => match copy(&self.share.items, value) {
                Some(item) if !self.to.is_closed() => self.next(item),
                _ => Ok(()),
            },
            effect::FAILED => copy(&self.share.errors, value).map_or(Ok(()), |error| self.end(Some(error))),
            effect::COMPLETED => self.end(None),
            _ => {
                match (&self.hears, &self.to) {
                    (Some(it), _) => it.tell(kind, value),
                    (None, To::Leaf(leaf)) if !leaf.is_closed() => self.close(), // the share's engine was shut
                    _ => (),
                }
                Ok(())
            }
        })
    }

    fn panicked(&self) {
        self.close()
    }
}

/// A connection of a share, by its word.
struct Connected<'a, T, E> {
    share: Ref<Share<'a, T, E>>,
    word: u64,
}

impl<'a, T: Clone + Moves + Fits + 'a, E: Clone + Moves + Fits + 'a> Thing for Connected<'a, T, E> {
    /// A function of the source panicked, or it cannot be subscribed to. That closes a connection by hand; with any other it closes whatever
    /// subscribed, which it else keeps waiting.
    fn panicked(&self) {
        if self.share.kind == kind::PUBLISHED {
            return self.share.disconnect();
        }
        let all = self.share.subscribers.with(|it| {
            if it.word == self.word {
                it.word = new_word()
            }
            it.all.iter().filter_map(Weak::upgrade).collect::<Vec<_>>() // those of others are dropped outside the lock
        });
        let mut panics = Panics::default();
        for it in all {
            if it.word == self.word {
                panics.run(|| it.close());
            }
            panics.run(|| drop(it));
        }
        panics.go_on()
    }
}

impl<'a, T, E> Share<'a, T, E> {
    fn word(&self) -> u64 {
        self.subscribers.with(|it| it.word)
    }

    fn command(&self, word: u64) -> Command {
        Command { kind: self.kind, hub: self.hub.load(Relaxed), value: word, ..Command::default() }
    }

    fn disconnect(&self) {
        if let Some(engine) = self.engine.get() {
            let command = Command { what: what::DISCONNECT, node: NOTHING, ..self.command(self.word()) };
            let _ = engine.make(command, Word::default(), None, |_| ()); // refused if it has ended
        }
    }
}

impl<'a, T: Clone + Moves + Fits + 'a, E: Clone + Moves + Fits + 'a> Share<'a, T, E> {
    fn new(source: Observable<'a, T, E>, kind: u8, remembers: bool) -> Ref<Self> {
        Ref::new(Share {
            source, kind, hub: AtomicU64::new(UNKNOWN_HUB), connection: AtomicU64::new(0),
            engine: OnceLock::new(), items: Lock::new(Slab::new()), errors: Lock::new(Slab::new()),
            subscribers: Lock::new(Subscribers { word: new_word(), all: Slab::new() }), end: Lock::new(None), remembers,
        })
    }

    fn observable(self: &Ref<Self>) -> Observable<'a, T, E> {
        let share = self.clone();
        Observable::new(move |at| share.subscribe(at))
    }

    fn subscribe(self: &Ref<Self>, mut at: Place<'a, T, E>) -> Result<(), Refusal> {
        match self.end.with(|it| it.clone()) {
            Some(Some(error)) => return Emitter::open(at).map(|to| to.error((*error).clone())),
            Some(None) => return Emitter::open(at).map(|to| to.completed()),
            None => (),
        }
        let engine = self.engine.get_or_init(|| at.engine().clone()).clone();
        let is_here = Ref::ptr_eq(&engine, at.engine());
        if at.spot.at == place::ROOT && is_here && at.spot.closes.is_none() {
            let it = Subscriber::new(self, To::Root(at.way.clone()), at.spot.hears.take());
            return self.join(it, at.way.root(), at.spot.lane);
        }
        let (root, leaf) = (Ref::new(Root::new(engine)), Emitter::open(at)?.leaf);
        leaf.when_closed(Ref::new(Follows(root.clone())));
        let lane = is_here.then(|| leaf.tip().node);
        self.join(Subscriber::new(self, To::Leaf(leaf.clone()), None), &root, lane)?;
        if leaf.is_closed() {
            root.close(); // from within the opening
        }
        Ok(())
    }

    /// Opens a root of the share's, and the source with the first.
    fn join(self: &Ref<Self>, it: Ref<Subscriber<'a, T, E>>, root: &Root<'a>, lane: Option<Key>) -> Result<(), Refusal> {
        let flags = if lane.is_some() { flag::LANE_OF_NODE } else { 0 };
        let node = lane.unwrap_or(NOTHING);
        let word = it.word;
        let command = Command { what: what::OPEN, place: place::ROOT, flags, node, ..self.command(word) };
        let made = root.engine.make(command, Word::hears(it), None, |_| ())?;
        self.hub.store(made.hub, Relaxed);
        if root.set_late(made.node) {
            root.close(); // from within the opening
        }
        if made.is_connected { self.begin(root.engine.clone(), made.other, word) } else { Ok(()) }
    }

    /// What has subscribed besides, meanwhile, is closed too if the source cannot be subscribed to.
    fn begin(self: &Ref<Self>, engine: Ref<Engine<'a>>, connection: Key, word: u64) -> Result<(), Refusal> {
        self.connection.store(connection.number, Relaxed);
        drop(self.end.with(Option::take));
        let root = Root::of_share(engine, Ref::new(Connected { share: self.clone(), word }));
        let way = Ref::new(IntoShare { share: self.clone(), root });
        let place = Place { spot: Spot::below(place::SOURCE, connection), way: way.clone() as Ref<AWay<'a, T, E>> };
        let done = unless_gone(call(|| way.root(), || self.source.open(place)));
        if done.is_err() {
            way.root().panicked()
        }
        done
    }
}

/// A shared source that is connected by hand.
pub struct Connectable<'a, T, E = std::convert::Infallible> {
    share: Ref<Share<'a, T, E>>,
}

impl<T, E> Clone for Connectable<'_, T, E> {
    fn clone(&self) -> Self {
        Connectable { share: self.share.clone() }
    }
}

impl<'a, T: Clone + Moves + Fits + 'a, E: Clone + Moves + Fits + 'a> Observable<'a, T, E> {
    /// One subscription for many, which begins by [`connect`](Connectable::connect). Who comes after its end hears that, until it is
    /// connected again.
    pub fn publish(&self) -> Connectable<'a, T, E> {
        Connectable { share: Share::new(self.clone(), kind::PUBLISHED, true) }
    }

    /// One subscription for many, which begins with the first of them and ends with the last. Who comes after its end begins another.
    pub fn share(&self) -> Self {
        Share::new(self.clone(), kind::SHARED, false).observable()
    }
}

impl<'a, T: Clone + Moves + Fits + 'a, E: Clone + Moves + Fits + 'a> Connectable<'a, T, E> {
    /// What the connection tells.
    pub fn observable(&self) -> Observable<'a, T, E> {
        self.share.observable()
    }

    /// Connects by itself while there is a subscriber. Who comes after its end hears that.
    pub fn ref_count(&self) -> Observable<'a, T, E> {
        Share::new(self.share.source.clone(), kind::SHARED, true).observable()
    }

    /// Subscribes to the source within a scope; if it is connected already, answers that connection.
    pub fn connect_in(&self, scope: &Scope<'a>) -> Result<Connection<'a, T, E>, Refusal> {
        let engine = self.share.engine.get_or_init(|| scope.engine.clone()).clone();
        let word = self.share.word();
        let command = Command { what: what::CONNECT, node: NOTHING, ..self.share.command(word) };
        match engine.make(command, Word::default(), None, |_| ()) {
            Ok(made) => {
                self.share.hub.store(made.hub, Relaxed);
                self.share.begin(engine, made.other, word)?;
                Ok(Connection { share: self.share.clone(), number: made.other.number })
            }
            Err(Refusal::Connected) => Ok(Connection { share: self.share.clone(), number: self.share.connection.load(Relaxed) }),
            Err(why) => Err(why),
        }
    }
}

impl<T: Clone + Moves + Fits + 'static, E: Clone + Moves + Fits + 'static> Connectable<'static, T, E> {
    /// Subscribes to the source; if it is connected already, answers that connection.
    ///
    /// # Panics
    /// If the engine has no memory; [`connect_in`](Self::connect_in) answers then.
    pub fn connect(&self) -> Connection<'static, T, E> {
        with_default(|scope| self.connect_in(scope)).unwrap_or_else(|why| panic!("the engine refuses a connection: {why:?}"))
    }
}

/// The subscription of a [`Connectable`] to its source. Dropping it leaves it open.
pub struct Connection<'a, T, E = std::convert::Infallible> {
    share: Ref<Share<'a, T, E>>,
    number: u64,
}

impl<T, E> Connection<'_, T, E> {
    /// Ends it, if it has not ended.
    pub fn disconnect(self) {
        if self.share.connection.load(Relaxed) == self.number {
            self.share.disconnect()
        }
    }
}
