"""publish(), ref_count(), share(): a hub of the engine."""
from __future__ import annotations

import threading
from itertools import count
from typing import Any, Callable, List, Optional

from .._cellar import HUB_ORDER, NO_HUB, OPEN, PUBLISHED, SHARED, SOURCE, UNKNOWN_HUB, WISHES
from .._engine import At, C, Engine, current, refuse
from .._functions import linked
from .._observable import Observable, open_below, to_observable
from ..disposable import CompositeDisposable, Disposable

_words = count(1)
_choosing = threading.Lock()


class _Share:
    """A source that a hub shares, which the engine gives it for as long as it has a subscriber or is connected."""

    connection: Any = None

    def __init__(self, source: Observable[Any], kind: int):
        self.source, self.kind, self.word = source, kind, next(_words)
        self.hub = UNKNOWN_HUB  # the last that it had
        self._engine: Any = None  # in which that is
        self._subscribers: Any = {}  # their leaves: held by what is below the connection
        self._level: Optional[int] = None
        self._opens = 0  # the command that opens a subscriber, but for its place

    @property
    def level(self) -> int:
        """How many shares stand one below another in the source. It is asked once: a source may be many times below another."""
        if self._level is None:
            self._level = level(self.source)
        return self._level

    def open(self, at: At) -> int:
        """Opens a subscriber, with a leaf that stops as it closes: 0, HUB_ORDER where the order of hubs forbids it there, or NO_HUB."""
        core, status = at.engine.core, NO_HUB
        leaf = core.leaf(None)
        leaf.above = at.holder
        self._subscribers[leaf] = None
        leaf.on_closed = lambda: self._subscribers.pop(leaf, None)
        what = self._opens = self._opens or OPEN | self.kind | WISHES | self.level << 32
        try:
            status, node, connection, hub = core.share(what | at.place, at.above, (at.root, leaf, None), self.word, self.hub, None, at.is_exchange)
        finally:
            if status:
                del self._subscribers[leaf]
        if status:
            if status not in (HUB_ORDER, NO_HUB):
                refuse(status)
            return int(status)
        at.node, self.hub = node, hub
        if connection is not None:
            self._open_source(at.engine, connection, self._leaf(at.engine, self._closed), at.scheduler)
        return 0

    @staticmethod
    def _leaf(engine: Engine, closed: Callable[[], Any]) -> Any:
        leaf = engine.core.leaf(None)
        leaf.on_closed = closed
        return leaf

    def _open_source(self, engine: Engine, connection: Any, leaf: Any, scheduler: Any) -> None:
        """Opens the source below a connection, whose leaf is held by what feeds it."""
        open_below(self.source, At(engine, SOURCE, connection, None, scheduler, None, leaf))

    def _closed(self) -> None:
        self.connection = None

    def __del__(self) -> None:
        """Nothing feeds it any more, and nobody can disconnect it."""
        if self.connection is not None:
            C.call(self._engine.disconnect, self)

    def connect(self, engine: Engine, scheduler: Any) -> Any:
        """The connection, which is made if there is none."""
        leaf, self._engine = self._leaf(engine, self._closed), engine
        connection = engine.connect(self, leaf)
        if connection is None:
            return self.connection
        C.trampolined(self._open_source, engine, connection, leaf, scheduler)
        return connection

    def disconnect(self, engine: Engine, connection: Any) -> None:
        if self.connection is connection:
            engine.disconnect(self)


def level(observable: Observable[Any]) -> int:
    """How many shares stand one below another, as far as can be seen; a mapper may make more."""
    if isinstance(observable, (RefCount, Published)):
        return 1 + observable._share.level
    return max([3 if observable._hides else 0, *map(level, observable._below())])


class ConnectableObservable(Observable[Any]):
    """An observable that can be connected and disconnected: of a source and a subject, through which its items go."""

    _is_hot = True

    def __init__(self, source: Any, subject: Any):
        self.source, self.subject = to_observable(source), subject
        self._subscription: Any = None

    def _below(self) -> Any:
        return (self.source,)

    def _open_with(self, at: At, makes: Any) -> bool:
        return to_observable(self.subject)._open_with(at, makes)

    def connect(self, scheduler: Any = None) -> Any:
        """Subscribes the subject to the source, if it is not subscribed."""
        if self._subscription is None:
            def forget() -> None:
                self._subscription = None
            whole = CompositeDisposable(Disposable(forget))
            self._subscription = whole
            whole.add(self.source.subscribe(self.subject, scheduler=scheduler))
            return whole
        return self._subscription

    def auto_connect(self, subscriber_count: int = 1) -> Observable[Any]:
        """An observable that connects this one with so many subscribers, and never disconnects it."""
        from ..sources import Created
        many: List[int] = [0]
        connection: List[Any] = []
        if subscriber_count == 0:
            connection.append(self.connect())

        def subscribe(observer: Any, scheduler: Any = None) -> Any:
            many[0] += 1
            is_due = many[0] == subscriber_count and not connection
            subscription = self.subscribe(observer, scheduler=scheduler)
            if is_due:
                connection.append(self.connect(scheduler))

            def dispose() -> None:
                subscription.dispose()
                many[0] -= 1
                if not many[0] and subscriber_count:
                    connection.clear()
            return Disposable(dispose)
        return Created(subscribe)


class Published(ConnectableObservable):
    """publish(): a hub that is connected by hand."""

    _is_hot = False

    def __init__(self, source: Any):
        self.source = to_observable(source)
        self._share = _Share(self.source, PUBLISHED)
        self._connected: List[Any] = [None, None]

    def _open_with(self, at: At, makes: Any) -> bool:
        return False

    def _open(self, at: At) -> None:
        status = self._share.open(at)
        if status == NO_HUB:
            refuse(status)
        if status:
            linked(self, at, [])

    def connect(self, scheduler: Any = None) -> Any:
        """Connects it to its source, if it is not connected. Answers the disposable that disconnects it."""
        engine = current()
        connection = C.call(self._share.connect, engine, scheduler)
        if connection is None or connection is not self._connected[0]:
            self._connected[:] = connection, Disposable(lambda: C.call(self._share.disconnect, engine, connection))
        return self._connected[1]


class RefCount(Observable[Any]):
    """ref_count(): a hub that is connected while it has subscribers."""

    def __init__(self, source: Any):
        self._share = _Share(to_observable(source), SHARED)
        self._instead: Any = None  # what shares, by a subject, where no hub was left

    def _below(self) -> Any:
        return (self._share.source,)

    def _open_with(self, at: At, makes: Any) -> bool:
        return False

    def _open(self, at: At) -> None:
        is_instead = self._instead is not None and self._instead.is_connected
        status = NO_HUB if is_instead else self._share.open(at)
        if status == HUB_ORDER:
            linked(self, at, [])
        elif status:
            with _choosing:
                if self._instead is None:
                    from .subjects import Shared
                    self._instead = Shared(self._share.source)
            self._instead._open(at)
