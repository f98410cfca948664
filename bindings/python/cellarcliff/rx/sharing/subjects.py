"""multicast(), replay(), publish_value(): a subject between the source and who subscribes."""
from __future__ import annotations

import threading
from typing import Any, Callable, Optional

from .._cellar import PASS
from .._engine import At
from .._observable import Observable, open_below, to_observable
from ..subject import Subject
from .hubs import ConnectableObservable


class Multicast(ConnectableObservable):
    """multicast(): the items go through this subject."""


class _Connected(Observable[Any]):
    """What subscribes to a connectable, and connects it behind that."""

    _hides = True

    def _open_with(self, at: At, makes: Any) -> bool:
        return False


class Selected(_Connected):
    """What a function makes of a connectable, which is connected for as long as that is subscribed to."""

    def __init__(self, source: Any, make: Callable[[Any], Any], mapper: Callable[[Any], Any]):
        self._source, self._make, self._mapper = to_observable(source), make, mapper

    def _below(self) -> Any:
        return (self._source,)

    def _open(self, at: At) -> None:
        connection: Any = None
        is_closed = False

        def closed() -> None:
            nonlocal is_closed
            is_closed = True
            if connection is not None:
                connection.dispose()
        node = at.engine.open(at, PASS, closed)
        connectable = ConnectableObservable(self._source, self._make(at.scheduler))
        open_below(self._mapper(connectable), at.inside(node))
        if not is_closed:
            connection = connectable.connect(at.scheduler)
            if is_closed:
                connection.dispose()


class Counted(_Connected):
    """ref_count() of a connectable that is none of publish(): connected while it has a subscriber, who are counted here."""

    def __init__(self, source: ConnectableObservable):
        self._source, self._lock = source, threading.RLock()
        self._many = 0
        self._connection: Optional[Any] = None

    def _below(self) -> Any:
        return (self._source,)

    @property
    def is_connected(self) -> bool:
        return self._many > 0

    def _begin(self) -> None:
        """Before the first subscribes."""

    def _open(self, at: At) -> None:
        node = at.engine.open(at, PASS, self._left)
        with self._lock:
            self._many += 1
            is_first = self._many == 1
            if is_first:
                self._begin()
        open_below(self._source, at.inside(node))
        if is_first and self._many:
            connection = self._source.connect(at.scheduler)
            with self._lock:
                is_wanted = self._many > 0
                if is_wanted:
                    self._connection = connection
            if not is_wanted:
                connection.dispose()

    def _left(self) -> None:
        with self._lock:
            self._many -= 1
            connection = None if self._many else self._connection
            if not self._many:
                self._connection = None
        if connection is not None:
            connection.dispose()


class Shared(Counted):
    """share(), where the engine has no hub left: by a subject, of which each connection has its own."""

    def __init__(self, source: Observable[Any]):
        super().__init__(ConnectableObservable(source, None))

    def _begin(self) -> None:
        self._source = ConnectableObservable(self._source.source, Subject())
