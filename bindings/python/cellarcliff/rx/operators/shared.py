"""Operators that share."""
from __future__ import annotations

from typing import Any, Callable, Optional, overload

from .._observable import Observable
from .._typing import B, Operator, Scheduler, Span, same
from ..sharing import ConnectableObservable, Counted, Multicast, Published, RefCount, Selected
from ..subject import BehaviorSubject, ReplaySubject, Subject


Connectable = Callable[[Observable[object]], ConnectableObservable]


@overload
def publish(mapper: None = None) -> Connectable: ...
@overload
def publish(mapper: Callable[[Any], Observable[B]]) -> Operator[B]: ...


def publish(mapper: Any = None) -> Any:
    """A connectable observable: one subscription to the source for all that subscribe, made by connect(). With a function, what that
    makes of it, which is connected while it is subscribed to."""
    if mapper is not None:
        return lambda source: Selected(source, lambda _: Subject(), mapper)
    return Published


def multicast(subject: Any = None, subject_factory: Any = None, mapper: Any = None) -> Callable[[Any], Any]:
    """A connectable observable, whose items go through this subject; or, with a factory, what the function makes of one."""
    if subject_factory is not None:
        return lambda source: Selected(source, subject_factory, mapper or (lambda it: it))
    return lambda source: Multicast(source, subject)


@overload
def publish_value(initial_value: Any, mapper: None = None) -> Connectable: ...
@overload
def publish_value(initial_value: Any, mapper: Callable[[Any], Observable[B]]) -> Operator[B]: ...


def publish_value(initial_value: Any, mapper: Any = None) -> Any:
    """publish(), where who comes hears the latest item first."""
    if mapper is not None:
        return lambda source: Selected(source, lambda _: BehaviorSubject(initial_value), mapper)
    return lambda source: Multicast(source, BehaviorSubject(initial_value))


@overload
def replay(mapper: None = None, buffer_size: Optional[int] = None, window: Optional[Span] = None,
           scheduler: Optional[Scheduler] = None) -> Connectable: ...
@overload
def replay(mapper: Callable[[Any], Observable[B]], buffer_size: Optional[int] = None, window: Optional[Span] = None,
           scheduler: Optional[Scheduler] = None) -> Operator[B]: ...


def replay(mapper: Any = None, buffer_size: Any = None, window: Any = None, scheduler: Any = None) -> Any:
    """publish(), where who comes hears first what was told before."""
    if mapper is not None:
        return lambda source: Selected(source, lambda _: ReplaySubject(buffer_size, window, scheduler), mapper)
    return lambda source: Multicast(source, ReplaySubject(buffer_size, window, scheduler))


def ref_count() -> Operator[Any]:
    """Of a connectable observable: connected while it has a subscriber. If no hub is left for it, a subscriber receives a
    RuntimeError."""
    def operate(source: Any) -> Observable[Any]:
        return RefCount(source.source) if isinstance(source, Published) else Counted(source)
    return operate


@same
def share() -> Operator[Any]:
    """publish() and ref_count(): one subscription to the source for all that subscribe, for as long as there are any."""
    return RefCount


def connect(source: ConnectableObservable) -> Any:
    """Connects a connectable observable: as a function for a pipe's last place."""
    return source.connect()
