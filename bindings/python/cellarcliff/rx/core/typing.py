"""Names for type hints, with RxPY's: what an object has to have that is given to this package, which may be of any class."""
from __future__ import annotations

from datetime import datetime, timedelta
from typing import Any, Callable, Optional, Protocol, Union

__all__ = ["AbsoluteOrRelativeTime", "AbsoluteTime", "Accumulator", "Action", "Comparer", "Disposable", "Mapper", "MapperIndexed",
           "Observable", "Observer", "OnCompleted", "OnError", "OnNext", "PeriodicScheduler", "Predicate", "PredicateIndexed",
           "RelativeTime", "ScheduledAction", "ScheduledPeriodicAction", "Scheduler", "Subject"]

Action = Callable[[], Any]
OnNext = Callable[[Any], Any]
OnError = Callable[[Exception], Any]
OnCompleted = Callable[[], Any]
Mapper = Callable[[Any], Any]
MapperIndexed = Callable[[Any, int], Any]
Predicate = Callable[[Any], bool]
PredicateIndexed = Callable[[Any, int], bool]
Comparer = Callable[[Any, Any], bool]
Accumulator = Callable[[Any, Any], Any]
#: A time: in seconds since 1970, or in UTC without a zone.
AbsoluteTime = Union[datetime, float]
#: A span of time: in seconds.
RelativeTime = Union[timedelta, float]
AbsoluteOrRelativeTime = Union[datetime, timedelta, float]


class Disposable(Protocol):
    """What is disposed of."""

    def dispose(self) -> None:
        """Releases what it stands for; a second time does nothing."""


class Scheduler(Protocol):
    """What does work later."""

    @property
    def now(self) -> datetime:
        """Its time, in UTC without a zone."""
        ...

    def schedule(self, action: Any, state: Any = None) -> Disposable:
        """Does `action(scheduler, state)` as soon as it can."""
        ...

    def schedule_relative(self, duetime: RelativeTime, action: Any, state: Any = None) -> Disposable:
        """Does it after a span of time."""
        ...

    def schedule_absolute(self, duetime: AbsoluteTime, action: Any, state: Any = None) -> Disposable:
        """Does it at a time."""
        ...


class PeriodicScheduler(Scheduler, Protocol):
    """What does work each so often."""

    def schedule_periodic(self, period: RelativeTime, action: Any, state: Any = None) -> Disposable:
        """Does `action(state)` each period, with what it answered before."""
        ...


ScheduledAction = Callable[[Scheduler, Any], Optional[Disposable]]
ScheduledPeriodicAction = Callable[[Any], Any]


class Observer(Protocol):
    """Receives the items of an observable, and then at most one end."""

    def on_next(self, value: Any) -> None:
        """Receives an item."""

    def on_error(self, error: Exception) -> None:
        """The observable failed."""

    def on_completed(self) -> None:
        """The observable completed."""


class Observable(Protocol):
    """What can be subscribed to."""

    def subscribe(self, observer: Any = None, *, scheduler: Any = None) -> Disposable:
        """Subscribes; what it answers unsubscribes."""
        ...


class Subject(Observable, Observer, Protocol):
    """Both."""
