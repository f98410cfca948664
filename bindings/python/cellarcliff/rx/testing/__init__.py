"""Virtual time for tests, with the names of RxPY's: TestScheduler, ReactiveTest and what they record.

    scheduler = TestScheduler()
    source = scheduler.create_hot_observable(on_next(210, 1), on_completed(250))
    results = scheduler.start(lambda: source.pipe(ops.map(str)))
    assert results.messages == [on_next(210, "1"), on_completed(250)]
"""
from __future__ import annotations

import heapq
import itertools
import sys
from datetime import datetime
from typing import TYPE_CHECKING, Any, Callable, List, Optional, Tuple

from ..._nearest import lacking
from .._observable import Observable, create
from .._notification import OnCompleted, OnError, OnNext
from ..disposable import CompositeDisposable, Disposable, SingleAssignmentDisposable
from ..internal import ArgumentOutOfRangeException, Missing
from ..scheduler import Scheduler


if not TYPE_CHECKING:
    def __getattr__(name: str) -> Any:
        if name in ("MockDisposable", "OnErrorPredicate", "OnNextPredicate", "is_prime"):
            raise Missing(f"cellarcliff.rx.testing has no {name}: RxPY's own rx.testing drives this package as well")
        raise lacking(__name__, name)


class Recorded:
    """A notification and its time, in ticks."""

    def __init__(self, time: float, value: Any):
        self.time, self.value = time, value

    def __eq__(self, other: Any) -> bool:
        return bool(self.time == other.time and self.value == other.value)

    def __repr__(self) -> str:
        return f"{self.value}@{self.time}"

    __hash__ = None  # type: ignore[assignment]


class Subscription:
    """From when to when an observable was subscribed to, in ticks."""

    def __init__(self, start: float, end: Optional[float] = None):
        self.subscribe, self.unsubscribe = start, end or sys.maxsize

    def __eq__(self, other: Any) -> bool:
        return bool(self.subscribe == other.subscribe and self.unsubscribe == other.unsubscribe)

    def __repr__(self) -> str:
        return f"({self.subscribe}, {'Infinite' if self.unsubscribe == sys.maxsize else self.unsubscribe})"

    __hash__ = None  # type: ignore[assignment]


class ReactiveTest:
    created, subscribed, disposed = 100, 200, 1000

    @staticmethod
    def on_next(ticks: float, value: Any) -> Recorded:
        return Recorded(ticks, OnNext(value))

    @staticmethod
    def on_error(ticks: float, exception: Any) -> Recorded:
        return Recorded(ticks, OnError(exception))

    @staticmethod
    def on_completed(ticks: float) -> Recorded:
        return Recorded(ticks, OnCompleted())

    @staticmethod
    def subscribe(start: float, end: Optional[float] = None) -> Subscription:
        return Subscription(start, end)


class MockObserver:
    """Records what it receives, and when."""

    def __init__(self, scheduler: "VirtualTimeScheduler"):
        self.scheduler, self.messages = scheduler, []  # type: Tuple[VirtualTimeScheduler, List[Recorded]]

    def on_next(self, value: Any) -> None:
        self.messages.append(Recorded(self.scheduler.clock, OnNext(value)))

    def on_error(self, error: Exception) -> None:
        self.messages.append(Recorded(self.scheduler.clock, OnError(error)))

    def on_completed(self) -> None:
        self.messages.append(Recorded(self.scheduler.clock, OnCompleted()))


class VirtualTimeScheduler(Scheduler):
    """A clock that goes on as the work is done; times are ticks."""

    def __init__(self, initial_clock: float = 0):
        self.clock: float = initial_clock
        self._queue: List[Tuple[float, int, Callable[[], Any]]] = []
        self._numbers = itertools.count()
        self._is_enabled = False

    @property
    def now(self) -> datetime:
        return self.to_datetime(self.clock)

    def schedule(self, action: Any, state: Any = None) -> Any:
        return self.schedule_absolute(self.clock, action, state)

    def schedule_relative(self, duetime: Any, action: Any, state: Any = None) -> Any:
        return self.schedule_absolute(self.clock + self.to_seconds(duetime), action, state)

    def schedule_absolute(self, duetime: Any, action: Any, state: Any = None) -> Any:
        whole = SingleAssignmentDisposable()
        heapq.heappush(self._queue, (self.to_seconds(duetime), next(self._numbers), self._into(whole, action, state)))
        return whole

    def _run(self, until: Optional[float]) -> None:
        if self._is_enabled:
            return
        self._is_enabled = True
        try:
            self._do_until(until)
        finally:
            self._is_enabled = False

    def _do_until(self, until: Optional[float]) -> None:
        spinning = 0
        while self._is_enabled and self._queue and (until is None or self._queue[0][0] <= until):
            duetime, _, act = heapq.heappop(self._queue)
            if duetime > self.clock:
                self.clock, spinning = duetime, 0
            elif spinning > 100:  # so that what schedules itself at once gets on
                self.clock, spinning = self.clock + 1, 0
            spinning += 1
            act()

    def start(self) -> Any:
        """Does all work, and what that schedules."""
        self._run(None)

    def stop(self) -> None:
        self._is_enabled = False

    def advance_to(self, time: Any) -> None:
        """Does the work up to a time."""
        until = self.to_seconds(time)
        if until < self.clock:
            raise ValueError("the time is over")
        self._run(until)
        self.clock = until

    def advance_by(self, time: Any) -> None:
        self.advance_to(self.clock + self.to_seconds(time))

    def sleep(self, time: Any) -> None:
        """Puts the clock on, and does no work."""
        seconds = self.to_seconds(time)
        if seconds < 0:
            raise ArgumentOutOfRangeException()
        self.clock += seconds


class HistoricalScheduler(VirtualTimeScheduler):
    """The same, of times since 1970."""

    def __init__(self, initial_clock: Any = 0):
        super().__init__(self.to_seconds(initial_clock))


class _Recording(Observable[Any]):
    """An observable that notes from when to when it was subscribed to."""

    def __init__(self, scheduler: VirtualTimeScheduler, messages: List[Recorded]):
        super().__init__(self._subscribe_core)
        self.scheduler, self.messages = scheduler, messages
        self.subscriptions: List[Subscription] = []

    def _begin(self) -> Callable[[], None]:
        self.subscriptions.append(Subscription(self.scheduler.clock))
        index = len(self.subscriptions) - 1

        def end() -> None:
            self.subscriptions[index] = Subscription(self.subscriptions[index].subscribe, self.scheduler.clock)
        return end

    def _open(self, at: Any) -> None:
        self._open_with(at, [])

    def _open_with(self, at: Any, makes: Any) -> bool:
        create(self._subscribe_core, at, makes)
        return True

    def _subscribe_core(self, observer: Any, scheduler: Any = None) -> Any:
        raise NotImplementedError


class HotObservable(_Recording):
    def __init__(self, scheduler: VirtualTimeScheduler, messages: List[Recorded]):
        super().__init__(scheduler, messages)
        self.observers: List[Any] = []
        for it in messages:
            scheduler.schedule_absolute(it.time, lambda _, __, told=it.value: [told.accept(each) for each in self.observers[:]])

    def _subscribe_core(self, observer: Any, scheduler: Any = None) -> Any:
        self.observers.append(observer)
        end = self._begin()

        def dispose() -> None:
            self.observers.remove(observer)
            end()
        return Disposable(dispose)


class ColdObservable(_Recording):
    def _subscribe_core(self, observer: Any, scheduler: Any = None) -> Any:
        end = self._begin()
        return CompositeDisposable(Disposable(end), *(
            self.scheduler.schedule_relative(it.time, lambda _, __, told=it.value: told.accept(observer)) for it in self.messages))


class TestScheduler(VirtualTimeScheduler):
    """Virtual time that creates, subscribes to and disposes of what is tested."""

    __test__ = False

    def start(self, create: Optional[Callable[[], Any]] = None, created: Optional[float] = None, subscribed: Optional[float] = None,
              disposed: Optional[float] = None) -> MockObserver:
        """Calls `create` at 100, subscribes at 200 and unsubscribes at 1000, or at the given times. Answers what was received."""
        observer, made = self.create_observer(), []  # type: Tuple[MockObserver, List[Any]]
        self.schedule_absolute(created or ReactiveTest.created, lambda *_: made.append((create or Observable)()))
        self.schedule_absolute(subscribed or ReactiveTest.subscribed,
                               lambda scheduler, _: made.append(made[0].subscribe(observer, scheduler=scheduler)))
        self.schedule_absolute(disposed or ReactiveTest.disposed, lambda *_: made[1].dispose())
        super().start()
        return observer

    def create_hot_observable(self, *args: Any) -> HotObservable:
        """Emits these at their times, with or without subscribers."""
        return HotObservable(self, args[0] if args and isinstance(args[0], list) else list(args))

    def create_cold_observable(self, *args: Any) -> ColdObservable:
        """Emits these at their times, counted from each subscription."""
        return ColdObservable(self, args[0] if args and isinstance(args[0], list) else list(args))

    def create_observer(self) -> MockObserver:
        return MockObserver(self)
