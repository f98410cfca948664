"""Operators of time: each is one leaf, whose timers act in its lane."""
from __future__ import annotations

from collections import deque
from datetime import datetime, timedelta
from typing import Any, Callable, Deque, List, NamedTuple, Optional

from .._engine import C
from .._functions import HEARING, PLAIN, Fn, Stage, tell_those
from .._link import Link, Linked
from .._observable import Observable, to_observable
from .._typing import Due, Operator, Scheduler, Span, same
from ..disposable import SerialDisposable
from ..scheduler import TimeoutScheduler
from ..sources import Throw, Timer
from ..nodes import Defer
from .items import NOTHING, Each
from .joined import sampled


def clock(link: Link, scheduler: Any) -> Any:
    """The scheduler of an operator of time."""
    return scheduler or link.scheduler or TimeoutScheduler.singleton()


def _serial(link: Link) -> SerialDisposable:
    timer = SerialDisposable()
    link.hold(timer)
    return timer


def _after(link: Link, clock: Any, due: Any, call: Callable[[], Any]) -> Any:
    """Calls this in the lane, at a time or after so long."""
    if isinstance(due, datetime):
        return clock.schedule_absolute(due, lambda *_: C.call(link.later, call))
    return link.schedule(clock, due, call)


@same
def debounce(duetime: Span, scheduler: Optional[Scheduler] = None) -> Operator[Any]:
    """An item, once so long no other has come; the last one at the end."""
    def operate(source: Any) -> Observable[Any]:
        def run(link: Link) -> None:
            timer, latest, clk = _serial(link), [NOTHING], clock(link, scheduler)

            def on_next(value: Any) -> None:
                mine = latest[0] = [value]

                def due() -> None:
                    if latest[0] is mine:
                        latest[0] = NOTHING
                        link.on_next(value)
                timer.disposable = link.schedule(clk, duetime, due)

            def on_completed() -> None:
                timer.dispose()
                last, latest[0] = latest[0], NOTHING
                tell_those(link, [] if last is NOTHING else last)
            link.subscribe(source, on_next, None, on_completed)
        return Linked(run, source, name="debounce")
    return operate


throttle_with_timeout = debounce


@same
def throttle_with_mapper(throttle_duration_mapper: Callable[[Any], Any]) -> Operator[Any]:
    """An item, once its observable has told something, or completed, and no other item has come."""
    def operate(source: Any) -> Observable[Any]:
        def run(link: Link) -> None:
            latest: List[Any] = [NOTHING]
            inner: List[Any] = []

            def on_next(value: Any) -> None:
                mine = latest[0] = [value]
                while inner:
                    link.drop(inner.pop())

                def due(*_: Any) -> None:
                    if latest[0] is mine:
                        latest[0] = NOTHING
                        link.on_next(value)
                    while inner:
                        link.drop(inner.pop())
                try:
                    duration = to_observable(throttle_duration_mapper(value))
                except Exception as error:
                    link.on_error(error)
                    return
                root = link.subscribe(duration, due, None, due)
                if not root.is_over:
                    inner.append(root)

            def on_completed() -> None:
                last, latest[0] = latest[0], NOTHING
                tell_those(link, [] if last is NOTHING else last)
            link.subscribe(source, on_next, None, on_completed)
        return Linked(run, source, name="throttle_with_mapper")
    return operate


@same
def throttle_first(window_duration: Span, scheduler: Optional[Scheduler] = None) -> Operator[Any]:
    """An item, and then none for so long."""
    def operate(source: Any) -> Observable[Any]:
        def run(link: Link) -> None:
            clk = clock(link, scheduler)
            duration = clk.to_timedelta(window_duration or 0.0)
            if duration <= timedelta(0):
                raise ValueError("window_duration cannot be less or equal zero.")
            last: List[Any] = [None]

            def on_next(value: Any) -> None:
                now = clk.now
                if last[0] is None or now - last[0] >= duration:
                    last[0] = now
                    link.on_next(value)
            link.subscribe(source, on_next, scheduler=clk)
        return Linked(run, source, name="throttle_first")
    return operate


@same
def delay(duetime: Span, scheduler: Optional[Scheduler] = None) -> Operator[Any]:
    """All items and the completion so much later; an error at once."""
    def operate(source: Any) -> Observable[Any]:
        def run(link: Link) -> None:
            clk, timer, queue = clock(link, scheduler), _serial(link), deque()  # type: Any, Any, Deque[Any]
            span = clk.to_datetime(duetime) - clk.now if isinstance(duetime, datetime) else clk.to_timedelta(duetime)

            def put(tell: Callable[[], Any]) -> None:
                queue.append((clk.now + span, tell))
                if len(queue) == 1:
                    timer.disposable = link.schedule(clk, span, due)

            def due() -> None:
                try:
                    while queue and queue[0][0] <= clk.now and not link.is_stopped:
                        queue.popleft()[1]()
                finally:
                    if queue and not link.is_stopped:
                        timer.disposable = link.schedule(clk, max(timedelta(0), queue[0][0] - clk.now), due)
            link.subscribe(source, lambda value: put(lambda: link.on_next(value)), None, lambda: put(link.on_completed), scheduler=clk)
        return Linked(run, source, name="delay")
    return operate


@same
def delay_subscription(duetime: Due, scheduler: Optional[Scheduler] = None) -> Operator[Any]:
    """Subscribes so much later."""
    def operate(source: Any) -> Observable[Any]:
        def run(link: Link) -> None:
            clk = clock(link, scheduler)
            link.hold(_after(link, clk, duetime, lambda: link.subscribe(source)))
        return Linked(run, source, name="delay_subscription")
    return operate


@same
def delay_with_mapper(subscription_delay: Any = None, delay_duration_mapper: Optional[Callable[[Any], Any]] = None) -> Operator[Any]:
    """Each item, once its observable has told something or completed."""
    first = None if callable(subscription_delay) and not hasattr(subscription_delay, "subscribe") else subscription_delay
    mapper = delay_duration_mapper if first is not None or delay_duration_mapper else subscription_delay

    def operate(source: Any) -> Observable[Any]:
        def run(link: Link) -> None:
            many, is_done = 0, False

            def finish() -> None:
                if is_done and not many:
                    link.on_completed()

            def on_next(value: Any) -> None:
                nonlocal many
                try:
                    duration = to_observable(mapper(value))
                except Exception as error:
                    link.on_error(error)
                    return
                many += 1
                root: List[Any] = []
                state = [False]

                def due(*_: Any) -> None:
                    nonlocal many
                    if not state[0]:
                        state[0] = True
                        many -= 1
                        try:
                            link.on_next(value)
                        finally:
                            for it in root:
                                link.drop(it)
                            finish()
                root.append(link.subscribe(duration, due, None, due))
                if state[0]:
                    link.drop(root[0])

            def on_completed() -> None:
                nonlocal is_done
                is_done = True
                finish()

            def begin(*_: Any) -> None:
                for it in delays:
                    link.drop(it)
                del delays[:]
                if not begun:
                    begun.append(1)
                    link.subscribe(source, on_next, None, on_completed)
            delays: List[Any] = []
            begun: List[Any] = []
            if first is None:
                begin()
            else:
                delays.append(link.subscribe(first, begin, None, lambda: link.follow(begin)))
        return Linked(run, source, name="delay_with_mapper")
    return operate


def timeout(duetime: Due, other: Any = None, scheduler: Optional[Scheduler] = None) -> Operator[Any]:
    """Goes on with another observable, or fails, where so long no item comes; with a datetime, where it has not ended by then."""
    def operate(source: Any) -> Observable[Any]:
        def run(link: Link) -> None:
            clk, timer = clock(link, scheduler), _serial(link)
            instead = Throw(Exception("Timeout"), None) if other is None else to_observable(other)
            turn, roots = [0], []  # type: List[int], List[Any]

            def set_timer() -> None:
                mine = turn[0]

                def due() -> None:
                    if turn[0] == mine:
                        turn[0] = -1
                        for it in roots:
                            link.drop(it)
                        link.follow(lambda: link.subscribe(instead, scheduler=scheduler))
                timer.disposable = _after(link, clk, duetime, due)

            def won() -> bool:
                if turn[0] < 0:
                    return False
                turn[0] += 1
                return True

            def on_next(value: Any) -> None:
                if won():
                    try:
                        link.on_next(value)
                    finally:
                        if not link.is_stopped:
                            set_timer()

            def on_error(error: Exception) -> None:
                if won():
                    link.on_error(error)

            def on_completed() -> None:
                if won():
                    link.on_completed()
            set_timer()
            roots.append(link.subscribe(source, on_next, on_error, on_completed))
        return Linked(run, source, name="timeout")
    return operate


def timeout_with_mapper(first_timeout: Any = None, timeout_duration_mapper: Optional[Callable[[Any], Any]] = None, other: Any = None) -> Operator[Any]:
    """The same, where how long it may take is said by observables."""
    def operate(source: Any) -> Observable[Any]:
        def run(link: Link) -> None:
            turn, roots, inner = [0], [], []  # type: List[int], List[Any], List[Any]
            instead = Throw(Exception("Timeout"), None) if other is None else to_observable(other)

            def wait(duration: Any) -> None:
                mine = turn[0]
                while inner:
                    link.drop(inner.pop())

                def due(*_: Any) -> None:
                    if turn[0] == mine:
                        turn[0] = -1
                        for it in (*roots, *inner):
                            link.drop(it)
                        link.follow(lambda: link.subscribe(instead))
                if duration is not None:
                    inner.append(link.subscribe(duration, due, None, due))

            def on_next(value: Any) -> None:
                if turn[0] < 0:
                    return
                turn[0] += 1
                try:
                    link.on_next(value)
                finally:
                    go_on(value)

            def go_on(value: Any) -> None:
                try:
                    duration = timeout_duration_mapper(value) if timeout_duration_mapper else None
                except Exception as error:
                    link.on_error(error)
                else:
                    wait(duration)
            wait(first_timeout)
            roots.append(link.subscribe(source, on_next))
        return Linked(run, source, name="timeout_with_mapper")
    return operate


@same
def sample(sampler: Any, scheduler: Optional[Scheduler] = None) -> Operator[Any]:
    """The latest item with each item of the sampler, or each period, if there is a new one."""
    if hasattr(sampler, "subscribe"):
        return lambda source: sampled(source, sampler)
    return lambda source: sampled(source, Timer(sampler, sampler, scheduler))


@same
def observe_on(scheduler: Scheduler) -> Operator[Any]:
    """The observer is told by a scheduler, in order."""
    def operate(source: Any) -> Observable[Any]:
        def run(link: Link) -> None:
            queue, timer, is_due = deque(), _serial(link), [False]  # type: Deque[Any], Any, List[bool]

            def put(*note: Any) -> None:
                queue.append(note)
                if not is_due[0]:
                    is_due[0] = True
                    timer.disposable = scheduler.schedule(go_on)

            def go_on(*_: Any) -> None:
                """One note each time, by the scheduler."""
                try:
                    C.call(tell)
                finally:
                    follow()

            def follow() -> None:
                if queue and not link.is_stopped:
                    timer.disposable = scheduler.schedule(go_on)
                else:
                    is_due[0] = False
                    if queue and not link.is_stopped:
                        link.later(lambda: put_again())

            def put_again() -> None:
                if queue and not is_due[0]:
                    is_due[0] = True
                    timer.disposable = scheduler.schedule(go_on)

            def tell() -> None:
                try:
                    call, *value = queue.popleft()
                except IndexError:
                    return
                call(*value)
            link.subscribe(source, lambda value: put(link.on_next, value), lambda error: put(link.on_error, error), lambda: put(link.on_completed))
        return Linked(run, source, name="observe_on")
    return operate


@same
def subscribe_on(scheduler: Scheduler) -> Operator[Any]:
    """Subscribes, and unsubscribes, by a scheduler."""
    def operate(source: Any) -> Observable[Any]:
        def run(link: Link) -> None:
            link.hold(link.schedule(scheduler, None, lambda: link.subscribe(source)))
        return Linked(run, source, name="subscribe_on")
    return operate


class TimeInterval(NamedTuple):
    """An item, and how long it came after the one before."""

    value: Any
    interval: timedelta


class Timestamp(NamedTuple):
    """An item, and when it came."""

    value: Any
    timestamp: datetime


def _timed(make: Callable[[Any], Callable[[Any], Any]], scheduler: Any) -> Operator[Any]:
    """A function on items that each subscription makes of its clock."""
    def operate(source: Any) -> Observable[Any]:
        def of(given: Any) -> Observable[Any]:
            clk = scheduler or given or TimeoutScheduler.singleton()
            return Fn(source, lambda down: Each(down, make(clk)), PLAIN)
        return Defer(of)
    return operate


def timestamp(scheduler: Optional[Scheduler] = None) -> Operator[Any]:
    """Each item with its time."""
    return _timed(lambda clk: lambda value: Timestamp(value, clk.now), scheduler)


def time_interval(scheduler: Optional[Scheduler] = None) -> Operator[Any]:
    """Each item with the time since the one before."""
    def make(clk: Any) -> Callable[[Any], Any]:
        last = clk.now

        def call(value: Any) -> Any:
            nonlocal last
            before, last = last, clk.now
            return TimeInterval(value, last - before)
        return call
    return _timed(make, scheduler)


# so long

@same
def take_with_time(duration: Span, scheduler: Optional[Scheduler] = None) -> Operator[Any]:
    """The items of so long."""
    def operate(source: Any) -> Observable[Any]:
        def run(link: Link) -> None:
            link.hold(_after(link, clock(link, scheduler), duration, link.on_completed))
            link.subscribe(source)
        return Linked(run, source)
    return operate


@same
def take_until_with_time(end_time: Due, scheduler: Optional[Scheduler] = None) -> Operator[Any]:
    """The items until a time, or for so long."""
    due: Any = end_time
    return take_with_time(due, scheduler)


def _opened(link: Link, source: Any, due: Any, scheduler: Any, is_source_first: bool) -> None:
    is_open = [False]

    def wait() -> None:
        link.hold(_after(link, clock(link, scheduler), due, lambda: is_open.__setitem__(0, True)))
    if not is_source_first:
        wait()
    link.subscribe(source, lambda value: link.on_next(value) if is_open[0] else None)
    if is_source_first:
        wait()


@same
def skip_with_time(duration: Span, scheduler: Optional[Scheduler] = None) -> Operator[Any]:
    """The items behind so long."""
    return lambda source: Linked(lambda link: _opened(link, source, duration, scheduler, False), source)


@same
def skip_until_with_time(start_time: Due, scheduler: Optional[Scheduler] = None) -> Operator[Any]:
    """The items behind a time, or behind so long."""
    return lambda source: Linked(lambda link: _opened(link, source, start_time, scheduler, True), source)


class _LastOf(Stage):
    """What is not older than a span, at the end; or what is, as it becomes so."""

    __slots__ = ("_span", "_clock", "_queue", "_is_skip")

    def __init__(self, down: Any, clk: Any, duration: Any, is_skip: bool):
        self.down, self._clock, self._span, self._is_skip = down, clk, clk.to_timedelta(duration), is_skip
        self._queue: Deque[Any] = deque()

    def _trim(self, now: Any) -> None:
        while self._queue and now - self._queue[0][0] >= self._span:
            it = self._queue.popleft()
            if self._is_skip:
                self.down.on_next(it[1])

    def on_next(self, value: Any) -> None:
        now = self._clock.now
        self._queue.append((now, value))
        self._trim(now)

    def on_completed(self) -> None:
        now = self._clock.now
        if self._is_skip:
            self._trim(now)
            self.down.on_completed()
        else:
            tell_those(self.down, [value for at, value in self._queue if now - at <= self._span])


@same
def take_last_with_time(duration: Span, scheduler: Optional[Scheduler] = None) -> Operator[Any]:
    """The items of the last so long, at the end."""
    clk = scheduler or TimeoutScheduler.singleton()
    return lambda source: Fn(source, lambda down: _LastOf(down, clk, duration, False), HEARING)


@same
def skip_last_with_time(duration: Span, scheduler: Optional[Scheduler] = None) -> Operator[Any]:
    """All but the items of the last so long."""
    clk = scheduler or TimeoutScheduler.singleton()
    return lambda source: Fn(source, lambda down: _LastOf(down, clk, duration, True), HEARING)

