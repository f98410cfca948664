"""Windows, buffers and groups: parts of the items, each an observable or a list.

A window, or a group, outlives the operator's observer: the source is left once neither he nor any subscriber of a window is there.
"""
from __future__ import annotations

from typing import Any, Callable, Dict, List, Optional, Sequence

from .._engine import At, C
from .._link import Link, Linked
from .._observable import Observable, to_observable
from .._typing import Operator, Scheduler, Span
from ..disposable import SerialDisposable
from ..subject import Subject

from .joined import noop
from .times import clock


class Parted(Link):
    """A link whose subscriptions stay for as long as a part of it is subscribed to."""

    __slots__ = ("_many", "_is_left", "_behind")

    def __init__(self, at: At, makes: Any):
        self._many, self._is_left, self._behind = 0, False, 0
        super().__init__(at, makes)

    def tell(self, subject: Any, call: Callable[..., Any], *given: Any) -> None:
        """Tells a part something, by this call: behind the part itself, where that may not be told yet."""
        if self.is_stopped or not self._behind and getattr(subject, "_ups", None):
            call(*given)
            return

        def told() -> None:
            try:
                call(*given)
            finally:
                self._behind -= 1
        self._behind += 1
        self.engine.put(self.leaf, told)

    def _closed(self) -> None:
        self._is_left = True
        if not self._many:
            super()._closed()

    def enter(self) -> "_Stay":
        self._many += 1
        return _Stay(self)

    def leave(self) -> None:
        self._many -= 1
        if not self._many and self._is_left:
            super()._closed()

    @property
    def is_over(self) -> bool:
        return self._is_left and not self._many


class _Stay:
    """What a subscriber of a part holds."""

    def __init__(self, link: Parted):
        self._link: Optional[Parted] = link

    def dispose(self) -> None:
        link, self._link = self._link, None
        if link is not None:
            link.leave()


class PartedBy(Linked):
    """An operator that parts the items."""

    def _open_with(self, at: At, makes: Any) -> bool:
        link = Parted(at, makes)
        if not link.is_stopped:
            self._run(link)
        return True


class GroupedObservable(Observable[Any]):
    """A part of the items, by its key."""

    def __init__(self, key: Any, underlying_observable: Any, link: Any = None):
        self.key, self.underlying_observable, self._link = key, underlying_observable, link

    def _open_with(self, at: At, makes: Any) -> bool:
        link, subject = self._link, self.underlying_observable
        if link is not None and not link.is_over and isinstance(subject, Subject) and not subject.is_stopped:
            stay = link.enter()
            try:
                subject._open_with(at, makes)
                at.engine.hold(at.node, lambda: stay)
            except BaseException:
                stay.dispose()
                raise
            return True
        return to_observable(subject)._open_with(at, makes)

    _is_hot = True


Part = Callable[[Parted], Any]


class Window:
    """A part that is an observable."""

    def __init__(self, link: Parted):
        self.link = link
        self.subject: Subject[Any] = Subject()
        link.on_next(GroupedObservable(None, self.subject, link))

    def on_next(self, value: Any) -> None:
        self.link.tell(self.subject, self.subject.on_next, value)

    def on_error(self, error: Exception) -> None:
        self.link.tell(self.subject, self.subject.on_error, error)

    def on_completed(self) -> None:
        self.link.tell(self.subject, self.subject.on_completed)


class Buffer:
    """A part that is a list, which is told as it is complete."""

    def __init__(self, link: Parted):
        self.link, self.items = link, []  # type: Parted, List[Any]

    def on_next(self, value: Any) -> None:
        self.items.append(value)

    def on_error(self, error: Exception) -> None:
        pass

    def on_completed(self) -> None:
        self.link.on_next(self.items)


class SomeBuffer(Buffer):
    """The same, unless it is empty."""

    def on_completed(self) -> None:
        if self.items:
            super().on_completed()


def each(parts: Sequence[Any], tell: Callable[[Any], Any]) -> None:
    """Tells each of these, also where an observer of one is interrupted."""
    for at, it in enumerate(parts):
        try:
            tell(it)
        except BaseException:
            each(parts[at + 1:], tell)
            raise


class _Open:
    """The parts that are open, and what ends them all."""

    def __init__(self, link: Parted):
        self.link, self.parts = link, []  # type: Parted, List[Any]

    def on_next(self, value: Any) -> None:
        parts = self.parts
        if len(parts) == 1:
            parts[0].on_next(value)
        else:
            each(tuple(parts), lambda it: it.on_next(value))

    def on_error(self, error: Exception) -> None:
        self._end(lambda it: it.on_error(error))

    def on_completed(self) -> None:
        self._end(lambda it: it.on_completed())

    def _end(self, tell: Callable[[Any], Any]) -> None:
        parts, self.parts = self.parts, []
        each((*parts, self.link), tell)

    def close_first(self) -> None:
        self.parts.pop(0).on_completed()

    def exchange(self, part: Part) -> None:
        """Closes the first and opens another, also where an observer of the first is interrupted."""
        try:
            self.close_first()
        finally:
            self.parts.append(part(self.link))


def _by_boundaries(source: Any, boundaries: Any, part: Part) -> Observable[Any]:
    def run(link: Any) -> None:
        parts = _Open(link)

        parts.parts.append(part(link))
        link.subscribe(source, parts.on_next, parts.on_error, parts.on_completed)
        link.subscribe(boundaries, lambda _: parts.exchange(part), parts.on_error, parts.on_completed)
    return PartedBy(run, source, boundaries)


def _by_closing(source: Any, closing: Callable[[], Any], part: Part) -> Observable[Any]:
    def run(link: Any) -> None:
        parts, turn, held = _Open(link), [0], []  # type: _Open, List[int], List[Any]

        def wait() -> None:
            try:
                duration = to_observable(closing())
            except Exception as error:
                parts.on_error(error)
                return
            mine = turn[0] = turn[0] + 1

            def due(*_: Any) -> None:
                if turn[0] == mine and not link.is_over:
                    turn[0] += 1
                    for it in held:
                        link.drop(it)
                    del held[:]
                    link.later(follow)
            root = link.subscribe(duration, due, parts.on_error, due)
            if turn[0] == mine:
                held.append(root)
            else:
                link.drop(root)

        def follow() -> None:
            if parts.parts:
                try:
                    parts.exchange(part)
                finally:
                    wait()
        parts.parts.append(part(link))
        link.subscribe(source, parts.on_next, parts.on_error, parts.on_completed)
        wait()
    return PartedBy(run, source)


def _by_openings(source: Any, openings: Any, closing: Callable[[Any], Any], part: Part) -> Observable[Any]:
    def run(link: Any) -> None:
        parts, ended = _Open(link), [False]

        def finish() -> None:
            if ended[0] and not parts.parts:
                link.on_completed()

        def opened(value: Any) -> None:
            it = part(link)
            parts.parts.append(it)
            held: List[Any] = []

            def due(*_: Any) -> None:
                for root in held:
                    link.drop(root)
                del held[:]
                if it in parts.parts:
                    parts.parts.remove(it)
                    it.on_completed()
                    finish()
            try:
                duration = to_observable(closing(value))
            except Exception as error:
                parts.on_error(error)
                return
            root = link.subscribe(duration, due, parts.on_error, due)
            if it in parts.parts:
                held.append(root)
            else:
                link.drop(root)

        def openings_ended() -> None:
            ended[0] = True
            finish()
        link.subscribe(openings, opened, parts.on_error, openings_ended)
        link.subscribe(source, parts.on_next, parts.on_error, noop)
    return PartedBy(run, source, openings)


def _by_count(source: Any, count: int, skip: Optional[int], part: Part) -> Observable[Any]:
    every = count if skip is None else skip
    if count <= 0 or every <= 0:
        from ..internal import ArgumentOutOfRangeException
        raise ArgumentOutOfRangeException()

    def run(link: Any) -> None:
        parts, n = _Open(link), [0]

        def on_next(value: Any) -> None:
            parts.on_next(value)
            at = n[0] - count + 1
            n[0] += 1
            try:
                if at >= 0 and at % every == 0:
                    parts.close_first()
            finally:
                if n[0] % every == 0:
                    parts.parts.append(part(link))
        parts.parts.append(part(link))
        link.subscribe(source, on_next, parts.on_error, parts.on_completed)
    return PartedBy(run, source)


def _by_time(source: Any, timespan: Any, timeshift: Any, scheduler: Any, part: Part) -> Observable[Any]:
    def run(link: Any) -> None:
        clk = clock(link, scheduler)
        span = clk.to_timedelta(timespan)
        shift = span if timeshift is None else clk.to_timedelta(timeshift)
        parts, timer = _Open(link), link.hold(SerialDisposable())
        zero = span - span
        state = [shift, span, zero]  # when the next opens, when the next closes, and now

        def wait() -> None:
            opens, closes, now = state
            is_open, is_closed = opens <= closes, closes <= opens
            state[2] = min(opens, closes)
            if is_open:
                state[0] += shift
            if is_closed:
                state[1] += shift

            def due() -> None:
                if is_closed and parts.parts and not is_open:
                    parts.close_first()
                if is_open and is_closed:
                    if parts.parts:
                        parts.close_first()
                if is_open:
                    parts.parts.append(part(link))
                wait()
            timer.disposable = link.schedule(clk, state[2] - now, due)
        parts.parts.append(part(link))
        wait()
        link.subscribe(source, parts.on_next, parts.on_error, parts.on_completed)
    return PartedBy(run, source)


def _by_time_or_count(source: Any, timespan: Any, count: int, scheduler: Any, part: Part) -> Observable[Any]:
    def run(link: Any) -> None:
        clk = clock(link, scheduler)
        parts, timer, n, turn = _Open(link), link.hold(SerialDisposable()), [0], [0]

        def wait() -> None:
            mine = turn[0]

            def due() -> None:
                if turn[0] == mine:
                    exchange()
            timer.disposable = link.schedule(clk, timespan, due)

        def exchange() -> None:
            turn[0] += 1
            n[0] = 0
            try:
                parts.exchange(part)
            finally:
                wait()

        def on_next(value: Any) -> None:
            parts.on_next(value)
            n[0] += 1
            if n[0] == count:
                exchange()
        parts.parts.append(part(link))
        wait()
        link.subscribe(source, on_next, parts.on_error, parts.on_completed)
    return PartedBy(run, source)


def window(boundaries: Any) -> Operator[Observable[Any]]:
    """Windows that the boundaries divide."""
    return lambda source: _by_boundaries(source, boundaries, Window)


def buffer(boundaries: Any) -> Operator[List[Any]]:
    """Lists that the boundaries divide."""
    return lambda source: _by_boundaries(source, boundaries, Buffer)


def window_when(closing_mapper: Callable[[], Any]) -> Operator[Observable[Any]]:
    """Windows, each until the observable that the function answers tells something."""
    return lambda source: _by_closing(source, closing_mapper, Window)


def buffer_when(closing_mapper: Callable[[], Any]) -> Operator[List[Any]]:
    """Lists, each until the observable that the function answers tells something."""
    return lambda source: _by_closing(source, closing_mapper, Buffer)


def window_toggle(openings: Any, closing_mapper: Callable[[Any], Any]) -> Operator[Observable[Any]]:
    """A window with each opening, until the observable that the function answers of it tells something."""
    return lambda source: _by_openings(source, openings, closing_mapper, Window)


def buffer_toggle(openings: Any, closing_mapper: Callable[[Any], Any]) -> Operator[List[Any]]:
    """A list with each opening, until the observable that the function answers of it tells something."""
    return lambda source: _by_openings(source, openings, closing_mapper, Buffer)


def window_with_count(count: int, skip: Optional[int] = None) -> Operator[Observable[Any]]:
    """Windows of so many items, a new one with each so many."""
    return lambda source: _by_count(source, count, skip, Window)


def buffer_with_count(count: int, skip: Optional[int] = None) -> Operator[List[Any]]:
    """Lists of so many items, a new one with each so many."""
    return lambda source: _by_count(source, count, skip, SomeBuffer)


def window_with_time(timespan: Span, timeshift: Optional[Span] = None, scheduler: Optional[Scheduler] = None) -> Operator[Observable[Any]]:
    """Windows of so long, a new one each so long."""
    return lambda source: _by_time(source, timespan, timeshift, scheduler, Window)


def buffer_with_time(timespan: Span, timeshift: Optional[Span] = None, scheduler: Optional[Scheduler] = None) -> Operator[List[Any]]:
    """Lists of so long, a new one each so long."""
    return lambda source: _by_time(source, timespan, timeshift, scheduler, Buffer)


def window_with_time_or_count(timespan: Span, count: int, scheduler: Optional[Scheduler] = None) -> Operator[Observable[Any]]:
    """Windows of so long, or of so many items."""
    return lambda source: _by_time_or_count(source, timespan, count, scheduler, Window)


def buffer_with_time_or_count(timespan: Span, count: int, scheduler: Optional[Scheduler] = None) -> Operator[List[Any]]:
    """Lists of so long, or of so many items."""
    return lambda source: _by_time_or_count(source, timespan, count, scheduler, Buffer)


class _Group:
    """A group, whose items wait as it is made for what its duration tells as it is subscribed to."""

    def __init__(self, link: Parted, subject: Any):
        self.link, self.subject = link, subject
        self._waiting: Optional[List[Any]] = None

    def on_next(self, value: Any) -> None:
        if self._waiting is None:
            self.link.tell(self.subject, self.subject.on_next, value)
        else:
            self._waiting.append(value)

    def wait(self) -> None:
        self._waiting = []

    def forget(self) -> None:
        self._waiting = None

    def go_on(self) -> None:
        waiting, self._waiting = self._waiting, None
        each(waiting or (), self.on_next)

    def end(self, tell: Callable[[Any], Any]) -> None:
        try:
            self.go_on()
        finally:
            self.link.tell(self.subject, tell, self.subject)


def group_by_until(key_mapper: Callable[[Any], Any], element_mapper: Optional[Callable[[Any], Any]],
                   duration_mapper: Optional[Callable[[Any], Any]], subject_mapper: Optional[Callable[[], Any]] = None) -> Operator[Any]:
    """A group for each key, until the observable that the function answers of it tells something."""
    def operate(source: Any) -> Observable[Any]:
        def run(link: Any) -> None:
            groups: Dict[Any, _Group] = {}

            def end(tell: Callable[[Any], Any]) -> None:
                those = tuple(groups.values())
                groups.clear()
                try:
                    each(those, lambda it: it.end(tell))
                finally:
                    tell(link)

            def fail(error: Exception) -> None:
                end(lambda it: it.on_error(error))

            def make(key: Any) -> _Group:
                subject = subject_mapper() if subject_mapper else Subject()
                group = groups[key] = _Group(link, subject)
                duration = duration_mapper(GroupedObservable(key, subject)) if duration_mapper else None
                try:
                    link.on_next(GroupedObservable(key, subject, link))
                finally:
                    if duration is not None:
                        expire(key, group, duration)
                return group

            def expire(key: Any, group: _Group, duration: Any) -> None:
                held: List[Any] = []

                def due(*_: Any) -> None:
                    for it in held:
                        link.drop(it)
                    if groups.get(key) is group:
                        del groups[key]
                        group.forget()
                        group.end(lambda it: it.on_completed())

                def failed(error: Exception) -> None:
                    group.forget()
                    fail(error)
                is_alone = C.queue() is None
                group.wait()
                try:
                    held.append(link.subscribe(duration, due, failed, due))
                finally:
                    if is_alone:  # what the duration tells may be put off till then
                        C.fed(C.put_off, lambda: link.later(group.go_on))
                    else:
                        link.later(group.go_on)

            def on_next(value: Any) -> None:
                try:
                    key = key_mapper(value)
                    group = groups[key] if key in groups else None if link.is_stopped else make(key)
                    element = value if element_mapper is None else element_mapper(value)
                except Exception as error:
                    fail(error)
                    return
                if group is not None:
                    group.on_next(element)
            link.subscribe(source, on_next, fail, lambda: end(lambda it: it.on_completed()))
        return PartedBy(run, source, name="group_by")
    return operate


def group_by(key_mapper: Callable[[Any], Any], element_mapper: Optional[Callable[[Any], Any]] = None,
             subject_mapper: Optional[Callable[[], Any]] = None) -> Operator[Any]:
    """A group for each key: an observable with a `key`, which is told the items that have it."""
    return group_by_until(key_mapper, element_mapper, None, subject_mapper)

