"""Sources of items that are there: of an iterable, or one value."""
from __future__ import annotations

from typing import Any, Callable, Iterable

from .._engine import At, C
from .._functions import chained, tell_last
from .._observable import Observable
from ..disposable import MultipleAssignmentDisposable


class Scheduled(Observable[Any]):
    """A source that emits by a scheduler: `_emit` is given the head of its chain and its leaf."""

    scheduler: Any = None
    _is_immediate = False  # whether it tells at once where there is no scheduler, and else behind what is under way

    def _emit(self, up: Any, leaf: Any) -> None:
        raise NotImplementedError

    def _open_with(self, at: At, makes: Any) -> bool:
        engine, scheduler = at.engine, self.scheduler or at.scheduler
        leaf = engine.source(at, scheduler is not None)
        up = chained(makes, leaf) if makes else leaf

        def action(*_: Any) -> None:
            if not leaf.is_stopped:
                C.call(self._emit, up, leaf)
        if leaf.is_stopped:
            pass
        elif scheduler is not None:
            engine.hold(leaf, scheduler.schedule, action)
        elif self._is_immediate or not C.put_off(action):
            self._emit(up, leaf)
        return True


class FromIterable(Scheduled):
    """from_iterable(), of()."""

    def __init__(self, iterable: Any, scheduler: Any):
        self._iterable, self.scheduler = iterable, scheduler

    def _emit(self, up: Any, leaf: Any) -> None:
        try:
            if C.pull(up, leaf, iter(self._iterable)):
                up.on_completed()
        except Exception as error:
            up.on_error(error)


class Stepwise(Observable[Any]):
    """Emits an item at a time, and goes on behind what was put off meanwhile, as RxPY's current thread scheduler has it: range(),
    generate()."""

    def __init__(self, items: Callable[[], Iterable[Any]], scheduler: Any = None):
        self._items, self._scheduler = items, scheduler

    def _open_with(self, at: At, makes: Any) -> bool:
        engine, scheduler = at.engine, self._scheduler or at.scheduler
        leaf = engine.source(at, scheduler is not None)
        up, items = chained(makes, leaf), iter(self._items())

        def step() -> bool:
            """Whether there is more."""
            try:
                value = next(items)
            except StopIteration:
                end(up.on_completed)
                return False
            except Exception as error:
                end(up.on_error, error)
                return False
            if not leaf.is_stopped:
                up.on_next(value)
            return not leaf.is_stopped

        def end(tell: Callable[..., Any], *error: Exception) -> None:
            if not leaf.is_stopped:  # a function of the items may have closed it
                tell(*error)

        def go_on() -> None:
            while not leaf.is_stopped and step():
                if C.queue() and C.put_off(go_on):
                    return

        def timed(*_: Any) -> None:
            if not leaf.is_stopped and C.call(step):
                timer.disposable = scheduler.schedule(timed)
        if leaf.is_stopped:
            pass
        elif scheduler is not None:
            timer = engine.hold(leaf, MultipleAssignmentDisposable)
            timer.disposable = scheduler.schedule(timed)
        elif not C.put_off(go_on):
            go_on()
        return True


class Called(Scheduled):
    """from_callable()."""

    def __init__(self, supplier: Callable[[], Any], scheduler: Any):
        self._supplier, self.scheduler = supplier, scheduler

    def _emit(self, up: Any, leaf: Any) -> None:
        try:
            value = self._supplier()
        except Exception as error:
            up.on_error(error)
        else:
            tell_last(up, value)


class Just(Scheduled):
    """return_value()."""

    def __init__(self, value: Any, scheduler: Any):
        self._value, self.scheduler = value, scheduler

    def _emit(self, up: Any, leaf: Any) -> None:
        tell_last(up, self._value)
