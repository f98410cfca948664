"""timer() and interval()."""
from __future__ import annotations

from datetime import datetime
from typing import Any

from .._cellar import LEAF
from .._engine import At, C, Leaf
from .._functions import chained
from .._observable import Observable
from ..disposable import MultipleAssignmentDisposable
from ..scheduler import TimeoutScheduler


class Timer(Observable[Any]):
    """Emits 0 when it is due, and with a period 1, 2 and so on; without one it completes."""

    def __init__(self, duetime: Any, period: Any, scheduler: Any):
        self._duetime, self._period, self._scheduler = duetime, period, scheduler

    def _open_with(self, at: At, makes: Any) -> bool:
        engine, leaf = at.engine, Leaf(at.engine.core)
        engine.open(at, LEAF, leaf)
        emitter = C.Chain(chained(makes, leaf), b"", (), leaf)
        if not leaf.is_stopped:
            engine.hold(leaf, self._start, self._scheduler or at.scheduler or TimeoutScheduler.singleton(), emitter)
        return True

    def _start(self, scheduler: Any, emitter: Any) -> Any:
        def once(*_: Any) -> None:
            emitter.on_next(0)
            emitter.on_completed()

        def tick(count: int) -> int:
            emitter.on_next(count)
            return count + 1
        duetime, period = self._duetime, self._period
        if period is None:
            if isinstance(duetime, datetime):
                return scheduler.schedule_absolute(duetime, once)
            seconds = scheduler.to_seconds(duetime)
            return scheduler.schedule_relative(seconds, once) if seconds > 0 else scheduler.schedule(once)
        if duetime == period:
            return scheduler.schedule_periodic(period, tick, state=0)
        return self._first_and_then(scheduler, tick)

    def _first_and_then(self, scheduler: Any, tick: Any) -> Any:
        due = self._duetime if isinstance(self._duetime, datetime) else scheduler.now + scheduler.to_timedelta(self._duetime)
        seconds, count, current = max(0.0, scheduler.to_seconds(self._period)), 0, MultipleAssignmentDisposable()

        def action(scheduler: Any, _: Any) -> None:
            nonlocal due, count
            if seconds > 0.0:
                now = scheduler.now
                due = due + scheduler.to_timedelta(seconds)
                if due <= now:
                    due = now + scheduler.to_timedelta(seconds)
            count = tick(count)
            current.disposable = scheduler.schedule_absolute(due, action)
        current.disposable = scheduler.schedule_absolute(due, action)
        return current
