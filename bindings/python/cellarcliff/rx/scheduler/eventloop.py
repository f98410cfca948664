"""Schedulers of asyncio."""
from __future__ import annotations

import asyncio
from datetime import datetime
from typing import TYPE_CHECKING, Any, Callable, List, Optional

from ..._nearest import lacking
from ..disposable import CompositeDisposable, Disposable, SingleAssignmentDisposable
from ..internal import Missing
from . import Action, RelativeTime, Scheduler

if not TYPE_CHECKING:
    def __getattr__(name: str) -> Any:
        if name.endswith("Scheduler"):
            raise Missing(f"cellarcliff.rx.scheduler.eventloop has no {name}: give RxPY's own, which serves here too")
        raise lacking(__name__, name)


class AsyncIOScheduler(Scheduler):
    """Does it in a loop of asyncio's, scheduled in that loop's thread."""

    def __init__(self, loop: Any = None):
        self._loop = loop or asyncio.get_event_loop()

    @property
    def now(self) -> datetime:
        return self.to_datetime(self._loop.time())

    def _soon(self, act: Callable[[], None]) -> Any:
        """Calls this in the loop's thread; what it answers has a `cancel`."""
        return self._loop.call_soon(act)

    def _later(self, seconds: float, act: Callable[[], None]) -> Disposable:
        return Disposable(self._loop.call_later(seconds, act).cancel)

    def schedule(self, action: Action, state: Any = None) -> Any:
        whole = SingleAssignmentDisposable()
        return CompositeDisposable(whole, Disposable(self._soon(self._into(whole, action, state)).cancel))

    def schedule_relative(self, duetime: RelativeTime, action: Action, state: Any = None) -> Any:
        seconds = self.to_seconds(duetime)
        if seconds <= 0:
            return self.schedule(action, state)
        whole = SingleAssignmentDisposable()
        return CompositeDisposable(whole, self._later(seconds, self._into(whole, action, state)))


class AsyncIOThreadSafeScheduler(AsyncIOScheduler):
    """Does it in a loop of asyncio's, scheduled in any thread."""

    def _soon(self, act: Callable[[], None]) -> Any:
        return self._loop.call_soon_threadsafe(act)

    def _later(self, seconds: float, act: Callable[[], None]) -> Disposable:
        """It is cancelled in the loop's thread, where it is disposed of in another."""
        handles: List[Any] = []
        first = self._soon(lambda: handles.append(self._loop.call_later(seconds, act)))

        def cancel() -> None:
            first.cancel()
            for it in handles:
                it.cancel()

        def dispose() -> None:
            try:
                running: Optional[Any] = asyncio.get_running_loop()
            except RuntimeError:
                running = None
            if running is self._loop or not self._loop.is_running():
                cancel()
                return
            self._loop.call_soon_threadsafe(cancel)
        return Disposable(dispose)
