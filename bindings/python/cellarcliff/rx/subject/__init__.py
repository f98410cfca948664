"""Subjects."""
from __future__ import annotations

import math
from typing import TYPE_CHECKING, Any, Dict, List, Optional, TypeVar

from ..._nearest import lacking
from .._engine import At, C
from .._functions import chained
from .._observable import Observable, create
from .._observer import Observer
from ..internal import DisposedException

__all__ = ["AsyncSubject", "BehaviorSubject", "ReplaySubject", "Subject"]


if not TYPE_CHECKING:
    def __getattr__(name: str) -> Any:
        raise lacking(__name__, name)


S = TypeVar("S")
if TYPE_CHECKING:
    class _Base:
        """Of the extension, or of _slow.py."""

        is_stopped: bool
        is_disposed: bool
        exception: Optional[Exception]
        _ups: Dict[Any, Any]
        _memory: Any
        _limit: int

        def _join(self, up: Any, leaf: Any) -> bool: ...
        def _next_kept(self, value: Any, kept: Any) -> None: ...
        def _end(self, error: Any) -> None: ...
        def _forget(self) -> None: ...
else:
    _Base = C.Subject


class Subject(_Base, Observable[S], Observer):
    """An observable and an observer: it hands what it receives to each subscriber, in the order of their subscriptions.

    Several threads may call it: all of its observers hear the same order, each one item at a time.
    """

    if TYPE_CHECKING:
        def on_next(self, value: S) -> None: ...

    _is_hot = True

    def __init_subclass__(cls, **words: Any) -> None:
        super().__init_subclass__(**words)
        if "_on_next_core" in cls.__dict__:  # RxPY's way to a subject of one's own
            def on_next(self: Any, value: Any) -> None:
                if self.is_stopped:
                    self.check_disposed()
                else:
                    self._on_next_core(value)
            setattr(cls, "on_next", on_next)

    @property
    def observers(self) -> List[Any]:
        """Those that subscribed."""
        return [up for up, _ in tuple(self._ups.values())]

    def check_disposed(self) -> None:
        if self.is_disposed:
            raise DisposedException()

    def _open(self, at: At) -> None:
        if type(self)._subscribe_core is Subject._subscribe_core:
            self._open_here(at, ())
        else:
            create(self._subscribe_core, at, ())

    def _open_with(self, at: At, makes: Any) -> bool:
        if type(self)._subscribe_core is Subject._subscribe_core:
            return self._open_here(at, makes)
        create(self._subscribe_core, at, makes)
        return True

    def _subscribe_core(self, observer: Any, scheduler: Any = None) -> Any:
        """What a subclass may put something before, as in RxPY."""
        return _Itself(self).subscribe(observer, scheduler=scheduler)

    def _open_here(self, at: At, makes: Any) -> bool:
        if self.is_disposed:
            self.check_disposed()
        leaf = at.engine.source(at)
        up = chained(makes, leaf) if makes else leaf
        if not leaf.is_stopped and not self._join(up, leaf):
            self._tell_end(up)
        return True

    def _tell_end(self, up: Any) -> None:
        if self.exception is not None:
            up.on_error(self.exception)
        else:
            up.on_completed()

    def on_error(self, error: Exception) -> None:
        """Hands on the error; later subscribers receive it too."""
        if self.is_stopped:
            self.check_disposed()
        else:
            self.exception = error
            self._on_error_core(error)

    def _on_error_core(self, error: Exception) -> None:
        self.is_stopped, self.exception = True, error
        self._end(error)

    def on_completed(self) -> None:
        """Hands on the completion; later subscribers receive it too."""
        if self.is_stopped:
            self.check_disposed()
        else:
            self._on_completed_core()

    def _on_completed_core(self) -> None:
        self.is_stopped = True
        self._end(None)

    def dispose(self) -> None:
        """Lets go of all subscribers, and refuses further calls."""
        self.is_disposed = self.is_stopped = True
        self._forget()
        self.exception = None

    def __repr__(self) -> str:
        state = "disposed" if self.is_disposed else "ended" if self.is_stopped else "open"
        return f"<{type(self).__name__}: {state}, {len(self._ups)} observers>"


class _Itself(Observable[Any]):
    """A subject without what a subclass put before it."""

    _is_hot = True

    def __init__(self, subject: "Subject[Any]"):
        self._subject = subject

    def _open_with(self, at: At, makes: Any) -> bool:
        return self._subject._open_here(at, makes)


class BehaviorSubject(Subject[S]):
    """A subject that tells who comes the latest item first."""

    def __init__(self, value: S) -> None:
        super().__init__()
        self._limit: int = 1
        self._memory: Any = [(None, value)]

    @property
    def value(self) -> S:
        """The latest item."""
        found: S = self._memory[-1][1]
        return found

    def _join(self, up: Any, leaf: Any) -> bool:
        if self.is_stopped:
            return False
        return bool(super()._join(up, leaf))

    def _on_next_core(self, value: Any) -> None:
        self._next_kept(value, (None, value))

    def dispose(self) -> None:
        super().dispose()
        self._memory = [(None, None)]


class ReplaySubject(Subject[S]):
    """A subject that tells who comes what it told before: at most so many items, and none that is older than the window."""

    def __init__(self, buffer_size: Optional[int] = None, window: Any = None, scheduler: Any = None) -> None:
        super().__init__()
        from ..scheduler import CurrentThreadScheduler
        self.buffer_size = 2**63 - 1 if buffer_size is None else buffer_size
        self.scheduler = scheduler or CurrentThreadScheduler.singleton()
        self.window = math.inf if window is None else self.scheduler.to_seconds(window)
        self._limit = -1 if buffer_size is None else buffer_size
        self._memory: Any = []

    def _now(self) -> Any:
        return None if self.window == math.inf else self.scheduler.to_seconds(self.scheduler.now)

    def _trim(self) -> None:
        if self.window != math.inf:
            oldest, memory = self._now() - self.window, self._memory
            while memory and memory[0][0] < oldest:
                del memory[0]

    def _join(self, up: Any, leaf: Any) -> bool:
        self._trim()
        return bool(super()._join(up, leaf))

    def _on_next_core(self, value: Any) -> None:
        self._trim()
        self._next_kept(value, (self._now(), value))

    def dispose(self) -> None:
        super().dispose()
        del self._memory[:]


class AsyncSubject(Subject[S]):
    """A subject that tells its last item when it completes, and who comes later the same."""

    def __init__(self) -> None:
        super().__init__()
        self._last: List[Any] = []

    def _on_next_core(self, value: Any) -> None:
        self._last = [value]

    def _on_completed_core(self) -> None:
        self.is_stopped = True
        C.call(self._tell_all)

    def _tell_all(self) -> None:
        for up, _ in tuple(self._ups.values()):
            self._tell_end(up)

    def _tell_end(self, up: Any) -> None:
        if self.exception is None:
            for it in self._last:
                up.on_next(it)
        super()._tell_end(up)

    def dispose(self) -> None:
        super().dispose()
        self._last = []
