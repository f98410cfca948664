"""Observers, of callbacks."""
from __future__ import annotations

from typing import Any, Callable, Optional


def noop(*_: Any) -> None:
    pass


def default_error(error: Any) -> None:
    raise error if isinstance(error, BaseException) else Exception(error)


class Observer:
    """An observer, of callbacks; on_error without one raises the error."""

    def __init__(self, on_next: Optional[Callable[[Any], Any]] = None, on_error: Optional[Callable[[Exception], Any]] = None,
                 on_completed: Optional[Callable[[], Any]] = None):
        self.is_stopped = False
        self._handler_on_next = on_next or noop
        self._handler_on_error = on_error or default_error
        self._handler_on_completed = on_completed or noop

    def on_next(self, value: Any) -> None:
        if not self.is_stopped:
            self._on_next_core(value)

    def _on_next_core(self, value: Any) -> None:
        self._handler_on_next(value)

    def on_error(self, error: Exception) -> None:
        if not self.is_stopped:
            self.is_stopped = True
            self._on_error_core(error)

    def _on_error_core(self, error: Exception) -> None:
        self._handler_on_error(error)

    def on_completed(self) -> None:
        if not self.is_stopped:
            self.is_stopped = True
            self._on_completed_core()

    def _on_completed_core(self) -> None:
        self._handler_on_completed()

    def dispose(self) -> None:
        self.is_stopped = True

    def fail(self, exn: Exception) -> bool:
        """Tells it the error, unless it was told an end: whether it was told."""
        if self.is_stopped:
            return False
        self.on_error(exn)
        return True

    def to_notifier(self) -> Callable[[Any], Any]:
        """A function that tells this observer a notification."""
        return lambda notifier: notifier.accept(self)

    def as_observer(self) -> "Observer":
        """An observer that tells this one, and has nothing else of it."""
        return Observer(self.on_next, self.on_error, self.on_completed)
