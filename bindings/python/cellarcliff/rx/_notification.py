"""Notes as objects."""
from __future__ import annotations

from typing import Any, Optional


class Notification:
    """A note."""

    kind = ""
    has_value = False

    def accept(self, on_next: Any, on_error: Any = None, on_completed: Any = None) -> Any:
        """Tells it to an observer, or to callbacks."""
        if hasattr(on_next, "on_next"):
            return self._accept(on_next.on_next, on_next.on_error, on_next.on_completed)
        return self._accept(on_next, on_error, on_completed)

    def _accept(self, on_next: Any, on_error: Any, on_completed: Any) -> Any:
        raise NotImplementedError

    def to_observable(self, scheduler: Optional[Any] = None) -> Any:
        """An observable that tells it; behind an item it completes."""
        from .sources import Created

        def subscribe(observer: Any, _: Any = None) -> None:
            self.accept(observer)
            if self.kind == "N":
                observer.on_completed()
        return Created(subscribe)

    def equals(self, other: Any) -> bool:
        return str(self) == str(other)

    def __eq__(self, other: object) -> bool:
        return str(self) == str(other)

    def __repr__(self) -> str:
        return str(self)

    __hash__ = None  # type: ignore[assignment]


class OnNext(Notification):
    """An item."""

    kind, has_value = "N", True

    def __init__(self, value: Any):
        self.value = value

    def _accept(self, on_next: Any, on_error: Any, on_completed: Any) -> Any:
        return on_next(self.value) if on_next else None

    def __str__(self) -> str:
        return f"OnNext({self.value})"


class OnError(Notification):
    """An error."""

    kind = "E"

    def __init__(self, error: Any):
        self.exception = error if isinstance(error, BaseException) else Exception(error)

    def _accept(self, on_next: Any, on_error: Any, on_completed: Any) -> Any:
        return on_error(self.exception) if on_error else None

    def __str__(self) -> str:
        return f"OnError({self.exception})"


class OnCompleted(Notification):
    """The completion."""

    kind = "C"

    def _accept(self, on_next: Any, on_error: Any, on_completed: Any) -> Any:
        return on_completed() if on_completed else None

    def __str__(self) -> str:
        return "OnCompleted()"
