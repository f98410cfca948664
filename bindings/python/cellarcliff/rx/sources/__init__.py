"""What emits by itself."""
from __future__ import annotations

from collections.abc import Iterable
from typing import Any

from .._observable import Observable
from .created import Created, Foreign, FromFuture, is_future
from .ends import Empty, Never, Throw
from .items import Called, FromIterable, Just, Stepwise
from .time import Timer

__all__ = ["Called", "Created", "Empty", "Foreign", "FromFuture", "FromIterable", "Just", "Never", "Stepwise", "Throw", "Timer", "is_future", "wrapped"]


def wrapped(value: Any) -> Observable[Any]:
    """An observable of what is none of this package: any object with a `subscribe`, a future, or an iterable."""
    if callable(getattr(value, "subscribe", None)):
        return Foreign(value)
    if is_future(value):
        return FromFuture(value)
    if isinstance(value, Iterable):
        return FromIterable(value, None)
    raise TypeError(f"an observable is expected, an object with subscribe(), a future, or an iterable, and not {type(value).__name__}")
