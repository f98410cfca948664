"""Sources that tell an end at once, or nothing."""
from __future__ import annotations

from typing import Any

from .._cellar import LEAF
from .._engine import At, Leaf
from .._functions import chained
from .._observable import Observable
from .items import Scheduled


class Empty(Scheduled):
    """empty()."""

    _is_immediate = True

    def __init__(self, scheduler: Any):
        self.scheduler = scheduler

    def _emit(self, up: Any, leaf: Any) -> None:
        up.on_completed()


class Throw(Scheduled):
    """throw()."""

    _is_immediate = True

    def __init__(self, error: Any, scheduler: Any):
        self._error = error if isinstance(error, BaseException) else Exception(error)
        self.scheduler = scheduler

    def _emit(self, up: Any, leaf: Any) -> None:
        up.on_error(self._error)


class Never(Observable[Any]):
    """never()."""

    def _open_with(self, at: At, makes: Any) -> bool:
        leaf = Leaf(at.engine.core)
        at.engine.open(at, LEAF, leaf)
        chained(makes, leaf)
        return True
