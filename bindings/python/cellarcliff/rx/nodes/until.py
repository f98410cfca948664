"""take_until()."""
from __future__ import annotations

from typing import Any, Tuple

from .._cellar import NOTIFIER, SOURCE, UNTIL
from .._engine import At
from .._functions import KEEPING, Fn, Stage
from .._observable import Observable, open_below, to_observable


class _WithoutItsEnd(Stage):
    """A notifier that completes ends nothing."""

    __slots__ = ()

    def on_completed(self) -> None:
        pass


class Until(Observable[Any]):
    """take_until()."""

    def __init__(self, source: Any, notifier: Any):
        self._source, self._notifier = to_observable(source), Fn(notifier, _WithoutItsEnd, KEEPING)

    def _below(self) -> Tuple[Any, ...]:
        return (self._source, self._notifier)

    def _open_with(self, at: At, makes: Any) -> bool:
        return False

    def _open(self, at: At) -> None:
        node = at.engine.open(at, UNTIL)
        open_below(self._source, at.below(SOURCE, node))
        open_below(self._notifier, at.below(NOTIFIER, node))
