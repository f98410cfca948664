"""The types by which RxPY's users name what they have; those for type hints alone are in `core.typing`."""
from __future__ import annotations

from typing import TYPE_CHECKING, Any

from ..._nearest import lacking
from .._observable import Observable, Observer, pipe
from ..operators.windows import GroupedObservable
from ..sharing import ConnectableObservable
from . import notification, typing

__all__ = ["ConnectableObservable", "GroupedObservable", "Observable", "Observer", "notification", "pipe", "typing"]

if not TYPE_CHECKING:
    from ..internal import Missing

    def __getattr__(name: str) -> Any:
        if name == "abc":
            raise Missing("cellarcliff.rx.core has no abc: what a type hint needs is in core.typing, the rest in RxPY's rx.core")
        raise lacking(__name__, name)
