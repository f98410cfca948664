"""Operators that are nodes of the engine."""
from __future__ import annotations

from typing import TYPE_CHECKING, Any, Callable, Optional, Union

from .._functions import Indexed
from .._observable import Observable, to_observable
from .._typing import B, Operator, same
from ..nodes import Defer, Finally, Merging, Until
from ..sources import FromIterable

if TYPE_CHECKING:
    from .._typing import Source



@same
def finally_action(action: Callable[[], Any]) -> Operator[Any]:
    """Calls the action once: after the observer received the end, or when the subscription is disposed of. What it raises is
    raised by the call that emitted or disposed, once all else is released."""
    return lambda source: Finally(source, action)


def _mapper(mapper: Any) -> Callable[[Any], Any]:
    call: Callable[[Any], Any] = mapper if callable(mapper) and not isinstance(mapper, Observable) else lambda _: mapper
    return call


def _itself(value: Any) -> Any:
    return value


def flat_map(mapper: "Union[Callable[[Any], Source[B]], Source[B], None]" = None) -> Operator[B]:
    """The items of all observables that the items are mapped to. A mapper may answer an iterable or a future; if it raises, or answers
    no observable, the observable fails with that."""
    return lambda source: Merging(source, _mapper(mapper), False)


def flat_map_indexed(mapper_indexed: "Union[Callable[[Any, int], Source[B]], Source[B], None]" = None) -> Operator[B]:
    """The same, of an item and its index, from 0."""
    mapper: Any = mapper_indexed
    make = Indexed(mapper if callable(mapper) else lambda _, __: mapper)
    return lambda source: Defer(lambda _: Merging(source, make(), False))


def flat_map_latest(mapper: "Union[Callable[[Any], Source[B]], Source[B]]") -> Operator[B]:
    """The items of the observable that the latest item is mapped to; the one before it is closed first, and what it holds
    released. Where the mapper raises, the observable fails."""
    return lambda source: Merging(source, _mapper(mapper), True)


def merge_all() -> Operator[Any]:
    """The items of all observables that the source emits."""
    return lambda source: Merging(source, _itself, False)


def merge(*sources: "Source[Any]", max_concurrent: Optional[int] = None) -> Operator[Any]:
    """The items of the source and of these; or, with a bound, of the observables that the source emits, so many at a time."""
    if max_concurrent is not None:
        from .joined import bounded
        most = max_concurrent
        return lambda source: bounded(FromIterable((source, *sources), None) if sources else to_observable(source), _itself, most)
    return lambda source: Merging(FromIterable((source, *sources), None), _itself, False)


def switch_latest() -> Operator[Any]:
    """The items of the latest observable that the source emitted."""
    return lambda source: Merging(source, _itself, True)


@same
def take_until(other: "Source[Any]") -> Operator[Any]:
    """The items up to the first of the other observable, with which it completes; it fails if that one does. Raises TypeError
    if the other is not an observable."""
    return lambda source: Until(source, other)
