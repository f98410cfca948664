"""Functions on items, one after another: no nodes of the engine."""
from __future__ import annotations

import sys
from typing import Any, Callable, List, Optional, Tuple

from .._functions import ENDING, HEARING, PLAIN, Fn, Indexed, Make, Stage, tell_last
from .._observable import Observable, to_observable
from .._notification import Notification, OnCompleted, OnError, OnNext
from .._typing import B, Operator, same
from ..internal import ArgumentOutOfRangeException

NOTHING: Any = object()


class Function(Stage):
    """A stage with a function."""

    __slots__ = ("_function",)
    calls = True

    def __init__(self, down: Any, function: Callable[..., Any]):
        self.down, self._function = down, function


class _TakeWhile(Stage):
    __slots__ = ("_predicate", "_inclusive")
    calls = True

    def __init__(self, down: Any, predicate: Callable[[Any], Any], inclusive: bool):
        self.down, self._predicate, self._inclusive = down, predicate, inclusive

    def on_next(self, value: Any) -> None:
        try:
            passes = self._predicate(value)
        except Exception as error:
            self.fail(error)
            return
        if passes:
            self.down.on_next(value)
        elif self._inclusive:
            tell_last(self.down, value)
        else:
            self.down.on_completed()


class _Take(Stage):
    __slots__ = ("_left",)

    def __init__(self, down: Any, count: int):
        self.down, self._left = down, count

    def start(self) -> None:
        if not self._left:
            self.down.on_completed()

    def on_next(self, value: Any) -> None:
        if self._left:
            self._left -= 1
            if self._left:
                self.down.on_next(value)
            else:
                tell_last(self.down, value)


class _Skip(Stage):
    __slots__ = ("_left",)

    def __init__(self, down: Any, count: int):
        self.down, self._left = down, count

    def on_next(self, value: Any) -> None:
        if self._left:
            self._left -= 1
        else:
            self.down.on_next(value)


class _SkipWhile(Function):
    __slots__ = ("_is_passing",)

    def __init__(self, down: Any, function: Callable[[Any], Any]):
        super().__init__(down, function)
        self._is_passing = False

    def on_next(self, value: Any) -> None:
        if not self._is_passing:
            try:
                self._is_passing = not self._function(value)
            except Exception as error:
                self.fail(error)
                return
        if self._is_passing:
            self.down.on_next(value)


class _SkipLast(Stage):
    __slots__ = ("_count", "_queue")

    def __init__(self, down: Any, count: int):
        self.down, self._count = down, count
        self._queue: List[Any] = []

    def on_next(self, value: Any) -> None:
        self._queue.append(value)
        if len(self._queue) > self._count:
            self.down.on_next(self._queue.pop(0))


class _Do(Stage):
    __slots__ = ("_on_next", "_on_error", "_on_completed")
    calls = True

    def __init__(self, down: Any, on_next: Any, on_error: Any, on_completed: Any):
        self.down, self._on_next, self._on_error, self._on_completed = down, on_next, on_error, on_completed

    def on_next(self, value: Any) -> None:
        if self._on_next is not None:
            try:
                self._on_next(value)
            except Exception as error:
                self.fail(error)
                return
        self.down.on_next(value)

    def on_error(self, error: Exception) -> None:
        if self._on_error is not None:
            try:
                self._on_error(error)
            except Exception as another:
                error = another
        self.down.on_error(error)

    def on_completed(self) -> None:
        if self._on_completed is not None:
            try:
                self._on_completed()
            except Exception as error:
                self.fail(error)
                return
        self.down.on_completed()


class _Pairwise(Stage):
    __slots__ = ("_before",)

    def __init__(self, down: Any):
        self.down, self._before = down, NOTHING

    def on_next(self, value: Any) -> None:
        before, self._before = self._before, value
        if before is not NOTHING:
            self.down.on_next((before, value))


class _Distinct(Stage):
    __slots__ = ("_key", "_comparer", "_seen", "_is_latest")
    calls = True

    def __init__(self, down: Any, key: Any, comparer: Any, is_latest: bool):
        self.down, self._key, self._comparer, self._is_latest = down, key, comparer, is_latest
        self._seen: List[Any] = []

    def _is_new(self, key: Any) -> bool:
        return not any(self._comparer(key, it) if self._comparer else key == it for it in self._seen)

    def on_next(self, value: Any) -> None:
        try:
            key = value if self._key is None else self._key(value)
            is_new = self._is_new(key)
        except Exception as error:
            self.fail(error)
            return
        if is_new:
            if self._is_latest:
                del self._seen[:]
            self._seen.append(key)
            self.down.on_next(value)


class _Materialize(Stage):
    __slots__ = ()

    def on_next(self, value: Any) -> None:
        self.down.on_next(OnNext(value))

    def on_error(self, error: Exception) -> None:
        tell_last(self.down, OnError(error))

    def on_completed(self) -> None:
        tell_last(self.down, OnCompleted())


class _Dematerialize(Stage):
    __slots__ = ("_is_over",)

    def __init__(self, down: Any):
        self.down, self._is_over = down, False

    def on_next(self, value: Any) -> None:
        if not self._is_over:
            self._is_over = value.kind != "N"
            value.accept(self.down)

    def on_error(self, error: Exception) -> None:
        if not self._is_over:
            self.down.on_error(error)

    def on_completed(self) -> None:
        if not self._is_over:  # or else the note of the end was the end
            self.down.on_completed()


class _DefaultIfEmpty(Stage):
    __slots__ = ("_default", "_is_empty")

    def __init__(self, down: Any, default: Any):
        self.down, self._default, self._is_empty = down, default, True

    def on_next(self, value: Any) -> None:
        self._is_empty = False
        self.down.on_next(value)

    def on_completed(self) -> None:
        if self._is_empty:
            tell_last(self.down, self._default)
        else:
            self.down.on_completed()


def _at_least(count: int, name: str, least: int = 0) -> None:
    if count < least:
        raise ArgumentOutOfRangeException(f"{name}: a count of {least} or more is expected")


def _itself(value: Any, *_: Any) -> Any:
    return value


def map(mapper: Optional[Callable[[Any], B]] = None) -> Operator[B]:
    """Each item through a function; if that raises, the observable fails."""
    make = Make(0, mapper or _itself)
    return lambda source: Fn(source, make, PLAIN)


class Each(Function):
    """Maps by a function of its own for each subscription."""

    __slots__ = ()

    def on_next(self, value: Any) -> None:
        try:
            value = self._function(value)
        except Exception as error:
            self.fail(error)
        else:
            self.down.on_next(value)


class _Those(Function):
    __slots__ = ()

    def on_next(self, value: Any) -> None:
        try:
            passes = self._function(value)
        except Exception as error:
            self.fail(error)
        else:
            if passes:
                self.down.on_next(value)


def map_indexed(mapper_indexed: Optional[Callable[[Any, int], B]] = None) -> Operator[B]:
    """The same, of an item and its index, from 0."""
    make = Indexed(mapper_indexed or _itself)
    return lambda source: Fn(source, lambda down: Each(down, make()), PLAIN)


@same
def filter(predicate: Callable[[Any], Any]) -> Operator[Any]:
    """The items of which the predicate is true."""
    make = Make(1, predicate)
    return lambda source: Fn(source, make, PLAIN)


@same
def filter_indexed(predicate_indexed: Optional[Callable[[Any, int], Any]] = None) -> Operator[Any]:
    """The same, of an item and its index, from 0."""
    make = Indexed(predicate_indexed or (lambda _, __: True))
    return lambda source: Fn(source, lambda down: _Those(down, make()), PLAIN)


def scan(accumulator: Callable[[Any, Any], B], seed: Any = NOTHING) -> Operator[B]:
    """What the items come to so far: of the first it is itself, or with the seed."""
    def make() -> Callable[[Any], Any]:
        so_far = seed

        def call(value: Any) -> Any:
            nonlocal so_far
            so_far = value if so_far is NOTHING else accumulator(so_far, value)
            return so_far
        return call
    return lambda source: Fn(source, lambda down: Each(down, make()), PLAIN)


@same
def take(count: int) -> Operator[Any]:
    """The first items, and then the completion; of 0 the completion at once. Raises ArgumentOutOfRangeException below 0."""
    _at_least(count, "take")
    return lambda source: Fn(source, lambda down: _Take(down, count), ENDING)


@same
def take_while(predicate: Callable[[Any], Any], inclusive: bool = False) -> Operator[Any]:
    """The items before the first of which the predicate is false; with it, if `inclusive`."""
    return lambda source: Fn(source, lambda down: _TakeWhile(down, predicate, inclusive), ENDING)


@same
def take_while_indexed(predicate: Callable[[Any, int], Any], inclusive: bool = False) -> Operator[Any]:
    """The same, of an item and its index, from 0."""
    make = Indexed(predicate)
    return lambda source: Fn(source, lambda down: _TakeWhile(down, make(), inclusive), ENDING)


@same
def skip(count: int) -> Operator[Any]:
    """All but the first items. Raises ArgumentOutOfRangeException below 0."""
    _at_least(count, "skip")
    return lambda source: Fn(source, lambda down: _Skip(down, count), PLAIN)


@same
def skip_while(predicate: Callable[[Any], Any]) -> Operator[Any]:
    """The items from the first on of which the predicate is false."""
    return lambda source: Fn(source, lambda down: _SkipWhile(down, predicate), PLAIN)


@same
def skip_while_indexed(predicate: Callable[[Any, int], Any]) -> Operator[Any]:
    """The same, of an item and its index, from 0."""
    make = Indexed(predicate)
    return lambda source: Fn(source, lambda down: _SkipWhile(down, make()), PLAIN)


@same
def skip_last(count: int) -> Operator[Any]:
    """All but the last items: each comes so many items later."""
    return lambda source: Fn(source, lambda down: _SkipLast(down, count), PLAIN)


def pairwise() -> Operator[Tuple[Any, Any]]:
    """Each item with the one before it."""
    return lambda source: Fn(source, _Pairwise, PLAIN)


@same
def distinct(key_mapper: Optional[Callable[[Any], Any]] = None, comparer: Optional[Callable[[Any, Any], bool]] = None) -> Operator[Any]:
    """The items whose key was not seen before."""
    return lambda source: Fn(source, lambda down: _Distinct(down, key_mapper, comparer, False), PLAIN)


@same
def distinct_until_changed(key_mapper: Optional[Callable[[Any], Any]] = None, comparer: Optional[Callable[[Any, Any], bool]] = None) -> Operator[Any]:
    """The items whose key is another than that of the item before."""
    return lambda source: Fn(source, lambda down: _Distinct(down, key_mapper, comparer, True), PLAIN)


def starmap(mapper: Optional[Callable[..., B]] = None) -> Operator[B]:
    """Each item, a tuple, as the arguments of a function."""
    if mapper is None:
        return map()
    call: Callable[..., Any] = mapper

    def each(values: Any) -> Any:
        return call(*values)
    return map(each)


def starmap_indexed(mapper: Optional[Callable[..., B]] = None) -> Operator[B]:
    """The same, with the index behind them."""
    if mapper is None:
        return map()
    call: Callable[..., Any] = mapper

    def each(values: Any, index: int) -> Any:
        return call(*values, index)
    return map_indexed(each)


def pluck(key: Any) -> Operator[Any]:
    """What each item has by this key."""
    return map(lambda value: value[key])


def pluck_attr(prop: str) -> Operator[Any]:
    """An attribute of each item."""
    return map(lambda value: getattr(value, prop))


@same
def ignore_elements() -> Operator[Any]:
    """The end alone."""
    return filter(lambda _: False)


@same
def as_observable() -> Operator[Any]:
    """The same, and nothing else of the source."""
    return map()


@same
def do_action(on_next: Optional[Callable[[Any], Any]] = None, on_error: Optional[Callable[[Exception], Any]] = None,
              on_completed: Optional[Callable[[], Any]] = None) -> Operator[Any]:
    """Calls these for each note, before the observer receives it; if one raises, the observable fails."""
    manner = PLAIN if on_error is None and on_completed is None else HEARING
    return lambda source: Fn(source, lambda down: _Do(down, on_next, on_error, on_completed), manner)


@same
def do(observer: Any) -> Operator[Any]:
    """The same of an observer."""
    return do_action(observer.on_next, observer.on_error, observer.on_completed)


def materialize() -> Operator[Notification]:
    """Each note as an item."""
    return lambda source: Fn(source, _Materialize)


def dematerialize() -> Operator[Any]:
    """The notes that the items are."""
    return lambda source: Fn(source, _Dematerialize)


def default_if_empty(default_value: Any = None) -> Operator[Any]:
    """The items, or this one where there is none."""
    return lambda source: Fn(source, lambda down: _DefaultIfEmpty(down, default_value))


def slice_of(source: Any, key: Any) -> Observable[Any]:
    """Some of the items, as of a list."""
    from .sums import take_last
    if isinstance(key, int):
        source = to_observable(source)
        return skip(key)(take(key + 1)(source)) if key >= 0 else take(1)(take_last(-key)(source))
    start, stop, step = key.start or 0, sys.maxsize if key.stop is None else key.stop, 1 if key.step is None else key.step
    pipeline: List[Operator[Any]] = []
    if 0 <= stop < sys.maxsize:
        pipeline.append(take(stop))
    if start > 0:
        pipeline.append(skip(start))
    if start < 0:
        pipeline.append(take_last(-start))
    if stop < 0:
        pipeline.append(skip_last(-stop))
    if step > 1:
        pipeline.append(filter_indexed(lambda _, index: index % step == 0))
    elif step < 0:
        raise TypeError("Negative step not supported.")
    for it in pipeline:
        source = it(source)
    return to_observable(source)


@same
def slice(start: Optional[int] = None, stop: Optional[int] = None, step: Optional[int] = None) -> Operator[Any]:
    """Some of the items, as of a list."""
    import builtins
    return lambda source: slice_of(source, builtins.slice(start, stop, step))
