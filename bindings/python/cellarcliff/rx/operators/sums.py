"""What all items, or some of them, come to: functions that hear of the end, and no nodes."""
from __future__ import annotations

from typing import Any, Callable, Dict, List, Optional, Set

from .._functions import HEARING, Fn, Stage, tell_last, tell_those
from .._typing import B, Operator, same
from ..internal import ArgumentOutOfRangeException, SequenceContainsNoElementsError
from .items import NOTHING, filter, map

Predicate = Optional[Callable[[Any], Any]]


class _AtEnd(Stage):
    """Hears all, and tells what they come to: `add` each, `result` at the end, an item or an error or nothing."""

    __slots__ = ("_add", "_result")
    calls = True

    def __init__(self, down: Any, add: Callable[[Any], Any], result: Callable[[], Any]):
        self.down, self._add, self._result = down, add, result

    def on_next(self, value: Any) -> None:
        try:
            self._add(value)
        except Exception as error:
            self.fail(error)

    def on_completed(self) -> None:
        try:
            it = self._result()
        except Exception as error:
            self.fail(error)
            return
        if it is not NOTHING:
            tell_last(self.down, it)
        else:
            self.down.on_completed()


class _Found(Stage):
    """Tells the first item that is found, and else a default or an error."""

    __slots__ = ("_find", "_default", "_is_done")
    calls = True

    def __init__(self, down: Any, find: Callable[[Any], Any], default: Callable[[], Any]):
        self.down, self._find, self._default, self._is_done = down, find, default, False

    def on_next(self, value: Any) -> None:
        if self._is_done:
            return
        try:
            it = self._find(value)
        except Exception as error:
            self.fail(error)
            return
        if it is not NOTHING:
            self._is_done = True
            tell_last(self.down, it)

    def on_completed(self) -> None:
        if self._is_done:
            return
        try:
            it = self._default()
        except Exception as error:
            self.fail(error)
        else:
            tell_last(self.down, it)


def _at_end(start: Callable[[], Any], add: Callable[[List[Any], Any], Any], result: Callable[[List[Any]], Any]) -> Operator[Any]:
    """Of a cell that each subscription has: how it starts, how an item goes into it, what comes of it."""
    def make(down: Any) -> Stage:
        cell = [start()]
        return _AtEnd(down, lambda value: add(cell, value), lambda: result(cell))
    return lambda source: Fn(source, make, HEARING)


def _found(find: Callable[[Any], Any], default: Callable[[], Any]) -> Operator[Any]:
    return lambda source: Fn(source, lambda down: _Found(down, find, default), HEARING)


def _raises(error: Exception) -> Any:
    raise error


def _none() -> Any:
    raise SequenceContainsNoElementsError()


def _those(predicate: Predicate, operator: Operator[Any]) -> Operator[Any]:
    if predicate is None:
        return operator
    those = filter(predicate)
    return lambda source: operator(those(source))


def reduce(accumulator: Callable[[Any, Any], B], seed: Any = NOTHING) -> Operator[B]:
    """What all items come to; of none the seed, or an error."""
    def add(cell: List[Any], value: Any) -> None:
        cell[0] = value if cell[0] is NOTHING else accumulator(cell[0], value)
    return _at_end(lambda: seed, add, lambda cell: _none() if cell[0] is NOTHING else cell[0])


def count(predicate: Predicate = None) -> Operator[int]:
    """How many items there are."""
    def add(cell: List[Any], _: Any) -> None:
        cell[0] += 1
    return _those(predicate, _at_end(lambda: 0, add, lambda cell: cell[0]))


def sum(key_mapper: Predicate = None) -> Operator[Any]:
    """Their sum; of none 0."""
    def add(so_far: Any, value: Any) -> Any:
        return so_far + value
    operator = reduce(add, 0)
    return operator if key_mapper is None else lambda source: operator(map(key_mapper)(source))


def average(key_mapper: Predicate = None) -> Operator[float]:
    """Their average; of none an error."""
    def add(cell: List[Any], value: Any) -> None:
        total, many = cell[0]
        cell[0] = total + (value if key_mapper is None else key_mapper(value)), many + 1

    def result(cell: List[Any]) -> Any:
        total, many = cell[0]
        return total / many if many else _none()
    return _at_end(lambda: (0, 0), add, result)


def _extreme(key_mapper: Callable[[Any], Any], comparer: Optional[Callable[[Any, Any], Any]], sign: int) -> Operator[Any]:
    compare = comparer or (lambda a, b: (a > b) - (a < b))

    def add(cell: List[Any], value: Any) -> None:
        best, found = cell[0]
        key = key_mapper(value)
        order = 1 if best is NOTHING else compare(key, best) * sign
        if order > 0:
            cell[0] = key, [value]
        elif order == 0:
            found.append(value)
    return _at_end(lambda: (NOTHING, []), add, lambda cell: cell[0][1])


def max_by(key_mapper: Callable[[Any], Any], comparer: Optional[Callable[[Any, Any], Any]] = None) -> Operator[List[Any]]:
    """A list of the items with the greatest key."""
    return _extreme(key_mapper, comparer, 1)


def min_by(key_mapper: Callable[[Any], Any], comparer: Optional[Callable[[Any, Any], Any]] = None) -> Operator[List[Any]]:
    """A list of the items with the least key."""
    return _extreme(key_mapper, comparer, -1)


def _first_of(operator: Operator[Any]) -> Operator[Any]:
    def first(found: List[Any]) -> Any:
        return found[0] if found else _none()
    return lambda source: map(first)(operator(source))


@same
def max(comparer: Optional[Callable[[Any, Any], Any]] = None) -> Operator[Any]:
    """The greatest item; of none an error."""
    return _first_of(max_by(lambda value: value, comparer))


@same
def min(comparer: Optional[Callable[[Any, Any], Any]] = None) -> Operator[Any]:
    """The least item; of none an error."""
    return _first_of(min_by(lambda value: value, comparer))


def all(predicate: Callable[[Any], Any]) -> Operator[bool]:
    """Whether the predicate is true of each."""
    return _found(lambda value: NOTHING if predicate(value) else False, lambda: True)


def some(predicate: Predicate = None) -> Operator[bool]:
    """Whether there is one of which the predicate is true."""
    return _found(lambda value: True if predicate is None or predicate(value) else NOTHING, lambda: False)


def contains(value: Any, comparer: Optional[Callable[[Any, Any], Any]] = None) -> Operator[bool]:
    """Whether this is one of the items."""
    return some(lambda it: comparer(it, value) if comparer else it == value)


def is_empty() -> Operator[bool]:
    """Whether there is no item."""
    return _found(lambda _: False, lambda: True)


@same
def first(predicate: Predicate = None) -> Operator[Any]:
    """The first item of which the predicate is true; an error where there is none."""
    return _found(lambda value: value if predicate is None or predicate(value) else NOTHING, _none)


def first_or_default(predicate: Predicate = None, default_value: Any = None) -> Operator[Any]:
    """The same, or the default."""
    return _found(lambda value: value if predicate is None or predicate(value) else NOTHING, lambda: default_value)


@same
def find(predicate: Callable[[Any, int, Any], Any]) -> Operator[Any]:
    """The first item of which the predicate, of the item, its index and the source, is true; else None."""
    return _finds(predicate, False)


def find_index(predicate: Callable[[Any, int, Any], Any]) -> Operator[int]:
    """Its index; else -1."""
    return _finds(predicate, True)


def _finds(predicate: Callable[[Any, int, Any], Any], is_index: bool) -> Operator[Any]:
    def operate(source: Any) -> Any:
        def make(down: Any) -> Stage:
            index = -1

            def look(value: Any) -> Any:
                nonlocal index
                index += 1
                return (index if is_index else value) if predicate(value, index, source) else NOTHING
            return _Found(down, look, lambda: -1 if is_index else None)
        return Fn(source, make, HEARING)
    return operate


def _element(index: int, default: Callable[[], Any]) -> Operator[Any]:
    if index < 0:
        raise ArgumentOutOfRangeException()

    def make(down: Any) -> Stage:
        left = index

        def look(value: Any) -> Any:
            nonlocal left
            left -= 1
            return value if left < 0 else NOTHING
        return _Found(down, look, default)
    return lambda source: Fn(source, make, HEARING)


@same
def element_at(index: int) -> Operator[Any]:
    """The item with this index; an error where there is none."""
    return _element(index, lambda: _raises(ArgumentOutOfRangeException()))


def element_at_or_default(index: int, default_value: Any = None) -> Operator[Any]:
    """The same, or the default."""
    return _element(index, lambda: default_value)


def _last(predicate: Predicate, default: Callable[[], Any]) -> Operator[Any]:
    def add(cell: List[Any], value: Any) -> None:
        cell[0] = value
    return _those(predicate, _at_end(lambda: NOTHING, add, lambda cell: default() if cell[0] is NOTHING else cell[0]))


@same
def last(predicate: Predicate = None) -> Operator[Any]:
    """The last item of which the predicate is true; an error where there is none."""
    return _last(predicate, _none)


def last_or_default(predicate: Predicate = None, default_value: Any = None) -> Operator[Any]:
    """The same, or the default."""
    return _last(predicate, lambda: default_value)


def _single(predicate: Predicate, default: Callable[[], Any]) -> Operator[Any]:
    def add(cell: List[Any], value: Any) -> None:
        if cell[0] is not NOTHING:
            raise Exception("Sequence contains more than one element")
        cell[0] = value
    return _those(predicate, _at_end(lambda: NOTHING, add, lambda cell: default() if cell[0] is NOTHING else cell[0]))


@same
def single(predicate: Predicate = None) -> Operator[Any]:
    """The one item of which the predicate is true; an error where there are none or more."""
    return _single(predicate, _none)


def single_or_default(predicate: Predicate = None, default_value: Any = None) -> Operator[Any]:
    """The same, or the default where there is none."""
    return _single(predicate, lambda: default_value)


def single_or_default_async(has_default: bool = False, default_value: Any = None) -> Operator[Any]:
    """The one item; where there is none the default, or an error."""
    return _single(None, (lambda: default_value) if has_default else _none)


def to_list() -> Operator[List[Any]]:
    """A list of all."""
    return _at_end(list, lambda cell, value: cell[0].append(value), lambda cell: cell[0])


def to_iterable() -> Operator[List[Any]]:
    """The same."""
    return to_list()


def to_set() -> Operator[Set[Any]]:
    """A set of all."""
    return _at_end(set, lambda cell, value: cell[0].add(value), lambda cell: cell[0])


def to_dict(key_mapper: Callable[[Any], Any], element_mapper: Predicate = None) -> Operator[Dict[Any, Any]]:
    """A dictionary of all, by their keys."""
    def add(cell: List[Any], value: Any) -> None:
        cell[0][key_mapper(value)] = value if element_mapper is None else element_mapper(value)
    return _at_end(dict, add, lambda cell: cell[0])


class _TakeLast(Stage):
    __slots__ = ("_count", "_queue", "_is_one")

    def __init__(self, down: Any, count: int, is_one: bool):
        self.down, self._count, self._is_one = down, count, is_one
        self._queue: List[Any] = []

    def on_next(self, value: Any) -> None:
        self._queue.append(value)
        if len(self._queue) > self._count:
            del self._queue[0]

    def on_completed(self) -> None:
        if self._is_one:
            tell_last(self.down, self._queue)
        else:
            tell_those(self.down, self._queue)


@same
def take_last(count: int) -> Operator[Any]:
    """The last items, at the end."""
    return lambda source: Fn(source, lambda down: _TakeLast(down, count, False), HEARING)


def take_last_buffer(count: int) -> Operator[List[Any]]:
    """The same as one list."""
    return lambda source: Fn(source, lambda down: _TakeLast(down, count, True), HEARING)


__all__ = [name for name, it in list(globals().items()) if not name.startswith("_") and getattr(it, "__module__", "") == __name__]
