"""Operators that begin again: the old subscription has released before the next is made."""
from __future__ import annotations

import itertools
from typing import Any, Callable, Iterable, Optional

from .._link import Link, Linked
from .._observable import Observable, to_observable
from .._typing import Operator, same

from .joined import Concat, InTurn


def caught(sources: Any) -> Observable[Any]:
    """The items of the first, and where it fails those of the next, and so on; the last error is told."""
    def those() -> Iterable[Any]:
        found: Iterable[Any] = sources
        return found
    return InTurn(those, False, True, sources if isinstance(sources, tuple) else ())


def catch(handler: Any) -> Operator[Any]:
    """Where the source fails, the items of another observable; a function is given the error and the source, and answers it."""
    if isinstance(handler, Observable) or not callable(handler):
        if not isinstance(handler, Observable) and not hasattr(handler, "subscribe"):
            raise TypeError("catch operator takes whether an Observable or a callable handler as argument.")
        return lambda source: caught((source, handler))

    def operate(source: Any) -> Observable[Any]:
        def run(link: Link) -> None:
            def failed(error: Exception) -> None:
                try:
                    other = to_observable(handler(error, source))
                except Exception as another:
                    link.on_error(another)
                else:
                    link.follow(lambda: link.subscribe(other))
            link.subscribe(source, link.on_next, failed)
        return Linked(run, source, name="catch")
    return operate


@same
def retry(retry_count: Optional[int] = None) -> Operator[Any]:
    """Subscribes again where the source fails: so many times in all, or without end."""
    def operate(source: Any) -> Observable[Any]:
        source = to_observable(source)
        return InTurn(lambda: itertools.repeat(source) if retry_count is None else itertools.repeat(source, retry_count), False, True, (source,))
    return operate


@same
def repeat(repeat_count: Optional[int] = None) -> Operator[Any]:
    """Subscribes again where the source completes: so many times in all, or without end."""
    def operate(source: Any) -> Observable[Any]:
        source = to_observable(source)
        return InTurn(lambda: itertools.repeat(source) if repeat_count is None else itertools.repeat(source, repeat_count), True, False, (source,))
    return operate


@same
def while_do(condition: Callable[[Any], bool]) -> Operator[Any]:
    """The source again and again, while the condition holds before."""
    def operate(source: Any) -> Observable[Any]:
        source = to_observable(source)
        return InTurn(lambda: itertools.takewhile(condition, itertools.repeat(source)), True, False, (source,))
    return operate


@same
def do_while(condition: Callable[[Any], bool]) -> Operator[Any]:
    """The source, and again while the condition holds behind it."""
    again = while_do(condition)
    return lambda source: Concat((to_observable(source), again(source)))
