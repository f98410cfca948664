"""using() and finally_action(): a node that holds a resource."""
from __future__ import annotations

from typing import Any, Callable, Tuple

from ..._refused import Refused
from .._engine import At
from .._functions import Around
from .._observable import Observable, open_below, to_observable
from ..sources import Throw
from .merging import made

Wrap = Callable[[Any], Observable[Any]]


class Using(Around):
    """using()."""

    _hides = True

    def __init__(self, resource_factory: Callable[[], Any], observable_factory: Callable[[Any], Any], wrap: Wrap = to_observable):
        self._make_resource, self._make_source, self._wrap = resource_factory, observable_factory, wrap

    def within(self, wrap: Wrap) -> Observable[Any]:
        return Using(self._make_resource, self._make_source, wrap)

    def _open(self, at: At) -> None:
        try:
            below, resource = at.engine.using(at, self._make_resource)
        except Refused:
            raise
        except Exception as error:  # where it takes the place of something, that has given way already
            self._wrap(Throw(error, None))._open(at if at.node is None else at.inside(at.node))
            return
        source = made(self._make_source, resource)
        open_below(source if self._wrap is to_observable else self._wrap(source), below)

    def _open_with(self, at: At, makes: Any) -> bool:
        return False


class Finally(Around):
    """finally_action()."""

    def __init__(self, source: Any, action: Callable[[], Any]):
        self._source, self._action = to_observable(source), action

    def within(self, wrap: Wrap) -> Observable[Any]:
        return Finally(wrap(self._source), self._action)

    def _below(self) -> Tuple[Any, ...]:
        return (self._source,)

    def _open(self, at: At) -> None:
        open_below(self._source, at.engine.finally_(at, self._action))

    def _open_with(self, at: At, makes: Any) -> bool:
        return False
