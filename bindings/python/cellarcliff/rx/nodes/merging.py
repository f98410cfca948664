"""flat_map(), flat_map_latest() and their like, and defer()."""
from __future__ import annotations

from typing import Any, Callable, Tuple

from ..._refused import Refused
from .._cellar import FLAT, INNER, PASS, SOURCE, SWITCH
from .._engine import At, C, Leaf
from .._functions import Around
from .._observable import Observable, open_below, to_observable
from ..scheduler import ImmediateScheduler
from ..sources import Throw


class Merging(Observable[Any]):
    """FlatMap, or Switch where `is_switch`: each item of the source becomes an observable."""

    _hides = True

    def __init__(self, source: Any, mapper: Callable[[Any], Any], is_switch: bool):
        self._source, self._mapper, self._is_switch = to_observable(source), mapper, is_switch

    def _below(self) -> Tuple[Any, ...]:
        return (self._source,)

    def _open_with(self, at: At, makes: Any) -> bool:
        return False

    def _open(self, at: At) -> None:
        engine, mapper, is_switch = at.engine, self._mapper, self._is_switch
        # whether it is closed: an item may stand in its lane meanwhile, and is not projected then
        node_is = Leaf(engine.core)

        def project(value: Any) -> None:
            if node_is.is_stopped:
                return
            at = At(engine, INNER, node, None, scheduler, top, node_is, is_switch)
            try:
                observable = mapper(value)
                if not isinstance(observable, Observable):
                    observable = to_observable(observable)
                if not node_is.is_stopped:
                    if is_switch:
                        turns[0] += 1
                        at.turns, at.turn = turns, turns[0]
                    C.projected(observable._open, at)
            except Refused as why:
                if why.name not in ("Gone", "NothingOwed"):
                    engine.fail(node, why)
            except Exception as error:
                engine.fail(node, error) if at.node is None else engine.failed(at, error)
            except BaseException:
                engine.decline(node)
                raise
        scheduler, top, turns = at.scheduler, at.top, [0]
        node = engine.open(at, SWITCH if is_switch else FLAT, node_is, project)
        open_below(self._source, at.below(SOURCE, node))


def made(make: Callable[[Any], Any], given: Any, scheduler: Any = None) -> Observable[Any]:
    """The observable that a function answers; where it raises one that fails with that, by this scheduler if there is one."""
    try:
        return to_observable(make(given))
    except Exception as error:
        return Throw(error, scheduler)


class Defer(Around):
    """defer()."""

    _hides = True

    def __init__(self, factory: Callable[[Any], Any], wrap: Callable[[Any], Observable[Any]] = to_observable):
        self._factory, self._wrap = factory, wrap

    def within(self, wrap: Callable[[Any], Observable[Any]]) -> Observable[Any]:
        return Defer(self._factory, wrap)

    def _open_with(self, at: At, makes: Any) -> bool:
        return False

    def _open(self, at: At) -> None:
        node = at.engine.open(at, PASS)
        open_below(self._wrap(made(self._factory, at.scheduler, ImmediateScheduler.singleton())), at.inside(node))
