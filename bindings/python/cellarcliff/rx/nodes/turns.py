"""concat() and its like: a FlatMap whose outer source tells one observable after another."""
from __future__ import annotations

from typing import Any, Callable, Iterable, Iterator

from .._cellar import LEAF, PASS
from .._engine import At, C, Leaf
from .._observable import Observable, open_below, to_observable
from ..disposable import MultipleAssignmentDisposable
from .merging import Merging


def open_in_turn(sources: Callable[[], Iterable[Any]], at: At) -> None:
    """Opens these one after another, each once the one before has completed and what it held is released."""
    Merging(_Outer(sources), lambda turn: turn, False)._open(at)


class _Outer(Observable[Any]):
    """Tells each of the observables when its turn has come. It is opened once."""

    def __init__(self, sources: Callable[[], Iterable[Any]]):
        self._sources = sources

    def _open_with(self, at: At, makes: Any) -> bool:
        self._engine, self._scheduler, self._leaf = at.engine, at.scheduler, Leaf(at.engine.core)
        self._leaf.is_fed = True
        self._engine.open(at, LEAF, self._leaf)
        try:
            self._rest: Iterator[Any] = iter(self._sources())
        except Exception as error:
            self._leaf.on_error(error)
            return True
        if self._scheduler is not None:
            self._wait = self._engine.hold(self._leaf, MultipleAssignmentDisposable)
        self._start()
        return True

    def _start(self) -> None:
        """As RxPY's current thread scheduler does it: behind what is under way."""
        if self._scheduler is None:
            C.fed(C.put_off, self._follow)
        elif not self._leaf.is_stopped:
            self._wait.disposable = self._scheduler.schedule(lambda *_: C.call(self._follow))

    def _follow(self) -> None:
        leaf = self._leaf
        if leaf.is_stopped:
            return
        try:
            source = to_observable(next(self._rest))
        except StopIteration:
            leaf.on_completed()
        except Exception as error:
            leaf.on_error(error)
        else:
            leaf.on_next(_Turn(source, self._ended))

    def _ended(self) -> None:
        """One of them has closed. If it failed, or something further out closed it, so is this; else the next comes behind its releases."""
        if not self._leaf.is_stopped:
            C.behind(self._start)


class _Turn(Observable[Any]):
    """An observable, of which is heard when it has closed."""

    def __init__(self, source: Observable[Any], ended: Callable[[], Any]):
        self._source, self._ended = source, ended

    def _open_with(self, at: At, makes: Any) -> bool:
        return False

    def _open(self, at: At) -> None:
        node = at.engine.open(at, PASS, self._ended)
        open_below(self._source, at.inside(node))
