"""An operator that has subscriptions of its own: one leaf of the engine, and roots that feed it.

All of its roots, and the calls that its timers make, stand in one lane: so what it does is done one thing at a time and in
order, with no lock. When the leaf goes the roots go, and with them what they hold.
"""
from __future__ import annotations

from functools import partial
from typing import Any, Callable, Dict, List, Optional, Tuple

from ._cellar import LEAF, ROOT
from ._engine import LANE_OF_NODE, At, C, Leaf, Root
from ._functions import chained
from ._observable import Observable, open_root, to_observable
from ._observer import noop

Call = Callable[..., Any]


class Link:
    """What an operator's function is given: what it tells goes to the observer."""

    __slots__ = ("engine", "scheduler", "leaf", "up", "on_next", "_keeper", "_roots", "_held", "_is_ending")

    def __init__(self, at: At, makes: Any):
        self.engine, self.scheduler = at.engine, at.scheduler
        self.leaf = leaf = Leaf(at.engine.core)
        self._roots: Dict[Any, None] = {}
        self._held: List[Any] = []  # timers
        self._is_ending = False  # whether the end of a source is being heard
        self._keeper = Root(at.engine.core, noop, noop, noop)
        leaf.is_fed, leaf.on_closed = True, self._closed
        self.engine.open(at, LEAF, leaf)
        if not leaf.is_stopped:  # what is under way may end what it stands below, as it is opened
            self.engine.open(At(at.engine, ROOT, None, self._keeper, None), LEAF)
            if leaf.is_stopped:
                self._keeper.dispose()
        self.up = chained(makes, _Last(self))
        self.on_next = self.up.on_next

    def _closed(self) -> None:
        roots, self._roots, held, self._held = self._roots, {}, self._held, []
        for it in roots:
            it.is_stopped = True  # what stands in the lane for one of them is not told as another goes
        _each([*(partial(_dispose, it) for it in reversed(held)), self._keeper.dispose, *(it.dispose for it in roots)])

    def __del__(self) -> None:
        """Nobody can tell it anything any more, though what is shared above it is still connected."""
        if not self._keeper.is_over:
            C.call(self._keeper.dispose)

    # what is told

    @property
    def is_stopped(self) -> bool:
        """Whether nobody is told anything any more."""
        return bool(self.leaf.is_stopped)

    @property
    def is_over(self) -> bool:
        """Whether it hears of nothing any more."""
        return bool(self.leaf.is_stopped)

    def on_error(self, error: Exception) -> None:
        self.up.on_error(error)

    def on_completed(self) -> None:
        self.up.on_completed()

    def ends(self, tell: Call) -> None:
        """Ends; where that comes of a source's end behind what that releases, and hears of nothing till then."""
        if not self._is_ending:
            tell()
            return
        roots, self._roots, self.on_next = self._roots, {}, noop
        for it in reversed(tuple(roots)):
            it.dispose()

        def tell_last() -> None:
            self.leaf.is_stopped = False
            tell()
        self.leaf.is_stopped = True  # a function behind it may have more to say
        self.engine.put(self._keeper, tell_last)

    def _heard_end(self, root: Any, call: Call, *error: Any) -> None:
        """A source has ended: items that come of it are told before what the source held is released."""
        self._roots.pop(root, None)
        if not (root.is_over or root.is_told):  # it failed as it was subscribed to
            self.later(lambda: call(*error))
        elif not self.is_over:
            self._is_ending = True
            try:
                call(*error)
            finally:
                self._is_ending = False

    # what it hears of

    def subscribe(self, source: Any, on_next: Optional[Call] = None, on_error: Optional[Call] = None, on_completed: Optional[Call] = None,
                  scheduler: Any = None) -> Any:
        """Subscribes to an observable: what it tells is heard in the operator's lane, and an error ends the operator unless it is
        heard. Answers the subscription, which has a `dispose`."""
        def failed(error: Exception) -> None:
            self._heard_end(root, on_error or self.on_error, error)

        def completed() -> None:
            self._heard_end(root, on_completed or self.on_completed)
        root = Root(self.engine.core, on_next or self.on_next, failed, completed)
        if self.is_over:
            root.is_stopped = root.is_over = True
            return root
        roots = self._roots
        roots[root] = None
        at = At(self.engine, ROOT | LANE_OF_NODE, self._keeper, root, scheduler or self.scheduler)
        try:
            C.fed(C.subscribe, root, open_root, to_observable(source), at)
        except Exception as error:
            roots.pop(root, None)
            self.on_error(error)
        return root

    def drop(self, root: Any) -> None:
        """Disposes of a subscription, and forgets it."""
        self._roots.pop(root, None)
        root.dispose()

    def later(self, call: Call) -> None:
        """Calls this in the operator's lane, behind what is there: so also behind what is released."""
        if not self.is_over:
            self.engine.put(self._keeper, call)

    def follow(self, call: Call) -> None:
        """Calls this once all that the commands under way released is released: for what takes the place of something."""
        C.behind(lambda: self.later(call))

    def hold(self, timer: Any) -> Any:
        """Something that is disposed of when the operator goes."""
        if self.is_over:
            _dispose(timer)
        else:
            self._held.append(timer)
        return timer

    def schedule(self, scheduler: Any, due: Any, call: Call) -> Any:
        """Calls this in the operator's lane, at once by the scheduler or after so long: a disposable."""
        def action(*_: Any) -> None:
            C.call(self.later, call)
        return scheduler.schedule(action) if due is None else scheduler.schedule_relative(due, action)


def _each(calls: List[Call]) -> None:
    """Calls each, the last first, also where one is interrupted."""
    try:
        while calls:
            calls.pop()()
    finally:
        if calls:
            _each(calls)


def _dispose(timer: Any) -> None:
    try:
        timer.dispose()
    except Exception as error:
        C.raised(error)


class _Last:
    """What the last function behind an operator tells."""

    __slots__ = ("on_next", "node_is", "_link")

    def __init__(self, link: Link):
        self.on_next, self.node_is, self._link = link.leaf.on_next, link.leaf, link

    @property
    def is_stopped(self) -> bool:
        return self._link.is_stopped

    def on_error(self, error: Exception) -> None:
        self._link.ends(lambda: self._link.leaf.on_error(error))

    def on_completed(self) -> None:
        self._link.ends(self._link.leaf.on_completed)


class Linked(Observable[Any]):
    """An operator that is a function of its link."""

    __slots__ = ("_run", "_sources", "_name")

    def __init__(self, run: Callable[[Link], Any], *sources: Any, name: str = ""):
        self._run, self._sources, self._name = run, sources, name

    def _below(self) -> Tuple[Any, ...]:
        return tuple(it for it in self._sources if isinstance(it, Observable))

    def _open_with(self, at: At, makes: Any) -> bool:
        link = Link(at, makes)
        if not link.is_stopped:
            try:
                self._run(link)
            except Exception as error:
                if link.is_stopped:
                    raise
                link.on_error(error)
        return True
