"""What the operators stand on: an engine, and RxPY's manners.

A command is made, and what comes of it is told before the call returns, in its thread: closings first, then each lane that nobody
serves. What an observer or a release raises is raised by the outermost call of the thread that emitted, or heard by the hook.
"""
from __future__ import annotations

import atexit
import os
import sys
import threading
from typing import Any, Callable, List, NamedTuple, Optional, Tuple

from .._refused import REFUSALS, Refused
from ._cellar import (ABORT, CONNECT, CONNECTED, DECLINE, DISCONNECT, FAIL, FULL, GONE, LANE_OF_NODE, LEAF, NO_HUB, NO_MEMORY,
                      NOT_CONNECTED, NOTHING_OWED, OF_PROJECTIONS, OPEN, PASS, PUT, ROOT, SHUT, SOURCE, USING, WISHES, Lent)
from ._crossing import C, IS_EXTENSION, bind

Leaf, Root, Key = C.Leaf, C.Root, C.Key


def refuse(status: int) -> None:
    """Raises what a status other than 0 stands for."""
    if status == NO_MEMORY:
        raise MemoryError
    if status == NO_HUB:
        raise RuntimeError("no hub is left for this publish(): there are 512, and each that has a subscriber or is connected takes one")
    raise Refused(REFUSALS.get(status, f"status {status}"))


def on_unhandled(error: BaseException) -> None:
    """Where nobody is left to raise it: see `cellarcliff.rx.set_error_hook`."""
    _hook[0](error)


def _print(error: BaseException) -> None:
    sys.excepthook(type(error), error, error.__traceback__)


_hook: List[Callable[[BaseException], Any]] = [_print]


class Totals(NamedTuple):
    """What is open and held, what waits, and what ever was: accepted = held + waiting + taken. `effects` wait in lanes."""

    nodes: int
    held: int
    waiting: int
    leases: int
    accepted: int
    taken: int
    events: int
    effects: int


class At:
    """A place at which an observable opens something."""

    __slots__ = ("engine", "place", "above", "root", "scheduler", "top", "holder", "is_exchange", "node", "turns", "turn")
    turns: Any  # of an exchange: how often something was opened there, in a list
    turn: int  # and how often with this one

    def __init__(self, engine: "Engine", place: int, above: Any, root: Any, scheduler: Any, top: Any = None, holder: Any = None,
                 is_exchange: bool = False):
        self.engine = engine
        self.place = place  # with the flags that an opening has here
        self.above = above
        self.root = root
        self.scheduler = scheduler
        self.top = root or top  # the root of the subscription, if there is one
        self.holder = root or holder  # the nearest root or leaf above, or what was opened here: what is open below holds it
        self.is_exchange = is_exchange  # whether what stands at this place gives way
        self.node: Any = None  # what was opened here

    def below(self, place: int, above: Any) -> "At":
        return At(self.engine, place, above, None, self.scheduler, self.top, self.holder)

    def stands(self) -> None:
        """Raises Refused("Gone") where what gave way here released something that put another in its place, or closed all: nothing is made for this."""
        if self.turns[0] != self.turn or self.holder.is_stopped:
            refuse(GONE)

    def inside(self, above: Any) -> "At":
        """The place below a node that has this source alone."""
        return self.below(SOURCE, above)


class Engine:
    """An engine of libcellarcliff."""

    opens: Any = None  # what opens a root that the user subscribes: open_root() of _observable.py
    leaves_out = IS_EXTENSION  # whether what needs no engine may go without: it is in no history

    def __init__(self, max_events: int = 0) -> None:
        bind(refuse, on_unhandled)
        self.core = C.Core(max_events)
        self.core.leaves_out = self.leaves_out and not max_events  # what is told may have to enter it, and may be refused by no bound
        self._process, self._calls = os.getpid(), None  # type: Any, Any

    def open(self, at: At, kind: int, close: Any = None, project: Optional[Callable[[Any], Any]] = None, *first: Any) -> Any:
        """Opens a node: `close` is a leaf that stops as it closes, or what is called then; `project` is given what a FlatMap or Switch
        is to project; `first` is an item of the leaf, which stands in its lane before anything is told."""
        root = at.root
        if close is not None:
            if type(close) is not Leaf:
                call, close = close, Leaf(self.core)
                close.on_closed = call
            close.above, at.holder = at.holder, close
        what = at.place | kind if close is None else at.place | kind | WISHES
        at.node = self.core.open(what, at.above, None if root is close is project is None else (root, close, project), None, at.is_exchange, *first)
        if at.is_exchange:
            at.stands()
        return at.node

    def source(self, at: At, holds: bool = False) -> Any:
        """Opens a source, which may hold something: its leaf, for who tells it something, and holds it."""
        core, root = self.core, at.root
        if core.leaves_out and at.place == ROOT and not holds:
            at.node = core.leaf(root)  # what holds something there takes it into the engine
            return at.node
        leaf = core.leaf(None)
        leaf.above, at.holder = at.holder, leaf
        at.node = core.open(at.place | WISHES, at.above, (root, leaf, None), None, at.is_exchange)
        return leaf

    def using(self, at: At, factory: Callable[[], Any]) -> Tuple[At, Any]:
        """Calls the factory, and opens a node that holds the resource: the place below it, and the resource."""
        if at.is_exchange:  # what stands there gives way before the resource is made
            key = self.open(at, PASS)
            resource = self.core.hold(key, factory)
        else:
            key, resource = self.core.using(USING | at.place, at.above, None if at.root is None else (at.root, None, None), factory)
            at.node = key
        return at.inside(key), resource

    def finally_(self, at: At, action: Callable[[], Any]) -> At:
        """Opens a node, as whose resource this is called: the place below it."""
        root = at.root
        at.node = self.core.open(USING | at.place, at.above, None if root is None else (root, None, None), action, at.is_exchange)
        if at.is_exchange:
            at.stands()
        return at.inside(at.node)

    def hold(self, node: Any, call: Callable[..., Any], *given: Any) -> Any:
        """Calls this, and lets the node hold what it answers; where the node is closed that is released at once."""
        return self.core.hold(node, call, *given)

    def answered(self, _: At, node: Any, call: Callable[..., Any], *given: Any) -> Any:
        """The same of what a function of the user's answers."""
        return self.core.hold(node, call, *given)

    def _do(self, what: int, node: Any, value: Any = None, *fine: int) -> int:
        status = int(self.core.do(what, node, value))
        if status and status not in fine:
            refuse(status)
        return status

    def fail(self, merging: Any, error: Exception) -> None:
        """A FlatMap or Switch fails in the place of an inner observable."""
        self._do(FAIL, merging, error, GONE, NOTHING_OWED)

    def decline(self, merging: Any) -> None:
        self._do(DECLINE, merging, None, GONE, NOTHING_OWED)

    def failed(self, at: At, error: Exception) -> None:
        """What was to be opened here raised: the place fails. Where it is taken, what stands there; or else the subscription."""
        if at.node is None:
            try:
                leaf = Leaf(self.core)
                self.open(at, LEAF, leaf)
                leaf.on_error(error)
                return
            except Refused as why:
                if why.name == "Gone":
                    return
        elif self.core.do(ABORT, at.node, error) in (0, GONE):
            return
        if at.top is not None:
            at.top.on_error(error)
        else:
            on_unhandled(error)

    def put(self, node: Any, call: Callable[[], Any], is_projected: bool = False) -> bool:
        """Puts a call into the lane of a node, or of what is projected to it: whether that is open."""
        status = self.core.do(PUT | OF_PROJECTIONS if is_projected else PUT, node, (call,))
        if status not in (0, GONE):
            refuse(status)
        return not status

    # shares

    def connect(self, share: Any, leaf: Any) -> Any:
        """The connection, if there was none, with the leaf that is called as it closes."""
        status, _, connection, hub = self.core.share(CONNECT | WISHES | share.level << 32, None, (None, leaf, None), share.word, share.hub, share, False)
        if status == CONNECTED:
            return None
        if status:
            refuse(status)
        share.hub = hub
        return connection

    def disconnect(self, share: Any) -> None:
        status = self.core.share(DISCONNECT, None, None, share.word, share.hub, None, False)[0]
        if status not in (0, GONE, NOT_CONNECTED):
            refuse(status)

    # the end

    def close(self) -> None:
        """Closes all, and releases what is held."""
        C.call(self._close)

    def _close(self) -> None:
        for _ in range(100):  # a release may subscribe
            if IS_EXTENSION:
                self.core.shut_alone()
            for _ in range(self.counts().nodes):  # each closes a root or a connection, or more
                if self._do(SHUT, None, None, GONE) or not self.counts().nodes:
                    break
            self.core.serve_left()
            if not any(self.counts()[:3]):
                return

    def counts(self) -> Totals:
        """How much is open and held."""
        if self._process != os.getpid():  # that of a parent is none of ours
            return Totals(*[0] * 8)
        if not IS_EXTENSION:
            return Totals(*self.core.totals())
        if self._calls is None:
            self._calls = Lent(self.core)
        totals = Totals(*self._calls.totals())
        return totals._replace(nodes=totals.nodes + self.core.many_alone, effects=totals.effects + self.core.waiting)

    def __repr__(self) -> str:
        counts = self.counts()
        return f"<Engine: {counts.nodes} nodes, {counts.held} resources>"


_engine: List[Optional[Engine]] = [None]
_former: List[Engine] = []  # those that were exchanged with something open
_making = threading.Lock()


def current() -> Engine:
    """The engine in which is subscribed: one for the process, made when it is first needed."""
    engine = _engine[0]
    if engine is None:
        with _making:
            engine = _engine[0] = _engine[0] or Engine()
    return engine


def use(engine: Optional[Engine] = None) -> Engine:
    """Subscribes from now on in this engine; with None, in a new one. Answers it. The one before stays as it is, and what is open in it
    is closed at the end of the process."""
    former = _engine[0]
    _former[:] = [it for it in (*_former, former) if it is not None and it is not engine and any(it.counts()[:3])]
    _engine[0] = engine = engine or Engine()
    return engine


def _at_exit() -> None:
    for it in (*_former, _engine[0]):
        if it is not None:
            it.close()


def _in_child() -> None:
    """A child has an engine of its own, and no part in what its parent opened."""
    global _making
    _making = threading.Lock()
    C.forked()
    _engine[0] = None
    del _former[:]


atexit.register(_at_exit)
if hasattr(os, "register_at_fork"):
    os.register_at_fork(after_in_child=_in_child)

__all__ = ["At", "C", "Engine", "FULL", "Leaf", "LANE_OF_NODE", "ROOT", "Root", "current", "use"]
