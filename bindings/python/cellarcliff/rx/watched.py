"""An engine that remembers where in the program each thing was made: for whoever looks for a leak.

    from cellarcliff import rx
    from cellarcliff.rx.watched import Watched

    engine = rx.use(Watched())      # before the program subscribes to anything
    ...                             # the program, as it is
    for it in engine.open_now():    # what is still open, the oldest first
        print(it)                   # resource Socket, app.py:31 in connect, for app.py:57 in main, open for 12.4 s

What is remembered is a `Made`: a subscription, a resource of using(), what the function of create() answered, an action of
finally_action(), a connection of connect(). What operators hold and subscribe to by themselves is not. Any other engine remembers
nothing, and pays nothing: this one takes the place of four of its methods.
"""
from __future__ import annotations

import sys
import threading
import time
import weakref
from typing import Any, Callable, Dict, FrozenSet, List, NamedTuple, Optional

from .._refused import Refused
from ._cellar import CUT, Lent
from ._crossing import IS_EXTENSION
from ._engine import At, Engine

#: Packages whose lines are not the program's.
SKIPPED = frozenset(("cellarcliff", "rx", "reactivex"))


class Place(NamedTuple):
    """A line of a program, and the function that it stands in."""

    file: str
    line: int
    function: str

    def __str__(self) -> str:
        return f"{self.file}:{self.line}" + ("" if self.function == "<module>" else f" in {self.function}")


def here(skipped: FrozenSet[str] = SKIPPED) -> Optional[Place]:
    """The line that runs, of the innermost function of no such package; None where there is none."""
    frame: Any = sys._getframe(1)
    while frame is not None:
        if str(frame.f_globals.get("__name__", "")).partition(".")[0] not in skipped:
            return Place(frame.f_code.co_filename, frame.f_lineno, frame.f_code.co_name)
        frame = frame.f_back
    return None


def place_of(function: Any) -> Optional[Place]:
    """Where a function, a method or a class of Python begins; None of any other."""
    function = getattr(function, "func", function)  # of functools.partial
    code = getattr(getattr(function, "__func__", function), "__code__", None)
    if code is None:
        return None
    return Place(code.co_filename, code.co_firstlineno, code.co_name)


class Made:
    """Something that the program made, and where."""

    __slots__ = ("what", "name", "place", "of", "within", "since", "thread", "node", "is_over", "__weakref__")

    def __init__(self, what: str, name: str, of: Optional[Place], within: Optional["Made"], skipped: FrozenSet[str]):
        self.what = what      # subscription, resource, answer (of create's function), action (of finally_action), connection
        self.name = name      # the pipeline, or the type of the resource
        self.place = here(skipped)  # the line that subscribed, or emitted what made it
        self.of = of          # of a resource: where its factory stands
        self.within = within  # the subscription for which it was made; None of a connection, and of what it holds
        self.since = time.monotonic()
        self.thread = threading.current_thread().name
        self.node: Optional[int] = None  # its place in the history: of a resource, that of the node which holds it
        self.is_over = False  # it has ended or was disposed of; of a resource: its release has begun

    def __str__(self) -> str:
        lines = [str(it) for it in (self.of, self.place) if it is not None]
        for_whom = f", for {self.within.place}" if self.within is not None and self.within.place not in (None, self.place) else ""
        return f"{self.what} {self.name}, {', by '.join(lines)}{for_whom}, open for {time.monotonic() - self.since:.1f} s"

    def __repr__(self) -> str:
        return f"<{self}>"


class _Kept:
    """What the engine holds in the place of a resource that is remembered."""

    __slots__ = ("resource", "dispose")

    def __init__(self, resource: Any, dispose: Callable[[], Any]):
        self.resource, self.dispose = resource, dispose


class Watched(Engine):
    """An engine that remembers where what is open was made. `max_events` as of an engine: behind so many events it makes a
    checkpoint, and its history is whole no more; with 0 it chooses."""

    leaves_out = False

    def __init__(self, max_events: int = 0, skipped: FrozenSet[str] = SKIPPED) -> None:
        super().__init__(max_events)
        self._skipped = skipped
        self._kept: Dict[int, Made] = {}  # what is held and connected
        self._roots: Dict[int, Any] = {}  # weak references to roots, by their records
        self._made: Dict[int, Made] = {}
        self._of: "weakref.WeakKeyDictionary[Any, Made]" = weakref.WeakKeyDictionary()

    def open_now(self) -> List[Made]:
        """What is open or held, the oldest first."""
        found = [it for it in tuple(self._kept.values()) if not it.is_over]
        for key, ref in tuple(self._roots.items()):
            root, made = ref(), self._made.get(key)
            if root is None or made is None:
                continue
            made.is_over = made.is_over or bool(root.is_over)
            if not made.is_over:
                made.node = root.number
                found.append(made)
        return sorted(found, key=lambda it: it.since)

    def history(self) -> Optional[str]:
        """The history as a dump, which audit.audit() judges and audit.picture() draws: `node` of what was made is the place of an
        event in it. None where a checkpoint took events away."""
        status, found = (Lent(self.core) if IS_EXTENSION else self.core.calls).dump()
        if status not in (0, CUT):
            raise MemoryError
        return None if status else bytes(found).decode()

    # what is remembered

    def _within(self, at: At) -> Optional[Made]:
        return self._of.get(at.top) if at.top is not None else None

    def opens(self, observable: Any, at: At) -> None:
        root, made = at.root, Made("subscription", repr(observable), None, None, self._skipped)
        key = id(made)

        def forget(_: Any) -> None:
            self._roots.pop(key, None)
            self._made.pop(key, None)
        self._made[key], self._roots[key], self._of[root] = made, weakref.ref(root, forget), made
        super().opens(observable, at)

    def _keep(self, made: Made, call: Callable[[], Any]) -> Callable[[], Any]:
        """What releases a resource, and says so."""
        key = id(made)
        self._kept[key] = made

        def release() -> Any:
            made.is_over = True
            self._kept.pop(key, None)
            return call()
        return release

    def using(self, at: At, factory: Callable[[], Any]) -> Any:
        kept: List[Made] = []

        def make() -> Any:
            resource = factory()
            if resource is None:
                return None
            kept.append(Made("resource", type(resource).__name__, place_of(factory), self._within(at), self._skipped))
            return _Kept(resource, self._keep(kept[0], resource.dispose))
        below, resource = super().using(at, make)
        if kept:
            kept[0].node = at.node.number
        return below, resource.resource if isinstance(resource, _Kept) else resource

    def finally_(self, at: At, action: Callable[[], Any]) -> At:
        made = Made("action", getattr(action, "__name__", "action"), place_of(action), self._within(at), self._skipped)
        release = self._keep(made, action)
        try:
            below = super().finally_(at, release)
        except BaseException:
            self._kept.pop(id(made), None)
            raise
        made.node = at.node.number
        return below

    def answered(self, at: At, node: Any, call: Callable[..., Any], *given: Any) -> Any:
        kept: List[Made] = []

        def make() -> Any:
            answer = call(*given)
            if answer is None:
                return None
            kept.append(Made("answer", type(answer).__name__, place_of(call), self._within(at), self._skipped))
            return _Kept(answer, self._keep(kept[0], getattr(answer, "dispose", answer)))
        answer = super().answered(at, node, make)
        if kept:
            kept[0].node = node.number
        return answer.resource if isinstance(answer, _Kept) else answer

    def connect(self, share: Any, leaf: Any) -> Any:
        made = Made("connection", repr(share.source), None, None, self._skipped)
        leaf.on_closed = self._keep(made, leaf.on_closed)
        try:
            connection = super().connect(share, leaf)
        except BaseException:
            self._kept.pop(id(made), None)
            raise
        if connection is None:  # there was one
            self._kept.pop(id(made), None)
        else:
            made.node = connection.number
        return connection


__all__ = ["SKIPPED", "Made", "Place", "Watched", "here", "place_of"]
