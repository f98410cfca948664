"""Functions on items, which are no nodes.

A chain of them stands at a source, where items go through it on their way into the engine; or at a root, where they go through it
on their way to the observer; or, in the midst of a tree, in a relay, or at a source that a subscription of its own feeds.
"""
from __future__ import annotations

from typing import Any, Callable, List, Sequence, Tuple

from .._refused import Refused
from ._cellar import FLAT, INNER, LEAF, NOTIFIER, PASS, ROOT, SOURCE, UNTIL
from ._engine import At, C, Leaf, Root
from ._observable import Observable, open_below, open_root, to_observable
from ._observer import noop


class Stage:
    """A function on items on their way: told by what is above it, it tells `down`."""

    __slots__ = ("down",)
    calls = False  # whether it calls a function of the user's

    def __init__(self, down: Any):
        self.down = down

    @property
    def is_stopped(self) -> bool:
        """Whether what it stands at is over, as far as can be seen: for who tells several items."""
        return bool(getattr(self.down, "is_stopped", False))

    @property
    def node_is(self) -> Any:
        """The leaf or the root that it stands at, if that can be seen: for functions before it."""
        return self.down if isinstance(self.down, (Leaf, Root)) else getattr(self.down, "node_is", None)

    def start(self) -> None:
        """Before the source is subscribed to."""

    def on_next(self, value: Any) -> None:
        self.down.on_next(value)

    def on_error(self, error: Exception) -> None:
        self.down.on_error(error)

    def on_completed(self) -> None:
        self.down.on_completed()

    def fail(self, error: Exception) -> None:
        """The function raised this: nothing is told behind it."""
        down, self.down = self.down, _Deaf
        down.on_error(error)


def tell_last(down: Any, value: Any) -> None:
    """Tells an item, and the completion behind it, unless it is stopped: also where who hears the item is interrupted, which is nobody's fault."""
    try:
        down.on_next(value)
    except Exception:
        raise
    except BaseException:
        _tell_rest(down, [])
        raise
    if not down.is_stopped:
        down.on_completed()


def tell_those(down: Any, values: List[Any]) -> None:
    """The same of several items, or of none, as long as they are heard."""
    try:
        while values and not down.is_stopped:
            down.on_next(values.pop(0))
    except Exception:
        raise
    except BaseException:
        _tell_rest(down, values)
        raise
    if not down.is_stopped:
        down.on_completed()


def _tell_rest(down: Any, values: List[Any]) -> None:
    try:
        tell_those(down, values)
    except Exception as error:
        C.raised(error)


class _Deaf:
    is_stopped = True
    on_next = on_error = on_completed = staticmethod(noop)


#: What makes stages, the observer's side first: each of what is below it.
Makes = Sequence[Any]


class Make:
    """Makes a stage that is a function alone: kind 0 maps, 1 filters."""

    __slots__ = ("kind", "function")

    def __init__(self, kind: int, function: Callable[[Any], Any]):
        self.kind, self.function = kind, function


def chained(makes: Makes, down: Any) -> Any:
    """What the source tells, the functions being listed from the observer's side; the outermost starts first."""
    at, calls = 0, False  # whether a stage below calls a function of the user's
    while at < len(makes):
        end = at
        while end < len(makes) and type(makes[end]) is Make:
            end += 1
        if end > at:
            run: List[Any] = list(makes[at:end])[::-1]
            down, at, calls = C.Chain(down, bytes(it.kind for it in run), tuple(it.function for it in run)), end, False
        else:
            stage, at = makes[at](down), at + 1
            if stage.calls and calls:
                stage.down = C.Chain(down, b"", ())  # where the one above closes all, that below is not called
            down, calls = stage, stage.calls or calls
            down.start()
    return down


#: How a function behaves in the midst of a tree: it tells at most one item for each, and passes ends on as they are; or so, but
#: it may complete by itself; or it hears of ends; or it keeps one to itself.
PLAIN, ENDING, HEARING, KEEPING = range(4)


class Fn(Observable[Any]):
    """A function on the notes of a source, of which `make` makes a Stage."""

    def __init__(self, source: Any, make: Any, manner: int = HEARING):
        self._source, self._make, self._manner = to_observable(source), make, manner

    def _below(self) -> Tuple[Any, ...]:
        return (self._source,)

    def _open_with(self, at: At, makes: Any) -> bool:
        return False

    def _open(self, at: At) -> None:
        functions: List[Fn] = []
        core: Observable[Any] = self
        while isinstance(core, Fn):
            functions.append(core)
            core = core._source
        makes, manner, is_hot = [it._make for it in functions], max(it._manner for it in functions), core._is_hot
        if at.root is None and isinstance(core, Around) and manner != KEEPING:
            core.within(lambda source: _behind(source, functions))._open(at)
            return
        if at.root is not None and is_hot:
            self._at_root(core, at, makes)
        elif manner == KEEPING or is_hot and any(type(it) is not Make for it in makes):
            linked(core, at, makes)  # an end that is kept is one of the source's all the same
        elif core._open_with(at, makes):
            pass
        elif at.root is not None:
            self._at_root(core, at, makes)
        elif manner >= HEARING:
            linked(core, at, makes)
        else:
            _Relay(core, at, makes, manner == ENDING)

    @staticmethod
    def _at_root(core: Observable[Any], at: At, makes: Makes) -> None:
        root = at.root
        root.head = chained(makes, root)
        if not root.is_stopped:
            core._open(at)


class Around(Observable[Any]):
    """What makes its source as it is subscribed to, and adds nothing to what that tells. Functions may stand on either side of it."""

    def within(self, wrap: Callable[[Any], Observable[Any]]) -> Observable[Any]:
        """The same with functions at its source: so what they tell at its end is told before what it holds is released."""
        raise NotImplementedError


def _behind(source: Any, functions: Sequence[Fn]) -> Observable[Any]:
    """The source with these functions, the last first."""
    for it in reversed(functions):
        source = Fn(source, it._make, it._manner)
    return to_observable(source)


class _Relay:
    """Functions in the midst of a tree: a FlatMap whose items go through them, and out of one inner source. So the engine
    closes all of it in one."""

    __slots__ = ("_engine", "_node", "_inner", "_leaf", "_stop", "_up", "_is_owed", "node_is")

    def __init__(self, core: Observable[Any], at: At, makes: Makes, is_ending: bool):
        engine = self._engine = at.engine
        self._leaf: Any = None
        self._stop: Any = None  # the notifier that ends the source
        self._is_owed = False
        self.node_is = Leaf(engine.core)
        self._node = engine.open(at, FLAT, self.node_is, self._project)
        self._inner = at.below(INNER, self._node)
        within = at.below(SOURCE, self._node)
        below = engine.open(within, UNTIL if is_ending else PASS, self._source_closed)
        if is_ending:
            self._stop = Leaf(engine.core)
            self._stop.is_fed = True
            engine.open(within.below(NOTIFIER, below), LEAF, self._stop)
        self._up = chained(makes, self)
        open_below(core, within.below(SOURCE, below))

    def _project(self, value: Any) -> None:
        if self.node_is.is_stopped:
            return
        self._is_owed = True
        try:
            self._up.on_next(value)
        except Refused as why:  # it was closed while the item stood in its lane
            if why.name not in ("Gone", "NothingOwed"):
                raise
            self._is_owed = False
        finally:
            if self._is_owed:
                self._engine.decline(self._node)

    def _source_closed(self) -> None:
        """The source is closed. If it failed, or something further out closed it, so is all else; what was projected comes first, and so does
        what the source held: else the release of what holds all of it would not wait for the end."""
        if not self.node_is.is_stopped:
            C.behind(lambda: self._engine.put(self._node, self._over, True))

    def _over(self) -> None:
        if self._leaf is not None:
            self._leaf.on_completed()

    # what the last of the functions calls

    @property
    def is_stopped(self) -> bool:
        return bool(self.node_is.is_stopped)

    def on_next(self, value: Any) -> None:
        """The item stands in its lane before anybody is told anything, who may interrupt this."""
        if self._leaf is not None:
            self._leaf.on_next(value)
            return
        self._leaf = Leaf(self._engine.core)
        self._leaf.is_fed, self._is_owed = True, False
        try:
            self._engine.open(self._inner, LEAF, self._leaf, None, value)
        except Exception:
            self._is_owed = True  # it was refused
            raise

    def on_error(self, error: Exception) -> None:
        self._is_owed = False
        self._engine.fail(self._node, error)

    def on_completed(self) -> None:
        if self._leaf is not None:
            self._leaf.on_completed()
        if self._is_owed:
            self._is_owed = False
            self._engine.decline(self._node)
        self._stop.on_completed()


def linked(core: Observable[Any], at: At, makes: Makes) -> None:
    """A source which a subscription of its own feeds; that goes when the source does."""
    engine, leaf = at.engine, Leaf(at.engine.core)
    root = Root(engine.core, noop, noop, noop)
    leaf.is_fed, leaf.on_closed = True, root.dispose
    engine.open(at, LEAF, leaf)
    root.head = chained(makes, _Last(leaf, root))
    if not leaf.is_stopped:
        C.subscribe(root, open_root, core, At(engine, ROOT, None, root, at.scheduler))


class _Last:
    """What the last function tells: items at once, and an end once what the root held is released, before anything takes its place."""

    __slots__ = ("node_is", "_root", "on_next")

    def __init__(self, up: Any, root: Any):
        self.node_is, self._root, self.on_next = up, root, up.on_next

    @property
    def is_stopped(self) -> bool:
        return bool(self.node_is.is_stopped)

    def _let_go(self) -> None:
        is_over = self._root.is_over  # then its end is what its lane tells, and its releases stand behind that
        self._root.dispose()
        if is_over:
            C.finish(self._root)

    def on_error(self, error: Exception) -> None:
        self._let_go()
        self.node_is.on_error(error)

    def on_completed(self) -> None:
        self._let_go()
        self.node_is.on_completed()


class Indexed:
    """For each subscription a function of its own, with a count."""

    __slots__ = ("_function",)

    def __init__(self, function: Callable[[Any, int], Any]):
        self._function = function

    def __call__(self) -> Callable[[Any], Any]:
        count, function = -1, self._function

        def call(value: Any) -> Any:
            nonlocal count
            count += 1
            return function(value, count)
        return call

