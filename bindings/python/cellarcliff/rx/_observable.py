"""Observables: each opens something at a place of the engine.

`_open` opens a node at the place and then what it subscribes to below that, the observer first. A function on items is no node:
see `_functions.py`; an operator that has subscriptions of its own is one leaf: see `_link.py`.
"""
from __future__ import annotations

import sys
import threading
from typing import TYPE_CHECKING, Any, Callable, Generator, Generic, List, Optional, Tuple, TypeVar, Union, overload

from .._refused import Refused
from ._cellar import LEAF, ROOT
from ._engine import At, C, Engine, Leaf, Root, current
from ._observer import Observer, default_error, noop
from .disposable import Disposable
from .internal import DisposedException, SequenceContainsNoElementsError

if TYPE_CHECKING:
    from ._typing import Hears, Same, Scheduler

T = TypeVar("T", covariant=True)
T1 = TypeVar("T1")
T2 = TypeVar("T2")
T3 = TypeVar("T3")
T4 = TypeVar("T4")
T5 = TypeVar("T5")
T6 = TypeVar("T6")
T7 = TypeVar("T7")
T8 = TypeVar("T8")
T9 = TypeVar("T9")
T10 = TypeVar("T10")


def pipe(*operators: Callable[[Any], Any]) -> Callable[[Any], Any]:
    """The operators as one, from left to right."""
    def compose(source: Any) -> Any:
        for it in operators:
            source = it(source)
        return source
    return compose


class _Subscription(Disposable):
    """What a subscription is disposed of by."""

    def __init__(self, root: Any):
        self._root = root

    @property
    def is_disposed(self) -> bool:  # type: ignore[override]
        return bool(self._root.is_stopped)

    def dispose(self) -> None:
        self._root.unsubscribe()

    def __repr__(self) -> str:
        return f"<subscription, {'disposed' if self.is_disposed else 'open'}>"


class Observable(Generic[T]):
    """A push-style collection: it can be subscribed to, and piped into operators."""

    _is_hot = False  # whether several threads may emit: then functions stand at the root, where its lane has them one at a time
    _hides = False  # whether it makes observables as it is subscribed to, which _below() does not tell

    def __init__(self, subscribe: Optional[Callable[[Any, Any], Any]] = None):
        self._subscribe = subscribe

    @property
    def lock(self) -> Any:
        """A lock of the observable's own, as operators of RxPY want it."""
        return self.__dict__.setdefault("_lock_of_its_own", threading.RLock())

    def _open(self, at: At) -> None:
        """Opens what this is at the place. Raises Refused("Gone") where that is closed."""
        self._open_with(at, ())

    def _open_with(self, at: At, makes: Any) -> bool:
        """The same with functions on the items on their way into the engine, the last first; False of what is no source."""
        subscribe = self._subscribe_core if type(self)._subscribe_core is not Observable._subscribe_core else self._subscribe
        create(subscribe or noop, at, makes)
        return True

    def _subscribe_core(self, observer: Any, scheduler: Any = None) -> Any:
        """What a subclass has in the place of a function."""
        return self._subscribe(observer, scheduler) if self._subscribe else Disposable()

    def _below(self) -> Tuple[Any, ...]:
        """The observables to which this one subscribes."""
        return ()

    def subscribe(self, observer: "Union[Hears[T], Callable[[T], Any], None]" = None, on_error: Optional[Callable[[Exception], Any]] = None,
                  on_completed: Optional[Callable[[], Any]] = None, on_next: Optional[Callable[[T], Any]] = None, *,
                  scheduler: "Optional[Scheduler]" = None) -> Disposable:
        """Subscribes an observer, or callbacks. `observer` is an object with on_next, on_error and on_completed, or the
        callback for items. Answers a disposable, which unsubscribes. Without `on_error` an error is raised where it was
        emitted. What an observer raises disposes of its subscription, and is raised where it was emitted."""
        if observer is not None:
            given: Any = observer
            if callable(getattr(given, "on_next", None)):
                on_next, on_error, on_completed = given.on_next, given.on_error, given.on_completed
            else:
                on_next = given
        return self.subscribe_(on_next, on_error, on_completed, scheduler)

    def subscribe_(self, on_next: Optional[Callable[[T], Any]] = None, on_error: Optional[Callable[[Exception], Any]] = None,
                   on_completed: Optional[Callable[[], Any]] = None, scheduler: "Optional[Scheduler]" = None) -> Disposable:
        """Subscribes callbacks."""
        engine = current()
        root = Root(engine.core, on_next or noop, on_error or default_error, on_completed or noop)
        C.subscribe(root, engine.opens, self, At(engine, ROOT, None, root, scheduler))
        return _Subscription(root)

    @overload
    def pipe(self, *operators: "Same") -> "Observable[T]": ...
    @overload
    def pipe(self, __1: Callable[["Observable[T]"], T1], *more: "Same") -> T1: ...
    @overload
    def pipe(self, __1: Callable[["Observable[T]"], T1], __2: Callable[[T1], T2], *more: "Same") -> T2: ...
    @overload
    def pipe(self, __1: Callable[["Observable[T]"], T1], __2: Callable[[T1], T2], __3: Callable[[T2], T3],
             *more: "Same") -> T3: ...
    @overload
    def pipe(self, __1: Callable[["Observable[T]"], T1], __2: Callable[[T1], T2], __3: Callable[[T2], T3],
             __4: Callable[[T3], T4], *more: "Same") -> T4: ...
    @overload
    def pipe(self, __1: Callable[["Observable[T]"], T1], __2: Callable[[T1], T2], __3: Callable[[T2], T3],
             __4: Callable[[T3], T4], __5: Callable[[T4], T5], *more: "Same") -> T5: ...
    @overload
    def pipe(self, __1: Callable[["Observable[T]"], T1], __2: Callable[[T1], T2], __3: Callable[[T2], T3],
             __4: Callable[[T3], T4], __5: Callable[[T4], T5], __6: Callable[[T5], T6], *more: "Same") -> T6: ...
    @overload
    def pipe(self, __1: Callable[["Observable[T]"], T1], __2: Callable[[T1], T2], __3: Callable[[T2], T3],
             __4: Callable[[T3], T4], __5: Callable[[T4], T5], __6: Callable[[T5], T6], __7: Callable[[T6], T7],
             *more: "Same") -> T7: ...
    @overload
    def pipe(self, __1: Callable[["Observable[T]"], T1], __2: Callable[[T1], T2], __3: Callable[[T2], T3],
             __4: Callable[[T3], T4], __5: Callable[[T4], T5], __6: Callable[[T5], T6], __7: Callable[[T6], T7],
             __8: Callable[[T7], T8], *more: "Same") -> T8: ...
    @overload
    def pipe(self, __1: Callable[["Observable[T]"], T1], __2: Callable[[T1], T2], __3: Callable[[T2], T3],
             __4: Callable[[T3], T4], __5: Callable[[T4], T5], __6: Callable[[T5], T6], __7: Callable[[T6], T7],
             __8: Callable[[T7], T8], __9: Callable[[T8], T9], *more: "Same") -> T9: ...
    @overload
    def pipe(self, __1: Callable[["Observable[T]"], T1], __2: Callable[[T1], T2], __3: Callable[[T2], T3],
             __4: Callable[[T3], T4], __5: Callable[[T4], T5], __6: Callable[[T5], T6], __7: Callable[[T6], T7],
             __8: Callable[[T7], T8], __9: Callable[[T8], T9], __10: Callable[[T9], T10], *more: "Same") -> T10: ...
    @overload
    def pipe(self, __1: Any, __2: Any, __3: Any, __4: Any, __5: Any, __6: Any, __7: Any, __8: Any, __9: Any, __10: Any, __11: Any,
             *more: Callable[[Any], Any]) -> Any: ...

    def pipe(self, *operators: Any) -> Any:
        """The observable behind these operators, from left to right."""
        if "rx.core.typing" in sys.modules:
            _register()
        source: Any = self
        for it in operators:
            source = it(source)
        return source

    def __add__(self, other: Any) -> "Observable[Any]":
        from .operators.joined import Concat
        return Concat((self, other))

    __iadd__ = __add__

    def __await__(self) -> Generator[Any, None, T]:
        """The last item, once it has completed."""
        from .operators.others import to_future
        found: Generator[Any, None, T] = to_future()(self).__await__()
        return found

    def __getitem__(self, key: "Union[int, slice]") -> "Observable[T]":
        """Some of the items, as of a list: an index, or a slice."""
        from .operators.items import slice_of
        found: Observable[T] = slice_of(self, key)
        return found

    def run(self) -> T:
        """Subscribes, waits for the end, and answers the last item. Raises the error that it ends with, and
        SequenceContainsNoElementsError where it ends without an item."""
        ended, last = threading.Event(), []  # type: Tuple[threading.Event, List[T]]
        failed: List[Exception] = []

        def on_error(error: Exception) -> None:
            failed.append(error)
            ended.set()
        # what it emits is not put off behind what is under way: this waits for it
        C.apart(self.subscribe_, lambda value: last.__setitem__(slice(None), [value]), on_error, ended.set)
        ended.wait()
        if failed:
            raise failed[0]
        if not last:
            raise SequenceContainsNoElementsError()
        return last[0]

    def __repr__(self) -> str:
        below = ", ".join(map(repr, self._below()))
        return f"{type(self).__name__}({below})"


def _register() -> None:
    """What asks RxPY's types whether something is an observable, as some of its operators do, finds that these are. Where RxPY is not
    installed, a program that is watched has this package's types by that name: a protocol, which is not asked."""
    theirs = getattr(sys.modules["rx.core.typing"], "Observable", None)
    if getattr(theirs, "_is_protocol", False):
        return
    if hasattr(theirs, "register") and not issubclass(Observable, theirs):  # type: ignore[arg-type]
        theirs.register(Observable)  # type: ignore[union-attr]


def open_root(observable: Observable[Any], at: At) -> None:
    """Opens a root. What the observable raises meanwhile its observer is told."""
    try:
        observable._open(at)
    except Refused as why:
        if why.name != "Gone":
            fails(at, why)
    except DisposedException:
        at.root.dispose()
        raise
    except Exception as error:
        fails(at, error)


Engine.opens = staticmethod(open_root)


def fails(at: At, error: Exception) -> None:
    """The observable at a root raised as it was subscribed to."""
    root = at.root
    if root.is_stopped:
        raise error
    try:
        (root.head or root).on_error(error)
    except Exception as raised:
        C.raised(raised)


def open_below(observable: Any, at: At) -> None:
    """Opens below a node. What the observable raises is its error; that the node is closed is nothing."""
    try:
        if not isinstance(observable, Observable):
            observable = to_observable(observable)
        observable._open(at)
    except Refused as why:
        if why.name != "Gone":
            at.engine.failed(at, why)
    except Exception as error:
        if isinstance(error, RecursionError) and at.top is not None:
            raise  # where there is room to tell it, the whole subscription fails
        at.engine.failed(at, error)


def create(subscribe: Callable[[Any, Any], Any], at: At, makes: Any) -> None:
    """A source that a function of the user's subscribes to; what it answers is held by the engine."""
    from ._functions import chained
    engine = at.engine
    leaf = engine.source(at)
    leaf.is_fed = False
    up = chained(makes, leaf)
    if leaf.is_stopped:
        return
    try:
        engine.answered(at, leaf, subscribe, C.Chain(up, b"", (), leaf), at.scheduler)
    except Exception as error:
        if leaf.is_stopped:
            raise
        up.on_error(error)


def to_observable(value: Any) -> Observable[Any]:
    """The value, if it is an observable of this package; else a wrap around any object with a `subscribe`, a future, or an iterable."""
    if isinstance(value, Observable):
        return value
    from .sources import wrapped
    return wrapped(value)


__all__ = ["Observable", "Observer", "pipe", "to_observable"]
