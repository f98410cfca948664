"""Observables and operators with the names, the signatures and the manners of RxPY 3, over a proved engine.

    from cellarcliff import rx                        # in the place of `import rx`
    from cellarcliff.rx import operators as ops       # and of `from rx import operators as ops`

    rx.of(1, 2, 3).pipe(ops.map(lambda value: value * 2)).subscribe(print)

A pipeline is one tree in the book, which says when each resource is to be released, once. What is not here raises
NotImplementedError, and says what to do; README.md has the differences from RxPY.
"""
from __future__ import annotations

import builtins
import importlib
from typing import TYPE_CHECKING, Any, Callable, Iterable, Optional, Tuple, Type, TypeVar, Union, overload

from . import _alone  # first: it refuses before ctypes is imported
from . import _modules
from .._nearest import lacking
from ._engine import _hook, _print, current, use
from ._observable import Observable, Observer, pipe, to_observable
from ._typing import Due, Scheduler, Span
from .nodes import Defer, Merging, Using
from .operators.faults import caught, repeat
from .operators.joined import Concat, combined, first_of, joined_last, latest_from, resumed, zipped
from .sharing import ConnectableObservable
from .sources import Called, Created, Empty, FromFuture, FromIterable, Just, Never, Stepwise, Throw, Timer

__all__ = ["ConnectableObservable", "Observable", "Observer", "amb", "case", "catch", "catch_with_iterable", "combine_latest", "concat",
           "concat_with_iterable", "create", "current", "defer", "empty", "for_in", "fork_join", "from_", "from_callable", "from_future",
           "from_iterable", "from_list", "generate", "if_then", "interval", "just", "merge", "never", "of", "on_error_resume_next", "pipe", "range",
           "repeat_value", "return_value", "set_error_hook", "start", "start_async", "throw", "timer", "to_observable", "use", "using",
           "with_latest_from", "zip"]


A = TypeVar("A")
B = TypeVar("B")
if TYPE_CHECKING:
    from asyncio import Future
    from ._typing import Source

#: What RxPY's module has besides.
_ELSEWHERE = frozenset("cold from_callback from_marbles generate_with_relative_time hot to_async".split())
_MODULES = ("operators", "subject", "disposable", "scheduler", "core", "internal", "testing")

if not TYPE_CHECKING:
    from .internal import Missing

    def __getattr__(name: str) -> Any:
        if name in _MODULES:
            return importlib.import_module(f"{__name__}.{name}")
        if name == "typing":
            return importlib.import_module(f"{__name__}.core.typing")
        if name in _ELSEWHERE:
            raise Missing(f"cellarcliff.rx has no {name}(): an observable of RxPY may stand wherever one of this package may, so make it with "
                          f"RxPY's rx.{name}(..), or write it with create()")
        raise lacking(__name__, name)


def set_error_hook(hook: Optional[Callable[[BaseException], Any]]) -> None:
    """What is called with an exception that an observer or a release raised where no thread is left to raise it: that of a
    source which another thread emitted, or a second one. Without one it goes to sys.excepthook."""
    _hook[0] = hook or _print


def amb(*sources: "Source[A]") -> Observable[A]:
    """Whichever of these tells something first; the others are left."""
    found = sources[0] if sources else Never()
    for it in sources[1:]:
        found = first_of((it, found))
    return to_observable(found)


def case(mapper: Callable[[], Any], sources: Any, default_source: Any = None) -> Observable[Any]:
    """The observable that the answer of the function names, or another."""
    return Defer(lambda _: sources[key] if (key := mapper()) in sources else default_source or Empty(None))


def if_then(condition: Callable[[], bool], then_source: Any, else_source: Any = None) -> Observable[Any]:
    """One observable or another."""
    return Defer(lambda _: then_source if condition() else else_source or Empty(None))


def for_in(values: Any, mapper: Callable[[Any], Any]) -> Observable[Any]:
    """The observables that the values are mapped to, one after another."""
    return Concat(builtins.map(mapper, values))


def catch(*sources: "Source[A]") -> Observable[A]:
    """The items of the first of these that does not fail."""
    return caught(sources)


def catch_with_iterable(sources: "Iterable[Source[Any]]") -> Observable[Any]:
    """The same, of an iterable."""
    return caught(sources)


def on_error_resume_next(*sources: "Source[A]") -> Observable[A]:
    """The items of each of these, however the one before ended."""
    return resumed(sources)


@overload
def combine_latest(__1: Observable[A], __2: Observable[B]) -> Observable[Tuple[A, B]]: ...
@overload
def combine_latest(*sources: Any) -> Observable[Tuple[Any, ...]]: ...


def combine_latest(*sources: Any) -> Observable[Any]:
    """A tuple of the latest items of these, with each item, once all have one."""
    return combined(sources)


@overload
def with_latest_from(__1: Observable[A], __2: Observable[B]) -> Observable[Tuple[A, B]]: ...
@overload
def with_latest_from(*sources: Any) -> Observable[Tuple[Any, ...]]: ...


def with_latest_from(*sources: Any) -> Observable[Any]:
    """Each item of the first with the latest of the others, once each has one."""
    return latest_from(sources[0], sources[1:])


@overload
def zip(__1: Observable[A], __2: Observable[B]) -> Observable[Tuple[A, B]]: ...
@overload
def zip(*args: Any) -> Observable[Tuple[Any, ...]]: ...


def zip(*args: Any) -> Observable[Any]:
    """A tuple of the items with one index; it ends with the shortest."""
    return zipped(args)


def fork_join(*sources: Any) -> Observable[Tuple[Any, ...]]:
    """A tuple of the last items, once all have completed."""
    return joined_last(sources)


def concat(*sources: "Source[A]") -> Observable[A]:
    """The items of each of these, once the one before has completed."""
    return Concat(sources)


def concat_with_iterable(sources: "Iterable[Source[Any]]") -> Observable[Any]:
    """The same, of an iterable."""
    return Concat(sources)


def from_future(future: "Future[A]") -> Observable[A]:
    """The result of a future."""
    return FromFuture(future)


def from_callable(supplier: Callable[[], A], scheduler: Optional[Scheduler] = None) -> Observable[A]:
    """What a function answers, for each subscription."""
    return Called(supplier, scheduler)


def repeat_value(value: Any = None, repeat_count: Optional[int] = None) -> Observable[Any]:
    """A value so many times, or without end."""
    return to_observable(repeat(None if repeat_count is None or repeat_count < 0 else repeat_count)(Just(value, None)))


def generate(initial_state: A, condition: Callable[[A], bool], iterate: Callable[[A], A]) -> Observable[A]:
    """A state and what becomes of it, while the condition holds."""
    def states() -> Any:
        state = initial_state
        while condition(state):
            yield state
            state = iterate(state)
    return Stepwise(states)


def start(func: Callable[[], A], scheduler: Optional[Scheduler] = None) -> Observable[A]:
    """What a function answers, which is called at once, by a scheduler; all that subscribe hear it."""
    from .scheduler import TimeoutScheduler
    from .subject import AsyncSubject
    subject: AsyncSubject[Any] = AsyncSubject()

    def action(*_: Any) -> None:
        try:
            result = func()
        except Exception as error:
            subject.on_error(error)
        else:
            subject.on_next(result)
            subject.on_completed()
    (scheduler or TimeoutScheduler.singleton()).schedule(action)
    return subject


def start_async(function_async: Callable[[], Any]) -> Observable[Any]:
    """The result of the future that a function answers."""
    try:
        return FromFuture(function_async())
    except Exception as error:
        return Throw(error, None)


def create(subscribe: Callable[[Any, Any], Any]) -> Observable[Any]:
    """An observable of a function that is called with the observer and the scheduler of each subscription; it answers a
    disposable, a function, or None."""
    return Created(subscribe)


def defer(factory: "Callable[[Any], Source[A]]") -> Observable[A]:
    """An observable that is made for each subscription."""
    return Defer(factory)


def empty(scheduler: Optional[Scheduler] = None) -> Observable[Any]:
    """Completes at once."""
    return Empty(scheduler)


def never() -> Observable[Any]:
    """Tells nothing."""
    return Never()


def throw(exception: Union[Exception, Type[Exception], str], scheduler: Optional[Scheduler] = None) -> Observable[Any]:
    """Fails at once."""
    return Throw(exception, scheduler)


def from_iterable(iterable: Iterable[A], scheduler: Optional[Scheduler] = None) -> Observable[A]:
    """The items of an iterable, and the completion."""
    return FromIterable(iterable, scheduler)


from_ = from_list = from_iterable


def of(*args: A) -> Observable[A]:
    """These items, and the completion."""
    return FromIterable(args, None)


def return_value(value: A, scheduler: Optional[Scheduler] = None) -> Observable[A]:
    """One item, and the completion."""
    return Just(value, scheduler)


just = return_value


def range(start: int, stop: Optional[int] = None, step: Optional[int] = None, scheduler: Optional[Scheduler] = None) -> Observable[int]:
    """The numbers of Python's range."""
    numbers = builtins.range(start) if stop is None else builtins.range(start, stop, 1 if step is None else step)
    return Stepwise(lambda: numbers, scheduler)


def using(resource_factory: Callable[[], Any], observable_factory: "Callable[[Any], Source[A]]") -> Observable[A]:
    """An observable with a resource, which is made for each subscription and disposed of once: after the end, or with the
    subscription. The factory of the resource may answer None. Where a factory raises, the observable fails with that; what the
    disposal raises is raised by the call that ended or disposed of it."""
    return Using(resource_factory, observable_factory)


def merge(*sources: "Source[A]") -> Observable[A]:
    """The items of all of these."""
    return Merging(FromIterable(sources, None), lambda source: source, False)


def timer(duetime: Due, period: Optional[Span] = None, scheduler: Optional[Scheduler] = None) -> Observable[int]:
    """0 after `duetime`, in seconds, as timedelta or at a datetime, and the completion; with a period 1, 2 and so on."""
    return Timer(duetime, period, scheduler)


def interval(period: Span, scheduler: Optional[Scheduler] = None) -> Observable[int]:
    """0, 1, 2 and so on, one each period, in seconds or as timedelta."""
    return Timer(period, period, scheduler)
