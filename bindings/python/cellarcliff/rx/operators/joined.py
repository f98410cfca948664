"""Operators of several observables: each is one leaf, with subscriptions of its own in one lane."""
from __future__ import annotations

from collections import deque
from typing import TYPE_CHECKING, Any, Callable, Deque, Iterable, Iterator, List, Optional, Tuple

from .._engine import C
from .._functions import tell_last
from .._link import Link, Linked
from .._observable import Observable, to_observable
from .._typing import B, Operator, same
from ..disposable import MultipleAssignmentDisposable
from ..nodes import open_in_turn
from ..scheduler import CurrentThreadScheduler, ImmediateScheduler
from ..sources import FromIterable
from .items import NOTHING

if TYPE_CHECKING:
    from .._typing import Source


def starting(link: Link) -> Callable[[Callable[[], Any]], Any]:
    """What does something behind what is under way, as RxPY's current thread scheduler does it; or by the subscription's scheduler."""
    if link.scheduler is None:
        return lambda call: C.fed(C.put_off, lambda: link.later(call))
    turn = link.hold(MultipleAssignmentDisposable())

    def start(call: Callable[[], Any]) -> None:
        turn.disposable = link.schedule(link.scheduler, None, call)
    return start


class InTurn(Observable[Any]):
    """Observables one after another; the next is made behind the releases of the one before, where that completed or failed, as is said."""

    def __init__(self, sources: Callable[[], Iterable[Any]], on_end: bool, on_error: bool, below: Any = ()):
        self._sources, self._on_end, self._on_error, self._known = sources, on_end, on_error, below
        self._hides = not on_error

    def _below(self) -> Tuple[Any, ...]:
        return tuple(it for it in self._known if isinstance(it, Observable))

    def _open_with(self, at: Any, makes: Any) -> bool:
        if not self._on_error:
            if not makes:
                open_in_turn(self._sources, at)
                return True
            if at.root is not None:
                return False  # the functions stand at the root
        link = Link(at, makes)
        if link.is_stopped:
            return True
        last: List[Any] = [None]
        start = starting(link)
        try:
            sources: Iterator[Any] = iter(self._sources())
        except Exception as error:
            link.on_error(error)
            return True

        def follow() -> None:
            if link.is_stopped:
                return
            try:
                source = to_observable(next(sources))
            except StopIteration:
                link.on_completed() if last[0] is None or self._on_end else link.on_error(last[0])
            except Exception as error:
                link.on_error(error)
            else:
                # as RxPY has it, what is told however the one before ended is told by this thread's scheduler
                own = CurrentThreadScheduler.singleton() if self._on_error and self._on_end else None
                link.subscribe(source, link.on_next, failed if self._on_error else None, ended if self._on_end else None, link.scheduler or own)

        def ended() -> None:
            link.follow(lambda: start(follow))

        def failed(error: Exception) -> None:
            last[0] = error
            ended()
        start(follow)
        return True


class Concat(InTurn):
    """Observables one after another, each once the one before has completed."""

    def __init__(self, sources: Iterable[Any]):
        super().__init__(lambda: sources, True, False, sources if isinstance(sources, tuple) else ())


def concat(*sources: "Source[Any]") -> Operator[Any]:
    """The items of the source, and then of each of these, once the one before has completed."""
    return lambda source: Concat((to_observable(source), *sources))


def start_with(*args: Any) -> Operator[Any]:
    """These items first."""
    return lambda source: Concat((FromIterable(args, None), to_observable(source)))


def on_error_resume_next(second: "Source[Any]") -> Operator[Any]:
    """The items of the source, and then of the second, however the first ends."""
    return lambda source: resumed((source, second))


def resumed(sources: Any) -> Observable[Any]:
    return InTurn(lambda: tuple(sources), True, True, sources)


def combined(sources: Tuple[Any, ...]) -> Observable[Any]:
    """combine_latest(): a tuple of the latest items, with each item, once all have one."""
    def run(link: Link) -> None:
        many = len(sources)
        values, done = [NOTHING] * many, [False] * many

        def hear(i: int) -> Any:
            def on_next(value: Any) -> None:
                values[i] = value
                if not any(it is NOTHING for it in values):
                    link.on_next(tuple(values))
                elif all(it for j, it in enumerate(done) if j != i):
                    link.on_completed()

            def on_completed() -> None:
                done[i] = True
                if all(done):
                    link.on_completed()
            return on_next, None, on_completed
        for i, it in enumerate(sources):
            link.subscribe(it, *hear(i))
    return Linked(run, *sources, name="combine_latest")


def combine_latest(*others: "Source[Any]") -> Operator[Tuple[Any, ...]]:
    """A tuple of the latest items of the source and of these, with each item, once all have one."""
    return lambda source: combined((source, *others))


def zipped(sources: Tuple[Any, ...]) -> Observable[Any]:
    """zip(): a tuple of the items with one index."""
    def run(link: Link) -> None:
        many = len(sources)
        queues: List[Deque[Any]] = [deque() for _ in sources]
        done = [False] * many

        def hear(i: int) -> Any:
            def on_next(value: Any) -> None:
                queues[i].append(value)
                if all(queues):
                    values = tuple([it.popleft() for it in queues])
                    if any(is_done and not queue for is_done, queue in zip_(done, queues)):
                        tell_last(link, values)
                    else:
                        link.on_next(values)

            def on_completed() -> None:
                done[i] = True
                if not queues[i]:
                    link.on_completed()
            return on_next, None, on_completed
        for i, it in enumerate(sources):
            link.subscribe(it, *hear(i))
    return Linked(run, *sources, name="zip")


zip_ = zip


def zip(*args: Any) -> Operator[Tuple[Any, ...]]:
    """A tuple of the items of the source and of these that have one index; it ends with the shortest."""
    return lambda source: zipped((source, *args))


def zip_with_iterable(second: Iterable[Any]) -> Operator[Tuple[Any, Any]]:
    """Each item with the next of an iterable; it ends with the shorter."""
    def operate(source: Any) -> Observable[Any]:
        def run(link: Link) -> None:
            items = iter(second)

            def on_next(value: Any) -> None:
                try:
                    other = next(items)
                except StopIteration:
                    link.on_completed()
                except Exception as error:
                    link.on_error(error)
                else:
                    link.on_next((value, other))
            link.subscribe(source, on_next)
        return Linked(run, source)
    return operate


zip_with_list = zip_with_iterable


def latest_from(source: Any, others: Tuple[Any, ...]) -> Observable[Any]:
    """with_latest_from(): each item of the source with the latest of the others, once each has one."""
    def run(link: Link) -> None:
        values = [NOTHING] * len(others)

        def on_next(value: Any) -> None:
            if not any(it is NOTHING for it in values):
                link.on_next((value, *values))
        link.subscribe(source, on_next)
        for i, it in enumerate(others):
            link.subscribe(it, lambda value, i=i: values.__setitem__(i, value), None, noop)
    return Linked(run, source, *others, name="with_latest_from")


def noop(*_: Any) -> None:
    pass


def with_latest_from(*sources: "Source[Any]") -> Operator[Tuple[Any, ...]]:
    """Each item with the latest of these, once each has one."""
    return lambda source: latest_from(source, sources)


def first_of(sources: Tuple[Any, ...]) -> Observable[Any]:
    """amb(): whichever tells something first; the others are left."""
    def run(link: Link) -> None:
        roots: List[Any] = []
        chosen: List[int] = []

        def hear(i: int) -> Any:
            def choose(tell: Callable[..., Any]) -> Callable[..., Any]:
                def told(*value: Any) -> None:
                    if not chosen:
                        chosen.append(i)
                        for j, root in enumerate(roots):
                            if j != i:
                                link.drop(root)
                    if chosen[0] == i:
                        tell(*value)
                return told
            return choose(link.on_next), choose(link.on_error), choose(link.on_completed)
        for i, it in enumerate(sources):
            if chosen:
                break
            roots.append(None)
            root = link.subscribe(it, *hear(i))
            roots[i] = root
            if chosen and chosen[0] != i:
                link.drop(root)
    return Linked(run, *sources, name="amb")


def amb(right_source: "Source[Any]") -> Operator[Any]:
    """Whichever of the two tells something first; the other is left."""
    return lambda source: first_of((source, right_source))


def joined_last(sources: Tuple[Any, ...]) -> Observable[Any]:
    """fork_join(): a tuple of the last items, once all have completed."""
    def run(link: Link) -> None:
        many = len(sources)
        values, done = [NOTHING] * many, [False] * many

        def hear(i: int) -> Any:
            def on_completed() -> None:
                done[i] = True
                if values[i] is NOTHING:
                    link.on_completed()
                elif all(done):
                    tell_last(link, tuple(values))
            return lambda value: values.__setitem__(i, value), None, on_completed
        for i, it in enumerate(sources):
            link.subscribe(it, *hear(i))
    return Linked(run, *sources, name="fork_join")


def fork_join(*others: "Source[Any]") -> Operator[Tuple[Any, ...]]:
    """A tuple of the last items of the source and of these, once all have completed."""
    return lambda source: joined_last((source, *others))


def bounded(source: Any, mapper: Callable[[Any], Any], most: int) -> Observable[Any]:
    """The items of so many inner observables at a time; the function is called as one is subscribed to."""
    def run(link: Link) -> None:
        waiting: Deque[Any] = deque()
        many, is_done = 0, False

        def on_next(value: Any) -> None:
            nonlocal many
            if many < most:
                many += 1
                opens(value)
            else:
                waiting.append(value)

        def opens(value: Any) -> None:
            try:
                inner = to_observable(mapper(value))
            except Exception as error:
                link.on_error(error)
            else:
                link.subscribe(inner, link.on_next, None, lambda: link.follow(follow))

        def follow() -> None:
            nonlocal many
            if waiting and not link.is_stopped:
                opens(waiting.popleft())
            else:
                many -= 1
                if is_done and not many:
                    link.on_completed()

        def on_completed() -> None:
            nonlocal is_done
            is_done = True
            if not many:
                link.on_completed()
        link.subscribe(source, on_next, None, on_completed)
    return Linked(run, source, name="merge")


def concat_map(project: "Callable[[Any], Source[B]]") -> Operator[B]:
    """The items of the observables that the items are mapped to, one after another; the function is called once the one before has
    completed."""
    return lambda source: bounded(source, project, 1)


def exclusive() -> Operator[Any]:
    """The items of the observables that the source emits, but of those that come while one is subscribed to."""
    def operate(source: Any) -> Observable[Any]:
        def run(link: Link) -> None:
            is_busy = is_done = False

            def on_next(inner: Any) -> None:
                nonlocal is_busy
                if not is_busy:
                    is_busy = True
                    link.subscribe(inner, link.on_next, None, inner_completed)

            def inner_completed() -> None:
                nonlocal is_busy
                is_busy = False
                if is_done:
                    link.on_completed()

            def on_completed() -> None:
                nonlocal is_done
                is_done = True
                if not is_busy:
                    link.on_completed()
            link.subscribe(source, on_next, None, on_completed)
        return Linked(run, source, name="exclusive")
    return operate


def expand(mapper: Callable[[Any], Any]) -> Operator[Any]:
    """The items, and those of the observables that they are mapped to, and so on."""
    def operate(source: Any) -> Observable[Any]:
        def run(link: Link) -> None:
            many = 1
            waiting: Deque[Any] = deque([source])
            is_at_it = False

            def work() -> None:
                nonlocal is_at_it
                if is_at_it:
                    return
                is_at_it = True
                while waiting and not link.is_stopped:
                    link.subscribe(waiting.popleft(), on_next, None, on_completed, link.scheduler or ImmediateScheduler.singleton())
                is_at_it = False

            def on_next(value: Any) -> None:
                nonlocal many
                link.on_next(value)
                try:
                    inner = to_observable(mapper(value))
                except Exception as error:
                    link.on_error(error)
                    return
                many += 1
                waiting.append(inner)
                go_on()

            def on_completed() -> None:
                nonlocal many
                many -= 1
                if not many:
                    link.on_completed()

            start = starting(link)

            def go_on() -> None:
                """At once, or by the scheduler that the subscription has."""
                work() if link.scheduler is None else start(work)
            go_on()
        return Linked(run, source, name="expand")
    return operate


@same
def skip_until(other: "Source[Any]") -> Operator[Any]:
    """The items from the first of the other observable on."""
    def operate(source: Any) -> Observable[Any]:
        def run(link: Link) -> None:
            is_open = False
            right: List[Any] = []

            def on_next(value: Any) -> None:
                if is_open:
                    link.on_next(value)

            def opened(_: Any) -> None:
                nonlocal is_open
                is_open = True
                for it in right:
                    link.drop(it)
            right.append(link.subscribe(other, opened, None, noop))
            if is_open:
                link.drop(right[0])
            link.subscribe(source, on_next)
        return Linked(run, source, other, name="skip_until")
    return operate


def sampled(source: Any, sampler: Any) -> Observable[Any]:
    """sample(): the latest item with each item of the sampler, if there is a new one."""
    def run(link: Link) -> None:
        latest: List[Any] = [NOTHING]
        is_done = False

        def on_next(value: Any) -> None:
            latest[0] = value

        def on_completed() -> None:
            nonlocal is_done
            is_done = True
            if sampler_done:
                link.on_completed()

        def sample(*_: Any) -> None:
            value, latest[0] = latest[0], NOTHING
            if is_done and value is not NOTHING:
                tell_last(link, value)
            elif is_done:
                link.on_completed()
            elif value is not NOTHING:
                link.on_next(value)
        sampler_done = False

        def sampler_completed() -> None:
            nonlocal sampler_done
            sampler_done = True
            if is_done:
                link.on_completed()
        link.subscribe(source, on_next, None, on_completed)
        link.subscribe(sampler, sample, None, sampler_completed)
    return Linked(run, source, sampler, name="sample")


def sequence_equal(second: Any, comparer: Optional[Callable[[Any, Any], Any]] = None) -> Operator[bool]:
    """Whether both tell the same items."""
    equals = comparer or (lambda a, b: a == b)

    def operate(source: Any) -> Observable[Any]:
        def run(link: Link) -> None:
            queues: List[Deque[Any]] = [deque(), deque()]
            done = [False, False]

            def hear(i: int) -> Any:
                def on_next(value: Any) -> None:
                    if queues[1 - i]:
                        other = queues[1 - i].popleft()
                        try:
                            is_equal = equals(value, other) if i == 0 else equals(other, value)
                        except Exception as error:
                            link.on_error(error)
                            return
                        if not is_equal:
                            tell_last(link, False)
                    elif done[1 - i]:
                        tell_last(link, False)
                    else:
                        queues[i].append(value)

                def on_completed() -> None:
                    done[i] = True
                    if not queues[i]:
                        if queues[1 - i]:
                            tell_last(link, False)
                        elif done[1 - i]:
                            tell_last(link, True)
                return on_next, None, on_completed
            link.subscribe(source, *hear(0))
            link.subscribe(second, *hear(1))
        return Linked(run, source, second, name="sequence_equal")
    return operate
