"""What single operators of RxPY do instead."""
import functools

import rx
from rx import operators as ops
from rx.core import Observable
from rx.disposable import CompositeDisposable, Disposable, SingleAssignmentDisposable
from rx.scheduler import CurrentThreadScheduler


def on_end(source, call):
    """A source of which a function hears first that it has completed."""
    return source.pipe(ops.do_action(on_completed=call))


def skip_until(other):
    """Subscribes to the other first, and ends with its source."""
    def operate(source):
        def subscribe(observer, scheduler=None):
            is_open, gate = [], SingleAssignmentDisposable()

            def opens(_):
                is_open.append(True)
                gate.dispose()
            gate.disposable = other.subscribe_(opens, observer.on_error, gate.dispose, scheduler)
            heard = source.subscribe_(lambda value: observer.on_next(value) if is_open else None, observer.on_error, observer.on_completed, scheduler)
            return CompositeDisposable(heard, gate)
        return Observable(subscribe)
    return operate


def sampled(tell):
    """sample() ends with its source where the sampler has ended."""
    def operate(source, sampler):
        def subscribe(observer, scheduler=None):
            is_over = []
            return tell(on_end(source, lambda: observer.on_completed() if is_over else None), on_end(sampler, lambda: is_over.append(True))).subscribe_(
                observer.on_next, observer.on_error, observer.on_completed, scheduler)
        return Observable(subscribe)
    return operate


def zipped(*sources):
    """zip() pairs what waits as one input ends, and ends as one that has ended has nothing more."""
    def subscribe(observer, scheduler=None):
        waiting, done, subscriptions = [[] for _ in sources], set(), CompositeDisposable()

        def end():
            if any(not waiting[i] for i in done):
                observer.on_completed()

        def hear(i, value):
            waiting[i].append(value)
            if all(waiting):
                observer.on_next(tuple(it.pop(0) for it in waiting))
                end()

        def over(i):
            done.add(i)
            end()
        for i, it in enumerate(sources):
            subscriptions.add(it.subscribe_(functools.partial(hear, i), observer.on_error, functools.partial(over, i), scheduler))
        return subscriptions
    return Observable(subscribe)


def delayed(tell):
    """delay_with_mapper() tells an item once, whatever its delay tells."""
    def delay_with_mapper(mapper, other=None):
        if other is not None:
            return tell(mapper, other)
        return tell(lambda value: mapper(value).pipe(ops.take(1), ops.ignore_elements()))
    return delay_with_mapper


def delay_subscription(_):
    """delay_subscription() tells at once, whatever scheduler it was subscribed to with."""
    return lambda duetime, scheduler=None: lambda source: rx.timer(duetime, scheduler=scheduler).pipe(ops.flat_map(lambda _: source))


def hands_on(tell):
    """An operator that subscribes to its source by the scheduler that it was subscribed to with."""
    def make(*given, **more):
        def operate(source):
            def subscribe(observer, scheduler=None):
                handed = Observable(lambda it, _=None: source.subscribe_(it.on_next, it.on_error, it.on_completed, scheduler))
                return tell(*given, **more)(handed).subscribe_(observer.on_next, observer.on_error, observer.on_completed, scheduler)
            return Observable(subscribe)
        return operate
    return make


def other_of_amb(make):
    """Where the first of amb() tells at once, the other is not subscribed to."""
    def amb(other):
        def operate(source):
            def subscribe(observer, scheduler=None):
                told = []
                tells = lambda *_: told.append(True)
                open_other = Observable(lambda it, _=None: Disposable() if told else other.subscribe_(it.on_next, it.on_error, it.on_completed, scheduler))
                return make(open_other)(source.pipe(ops.do_action(tells, tells, tells))).subscribe_(
                    observer.on_next, observer.on_error, observer.on_completed, scheduler)
            return Observable(subscribe)
        return operate
    return amb


def by_order(_):
    """The least and the greatest of whatever has an order."""
    return lambda one, other: (one > other) - (one < other)


def at_once(kind):
    """A replay tells at once, also where who subscribes hands the current thread's scheduler on."""
    return lambda size=None, window=None, scheduler=None: kind(size, window, None if scheduler is CurrentThreadScheduler.singleton() else scheduler)
