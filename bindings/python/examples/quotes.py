"""Quotes of shares that a user looks at, one after another: a program as it is written for RxPY.

Run as `python3 quotes.py`, it is over RxPY. Of the four imports alone is changed what makes it one over cellarcliff:
`from cellarcliff import rx`, `from cellarcliff.rx import operators as ops` and so on.
"""
import rx
from rx import operators as ops
from rx.disposable import CompositeDisposable, Disposable
from rx.subject import Subject


def quotes(name, ticks):
    """The prices of one share, over a connection that all who look at it share."""
    def connect():
        print("connect", name)
        return Disposable(lambda: print("disconnect", name))
    return rx.using(connect, lambda _: ticks).pipe(
        ops.filter(lambda tick: tick[0] == name),
        ops.map(lambda tick: tick[1]),
        ops.share())


def main():
    ticks, looked_at, closed = Subject(), Subject(), Subject()
    shares = {name: quotes(name, ticks) for name in ("ash", "oak")}
    shown = looked_at.pipe(
        ops.do_action(lambda name: print("look at", name)),
        ops.map(lambda name: shares[name].pipe(ops.map(lambda price: (name, price)))),
        ops.switch_latest(),
        ops.take_until(closed),
        ops.finally_action(lambda: print("the window is closed")))
    total = shares["oak"].pipe(ops.scan(lambda sum, price: sum + price), ops.start_with(0))
    log = ticks.pipe(ops.publish())
    subscriptions = CompositeDisposable(
        shown.subscribe(lambda it: print("shown", it), print, lambda: print("shown no more")),
        total.subscribe(lambda sum: print("oak so far", sum)),
        log.subscribe(lambda tick: print("log", tick)),
        log.connect())
    looked_at.on_next("ash")
    ticks.on_next(("ash", 10))
    ticks.on_next(("oak", 20))
    looked_at.on_next("oak")
    ticks.on_next(("ash", 11))
    ticks.on_next(("oak", 21))
    closed.on_next("closed")
    ticks.on_next(("oak", 22))
    subscriptions.dispose()
    print("left over", len(ticks.observers))
    rx.merge(rx.of(1, 2), rx.just(3)).pipe(
        ops.flat_map(lambda many: rx.from_iterable(range(many))),
        ops.flat_map(lambda value: rx.just(value * value)),
        ops.take(4)).subscribe(print, print, lambda: print("done"))
    rx.throw(ValueError("no such share")).subscribe(print, lambda error: print("failed:", error))


main()
