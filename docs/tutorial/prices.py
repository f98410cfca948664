"""Keeps the subscriptions of a price view: the program of the tutorial, in Python. It prints what stands in prices.out."""
from cellarcliff import rx
from cellarcliff.rx import operators as ops
from cellarcliff.rx.disposable import Disposable, RefCountDisposable
from cellarcliff.rx.subject import Subject


def file(number):
    """A stand-in for an open file, which says when it is closed."""
    return Disposable(lambda: print("release file", number))


def tell(name):
    """An observer: what it does with an item, with an error, with the end."""
    return lambda item: print(name, "receives", item), None, lambda: print(name, "receives the end")


def watch():
    """An observer with a file."""
    ticks = Subject()
    prices = rx.using(lambda: file(7), lambda opened: ticks)
    prices.subscribe(*tell("prices"))
    ticks.on_next(101)
    ticks.on_completed()


def share():
    """Two observers of one source, and its file."""
    ticks = Subject()
    feed = rx.using(lambda: file(9), lambda opened: ticks).pipe(ops.share())
    first = feed.subscribe(*tell("first"))
    second = feed.subscribe(*tell("second"))
    ticks.on_next(102)
    first.dispose()
    second.dispose()


def merge():
    """A file for the first item that comes, none for the second (FlatMap)."""
    names, lines = Subject(), Subject()

    def file_of(name):
        return rx.empty() if name == 11 else rx.using(lambda: file(name), lambda opened: lines)

    names.pipe(ops.flat_map(file_of)).subscribe(*tell("merged"))
    names.on_next(10)
    names.on_next(11)
    lines.on_next(103)
    lines.on_completed()
    names.on_completed()


def latest():
    """A file for each item; the new one takes the place of the old one (Switch)."""
    names, lines = Subject(), Subject()
    files = names.pipe(ops.flat_map_latest(lambda name: rx.using(lambda: file(name), lambda opened: lines)))
    latest = files.subscribe(*tell("latest"))
    names.on_next(12)
    names.on_next(13)
    lines.on_next(104)
    latest.dispose()


def lend():
    """A request borrows the file of a subscription, and outlives it."""
    lent = RefCountDisposable(file(15))
    page = rx.using(lambda: lent, lambda opened: rx.never()).subscribe()
    request = lent.disposable
    page.dispose()
    print("the page is gone, the request goes on")
    request.dispose()


def forget():
    """A subscription that nobody ends."""
    rx.using(lambda: file(8), lambda opened: rx.never()).subscribe()


def main():
    for part in watch, share, merge, latest, lend, forget:
        print("--", part.__name__)
        part()
    print("-- close")
    rx.current().close()


main()
