"""A reader that begins anew where it hears nothing. It subscribes again before it let go of what it had: each silence leaves a file open."""
import rx
from rx import operators as ops
from rx.disposable import Disposable
from rx.subject import Subject

silences = Subject()


def open_file():
    return Disposable(lambda: print("closed"))


def lines():
    return rx.using(open_file, lambda _: rx.never())


def read():
    lines().pipe(ops.map(str)).subscribe(print)


silences.subscribe(lambda _: read())
read()
silences.on_next("a minute")
silences.on_next("another")
silences.on_completed()
print("the reader stops")
