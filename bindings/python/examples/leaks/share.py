"""A feed that screens share. Each screen that is left should unsubscribe, and the second one does not: the connection stays."""
import rx
from rx import operators as ops
from rx.disposable import Disposable
from rx.subject import Subject

ticks = Subject()


def connect():
    return Disposable(lambda: print("closed"))


feed = rx.using(connect, lambda _: ticks).pipe(ops.share())


class Screen:
    def __init__(self, name):
        self.subscription = feed.subscribe(lambda value: print(name, value))

    def leave(self):
        self.subscription.dispose()


first, second = Screen("first"), Screen("second")
ticks.on_next(1)
first.leave()
second = None
print("no screen is left")
