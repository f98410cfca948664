"""A dashboard: each route has a socket, and leaving the page ends what is shown. But `take_until` stands inside `flat_map_latest`, so
it ends the socket of the moment alone: the next route opens another, and nobody closes that."""
import rx
from rx import operators as ops
from rx.disposable import Disposable
from rx.subject import Subject

routes, left = Subject(), Subject()


def connect(route):
    return Disposable(lambda: print("closed:", route))


def socket_of(route):
    return rx.using(lambda: connect(route), lambda _: rx.never()).pipe(ops.take_until(left))


page = routes.pipe(ops.flat_map_latest(socket_of)).subscribe(print)
routes.on_next("prices")
left.on_next(None)
routes.on_next("news")
print("the page is left")
