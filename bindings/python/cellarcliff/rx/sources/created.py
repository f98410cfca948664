"""Sources that somebody else's code subscribes to: create(), observables of other packages, futures."""
from __future__ import annotations

from typing import Any, Callable

from .._engine import At
from .._observable import Observable, create
from ..disposable import Disposable


class Created(Observable[Any]):
    """create()."""

    def __init__(self, subscribe: Callable[[Any, Any], Any]):
        self._source = subscribe

    def _open_with(self, at: At, makes: Any) -> bool:
        create(self._source, at, makes)
        return True


class Foreign(Observable[Any]):
    """An observable of another package: any object with a `subscribe`."""

    def __init__(self, observable: Any):
        self._observable = observable

    def _open_with(self, at: At, makes: Any) -> bool:
        def subscribe(observer: Any, scheduler: Any) -> Any:
            given = {} if scheduler is None else {"scheduler": scheduler}
            return self._observable.subscribe(observer, **given)
        create(subscribe, at, makes)
        return True


def is_future(value: Any) -> bool:
    """Whether this is a future of asyncio's or of concurrent.futures."""
    return callable(getattr(value, "add_done_callback", None)) and callable(getattr(value, "result", None))


class FromFuture(Observable[Any]):
    """The result of a future, which is cancelled where nobody waits for it any more."""

    def __init__(self, future: Any):
        self._future = future

    def _open_with(self, at: At, makes: Any) -> bool:
        def subscribe(observer: Any, _: Any) -> Any:
            def done(future: Any) -> None:
                try:
                    value = future.result()
                except BaseException as error:
                    if isinstance(error, (KeyboardInterrupt, SystemExit)):
                        raise
                    observer.on_error(error)
                else:
                    observer.on_next(value)
                    observer.on_completed()
            def cancel() -> None:
                loop = self._future.get_loop() if hasattr(self._future, "get_loop") else None
                if loop is None or not loop.is_closed():  # a loop that is closed cancels nothing
                    self._future.cancel()
            self._future.add_done_callback(done)
            return Disposable(cancel)
        create(subscribe, at, makes)
        return True
