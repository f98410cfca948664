"""What leads out of observables, and what makes several of one."""
from __future__ import annotations

from typing import Any, Callable, List, Optional

from .._observable import Observable
from ..internal import SequenceContainsNoElementsError
from .items import filter, filter_indexed
from .shared import publish, ref_count


def to_future(future_ctor: Optional[Callable[[], Any]] = None) -> Callable[[Observable[object]], Any]:
    """A future of the last item; where it is cancelled, the subscription is disposed of."""
    def operate(source: Any) -> Any:
        import asyncio
        future = future_ctor() if future_ctor else asyncio.get_event_loop().create_future()
        loop = future.get_loop() if hasattr(future, "get_loop") else None
        last: List[Any] = []

        def end(call: Callable[[Any], Any], value: Any) -> None:
            def tell() -> None:
                if not future.done():
                    call(value)
            if loop is None or not loop.is_running() or asyncio._get_running_loop() is loop:
                tell()
            else:  # in another thread: the loop is woken
                loop.call_soon_threadsafe(tell)

        def on_error(error: Exception) -> None:
            end(future.set_exception, error)

        def on_completed() -> None:
            if last:
                end(future.set_result, last[0])
            else:
                end(future.set_exception, SequenceContainsNoElementsError())
        subscription = source.subscribe_(lambda value: last.__setitem__(slice(None), [value]), on_error, on_completed)
        future.add_done_callback(lambda _: subscription.dispose())
        return future
    return operate


def partition(predicate: Callable[[Any], Any]) -> Callable[[Observable[object]], List[Observable[Any]]]:
    """Two observables: the items of which it is true, and the others; the source is subscribed to once for both."""
    def operate(source: Any) -> List[Observable[Any]]:
        shared = ref_count()(publish()(source))
        return [filter(predicate)(shared), filter(lambda value: not predicate(value))(shared)]
    return operate


def partition_indexed(predicate_indexed: Callable[[Any, int], Any]) -> Callable[[Observable[object]], List[Observable[Any]]]:
    """The same, of an item and its index, from 0."""
    def operate(source: Any) -> List[Observable[Any]]:
        shared = ref_count()(publish()(source))
        return [filter_indexed(predicate_indexed)(shared), filter_indexed(lambda value, i: not predicate_indexed(value, i))(shared)]
    return operate

