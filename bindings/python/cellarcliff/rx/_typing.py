"""What type checkers are told of operators. An operator takes any observable. One that hands on the items as they are is `Same`, so that
pipe() knows the type of the items behind it; one that makes others of them says of what type those are."""
from __future__ import annotations

from datetime import datetime, timedelta
from typing import TYPE_CHECKING, Any, Callable, Iterable, Protocol, TypeVar, Union

from ._observable import Observable

B = TypeVar("B")

#: An operator behind which the items have this type.
Operator = Callable[[Observable[object]], Observable[B]]
#: A span of time in seconds; a time, which is one in UTC without a zone; either.
Span = Union[float, timedelta]
Time = Union[float, datetime]
Due = Union[float, timedelta, datetime]


Item = TypeVar("Item", contravariant=True)


class Hears(Protocol[Item]):
    """An observer of this package or of another."""

    def on_next(self, __value: Item) -> Any: ...

    def on_error(self, __error: Exception) -> Any: ...

    def on_completed(self) -> Any: ...


class Scheduler(Protocol):
    """A scheduler of this package or of another."""

    def schedule(self, action: Any, state: Any = None) -> Any: ...


if TYPE_CHECKING:
    from asyncio import Future
    from typing_extensions import ParamSpec

    #: What may stand wherever an observable may; to_observable() makes one of what another package has.
    Source = Union[Observable[B], Future[B], Iterable[B]]
    Given = ParamSpec("Given")

    class Same(Protocol):
        """An operator behind which the items have the type that they have before it."""

        hands_on: bool

        def __call__(self, source: Observable[object]) -> Observable[Any]: ...

    def same(operator: Callable[Given, Operator[Any]]) -> Callable[Given, Same]: ...
else:
    def same(operator):
        return operator
