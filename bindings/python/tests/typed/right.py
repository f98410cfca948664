"""A program without a mistake, for `mypy --strict`: what types there are behind operators."""
import asyncio
from typing import Any, Dict, List, Tuple

from cellarcliff import rx
from cellarcliff.rx import Observable
from cellarcliff.rx import operators as ops
from cellarcliff.rx.disposable import CompositeDisposable, Disposable
from cellarcliff.rx.scheduler import NewThreadScheduler
from cellarcliff.rx.subject import BehaviorSubject, ReplaySubject, Subject

numbers = rx.of(1, 2, 3)
same: Observable[int] = numbers.pipe(ops.filter(lambda it: it > 1), ops.take(2), ops.share(), ops.debounce(0.1))
words: Observable[str] = numbers.pipe(ops.take(2), ops.map(str), ops.skip(1), ops.distinct_until_changed())
lengths: Observable[int] = numbers.pipe(ops.map(str), ops.filter(bool), ops.map(len), ops.finally_action(lambda: None))
latest: Observable[str] = numbers.pipe(ops.flat_map_latest(lambda it: rx.interval(1).pipe(ops.map(lambda n: f"{it}.{n}"))), ops.take(5))
inner: Observable[str] = numbers.pipe(ops.flat_map(lambda it: [str(it)]), ops.take_until(rx.timer(2)))
shown: Observable[int] = rx.using(lambda: Disposable(lambda: None), lambda _: numbers)
both: Observable[Tuple[int, str]] = rx.combine_latest(numbers, words)
joined: Observable[int] = rx.merge(numbers, rx.just(5), rx.never())
lists: Observable[List[int]] = numbers.pipe(ops.to_list())
counts: Observable[int] = words.pipe(ops.count())
table: Observable[Dict[str, int]] = words.pipe(ops.to_dict(len))
ten: Observable[int] = words.pipe(ops.map(str), ops.map(str), ops.map(str), ops.map(str), ops.map(str), ops.map(str), ops.map(str),
                                  ops.map(str), ops.map(str), ops.map(len), ops.take(1), ops.take(1))
sums: Observable[int] = numbers.pipe(ops.scan(lambda total, it: int(total + it), 0))
more: Any = words.pipe(*[ops.take(1)] * 20)
feed: Subject[str] = Subject()
value: BehaviorSubject[int] = BehaviorSubject(3)
recent: ReplaySubject[int] = ReplaySubject(2)


class Counter:
    """An observer of one's own."""

    def on_next(self, it: int) -> None:
        value.on_next(it)

    def on_error(self, error: Exception) -> None:
        raise error

    def on_completed(self) -> None:
        pass


def source(observer: Any, scheduler: Any) -> Disposable:
    observer.on_next(1)
    return Disposable()


async def main() -> int:
    return await numbers


held = CompositeDisposable()
held.add(numbers.subscribe(Counter()))
held.add(numbers.subscribe(value))
held.add(words.subscribe(feed.on_next, lambda error: None, lambda: None, scheduler=NewThreadScheduler()))
held.add(rx.create(source).subscribe(on_next=print))
connection = numbers.pipe(ops.publish())
held.add(connection.connect())
counted = connection.pipe(ops.ref_count())
feed.on_next("word")
last: int = numbers.run()
first: Observable[int] = numbers[0]
found: int = asyncio.run(main())
latest_value: int = value.value
