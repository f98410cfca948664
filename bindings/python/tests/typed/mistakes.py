"""What `mypy --strict` is to find: a mistake on each line that says so, and on no other."""
from cellarcliff import rx
from cellarcliff.rx import Observable
from cellarcliff.rx import operators as ops
from cellarcliff.rx.disposable import CompositeDisposable, Disposable
from cellarcliff.rx.operators import debounced  # mistake: no such name
from cellarcliff.rx.scheduler import ThreadScheduler  # mistake
from cellarcliff.rx.subject import BehaviorSubject, Subject

numbers = rx.of(1, 2, 3)
words = numbers.pipe(ops.map(str))
feed: Subject[str] = Subject()


def takes_number(it: int) -> None:
    pass


class Deaf:
    """No observer: it hears of no end."""

    def on_next(self, it: int) -> None:
        pass


rx.intervall(1)  # mistake: no such name
numbers.pipe(ops.mapp(str))  # mistake
numbers.pipe(ops.to_marbles())  # mistake: RxPY has it
rx.timer("soon")  # mistake: no time
rx.interval("1")  # mistake
rx.range("3")  # mistake
rx.from_iterable(3)  # mistake: no iterable
rx.throw(3)  # mistake: no exception
rx.defer(numbers)  # mistake: no function
rx.using(Disposable())  # mistake: a function is missing
rx.merge(numbers, 3)  # mistake: no observable
rx.just(1, scheduler=3)  # mistake: no scheduler
numbers.pipe(3)  # mistake: no operator
numbers.pipe(ops.take)  # mistake: it was not called
numbers.pipe(ops.take("3"))  # mistake
numbers.pipe(ops.take())  # mistake
numbers.pipe(ops.map(3))  # mistake: no function
numbers.pipe(ops.filter())  # mistake
numbers.pipe(ops.debounce(duetime="1"))  # mistake
numbers.pipe(ops.delay(0.5, schedule=None))  # mistake: another name
numbers.pipe(ops.flat_map(lambda it: 3))  # mistake: no observable
numbers.pipe(ops.take_until(5))  # mistake
numbers.pipe(ops.retry("3"))  # mistake
numbers.pipe(ops.buffer_with_count("2"))  # mistake
numbers.pipe(ops.observe_on(5))  # mistake: no scheduler
numbers.pipe(ops.finally_action(print("end")))  # mistake: called too early
wrong: Observable[str] = numbers.pipe(ops.take(2), ops.filter(lambda it: it > 1))  # mistake: they are numbers
lengths: Observable[str] = words.pipe(ops.take(1), ops.map(len))  # mistake: they are numbers
words.pipe(ops.skip(1)).subscribe(takes_number)  # mistake: they are words
words.subscribe(lambda it: it.bit_length())  # mistake
numbers.subscribe(Deaf())  # mistake
numbers.subscribe(print, on_completed=lambda _: None)  # mistake: it is given nothing
numbers.subscribe(3)  # mistake
total: str = numbers.run()  # mistake: it is a number
feed.on_next(5)  # mistake: words
feed.onNext("word")  # mistake: another library's name
BehaviorSubject()  # mistake: a value is missing
CompositeDisposable().dispose(1)  # mistake
numbers.subscribe(print).unsubscribe()  # mistake: another library's name
