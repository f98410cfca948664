"""Where this package differs from RxPY, as README.md has it: what each of the two tells."""
import asyncio
import gc
import time
import unittest

from cellarcliff import rx
from tests import kits


def emits_as_it_is_told(k, told):
    subject = k.Subject()

    def first(value):
        told.append(("a", value))
        if value == 1:
            subject.on_next(2)
    subject.subscribe(first)
    subject.subscribe(lambda value: told.append(("b", value)))
    subject.on_next(1)


def fails(value):
    raise KeyError(value)


def observer_of_of_raises(k, told):
    k.rx.of(1, 2).subscribe(fails, lambda error: told.append("on_error"))


def an_observer_that_raises(k, told):
    subject = k.Subject()

    def hear(value):
        told.append(value)
        fails(value)
    subject.subscribe(hear)
    for value in 1, 2:
        try:
            subject.on_next(value)
        except KeyError:
            pass


def others_behind_one_that_raises(k, told):
    subject = k.Subject()
    subject.subscribe(fails)
    subject.subscribe(told.append)
    subject.on_next(1)


def failing(k, told, name):
    def release():
        told.append(name)
        raise KeyError(name)
    return k.disposable.Disposable(release)


def a_resource_below_another_raises(k, told):
    inner = k.rx.using(lambda: failing(k, told, "inner"), lambda _: k.rx.never())
    k.rx.using(lambda: k.disposable.Disposable(lambda: told.append("outer")), lambda _: inner).subscribe().dispose()


def a_release_raises_as_it_is_subscribed_to(k, told):
    ended = k.rx.using(lambda: failing(k, told, "released"), lambda _: k.rx.of(1))
    told.append(hasattr(k.rx.merge(ended, k.rx.never()).subscribe(told.append), "dispose"))


def a_share_that_has_ended(k, told):
    shared = k.rx.of(1).pipe(k.ops.share())
    for _ in range(2):
        shared.subscribe(told.append, None, lambda: told.append("completed"))


def a_publish_that_has_ended(k, told):
    subject = k.Subject()
    shared = subject.pipe(k.ops.publish())
    shared.connect()
    subject.on_completed()
    shared.subscribe(told.append, None, lambda: told.append("completed"))


def an_exchange_between_subscribers(k, told):
    source, routes = k.Subject(), k.Subject()

    def make():
        told.append("made")
        return k.disposable.Disposable(lambda: told.append("released"))
    feed = k.rx.using(make, lambda _: source).pipe(k.ops.share())
    routes.pipe(k.ops.flat_map_latest(lambda _: feed)).subscribe(told.append)
    for value in "xy":
        routes.on_next(value)
        source.on_next(value)


def a_shared_source_ends(k, told):
    subject = k.Subject()
    shared = subject.pipe(k.ops.share())
    shared.pipe(k.ops.start_with(0)).subscribe(None, None, lambda: told.append("with an operator behind the share"))
    shared.subscribe(None, None, lambda: told.append("without"))
    subject.on_completed()


def map_indexed_twice(k, told):
    indexed = k.rx.of("a").pipe(k.ops.map_indexed(lambda value, index: index))
    for _ in range(2):
        indexed.subscribe(told.append)


def ref_count_of_one_that_is_connected(k, told):
    shared = k.rx.create(lambda observer, scheduler: told.append("subscribed")).pipe(k.ops.publish())
    shared.connect()
    shared.pipe(k.ops.ref_count()).subscribe()


def expand_below_take(k, told):
    def inner(value):
        return k.rx.using(lambda: told.append(f"made {value}"), lambda _: k.rx.of(value + 1) if value < 4 else k.rx.empty())
    k.rx.of(1).pipe(k.ops.expand(inner), k.ops.take(2)).subscribe(told.append)


def an_iterable_behind_the_end(k, told):
    subject = k.Subject()
    subject.pipe(k.ops.flat_map(lambda _: k.rx.from_iterable(map(told.append, range(4)))), k.ops.take(2)).subscribe()
    subject.on_next(0)


def a_loop_that_waits_for_another_thread(k, told):
    async def main():
        await asyncio.wait_for(k.rx.timer(0.3).pipe(k.ops.to_future()), 8)  # which is the loop's next event
    begin = time.monotonic()
    asyncio.run(main())
    told.append("at once" if time.monotonic() - begin < 7 else "with the loop's next event")


def a_composition_completes(k, told):
    source = k.rx.using(lambda: k.disposable.Disposable(lambda: told.append("released")), lambda _: k.rx.of(1))
    source.pipe(k.ops.timeout(60)).subscribe(told.append, None, lambda: told.append("completed"))


def a_subject_is_dropped(k, told):
    k.rx.using(lambda: k.disposable.Disposable(lambda: told.append("released")), lambda _: k.Subject()).subscribe()
    gc.collect()


def two_ways_to_one_operator(k, told):
    subject = k.Subject()
    k.rx.combine_latest(subject.pipe(k.ops.amb(k.rx.never())), subject).subscribe(told.append)
    subject.on_next(1)
    subject.on_next(2)


def an_exchange_by_its_own_source(k, told):
    subject = k.Subject()
    subject.pipe(k.ops.flat_map_latest(lambda _: subject)).subscribe(told.append)
    for it in 1, 2, 3:
        subject.on_next(it)


def a_function_below_a_node(k, told):
    subject = k.Subject()
    mapped = subject.pipe(k.ops.map(lambda it: told.append("called") or it), k.ops.flat_map(k.rx.just))
    for name in "ab":
        mapped.subscribe(lambda _, name=name: told.append(name))
    subject.on_next(1)


def a_replay_within_what_subscribes(k, told):
    hub = k.rx.of(1).pipe(k.ops.replay())
    hub.connect()
    k.rx.amb(k.rx.empty(), hub).subscribe(told.append, None, lambda: told.append("completed"))


def the_least_text(k, told):
    k.rx.of("b", "a").pipe(k.ops.min()).subscribe(told.append, lambda error: told.append("error"))


def a_source_behind_the_end(k, told):
    other = k.rx.using(lambda: told.append("made") or k.disposable.Disposable(lambda: told.append("released")), lambda _: k.rx.never())
    k.rx.fork_join(k.rx.empty(), other).subscribe(told.append, None, lambda: told.append("completed"))


def filter_indexed_without_a_predicate(k, told):
    k.rx.of(1).pipe(k.ops.filter_indexed()).subscribe(told.append, lambda error: told.append("error"))


def one_of_a_group_raises(k, told):
    k.disposable.CompositeDisposable(failing(k, told, "a"), k.disposable.Disposable(lambda: told.append("b"))).dispose()


#: The rows of the page: what RxPY tells, and what is told here.
ROWS = {
    emits_as_it_is_told: ([("a", 1), ("a", 2), ("b", 2), ("b", 1)], [("a", 1), ("b", 1), ("b", 2), ("a", 2)]),
    observer_of_of_raises: (["on_error"], ["raised"]),
    an_observer_that_raises: ([1, 2], [1]),
    others_behind_one_that_raises: (["raised"], [1, "raised"]),
    a_resource_below_another_raises: (["inner", "raised"], ["inner", "outer", "raised"]),
    a_release_raises_as_it_is_subscribed_to: ([1, "released", "raised"], [1, "released", True]),
    a_share_that_has_ended: ([1, "completed", "completed"], [1, "completed", 1, "completed"]),
    a_publish_that_has_ended: (["completed"], []),
    an_exchange_between_subscribers: (["made", "x", "released", "made", "y"], ["made", "x", "y"]),
    a_shared_source_ends: (["with an operator behind the share", "without"], ["without", "with an operator behind the share"]),
    map_indexed_twice: ([0, 1], [0, 0]),
    ref_count_of_one_that_is_connected: (["subscribed"], ["subscribed", "subscribed"]),
    expand_below_take: ([1, "made 1", 2, "made 2", "made 3", "made 4"], [1, "made 1", 2]),
    an_iterable_behind_the_end: ([0, 1, 2, 3], [0, 1]),
    a_loop_that_waits_for_another_thread: (["with the loop's next event"], ["at once"]),
    a_composition_completes: ([1, "completed", "released"], [1, "released", "completed"]),
    a_subject_is_dropped: ([], ["released"]),
    two_ways_to_one_operator: ([(1, 1), (2, 1), (2, 2)], [(1, 1), (1, 2), (2, 2)]),
    an_exchange_by_its_own_source: ([], [2, 3]),
    a_function_below_a_node: (["called", "a", "called", "b"], ["called", "called", "a", "b"]),
    a_replay_within_what_subscribes: (["completed"], [1, "completed"]),
    the_least_text: (["error"], ["a"]),
    a_source_behind_the_end: (["completed", "made", "released"], ["completed"]),
    filter_indexed_without_a_predicate: (["error"], [1]),
    one_of_a_group_raises: (["a", "raised"], ["a", "b", "raised"]),
}


class Differences(unittest.TestCase):
    def tearDown(self):
        rx.set_error_hook(None)

    def test_each_row(self):
        rx.set_error_hook(lambda error: None)
        for make, which in ((kits.theirs, 0), (kits.ours, 1)):
            if make is kits.theirs and kits.rxpy is None:
                continue
            kit = make()
            for row, wanted in ROWS.items():
                with self.subTest(row.__name__, kit=kit.name):
                    told = []
                    try:
                        row(kit, told)
                    except KeyError:
                        told.append("raised")
                    if kits.is_model() and row is a_resource_below_another_raises:  # in an order that the engine leaves open
                        told.sort(key=["inner", "outer", "raised"].index)
                    self.assertEqual(told, wanted[which])


if __name__ == "__main__":
    unittest.main()
