"""What the package promises beside RxPY's manners: order, threads, what is let go, hubs, other packages' observables."""
import threading
import time
import unittest

from cellarcliff import rx
from cellarcliff.rx import operators as ops
from cellarcliff.rx.disposable import (CompositeDisposable, Disposable, MultipleAssignmentDisposable, RefCountDisposable, SerialDisposable,
                                       SingleAssignmentDisposable)
from cellarcliff.rx.scheduler import TimeoutScheduler
from cellarcliff.rx.subject import Subject
from tests.kits import fresh_engine, is_model, rxpy

MANY = 30 if is_model() else 3000


def emitting(subject, told):
    """A thread that emits thousands of items, of which the first was told."""
    def emit():
        for value in range(MANY):
            subject.on_next(value)
    thread = threading.Thread(target=emit)
    thread.start()
    while not told:
        time.sleep(0.0001)
    return thread


class Manners(unittest.TestCase):
    def setUp(self):
        self.engine = rx.use(fresh_engine())
        self.unhandled = []
        rx.set_error_hook(self.unhandled.append)

    def tearDown(self):
        rx.set_error_hook(None)
        self.engine.close()
        counts = self.engine.counts()
        self.assertEqual((counts.nodes, counts.held, counts.accepted), (0, 0, counts.taken))

    # order

    def test_no_item_overtakes_another(self):
        a, b, subject = [], [], Subject()

        def first(value):
            a.append(value)
            if value == 1:
                subject.on_next(2)
        subject.subscribe(first)
        subject.subscribe(b.append)
        subject.on_next(1)
        self.assertEqual((a, b), ([1, 2], [1, 2]))

    def test_threads_tell_every_observer_the_same(self):
        subject, told = Subject(), [[] for _ in range(3)]
        for it in told:
            subject.subscribe(it.append)
        threads = [threading.Thread(target=lambda n=n: [subject.on_next((n, i)) for i in range(MANY // 15)]) for n in range(4)]
        for it in threads:
            it.start()
        for it in threads:
            it.join()
        self.assertEqual(len(told[0]), 4 * (MANY // 15))
        self.assertTrue(told[0] == told[1] == told[2])
        for n in range(4):
            self.assertEqual([i for m, i in told[0] if m == n], list(range(MANY // 15)))

    def test_a_slow_observer_keeps_no_other_source_waiting(self):
        slow, fast, told, begun, go_on = Subject(), Subject(), [], threading.Event(), threading.Event()

        def hear(_):
            begun.set()
            go_on.wait(10)
        slow.subscribe(hear)
        fast.pipe(ops.flat_map(lambda value: (told.append(("mapped", value)), rx.of(value))[1])).subscribe(told.append)
        thread = threading.Thread(target=slow.on_next, args=(1,))
        thread.start()
        begun.wait(10)
        fast.on_next(5)
        self.assertEqual(told, [("mapped", 5), 5])
        go_on.set()
        thread.join()

    def test_nothing_is_told_after_a_disposal(self):
        subject, told = Subject(), []
        subscription = subject.subscribe(told.append)
        thread = emitting(subject, told)
        subscription.dispose()
        seen = len(told)
        thread.join()
        self.assertLessEqual(len(told), seen + 1)  # the one that was under way
        self.assertEqual(len(subject.observers), 0)

    def test_a_release_comes_behind_what_was_told_before(self):
        told, subject = [], Subject()
        pipeline = rx.using(lambda: Disposable(lambda: told.append("released")), lambda _: subject)
        subscription = pipeline.subscribe(told.append)
        thread = emitting(subject, told)
        subscription.dispose()
        thread.join()
        self.assertEqual(told.index("released"), len(told) - 1)

    # what observers and releases raise

    def test_an_observer_that_raises_loses_the_others_nothing(self):
        subject, told = Subject(), []

        def hear(_):
            raise KeyError("first")
        subject.subscribe(hear)
        subject.subscribe(told.append)
        with self.assertRaises(KeyError):
            subject.on_next(1)
        subject.on_next(2)
        self.assertEqual((told, len(subject.observers)), ([1, 2], 1))

    def test_all_is_released_where_releases_raise(self):
        released = []

        def fail(name):
            released.append(name)
            raise OSError(name)
        pipeline = rx.never()
        for name in "abc":
            pipeline = rx.using(lambda name=name: Disposable(lambda: fail(name)), lambda _, below=pipeline: below)
        subscription = pipeline.subscribe()
        with self.assertRaises(OSError) as first:
            subscription.dispose()
        self.assertEqual([str(first.exception), *map(str, self.unhandled)], released)
        self.assertEqual(sorted(released), ["a", "b", "c"])

    def test_a_release_that_raises_as_it_is_subscribed_to_leaves_the_subscription(self):
        def fail():
            raise OSError("closed")
        ended = rx.using(lambda: Disposable(fail), lambda _: rx.of(1))
        told = []
        subscription = rx.merge(ended, rx.never()).subscribe(told.append)
        self.assertEqual((told, [str(it) for it in self.unhandled]), ([1], ["closed"]))
        subscription.dispose()

    def test_what_is_raised_for_what_another_thread_emitted_goes_to_the_hook(self):
        subject, begun, go_on = Subject(), threading.Event(), threading.Event()

        def hear(it):
            if it == 1:
                begun.set()
                go_on.wait(10)
            else:
                raise KeyError("other")
        subject.subscribe(hear)
        thread = threading.Thread(target=subject.on_next, args=(1,))
        thread.start()
        begun.wait(10)
        subject.on_next(2)  # waits for who is at it
        go_on.set()
        thread.join()
        self.assertEqual([repr(it) for it in self.unhandled], ["KeyError('other')"])

    # what is let go

    def test_nothing_is_kept_of_items_and_subscriptions(self):
        subject, many = Subject(), [0]
        subscription = subject.pipe(ops.flat_map_latest(lambda value: rx.just(value))).subscribe(
            lambda _: many.__setitem__(0, many[0] + 1))
        for value in range(MANY):
            subject.on_next([value])
        engine = self.engine
        self.assertEqual(many, [MANY])
        self.assertLess(engine.core.kept, 8)
        subscription.dispose()

    def test_a_finalizer_may_dispose_in_the_midst_of_a_call(self):
        subject, released = Subject(), []

        class Owner:
            def __init__(self):
                self.subscription = rx.using(lambda: Disposable(lambda: released.append(True)), lambda _: subject).subscribe()

            def __del__(self):
                self.subscription.dispose()
        owners = [Owner() for _ in range(3)]
        owners.clear()
        subject.on_next(1)
        subject.on_next(2)
        self.assertEqual((released, len(subject.observers)), ([True] * 3, 0))

    def test_a_source_that_raises_as_it_is_subscribed_to_in_the_midst_of_a_tree(self):
        gone = Subject()
        gone.dispose()
        told = []
        rx.of(1).pipe(ops.flat_map(lambda _: gone.pipe(ops.share(), ops.do_action(None, lambda error: told.append("seen")),
                                                       ops.finally_action(lambda: told.append("finally"))))
                      ).subscribe(told.append, lambda error: told.append(type(error).__name__))
        self.assertEqual(told, ["seen", "DisposedException", "finally"])

    def test_short_subscriptions_leave_nothing_behind(self):
        subject = Subject()
        for _ in range(MANY):
            subject.pipe(ops.map(str), ops.flat_map(lambda _: subject)).subscribe().dispose()
        self.assertEqual((len(subject.observers), self.engine.core.kept), (0, 0))

    # hubs

    def test_hubs_are_used_again(self):
        source = Subject()
        for number in range(MANY):
            told = []
            shared = source.pipe(ops.share())
            a, b = shared.subscribe(told.append), shared.subscribe(told.append)
            source.on_next(number)
            self.assertEqual(told, [number, number])
            a.dispose()
            b.dispose()

    def test_a_share_for_each_item(self):
        source, told = Subject(), []
        subscription = source.pipe(ops.flat_map_latest(lambda value: rx.of(value, value + 1).pipe(ops.share())), ops.share()
                                   ).subscribe(told.append)
        for value in range(MANY // 2):
            source.on_next(value)
        self.assertEqual(told[-2:], [MANY // 2 - 1, MANY // 2])
        subscription.dispose()

    @unittest.skipIf(is_model(), "too slow")
    def test_too_many_hubs_say_why(self):
        source, failures = Subject(), {}
        for operator in ops.publish, ops.share:
            failures[operator] = []
            subscriptions = [source.pipe(operator()).subscribe(None, failures[operator].append) for _ in range(600)]
            for it in subscriptions:
                it.dispose()
        self.assertEqual((len(failures[ops.publish]), failures[ops.share]), (600 - 512, []))
        self.assertIn("no hub is left", str(failures[ops.publish][0]))

    def test_shares_in_any_order(self):
        source, told = Subject(), []
        shares = [source.pipe(ops.share())]
        for _ in range(12):
            shares.append(rx.merge(shares[-1], rx.never()).pipe(ops.share()))
        for order in (shares, shares[::-1], shares[6:] + shares[:6]):
            subscriptions = [it.subscribe(told.append) for it in order]
            source.on_next(1)
            self.assertEqual(told, [1] * len(shares))
            told.clear()
            for it in subscriptions:
                it.dispose()
        self.assertEqual(len(source.observers), 0)

    @unittest.skipIf(is_model(), "too slow")
    def test_a_share_below_a_share_where_every_hub_before_it_is_in_use(self):
        source, told = Subject(), []
        others = [source.pipe(ops.share()).subscribe() for _ in range(505)]
        shared = source
        for _ in range(5):
            shared = rx.merge(shared.pipe(ops.share()), rx.never())
        subscription = shared.subscribe(told.append)
        source.on_next(1)
        self.assertEqual((told, len(source.observers)), ([1], 506))
        for it in (subscription, *others):
            it.dispose()
        self.assertEqual(len(source.observers), 0)

    def test_an_exchange_keeps_the_connection_of_a_share(self):
        connections, source, told = [], Subject(), []
        feed = rx.using(lambda: connections.append("made") or Disposable(lambda: connections.append("released")),
                        lambda _: source).pipe(ops.share())
        routes = Subject()
        subscription = routes.pipe(ops.flat_map_latest(lambda _: feed)).subscribe(told.append)
        for value in range(3):
            routes.on_next(value)
            source.on_next(value)
        self.assertEqual((told, connections), ([0, 1, 2], ["made"]))
        subscription.dispose()
        self.assertEqual(connections, ["made", "released"])

    # other packages

    def test_any_object_with_subscribe_is_an_observable(self):
        disposed = []

        class Ticks:
            def subscribe(self, observer, *, scheduler=None):
                observer.on_next(1)
                observer.on_next(2)
                observer.on_completed()
                return Disposable(lambda: disposed.append(True))
        told = []
        rx.of("x").pipe(ops.flat_map(lambda _: Ticks())).subscribe(told.append, None, lambda: told.append("completed"))
        self.assertEqual((told, disposed), ([1, 2, "completed"], [True]))

    @unittest.skipIf(rxpy is None, "RxPY is not installed")
    def test_operators_of_rxpy_take_what_is_here(self):
        import rx.operators as others
        told, source = [], Subject()
        whole = source.pipe(ops.share(), others.buffer_with_count(2), ops.flat_map(lambda pair: rx.just(sum(pair))))
        subscription = rxpy.merge(whole, rx.of("a")).pipe(others.zip(rx.merge(rx.of(1, 2), rx.never())), ops.map(tuple)).subscribe(told.append)
        source.on_next(1)
        source.on_next(2)
        self.assertEqual(told, [("a", 1), (3, 2)])
        subscription.dispose()
        self.assertEqual(len(source.observers), 0)

    @unittest.skipIf(rxpy is None, "RxPY is not installed")
    def test_rxpy_takes_it_for_an_observable(self):
        import rx.operators as others
        told = []
        self.assertIsInstance(rx.of(1).pipe(ops.map(str)), rxpy.core.typing.Observable)
        rx.throw(OSError()).pipe(others.catch(rx.of(2))).subscribe(told.append)
        self.assertEqual(told, [2])

    def test_what_is_not_here_says_what_to_do(self):
        for get in (lambda: ops.join, lambda: rx.from_marbles, lambda: rx.scheduler.mainloop, lambda: rx.core.abc, lambda: rx.testing.MockDisposable):
            with self.assertRaisesRegex(NotImplementedError, "RxPY"):
                get()
        with self.assertRaises(ImportError):
            from cellarcliff.rx.operators import group_join  # noqa: F401
        self.assertFalse(hasattr(rx, "no_such_name"))
        with self.assertRaisesRegex(TypeError, "observable is expected"):
            ops.take_until(5)(rx.never())

    # time

    def test_interval_in_threads(self):
        told, done = [], threading.Event()
        rx.interval(0.005).pipe(ops.take(3)).subscribe(told.append, None, done.set)
        self.assertTrue(done.wait(10))
        self.assertEqual(told, [0, 1, 2])

    def test_run_waits_for_the_last_item(self):
        self.assertEqual(rx.timer(0.005, scheduler=TimeoutScheduler.singleton()).pipe(ops.map(lambda it: it + 5)).run(), 5)
        with self.assertRaises(KeyError):
            rx.throw(KeyError()).run()


class Disposables(unittest.TestCase):
    def setUp(self):
        self.told = []

    def one(self, name):
        return Disposable(lambda: self.told.append(name))

    def test_disposable(self):
        it = self.one("a")
        it.dispose()
        it.dispose()
        self.assertEqual((self.told, it.is_disposed), (["a"], True))

    def test_composite(self):
        a, b = self.one("a"), self.one("b")
        group = CompositeDisposable(a, b)
        self.assertTrue(group.remove(a) and not group.remove(a))
        group.dispose()
        group.add(self.one("late"))
        self.assertEqual(self.told, ["a", "b", "late"])

    def test_composite_disposes_of_all_where_one_raises(self):
        def fail():
            raise OSError
        with self.assertRaises(OSError):
            CompositeDisposable(Disposable(fail), self.one("b")).dispose()
        self.assertEqual(self.told, ["b"])

    def test_serial_and_multiple(self):
        for make, wanted in (SerialDisposable, ["a", "b", "late"]), (MultipleAssignmentDisposable, ["b", "late"]):
            self.told.clear()
            it = make()
            for name in "ab":
                it.disposable = self.one(name)
            it.dispose()
            it.disposable = self.one("late")
            self.assertEqual(self.told, wanted)

    def test_single(self):
        it = SingleAssignmentDisposable()
        it.disposable = self.one("a")
        with self.assertRaises(Exception):
            it.disposable = self.one("b")
        it.dispose()
        self.assertEqual(self.told, ["a"])

    def test_ref_count(self):
        it = RefCountDisposable(self.one("whole"))
        first, second = it.disposable, it.disposable
        it.dispose()
        first.dispose()
        first.dispose()
        self.assertEqual(self.told, [])
        second.dispose()
        self.assertEqual(self.told, ["whole"])


if __name__ == "__main__":
    unittest.main()
