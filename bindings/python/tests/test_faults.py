"""Faults that a user of the first package met, each by its smallest program."""
import asyncio
import gc
import os
import queue
import signal
import threading
import time
import unittest

from cellarcliff import rx
from cellarcliff.rx import operators as ops
from cellarcliff.rx.disposable import Disposable
from cellarcliff.rx.internal import DisposedException
from cellarcliff.rx.subject import Subject
from tests.kits import fresh_engine, is_model, rxpy


def total(n):
    """Work that is done within a callback, and has happened as it returns."""
    got = []
    rx.range(0, n).pipe(ops.map(lambda it: it * 2)).subscribe(got.append)
    return list(got)


class Faults(unittest.TestCase):
    def setUp(self):
        self.engine = rx.use(fresh_engine())
        self.unhandled = []
        rx.set_error_hook(self.unhandled.append)

    def tearDown(self):
        rx.set_error_hook(None)
        self.engine.close()
        counts = self.engine.counts()
        self.assertEqual((counts.nodes, counts.held, counts.waiting, counts.accepted), (0, 0, 0, counts.taken))

    # F1

    def test_a_busy_exchange_does_not_recurse(self):
        many = 20 if is_model() else 150
        made, freed = [], []

        def make():
            made.append(1)
            return Disposable(lambda: freed.append(1))
        subject = Subject()
        shared = subject.pipe(ops.share())
        for _ in range(many):
            shared.pipe(ops.flat_map_latest(lambda _: rx.using(make, lambda _: rx.never()))).subscribe()
        for i in range(3):
            subject.on_next(i)
        self.assertEqual((len(made), len(freed), self.unhandled), (3 * many, 2 * many, []))

    # F2

    def test_what_an_observer_does_has_happened(self):
        told, subject = [], Subject()
        subject.subscribe(lambda n: told.append(total(n)))
        subject.on_next(3)
        self.assertEqual(told, [[0, 2, 4]])

    def test_what_a_function_behind_a_share_does_has_happened(self):
        told, subject = [], Subject()
        subject.pipe(ops.share(), ops.map(total)).subscribe(told.append)
        subject.on_next(3)
        self.assertEqual(told, [[0, 2, 4]])

    def test_what_a_predicate_does_has_happened(self):
        told, subject = [], Subject()
        subject.pipe(ops.finally_action(lambda: None), ops.filter(total)).subscribe(told.append)
        subject.on_next(3)
        self.assertEqual(told, [3])

    def test_what_a_mapper_of_flat_map_does_has_happened(self):
        told, subject = [], Subject()
        subject.pipe(ops.flat_map(total)).subscribe(told.append)
        subject.on_next(3)
        self.assertEqual(told, [0, 2, 4])

    def test_run_within_an_observer_does_not_wait_for_ever(self):
        told, subject = [], Subject()
        subject.subscribe(lambda n: told.append(rx.range(0, n).run()))
        subject.on_next(3)
        self.assertEqual(told, [2])

    def test_an_exchange_by_hand_has_released_before_it_makes(self):
        log, subject = [], Subject()

        def opened():
            log.append("open")
            return rx.using(lambda: Disposable(lambda: log.append("close")), lambda _: rx.never()).subscribe()
        held = [opened()]

        def hear(_):
            held.pop().dispose()
            held.append(opened())
        subject.subscribe(hear)
        subject.on_next(1)
        self.assertEqual(log, ["open", "close", "open"])

    # F3

    def test_an_observer_may_wait_for_another_pipeline(self):
        a, b, told, items = Subject(), Subject(), [], queue.Queue()
        a.subscribe(lambda _: told.append(items.get(timeout=10)))
        b.subscribe(items.put)
        thread = threading.Thread(target=a.on_next, args=(1,))
        thread.start()
        time.sleep(0.05)
        b.on_next("item")
        thread.join()
        self.assertEqual(told, ["item"])

    def test_a_mapper_and_an_observer_run_in_the_thread_that_emitted(self):
        subjects, wrong = [Subject() for _ in range(4)], []

        def work(subject, many):
            me = threading.get_ident()

            def check(it):
                if threading.get_ident() != me:
                    wrong.append(it)
                return it
            subject.pipe(ops.flat_map(lambda it: rx.of(check(it))), ops.map(check)).subscribe(check)
            for i in range(many):
                subject.on_next(i)
        threads = [threading.Thread(target=work, args=(it, 10 if is_model() else 500)) for it in subjects]
        for it in threads:
            it.start()
        for it in threads:
            it.join()
        self.assertEqual(wrong, [])

    # F4

    def test_no_item_of_a_thread_comes_before_an_earlier_one(self):
        subject, busy, told, done = Subject(), Subject(), [], threading.Event()
        subject.pipe(ops.flat_map(rx.just)).subscribe(told.append)
        busy.pipe(ops.flat_map_latest(lambda _: rx.never())).subscribe()

        def exchange():
            while not done.is_set():
                busy.on_next(0)
        threads = [threading.Thread(target=lambda n=n: [subject.on_next((n, i)) for i in range(10 if is_model() else 1000)]) for n in range(3)]
        other = threading.Thread(target=exchange)
        for it in (other, *threads):
            it.start()
        for it in threads:
            it.join()
        done.set()
        other.join()
        for n in range(3):
            of = [i for m, i in told if m == n]
            self.assertEqual(of, sorted(of))

    # F5

    @unittest.skipIf(is_model() or not hasattr(signal, "setitimer"), "a signal comes within the model too")
    def test_a_signal_handler_that_emits(self):
        subject, told, sent = Subject(), [], []
        subject.subscribe(told.append)

        def handle(*_):
            sent.append(-1)
            subject.on_next(-1)
        before = signal.signal(signal.SIGALRM, handle)
        signal.setitimer(signal.ITIMER_REAL, 0.001, 0.001)
        try:
            for i in range(20000):
                subject.on_next(i)
        finally:
            signal.setitimer(signal.ITIMER_REAL, 0)
            signal.signal(signal.SIGALRM, before)
        items = [it for it in told if it >= 0]
        self.assertEqual((items, len(told) - len(items)), (list(range(len(items))), len(sent)))

    @unittest.skipIf(is_model(), "the collector would run within the model all the time")
    def test_a_finalizer_that_emits_into_the_same_subject(self):
        subject, told = Subject(), []
        for _ in range(25):
            subject.subscribe(told.append)

        class Noisy:
            def __init__(self):
                self.me = self

            def __del__(self):
                subject.on_next(-1)
        before, many = gc.get_threshold(), 2000
        gc.set_threshold(3, 2, 2)
        try:
            for i in range(many):
                Noisy()
                subject.on_next(i)
        finally:
            gc.set_threshold(*before)
        gc.collect()
        self.assertEqual(len(told), 25 * 2 * many)

    # F6

    def test_an_interrupted_subscribe_leaves_nothing(self):
        released = []

        def factory(_):
            raise KeyboardInterrupt
        with self.assertRaises(KeyboardInterrupt):
            rx.using(lambda: Disposable(lambda: released.append(1)), factory).subscribe()
        self.assertEqual((released, self.engine.counts().nodes), ([1], 0))

    # F7

    def test_a_future_is_an_observable_of_its_result(self):
        told = []

        async def main():
            future = asyncio.get_running_loop().create_future()
            rx.never().pipe(ops.take_until(future)).subscribe(None, None, lambda: told.append("completed"))
            await asyncio.sleep(0)
            self.assertEqual(told, [])

            async def fetch(value):
                return value * 10
            rx.of(1).pipe(ops.flat_map(lambda it: asyncio.ensure_future(fetch(it)))).subscribe(told.append)
            rx.defer(lambda _: asyncio.ensure_future(fetch(2))).subscribe(told.append)
            rx.of(3).pipe(ops.flat_map_latest(lambda it: asyncio.ensure_future(fetch(it)))).subscribe(told.append)
            for _ in range(5):
                await asyncio.sleep(0.01)
            future.set_result(1)
            await asyncio.sleep(0.01)
        asyncio.run(main())
        self.assertEqual((sorted(told[:3]), told[3:]), ([10, 20, 30], ["completed"]))

    # F8

    def test_a_subject_that_is_collected_closes_its_leaves(self):
        heard = []
        for _ in range(5):
            Subject().pipe(ops.map(str), ops.finally_action(lambda: heard.append("finally"))).subscribe(lambda it: heard.append(it))
        gc.collect()
        self.assertEqual((heard, self.engine.counts().nodes), (["finally"] * 5, 0))

    # F9

    def test_an_error_in_a_deep_pipe_is_told(self):
        for depth in (10,) if is_model() else (500, 3000):
            told = []
            rx.of(1).pipe(*[ops.finally_action(lambda: None)] * depth).subscribe(told.append, lambda it: told.append("error"),
                                                                              lambda: told.append("completed"))
            self.assertIn(told, ([1, "completed"], ["error"]), depth)
            self.assertEqual(self.engine.counts().nodes, 0)

    # F10

    def test_what_a_subscribe_function_raises_behind_its_end_is_raised(self):
        def subscribe(observer, _):
            observer.on_completed()
            raise KeyError("behind")
        with self.assertRaises(KeyError):
            rx.create(subscribe).subscribe()

    def test_a_subject_that_was_disposed_of_is_refused_as_it_is_subscribed_to(self):
        subject = Subject()
        subject.dispose()
        with self.assertRaises(DisposedException):
            subject.subscribe(print)

    # F11

    def test_a_subclass_with_subscribe_core(self):
        class Three(rx.Observable):
            def _subscribe_core(self, observer, scheduler=None):
                observer.on_next(3)
                observer.on_completed()
                return Disposable()
        told = []
        Three().pipe(ops.map(str)).subscribe(told.append, None, lambda: told.append("completed"))
        self.assertEqual(told, ["3", "completed"])

    def test_a_subclass_of_subject_with_on_next_core(self):
        class Twice(Subject):
            def _on_next_core(self, value):
                super()._on_next_core(value)
                super()._on_next_core(value)
        told, subject = [], Twice()
        subject.subscribe(told.append)
        subject.on_next(1)
        self.assertEqual(told, [1, 1])

    def test_a_connectable_of_a_source_and_a_subject(self):
        told, source = [], Subject()
        connectable = rx.core.ConnectableObservable(source, Subject())
        connectable.subscribe(told.append)
        connection = connectable.connect()
        source.on_next(1)
        connection.dispose()
        source.on_next(2)
        self.assertEqual(told, [1])

    # F12

    @unittest.skipUnless(hasattr(os, "fork"), "there is no fork")
    def test_a_child_hears_of_its_own_and_releases_nothing_of_its_parent(self):
        read, write = os.pipe()
        outer = rx.using(lambda: Disposable(lambda: os.write(write, b"released ")), lambda _: rx.never()).subscribe()
        subject, heard = Subject(), []

        def fork(_):
            child = os.fork()
            if child == 0:
                signal.alarm(20)
                try:
                    mine, told = Subject(), []
                    mine.pipe(ops.flat_map(rx.just)).subscribe(told.append)
                    mine.on_next("item")
                    outer.dispose()
                    rx.current().close()
                    os.write(write, b"heard " + str(told).encode())
                finally:
                    os._exit(0)
            heard.append(child)
        subject.subscribe(fork)
        subject.on_next(1)
        os.waitpid(heard[0], 0)
        self.assertEqual(os.read(read, 99), b"heard ['item']")
        outer.dispose()
        self.assertEqual(os.read(read, 99), b"released ")
        os.close(read), os.close(write)

    # F13

    def test_a_name_that_is_not_there_is_an_attribute_error(self):
        self.assertFalse(hasattr(rx, "no_such_name"))
        self.assertTrue(hasattr(rx, "zip"))
        self.assertIsNone(getattr(ops, "no_such_operator", None))
        for name in ("group_join", "join"):
            self.assertIsNone(getattr(ops, name, None))
            with self.assertRaisesRegex(NotImplementedError, "RxPY"):
                getattr(ops, name)
        with self.assertRaises(ImportError):
            from cellarcliff.rx.scheduler import mainloop  # noqa: F401

    def test_the_current_thread_waits_where_it_is_asked_to(self):
        from cellarcliff.rx.scheduler import CurrentThreadScheduler
        told = []
        CurrentThreadScheduler().schedule_relative(0.01, lambda *_: told.append(1))
        self.assertEqual(told, [1])


if __name__ == "__main__":
    unittest.main()
