"""Schedulers, futures and what waits, over RxPY first and then here with one expectation."""
import asyncio
import concurrent.futures
import importlib
import threading
import time
import unittest
from datetime import datetime, timedelta
from types import SimpleNamespace

from tests import kits
from tests.kits import fresh_engine, rxpy

SOON = 0.1  # seconds: what is due later comes later by so much


def packages():
    """RxPY first, where it is installed."""
    for name in (["rx"] if rxpy is not None else []) + ["cellarcliff.rx"]:
        if name != "rx":
            importlib.import_module(name).use(fresh_engine())
        of = lambda module: importlib.import_module(f"{name}.{module}")
        yield SimpleNamespace(name=name, rx=importlib.import_module(name), ops=of("operators"), subject=of("subject"), scheduler=of("scheduler"),
                              eventloop=of("scheduler.eventloop"), internal=of("internal.exceptions") if name == "rx" else of("internal"),
                              Disposable=of("disposable").Disposable)


class Schedulers(unittest.TestCase):
    def over_both(self, test):
        for k in packages():
            with self.subTest(over=k.name):
                test(k)

    def threaded(self, k):
        """Each scheduler that does it in another thread, and what ends it."""
        pool, loop = k.scheduler.ThreadPoolScheduler(4), k.scheduler.EventLoopScheduler()
        yield "timeout", k.scheduler.TimeoutScheduler(), lambda: None
        yield "new thread", k.scheduler.NewThreadScheduler(), lambda: None
        yield "thread pool", pool, pool.executor.shutdown
        yield "event loop", loop, loop.dispose

    # in this thread

    def test_immediate(self):
        def test(k):
            log, it = [], k.scheduler.ImmediateScheduler()

            def outer(scheduler, state):
                log.append(("outer", state, scheduler is it))
                scheduler.schedule(lambda _, state: log.append(("inner", state)), 2)
                log.append("outer ends")
            it.schedule(outer, 1)
            self.assertEqual(log, [("outer", 1, True), ("inner", 2), "outer ends"])
            self.assertIs(k.scheduler.ImmediateScheduler.singleton(), k.scheduler.ImmediateScheduler.singleton())
            it.schedule_relative(0, lambda *_: log.append("at once"))
            self.assertEqual(log[3:], ["at once"])
            with self.assertRaises(k.internal.WouldBlockException):
                it.schedule_relative(SOON, lambda *_: None)
        self.over_both(test)

    def test_what_the_current_thread_is_asked_to_within_comes_behind(self):
        def test(k):
            log, it = [], k.scheduler.CurrentThreadScheduler.singleton()

            def outer(scheduler, state):
                log.append(state)
                for name in "bc":
                    scheduler.schedule(lambda _, state: log.append(state), name)
                log.append("a ends")
            self.assertTrue(it.schedule_required())
            it.schedule(outer, "a")
            self.assertEqual(log, ["a", "a ends", "b", "c"])
        self.over_both(test)

    def test_the_current_thread_does_first_what_is_due_first(self):
        def test(k):
            log, it = [], k.scheduler.CurrentThreadScheduler.singleton()

            def outer(scheduler, _):
                scheduler.schedule_relative(3 * SOON, lambda *_: log.append("third"))
                scheduler.schedule_relative(timedelta(seconds=SOON), lambda *_: log.append("second"))
                scheduler.schedule_absolute(scheduler.now + timedelta(seconds=2 * SOON), lambda *_: log.append("between")).dispose()
                scheduler.schedule(lambda *_: log.append("first"))
                log.append("outer ends")
            begin = time.monotonic()
            it.schedule(outer)
            self.assertEqual(log, ["outer ends", "first", "second", "third"])
            self.assertGreaterEqual(time.monotonic() - begin, 2.9 * SOON)
        self.over_both(test)

    def test_a_trampoline_of_ones_own_is_no_other(self):
        def test(k):
            log, one, other = [], k.scheduler.TrampolineScheduler(), k.scheduler.TrampolineScheduler()

            def outer(scheduler, _):
                other.schedule(lambda *_: log.append("other, at once"))
                scheduler.schedule(lambda *_: log.append("the same, behind"))
                log.append("outer ends")
            one.schedule(outer)
            self.assertEqual(log, ["other, at once", "outer ends", "the same, behind"])
        self.over_both(test)

    def test_an_action_that_raises_leaves_the_current_thread_free(self):
        def test(k):
            log, it = [], k.scheduler.CurrentThreadScheduler.singleton()

            def outer(scheduler, _):
                scheduler.schedule(lambda *_: log.append("never"))
                raise KeyError("outer")
            with self.assertRaises(KeyError):
                it.schedule(outer)
            self.assertTrue(it.schedule_required())
            it.schedule(lambda *_: log.append("again"))
            self.assertEqual(log, ["again"])
        self.over_both(test)

    def test_catch(self):
        def test(k):
            errors, log = [], []
            it = k.scheduler.CatchScheduler(k.scheduler.ImmediateScheduler(), lambda error: (errors.append(error), isinstance(error, KeyError))[1])

            def fails(error):
                raise error
            it.schedule(lambda *_: fails(KeyError("heard")))
            with self.assertRaises(ValueError):
                it.schedule(lambda *_: fails(ValueError("not heard")))
            it.schedule(lambda scheduler, _: scheduler.schedule(lambda *_: log.append("nested")))
            self.assertEqual(([type(error) for error in errors], log), ([KeyError, ValueError], ["nested"]))
        self.over_both(test)

    # in other threads

    def test_in_another_thread(self):
        def test(k):
            for name, it, end in self.threaded(k):
                with self.subTest(name):
                    done, found = threading.Event(), []
                    it.schedule(lambda _, state: (found.append((state, threading.get_ident())), done.set()), "state")
                    self.assertTrue(done.wait(10))
                    self.assertEqual(found[0][0], "state")
                    self.assertNotEqual(found[0][1], threading.get_ident())
                    end()
        self.over_both(test)

    def test_later_and_in_order(self):
        def test(k):
            for name, it, end in self.threaded(k):
                with self.subTest(name):
                    log, done = [], threading.Event()
                    it.schedule_relative(6 * SOON, lambda *_: (log.append("late"), done.set()))
                    it.schedule_absolute(it.now + timedelta(seconds=3 * SOON), lambda *_: log.append("soon"))
                    it.schedule_relative(SOON, lambda *_: log.append("never")).dispose()
                    it.schedule(lambda *_: log.append("now"))
                    self.assertTrue(done.wait(10))
                    self.assertEqual(log, ["now", "soon", "late"])
                    end()
        self.over_both(test)

    def test_periodic(self):
        def test(k):
            for name, it, end in self.threaded(k):
                with self.subTest(name):
                    log, done = [], threading.Event()

                    def tick(state):
                        log.append(state)
                        if len(log) == 3:
                            done.set()
                        return state + 1
                    held = it.schedule_periodic(SOON, tick, 5)
                    self.assertTrue(done.wait(10))
                    held.dispose()
                    self.assertEqual(log[:3], [5, 6, 7])
                    end()
        self.over_both(test)

    def test_an_event_loop_does_all_in_one_thread_and_nothing_when_disposed_of(self):
        def test(k):
            it, threads, done = k.scheduler.EventLoopScheduler(), [], threading.Event()
            for last in False, False, True:
                it.schedule(lambda *_, last=last: (threads.append(threading.get_ident()), last and done.set()))
            self.assertTrue(done.wait(10))
            it.dispose()
            self.assertEqual(len(set(threads)), 1)
            with self.assertRaises(k.internal.DisposedException):
                it.schedule(lambda *_: None)
        self.over_both(test)

    def test_observe_on_and_subscribe_on(self):
        def test(k):
            for name, it, end in self.threaded(k):
                with self.subTest(name):
                    here, threads, told, done = threading.get_ident(), [], [], threading.Event()
                    source = k.rx.create(lambda observer, _: (threads.append(threading.get_ident()), observer.on_next(1), observer.on_completed()) and None)
                    source.pipe(k.ops.subscribe_on(it), k.ops.observe_on(it)).subscribe(
                        lambda value: (told.append(value), threads.append(threading.get_ident())), on_completed=done.set)
                    self.assertTrue(done.wait(10))
                    self.assertEqual(told, [1])
                    self.assertNotIn(here, threads)
                    end()
        self.over_both(test)

    # asyncio

    def loop(self, k, is_safe):
        kind = k.eventloop.AsyncIOThreadSafeScheduler if is_safe else k.eventloop.AsyncIOScheduler
        return kind(asyncio.get_running_loop())

    def test_asyncio(self):
        def test(k):
            for is_safe in False, True:
                with self.subTest(is_safe=is_safe):
                    log = []

                    async def main():
                        it = self.loop(k, is_safe)
                        it.schedule_relative(3 * SOON, lambda *_: log.append("late"))
                        it.schedule_absolute(it.now + timedelta(seconds=SOON), lambda *_: log.append("soon"))
                        it.schedule_relative(SOON, lambda *_: log.append("never")).dispose()
                        it.schedule(lambda *_: log.append("never")).dispose()
                        it.schedule(lambda scheduler, state: log.append((state, scheduler is it)), "now")
                        log.append("main goes on")
                        held = it.schedule_periodic(SOON, lambda state: (log.append("tick") if state < 2 else None, state + 1)[1], 0)
                        await asyncio.sleep(6 * SOON)
                        held.dispose()
                    asyncio.run(main())
                    self.assertEqual([it for it in log if it != "tick"], ["main goes on", ("now", True), "soon", "late"])
                    self.assertEqual(log.count("tick"), 2)
        self.over_both(test)

    def test_asyncio_from_another_thread(self):
        def test(k):
            threads, told = [], []

            async def main():
                it, subject, done = self.loop(k, True), k.subject.Subject(), asyncio.Event()
                subject.pipe(k.ops.observe_on(it)).subscribe(lambda value: (told.append(value), threads.append(threading.get_ident())), None, done.set)

                def emit():
                    for value in range(5):
                        subject.on_next(value)
                    it.schedule_relative(SOON, lambda *_: told.append("never")).dispose()
                    subject.on_completed()
                thread = threading.Thread(target=emit)
                thread.start()
                await asyncio.wait_for(done.wait(), 10)
                await asyncio.sleep(2 * SOON)
                thread.join()
            asyncio.run(main())
            self.assertEqual((told, set(threads)), ([0, 1, 2, 3, 4], {threading.get_ident()}))
        self.over_both(test)

    # virtual time

    def test_virtual_and_historical_time(self):
        def test(k):
            class Virtual(k.scheduler.VirtualTimeScheduler):
                @classmethod
                def add(cls, absolute, relative):  # RxPY wants it of a subclass
                    return absolute + relative
            for it, begin in (Virtual(), 0.0), (k.scheduler.HistoricalScheduler(datetime(2020, 1, 1)), datetime(2020, 1, 1)):
                log = []
                after = lambda seconds: begin + (timedelta(seconds=seconds) if isinstance(begin, datetime) else seconds)
                it.schedule_relative(3, lambda *_: log.append("third"))
                it.schedule_absolute(after(2), lambda scheduler, _: log.append(("second", scheduler.now)))
                it.schedule_relative(2.5, lambda *_: log.append("never")).dispose()
                it.schedule(lambda _, state: log.append(state), "first")
                it.advance_to(after(2))
                now = begin if isinstance(begin, datetime) else datetime(1970, 1, 1)
                self.assertEqual(log, ["first", ("second", now + timedelta(seconds=2))])
                it.advance_by(1)
                self.assertEqual(log[2:], ["third"])
                it.schedule_relative(5, lambda *_: log.append("last"))
                it.start()
                self.assertEqual(log[3:], ["last"])
        self.over_both(test)

    # futures, await, run

    def test_to_future_and_await(self):
        def test(k):
            log = []

            async def main():
                of = k.rx.of(1, 2, 3)
                log.append(await of)
                log.append(await of.pipe(k.ops.map(lambda it: it + 1), k.ops.to_future()))
                for source in k.rx.empty(), k.rx.throw(KeyError("told")):
                    try:
                        await source
                    except Exception as error:
                        log.append(type(error).__name__)
                log.append(await k.rx.timer(SOON, scheduler=self.loop(k, False)).pipe(k.ops.map(lambda _: "later")))
            asyncio.run(main())
            self.assertEqual(log, [3, 4, "SequenceContainsNoElementsError", "KeyError", "later"])
        self.over_both(test)

    def test_a_loop_is_woken_by_what_another_thread_tells(self):  # RxPY lets it sleep
        rx = importlib.import_module("cellarcliff.rx")
        rx.use(fresh_engine())

        async def main():
            return await asyncio.wait_for(rx.timer(SOON), 10)
        began = time.monotonic()
        self.assertEqual(asyncio.run(main()), 0)
        self.assertLess(time.monotonic() - began, 5)

    def test_a_future_that_is_cancelled_releases(self):
        def test(k):
            log = []

            async def main():
                source = k.rx.using(lambda: k.Disposable(lambda: log.append("released")), lambda _: k.rx.never())
                future = source.pipe(k.ops.to_future())
                await asyncio.sleep(0)
                future.cancel()
                await asyncio.sleep(SOON)
                log.append(future.cancelled())
            asyncio.run(main())
            self.assertEqual(log, ["released", True])
        self.over_both(test)

    def test_futures_of_both_kinds_wherever_they_may_stand(self):
        def test(k):
            with concurrent.futures.ThreadPoolExecutor(1) as pool:
                slow = lambda value: pool.submit(lambda: (time.sleep(SOON), value)[1])
                of = k.rx.of(1)
                subject = k.subject.Subject()
                for source in (k.rx.from_future(slow("it")), of.pipe(k.ops.flat_map(lambda _: slow("it"))), of.pipe(k.ops.flat_map_latest(lambda _: slow("it"))),
                               k.rx.defer(lambda _: slow("it")), of.pipe(k.ops.map(lambda _: slow("it")), k.ops.merge_all()),
                               of.pipe(k.ops.map(lambda _: slow("it")), k.ops.switch_latest()),
                               k.rx.start_async(lambda: slow("it")), subject.pipe(k.ops.take_until(slow("end")), k.ops.start_with("it"))):
                    self.assertEqual(source.run(), "it")

                def fails():
                    raise KeyError("told")
                with self.assertRaises(KeyError):
                    k.rx.from_future(pool.submit(fails)).run()
        self.over_both(test)

    def test_run(self):
        def test(k):
            self.assertEqual(k.rx.of(1, 2, 3).run(), 3)
            self.assertEqual(k.rx.timer(SOON).pipe(k.ops.map(lambda _: "later")).run(), "later")
            with self.assertRaises(KeyError):
                k.rx.throw(KeyError("told")).run()
            with self.assertRaises(k.internal.SequenceContainsNoElementsError):
                k.rx.empty().run()
        self.over_both(test)


if __name__ == "__main__":
    unittest.main()
