"""Roots that need no engine, told without it and again by it: the same programs at random tell the same, in the same order.

CELLARCLIFF_PIPELINES says how many programs there are (400); `python3 -m tests.test_alone FIRST MANY` runs those of other seeds.
"""
import os
import random
import sys
import threading
import unittest
from functools import partial

from cellarcliff import rx
from cellarcliff.rx import operators as ops
from cellarcliff.rx.disposable import Disposable
from cellarcliff.rx.subject import AsyncSubject, BehaviorSubject, ReplaySubject, Subject
from tests import kits

FIRST, MANY = 0, int(os.environ.get("CELLARCLIFF_PIPELINES", "400"))
# Whom one command ends, as the subscribers of a share, and what it releases the library tells in order. Its header says none, and tools/nasty draws one.
IS_ORDERED = "CELLAR_NASTY" not in os.environ


class Planned(Exception):
    """What callbacks raise."""


class Interrupt(BaseException):
    """What leaves a call at once."""


class Program:
    """Made of a seed; its callbacks emit, end, subscribe, dispose and raise."""

    def __init__(self, seed, is_alone, interrupts=False):
        self.random, self.interrupts = random.Random(seed), interrupts
        self.engine = rx.use(kits.fresh_engine())
        self.engine.core.leaves_out = is_alone
        self.trace, self.subscriptions, self.told, self.depth, self.kept = [], [], {}, 0, []
        self.left = self.random.choice((20, 60, 200))  # how many things callbacks do in all
        kinds = (Subject, Subject, Subject, lambda: BehaviorSubject(0), lambda: ReplaySubject(2), AsyncSubject)
        self.subjects = [self.random.choice(kinds)() for _ in range(3)]
        self.sources = [self.source(3) for _ in range(5)] + self.subjects[:2]

    # what is subscribed to

    def source(self, depth):
        rand, kind = self.random, self.random.randrange(12)
        if depth <= 0 or kind < 4:
            return rand.choice(self.subjects)
        if kind == 4:
            return rand.choice([lambda: rx.of(1, 2, 3), lambda: rx.range(0, 3), lambda: rx.empty(), lambda: rx.just(4), lambda: rx.from_callable(self.called),
                                lambda: rx.throw(ValueError("thrown")), lambda: rx.from_iterable(self.items()), lambda: rx.never()])()
        if kind == 5:
            return self.created()
        below = self.source(depth - 1)
        if kind < 10:
            return below.pipe(rand.choice([
                lambda: ops.map(self.function(lambda it: it + 1)), lambda: ops.filter(self.function(lambda it: it % 3 != 1)), lambda: ops.take(2),
                lambda: ops.scan(self.function(lambda a, b=1: (a + b) % 9)), lambda: ops.skip(1), lambda: ops.distinct_until_changed(),
                lambda: ops.do_action(self.function(lambda it: None)), lambda: ops.to_list(), lambda: ops.take_while(lambda it: it != 5)])())
        return self.by_engine(below, depth)

    def by_engine(self, below, depth):
        if self.interrupts:  # what hears of one subject alone, since those that heard nothing hear it in any order
            return below.pipe(self.random.choice([lambda: ops.start_with(7), lambda: ops.finally_action(lambda: None)])())
        other = self.source(depth - 2)
        return self.random.choice([
            lambda: below.pipe(ops.flat_map(lambda _: other)), lambda: below.pipe(ops.flat_map_latest(lambda _: other)), lambda: rx.merge(below, other),
            lambda: below.pipe(ops.take_until(other)), lambda: below.pipe(ops.start_with(7)), lambda: below.pipe(ops.share()) if IS_ORDERED else below,
            lambda: rx.using(lambda: Disposable(lambda: self.released("released")), lambda _: below), lambda: rx.zip(below, other),
            lambda: below.pipe(ops.window_with_count(2), ops.flat_map(ops.to_list())), lambda: below.pipe(ops.group_by(repr), ops.flat_map(ops.take(2))),
            lambda: below.pipe(ops.buffer_with_count(2)), lambda: below.pipe(ops.window(other), ops.merge(max_concurrent=1)),
            lambda: rx.combine_latest(below, other), lambda: below.pipe(ops.amb(other)), lambda: below.pipe(ops.concat_map(lambda _: other)),
            lambda: below.pipe(ops.with_latest_from(other)), lambda: below.pipe(ops.retry(2)), lambda: below.pipe(ops.group_by(repr)),
            lambda: below.pipe(ops.finally_action(lambda: self.released("finally")))])()

    def created(self):
        answer = self.random.choice((lambda: None, lambda: Disposable(lambda: self.released("left")), lambda: lambda: self.released("called")))
        what, kept = self.random.randrange(4), self.subjects[0]

        def subscribe(observer, _):
            self.kept.append(observer)  # else it is collected, where it holds nothing
            self.act()
            if what < 3:
                observer.on_next(1)
                self.act()
                observer.on_next(2)
            if what == 1:
                observer.on_completed()
            if what == 2:
                kept.subscribe(observer)
            return answer()
        return rx.create(subscribe)

    def items(self):
        for it in (1, 2, 3):
            self.act()
            yield it

    def called(self):
        self.act()
        return 6

    def function(self, call):
        """A function that does something now and then."""
        def work(*given):
            self.note(("function", repr(given)))
            if not self.interrupts and self.random.random() < 0.1:
                self.act()
            if not self.interrupts and self.random.random() < 0.02:
                raise Planned("function")
            try:
                return call(*given)
            except TypeError:
                return 0
        return work

    # what is done

    def note(self, it):
        self.trace.append(it)

    def released(self, it):
        if IS_ORDERED:
            self.note(it)

    def attempt(self, call, *given):
        try:
            return call(*given)
        except (Exception, Interrupt) as error:
            self.note((type(error).__name__, str(error)))
            return type(error)

    def subscribe(self):
        name, fails, told = len(self.told), self.random.random() < 0.1, []
        own = random.Random(name)
        self.told[name] = told

        def tell(*it):
            self.note((name, *it))
            told.append(it)
            self.depth += 1
            try:
                if self.interrupts:
                    if own.random() < 0.1:
                        raise Interrupt
                elif self.depth < 5 and self.random.random() < 0.5:
                    self.act()
                if fails and own.random() < 0.3:
                    raise Planned(name)
            finally:
                self.depth -= 1
            self.note((name, "heard"))
        words = (lambda it: tell("next", repr(it)), lambda error: tell("error", str(error)), lambda: tell("completed"))
        at = len(self.subscriptions)
        self.subscriptions.append(None)
        found = self.attempt(self.random.choice(self.sources).subscribe, *words)
        self.subscriptions[at] = found if hasattr(found, "dispose") else None

    def act(self, is_within=True):
        """Something, of which there is not too much; where calls are interrupted nothing from within, since what they left comes in any order."""
        if self.left <= 0 or is_within and self.interrupts:
            return
        self.left -= 1
        rand, kind, subject = self.random, self.random.randrange(20), self.random.choice(self.subjects)
        self.note(("begins", kind))
        if kind < 11:
            self.attempt(subject.on_next, rand.randrange(6))
        elif kind == 11:
            self.attempt(subject.on_completed if rand.random() < 0.7 else lambda: subject.on_error(ValueError("failed")))
        elif kind < 16:
            self.subscribe()
        elif kind < 19 and self.subscriptions:
            found = rand.choice(self.subscriptions)
            if found is not None:
                self.attempt(found.dispose)
        elif not self.depth:
            self.note(tuple(self.engine.counts()[:2]))
        self.note("done")

    def run(self, actions=30):
        for _ in range(4):
            self.subscribe()
        for at in range(actions):
            self.left += 1
            self.act(False)
            while self.interrupts and self.attempt(self.engine.core.serve_left) is Interrupt:
                pass
            self.note((at, self.engine.counts()[:3], self.engine.counts().effects if not self.interrupts else 0))
            if self.random.random() < 0.05:
                self.subjects[self.random.randrange(3)] = Subject()
        self.attempt(self.engine.core.serve_left)
        for it in self.subscriptions:
            if it is not None:
                self.attempt(it.dispose)
        self.note(self.engine.counts()[:3])
        self.note(self.engine.counts().effects)
        return self


@unittest.skipUnless(kits.is_exact(), "without the extension all are told by the engine")
class Alone(unittest.TestCase):
    def setUp(self):
        self.unhandled = []
        rx.set_error_hook(self.unhandled.append)
        self.hook, sys.unraisablehook = sys.unraisablehook, lambda it: None  # what is left may be told as something is collected

    def tearDown(self):
        sys.unraisablehook = self.hook
        rx.set_error_hook(None)
        rx.use(None)

    def run_one(self, seed, is_alone, **words):
        self.unhandled.clear()
        program = Program(seed, is_alone, **words).run()
        return program, [*program.trace, [repr(it) for it in self.unhandled]]

    def test_the_same_is_told_in_the_same_order(self):
        for seed in range(FIRST, FIRST + MANY):
            (_, by_engine), (program, found) = self.run_one(seed, False), self.run_one(seed, True)
            if found != by_engine:
                at = next((i for i, (a, b) in enumerate(zip(by_engine, found)) if a != b), min(len(by_engine), len(found)))
                self.fail(f"seed {seed}, at {at}\n by the engine {by_engine[max(0, at - 12):at + 8]}\n alone         {found[max(0, at - 12):at + 8]}")
            program.engine.close()
            self.assertEqual((program.engine.counts()[:3], program.engine.core.kept), ((0, 0, 0), 0), seed)

    def test_what_waits_is_told_though_all_is_closed(self):
        for is_alone in (False, True):
            engine, subject, told = rx.use(kits.fresh_engine()), Subject(), []
            engine.core.leaves_out = is_alone

            def one(it):
                told.append(it)
                if it == 1:
                    subject.on_next(2)
                    engine.close()
                    told.append("closed")
                    subject.on_next(3)
            subject.subscribe(one)
            subject.on_next(1)
            subject.on_next(4)
            self.assertEqual((told, engine.counts()[:3], engine.counts().effects, engine.core.kept), ([1, "closed", 2], (0, 0, 0), 0, 0), is_alone)

    def test_what_another_thread_tells_is_released_behind_that(self):
        for is_alone in (False, True):
            engine, subject, told, is_told, goes_on = rx.use(kits.fresh_engine()), Subject(), [], threading.Event(), threading.Event()
            engine.core.leaves_out = is_alone

            def slow(it):
                is_told.set()
                goes_on.wait(60)
                told.append(it)
            subject.subscribe(slow)
            rx.using(lambda: Disposable(partial(told.append, "released")), lambda _: subject).subscribe(lambda _: None)
            other = threading.Thread(target=subject.on_next, args=(1,))
            other.start()
            is_told.wait(60)
            subject.on_next(2)
            engine.close()
            self.assertEqual((told.count(1), engine.counts()[:2]), (0, (0, 0)), is_alone)
            goes_on.set()
            other.join()
            counts = engine.counts()
            self.assertEqual((sorted(told, key=str), counts[:3], counts.effects, engine.core.kept), ([1, 2, "released"], (0, 0, 0), 0, 0), is_alone)

    def test_items_of_which_nothing_comes_are_left_out(self):
        for leaves_out in (False, True):
            engine, subject, told = rx.use(kits.fresh_engine()), Subject(), []
            engine.core.leaves_out = leaves_out
            rx.merge(subject, rx.never()).subscribe(told.append)
            subject.on_next(0)
            before = engine.counts().events
            for it in range(1, 10):
                subject.on_next(it)
            self.assertEqual((told, engine.counts().events - before), ([*range(10)], 0 if leaves_out else 9))

    def test_what_comes_as_an_item_is_told_comes_behind_it(self):
        def emit(other, _):
            other.on_next(20)

        def emit_elsewhere(other, _):
            thread = threading.Thread(target=other.on_next, args=(20,))
            thread.start()
            thread.join()

        def end(other, subscription):
            subscription[0].dispose()
            other.on_next(20)
        for act in emit, emit_elsewhere, end, lambda other, _: other.on_completed(), lambda *_: rx.of(3).pipe(ops.start_with(0)).subscribe(lambda _: None):
            found = []
            for leaves_out in (False, True):
                engine, subject, other, told, subscription = rx.use(kits.fresh_engine()), Subject(), Subject(), [], []
                engine.core.leaves_out = leaves_out

                def hear(it):
                    told.append((it, threading.get_ident()))
                    if it == 2:
                        act(other, subscription)
                        told.append("heard")
                held = rx.using(lambda: Disposable(partial(told.append, "released")), lambda _: other)
                subscription.append(rx.merge(subject, held).subscribe(hear))
                for it in (1, 2, 3):
                    subject.on_next(it)
                engine.close()
                self.assertEqual((engine.counts()[:3], engine.counts().effects, engine.core.kept), ((0, 0, 0), 0, 0))
                found.append(told)
            self.assertEqual(*found)

    def test_each_hears_the_same_where_calls_are_left(self):
        for seed in range(FIRST, FIRST + MANY):
            (a, _), (b, _) = (self.run_one(seed, it, interrupts=True) for it in (False, True))
            self.assertEqual(a.told, b.told, seed)


if __name__ == "__main__":
    if len(sys.argv) == 3:
        FIRST, MANY = map(int, sys.argv[1:])
        del sys.argv[1:]
    unittest.main()
