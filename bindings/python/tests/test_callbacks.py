"""What callbacks do from within, and what comes of it: each by its smallest program."""
import asyncio
import gc
import importlib
import threading
import time
import unittest
import weakref
from functools import partial

from cellarcliff import rx
from cellarcliff.rx import operators as ops
from cellarcliff.rx.core.notification import OnCompleted, OnNext
from cellarcliff.rx.disposable import Disposable
from cellarcliff.rx.internal import SequenceContainsNoElementsError
from cellarcliff.rx.subject import AsyncSubject, BehaviorSubject, ReplaySubject, Subject
from cellarcliff.rx.testing import TestScheduler
from tests.kits import fresh_engine, is_exact, is_model, rxpy


class Case(unittest.TestCase):
    def setUp(self):
        self.engine = rx.use(fresh_engine())
        self.unhandled = []
        rx.set_error_hook(self.unhandled.append)

    def tearDown(self):
        rx.set_error_hook(None)
        self.engine.close()
        counts = self.engine.counts()
        self.assertEqual((counts.nodes, counts.held, counts.waiting, counts.accepted), (0, 0, 0, counts.taken))


class HandedOut(Case):
    """What the engine hands out may be another item than the one that was emitted."""

    def test_an_item_from_within_an_operator(self):
        subject, heard, told = Subject(), [], []

        def mapper(value):
            heard.append(value)
            if value == 1:
                subject.on_next(2)
                subject.on_next(3)
            return rx.of(("inner", value))
        subject.pipe(ops.map(mapper), ops.merge(max_concurrent=1)).subscribe(told.append)
        subject.on_next(1)
        subject.on_next(4)
        self.assertEqual((heard, told), ([1, 2, 3, 4], [("inner", it) for it in (1, 2, 3, 4)]))

    def test_an_item_from_within_a_share(self):
        source, other, log = Subject(), Subject(), []
        hub = source.pipe(ops.share())
        hub.subscribe(lambda it: (log.append(("a", it)), other.on_next("two") if it == "one" else None))
        rx.merge(hub, other).subscribe(lambda it: log.append(("b", it)))
        source.on_next("one")
        self.assertEqual(log, [("a", "one"), ("b", "one"), ("b", "two")])

    def test_an_observer_that_is_interrupted(self):
        subject, one, other = Subject(), [], []

        def interrupted(value):
            one.append(value)
            if value == "the first":
                raise KeyboardInterrupt
        subject.subscribe(interrupted)
        subject.subscribe(other.append)
        with self.assertRaises(KeyboardInterrupt):
            subject.on_next("the first")
        subject.on_next("the second")
        self.assertEqual(other, ["the first", "the second"])
        self.assertEqual(one, other)  # an interrupt is not the observer's fault

    def test_an_observer_that_is_interrupted_hears_the_rest_and_the_end(self):
        """Once each: what operators tell as one, and what they tell later."""
        clock, other = TestScheduler(), Subject()
        three = (ops.take(3),), (ops.take_last(3),), (ops.take_last_with_time(9.0, scheduler=clock),), (ops.delay(1.0, scheduler=clock),), (ops.observe_on(clock),)
        one = [(ops.take(1),), (ops.take_while(lambda _: False, inclusive=True),), (ops.first(),), (ops.last(),), (ops.to_list(),), (ops.count(),),
               (ops.take_last_buffer(2),), (ops.zip(rx.of(1)),), (ops.sequence_equal(rx.of(0, 1, 2)),), (ops.sequence_equal(rx.of(1)),),
               (ops.fork_join(rx.of(1)),), (ops.debounce(1.0, scheduler=clock),), (ops.throttle_with_mapper(lambda _: rx.never()),), (ops.skip(3), ops.default_if_empty(0)),
               (ops.skip(3), ops.materialize()), (ops.buffer(other),), (ops.sample(other),), (ops.window(other), ops.merge_all(), ops.skip(2))]
        for operators in *three, *one:
            for behind in (), (ops.map(lambda it: it),), (ops.flat_map(rx.just),):
                source, told = Subject(), []

                def interrupted(value):
                    told.append(value)
                    if len(told) == 1:
                        raise KeyboardInterrupt
                source.pipe(*operators, *behind).subscribe(interrupted, None, lambda: told.append("completed"))
                items = [partial(source.on_next, it) for it in range(3)]
                for call in *items, source.on_completed, partial(clock.advance_by, 20), partial(other.on_next, 1), partial(clock.advance_by, 20):
                    try:
                        call()
                    except KeyboardInterrupt:
                        pass
                rx.empty().subscribe()
                self.assertEqual((len(told), told[-1]), (2 if operators in one else 4, "completed"), (operators, told))

    @unittest.skipIf(is_model(), "its history would be long")
    def test_threads_that_emit_through_concat_map(self):
        many, subject, told = 300, Subject(), []
        subject.pipe(ops.concat_map(rx.just)).subscribe(told.append)

        def emit(first):
            for i in range(many):
                subject.on_next((first, i))
        threads = [threading.Thread(target=emit, args=(it,)) for it in range(4)]
        for it in threads:
            it.start()
        for it in threads:
            it.join()
        self.assertEqual(sorted(told), [(it, i) for it in range(4) for i in range(many)])

    def test_an_interrupt_loses_no_item_that_comes_by_a_second_way(self):
        for interrupts in "a1", "b1", "a2", "b2":
            subject, told = Subject(), []

            def one(value):
                told.append(value)
                if value == interrupts and told.count(value) == 1:
                    raise KeyboardInterrupt
            functions = subject.pipe(ops.share(), ops.map(lambda it: f"a{it}"), ops.as_observable())
            rx.merge(functions, subject.pipe(ops.map(lambda it: f"b{it}"))).subscribe(one)
            for value in 1, 2:
                try:
                    subject.on_next(value)
                except KeyboardInterrupt:
                    rx.empty().subscribe()
            self.assertEqual(sorted(told), ["a1", "a2", "b1", "b2"], interrupts)
            self.engine.close()

    @unittest.skipUnless(is_exact(), "by ctypes nothing that is open is collected")
    def test_what_nobody_can_tell_anything_is_collected_below_a_connection(self):
        def interrupted():
            raise KeyboardInterrupt
        for make in Subject, partial(rx.from_callable, interrupted):
            published = make().pipe(ops.map(rx.just), ops.merge(max_concurrent=2), ops.publish())
            try:
                published.connect()
            except KeyboardInterrupt:
                pass
            gc.collect()
            rx.empty().subscribe()
            del published
            gc.collect()
            self.assertEqual((self.engine.counts().nodes, self.engine.core.kept), (0, 0), make)

    def test_an_interrupt_leaves_what_is_shared(self):
        subject, told = Subject(), []
        for share in ops.multicast(subject_factory=lambda _: Subject(), mapper=lambda it: it), rx.pipe(ops.replay(buffer_size=1), ops.ref_count()):
            hub = subject.pipe(share, ops.share())
            hub.subscribe(told.append)

            def interrupted(value):
                if value == 1:
                    raise KeyboardInterrupt
            hub.subscribe(interrupted)
            del told[:]
            for value in 1, 2, 3:
                try:
                    subject.on_next(value)
                except KeyboardInterrupt:
                    pass
            self.assertEqual(told, [1, 2, 3])
            self.engine.close()


class InTheMidst(Case):
    def test_nobody_is_told_in_the_midst_of_an_item(self):
        one, other, log = Subject(), Subject(), []

        def hear(value):
            log.append(("begins", value))
            if len(log) == 1:
                other.on_next(7)
            log.append(("ends", value))
        rx.merge(one, one).subscribe(hear)
        other.pipe(ops.map(rx.just), ops.merge(max_concurrent=2)).subscribe()
        one.on_next(1)
        self.assertEqual(log, [("begins", 1), ("ends", 1)] * 2)


class Connectables(Case):
    """Each subscriber has operators of its own behind what several share."""

    def shares(self):
        return {"replay": ops.replay(), "multicast": ops.multicast(Subject()), "publish_value": ops.publish_value(0), "publish": ops.publish()}

    def test_operators_with_a_state(self):
        for name, share in self.shares().items():
            for operators in (ops.skip(1),), (ops.map(lambda it: it), ops.distinct_until_changed(), ops.take(2)), (ops.scan(lambda a, b: a + b),):
                source, told = Subject(), [[], [], []]
                hub = source.pipe(share)
                for it in told[:2]:
                    hub.pipe(*operators).subscribe(it.append)
                source.pipe(*operators).subscribe(told[2].append)
                hub.connect()
                if name == "publish_value":  # it tells 0 first
                    del told[2]
                for value in 1, 1, 2, 2, 3:
                    source.on_next(value)
                self.assertTrue(told[0])
                self.assertEqual(told, [told[0]] * len(told), name)
                self.engine.close()

    def test_a_mapper(self):
        for operator in ops.publish(lambda it: rx.zip(it, it.pipe(ops.skip(1)))), ops.replay(lambda it: rx.zip(it, it.pipe(ops.skip(1)))):
            source, told = Subject(), []
            source.pipe(operator).subscribe(told.append)
            for value in 1, 2, 3:
                source.on_next(value)
            self.assertEqual(told, [(1, 2), (2, 3)])


class Resource:
    def __init__(self):
        self.is_released = False

    def dispose(self):
        self.is_released = True


class Releases(Case):
    """The release comes behind the last item that needs it, wherever it stands."""

    @unittest.skipIf(is_model(), "it is slow")
    def test_items_at_the_end(self):
        at_end = {"last": ops.last(), "to_list": ops.to_list(), "reduce": ops.reduce(lambda _, it: it), "buffer": ops.buffer_with_count(5),
                  "take_last": ops.take_last(1), "single": ops.single(), "max_by": ops.max_by(id), "first": ops.first()}
        around = {"alone": lambda it: it, "flat_map": lambda it: rx.of(0).pipe(ops.flat_map(lambda _: it)), "merge": lambda it: rx.merge(it, rx.empty()),
                  "concat": lambda it: rx.concat(it, rx.empty()), "share": lambda it: it.pipe(ops.share()), "defer": lambda it: rx.defer(lambda _: it),
                  "switch": lambda it: rx.of(0).pipe(ops.flat_map_latest(lambda _: it)), "concat_map": lambda it: rx.of(0).pipe(ops.concat_map(lambda _: it)),
                  "replay": lambda it: it.pipe(ops.replay(), ops.ref_count()), "take_until": lambda it: it.pipe(ops.take_until(rx.never()))}
        held = {"using": lambda: rx.using(Resource, rx.of), "finally_action": None,
                "inside defer": lambda: rx.defer(lambda _: rx.using(Resource, rx.of)), "inside flat_map": lambda: rx.of(1).pipe(ops.flat_map(lambda _: rx.using(Resource, rx.of)))}

        def with_finally():
            it = Resource()
            return rx.of(it).pipe(ops.finally_action(it.dispose))
        held["finally_action"] = with_finally
        for name, operator in at_end.items():
            for place, wrap in around.items():
                for what, make in held.items():
                    told = []

                    def hear(value):
                        it = value[0] if isinstance(value, list) else value
                        told.append((it, it.is_released))
                    wrap(make().pipe(operator)).subscribe(hear)
                    self.assertEqual([released for _, released in told], [False], (name, place, what))
                    self.assertTrue(told[0][0].is_released)

    def test_an_end_that_goes_through_functions_in_the_midst(self):
        """Also where a timer tells it, which the engine holds: its release is the first."""
        for source in (lambda clock: rx.timer(1.0, scheduler=clock)), (lambda clock: rx.interval(1.0, scheduler=clock).pipe(ops.take(1))):
            for behind, item in (ops.map(lambda it: it), 0), (ops.to_list(), [0]), (ops.last(), 0):
                clock, log = TestScheduler(), []
                held = rx.using(lambda: Disposable(lambda: log.append("released")),
                                lambda _: source(clock).pipe(ops.take_until(Subject()), ops.map(lambda it: it)))
                held.pipe(behind).subscribe(log.append, None, lambda: log.append("completed"))
                clock.advance_by(2)
                self.assertEqual(log, [item, "completed", "released"])

    def test_items_at_an_end_that_comes_of_an_item(self):
        behind = {"a list": lambda it: it.pipe(ops.buffer_with_count(2)), "the last": lambda it: it.pipe(ops.element_at(0), ops.last()),
                  "a list of a window": lambda it: it.pipe(ops.window_with_count(2), ops.flat_map(lambda part: part.pipe(ops.to_list()))),
                  "of a merge": lambda it: rx.merge(it, rx.never()).pipe(ops.take(1))}
        for what, operate in behind.items():
            log = []
            held = rx.using(lambda: Disposable(lambda: log.append("released")), lambda _: rx.of(1, 2)).pipe(ops.take(1))
            operate(held).subscribe(lambda it: log.append("item"))
            self.assertEqual(log, ["item", "released"], what)

    def test_a_part_of_the_items_is_told_before_what_it_holds_is_released(self):
        for operate in ops.group_by(lambda _: 0), ops.window_with_count(2), ops.window(rx.never()):
            for part in [ops.take(2), ops.to_list()], [ops.take(2)], [ops.count()]:
                log, source = [], Subject()
                source.pipe(operate, ops.flat_map(lambda it: it.pipe(*part, ops.finally_action(lambda: log.append("released"))))).subscribe(
                    lambda it: log.append("item"))
                source.on_next(1)
                source.on_next(2)
                source.on_completed()
                self.assertEqual(log.index("released"), 2 if len(part) == 1 and log[1] == "item" else 1, (operate, log))

    def test_what_is_disposed_of_within_its_end_is_released_then(self):
        for end in (lambda it: it.on_completed()), (lambda it: it.on_error(KeyError())):
            log, source, held = [], Subject(), []

            def hears(*_):
                held[0].dispose()
                log.append("disposed")
            held.append(rx.using(lambda: Disposable(lambda: log.append("released")), lambda _: source).subscribe(None, hears, hears))
            end(source)
            self.assertEqual(log, ["released", "disposed"])

    @unittest.skipIf(rxpy is None, "RxPY is not installed")
    def test_operators_of_rxpy_hold_one_resource_at_a_time(self):
        theirs = importlib.import_module("rx.operators")
        for operator in theirs.retry(3), theirs.catch(lambda _, source: source):
            source, held, told = Subject(), [], []

            def make():
                held.append(1)
                self.assertEqual(len(held), 1)
                return Disposable(held.pop)
            rx.using(make, lambda _: source.pipe(ops.map(lambda it: 1 // it))).pipe(operator).subscribe(told.append, told.append)
            for it in 1, 0, 1:
                source.on_next(it)
            self.assertEqual(told, [1, 1])

    def test_a_notifier_that_completes_is_released(self):
        log = []
        source = Subject()
        notifier = rx.using(lambda: Disposable(lambda: log.append("released")), lambda _: rx.empty())
        source.pipe(ops.take_until(notifier)).subscribe(log.append)
        source.on_next(1)
        self.assertEqual(log, ["released", 1])

    def test_what_comes_behind_a_note_of_the_end(self):
        log = []
        source = rx.create(lambda observer, _: (observer.on_next(OnNext(1)), observer.on_next(OnCompleted()), observer.on_completed())[2])
        made = rx.using(lambda: Disposable(lambda: log.append("released")), lambda _: source.pipe(
            ops.dematerialize(), ops.all(lambda it: it), ops.map(lambda it: log.append("mapped") or it)))
        made.subscribe(log.append)
        self.assertEqual(log, ["mapped", True, "released"])

    def test_a_source_of_one_item_calls_no_function_behind_the_release(self):
        log = []
        for source in rx.just(1), rx.from_callable(lambda: 1):
            rx.using(lambda: Disposable(lambda: log.append("released")), lambda _: source.pipe(
                ops.materialize(), ops.map(lambda it: log.append(it.kind)))).pipe(ops.take(1)).subscribe()
        self.assertEqual(log, ["N", "released"] * 2)

    def test_a_factory_that_fails_is_heard_by_functions_behind_it(self):
        def fails():
            raise KeyError("no resource")
        for flat in ops.flat_map, ops.flat_map_latest:
            told = []
            rx.of(0).pipe(flat(lambda _: rx.using(fails, rx.of).pipe(ops.materialize(), ops.map(lambda it: it.kind)))).subscribe(told.append)
            self.assertEqual(told, ["E"])

    def test_a_factory_that_fails_in_an_exchange_ends_the_subscription(self):
        resources, told, log = iter((1, 0, 1)), [], []

        def factory():
            return 1 // next(resources) and Disposable(lambda: log.append("released"))
        subject = Subject()
        subject.pipe(ops.flat_map_latest(lambda it: rx.using(factory, lambda _: rx.of(it).pipe(ops.concat(rx.never()))))).subscribe(
            told.append, lambda error: told.append(type(error)))
        for value in 1, 2, 3:
            subject.on_next(value)
        self.assertEqual((told, log), ([1, ZeroDivisionError], ["released"]))


class InSteps(Case):
    """range(), generate() and repeat_value() go on behind what is put off meanwhile."""

    def told(self, observable):
        got = []
        observable.subscribe(got.append, lambda error: got.append(repr(error)), lambda: got.append("end"))
        return got

    def test_they_interleave(self):
        self.assertEqual(self.told(rx.merge(rx.range(3), rx.range(10, 13))), [0, 10, 1, 11, 2, 12, "end"])
        self.assertEqual(self.told(rx.merge(rx.repeat_value("a", 2), rx.repeat_value("b", 2))), ["a", "b", "a", "b", "end"])
        self.assertEqual(self.told(rx.range(3).pipe(ops.with_latest_from(rx.of("x")))), [(1, "x"), (2, "x"), "end"])

    def test_what_has_no_end_is_ended(self):
        endless = rx.generate(0, lambda _: True, lambda it: it + 1)
        self.assertEqual(self.told(rx.range(0, 10 ** 9).pipe(ops.take_until(rx.of(2)))), [0, "end"])
        self.assertEqual(self.told(rx.repeat_value("a").pipe(ops.take_until(rx.of(2)))), ["end"])
        self.assertEqual(self.told(rx.zip(endless, rx.of("a", "b"))), [(0, "a"), (1, "b"), "end"])

    def test_repeat_value_is_begun_anew(self):
        twice = rx.repeat_value(1, 2)
        self.assertEqual([self.told(twice), self.told(twice)], [[1, 1, "end"]] * 2)

    def test_from_callable_calls_when_its_turn_has_come(self):
        self.assertEqual(self.told(rx.amb(rx.from_callable(lambda: 1 / 0), rx.range(2))), [0, 1, "end"])

    def test_a_function_of_generate_fails(self):
        self.assertEqual(self.told(rx.generate(1, lambda _: True, lambda _: 1 / 0)), [1, "ZeroDivisionError('division by zero')"])


class Small(Case):
    def test_a_part_that_functions_stand_behind_is_held_as_long_as_they_hear_it(self):
        openings, told = Subject(), []

        def fails(_):
            raise ValueError
        held = rx.using(lambda: Disposable(lambda: told.append("released")), lambda _: rx.never())
        parts = held.pipe(ops.window_toggle(openings, fails), ops.flat_map(lambda it: it.pipe(ops.to_list())))
        parts.subscribe(None, lambda error: told.append(type(error)))
        openings.on_next(1)
        self.assertEqual((told, self.engine.counts()[:2]), (["released", ValueError], (0, 0)))

    def test_a_release_that_is_interrupted_leaves_nothing_open(self):
        def interrupted():
            raise KeyboardInterrupt
        source, inner = BehaviorSubject(0), Subject()
        held = rx.using(lambda: Disposable(interrupted), lambda _: source)
        subscription = held.pipe(ops.map(lambda _: inner), ops.merge(max_concurrent=3)).subscribe()
        self.assertRaises(KeyboardInterrupt, subscription.dispose)
        rx.empty().subscribe()  # closings that an interrupt left are heard with the next call
        self.assertEqual((inner.observers, source.observers, self.engine.counts().nodes), ([], [], 0))

    def test_the_last_items_end_with_what_one_of_them_ends(self):
        for last in ops.take_last(3), ops.take_last_with_time(10.0, scheduler=TestScheduler()):
            for wrap in (lambda source: source), (lambda source: rx.merge(source, rx.never())):
                seen, told = [], []
                wrap(rx.of(1, 2, 3).pipe(last, ops.do_action(seen.append), ops.map(lambda it: 1 // 0))).subscribe(None, told.append)
                self.assertEqual((seen, len(told)), ([1], 1))

    def test_what_an_exchange_releases_puts_another_in_its_place(self):
        within = (), (ops.finally_action(lambda: None),), (lambda it: rx.defer(lambda _: it),), (ops.take_until(rx.never()),), (ops.flat_map(rx.just),)
        for operators in within:
            subject, log = Subject(), []

            def resource(it):
                log.append(("open", it))
                return Disposable(lambda: (log.append(("close", it)), subject.on_next(3) if it == 1 else None))
            subscription = subject.pipe(ops.flat_map_latest(lambda it: rx.using(lambda: resource(it), lambda _: rx.never()).pipe(*operators))).subscribe()
            subject.on_next(1)
            subject.on_next(2)
            subscription.dispose()
            self.assertEqual(log, [("open", 1), ("close", 1), ("open", 3), ("close", 3)])

    def test_what_a_release_puts_in_the_place_comes_behind_all_that_is_released(self):
        for first, second in ("emits", "plain"), ("plain", "emits"):
            subject, log = Subject(), []

            def held(name, it):
                log.append((name, it))
                return Disposable(lambda: (log.append((f"{name} closed", it)), subject.on_next(3) if (name, it) == ("emits", 1) else None))
            inner = lambda it: rx.using(lambda: held(first, it), lambda _: rx.using(lambda: held(second, it), lambda _: rx.never()))
            subscription = subject.pipe(ops.flat_map_latest(inner)).subscribe()
            subject.on_next(1)
            subject.on_next(2)
            subscription.dispose()
            self.assertEqual([it for _, it in log], [1, 1, 1, 1, 3, 3, 3, 3])

    def test_an_item_as_old_as_the_span_is_one_of_the_last(self):
        clock, subject, told = TestScheduler(), Subject(), []
        subject.pipe(ops.take_last_with_time(0.5, scheduler=clock)).subscribe(told.append)
        subject.on_next(1)
        clock.advance_by(0.5)
        subject.on_completed()
        self.assertEqual(told, [1])

    def test_no_function_is_called_behind_dispose(self):
        subject, opened, subscriptions = Subject(), [], {}
        subject.subscribe(lambda _: subscriptions[2].dispose())
        for key in 1, 2:
            toggled = ops.window_toggle(subject, lambda value, key=key: (opened.append((key, value)), rx.never())[1])
            subscriptions[key] = subject.pipe(toggled, ops.flat_map(ops.to_list())).subscribe()
        subject.on_next("item")
        self.assertEqual(opened, [(1, "item")])

    def test_no_function_is_called_behind_one_that_closes_all(self):
        """Whatever stands between the two, and whichever source calls them."""
        betweens = ((), (ops.scan(lambda _, it: it),), (ops.take_while(lambda _: True), ops.filter(lambda _: True)), (ops.pairwise(), ops.pairwise()))
        behinds = ops.map, ops.do_action, ops.filter, ops.take_while, lambda call: ops.scan(lambda _, it: call(it), 0), lambda call: ops.some(lambda it: not call(it))
        for between in betweens:
            for behind in behinds:
                for wrap in ops.flat_map(rx.just), ops.to_list(), ops.pairwise(), ops.zip(rx.never()), ops.take(9):
                    for items in lambda test: rx.generate(0, test, lambda it: it + 1), lambda test: rx.of(0, 1, 2).pipe(ops.map(lambda it: test(it) and it)):
                        start, called, subscription = Subject(), [], []

                        def closes(it):
                            called.append(it)
                            if it == 2:
                                subscription[0].dispose()
                            return it < 3
                        source = start.pipe(ops.flat_map(lambda _: items(closes).pipe(*between, behind(lambda it: called.append(("behind", it)) or True), wrap)))
                        subscription.append(source.subscribe())
                        start.on_next(1)
                        self.assertEqual(called[-1], 2)

    def test_no_function_is_called_behind_the_release_that_one_closing_comes_to(self):
        joins = ops.zip(rx.never()), ops.exclusive(), ops.publish(lambda it: it), ops.take_until(rx.never())
        for inner in ((), *((it,) for it in joins[::2])):
            for outer in ((), *((it,) for it in joins), (joins[0], joins[2])):
                subject, log = Subject(), []

                def release():
                    log.append("release")
                    subject.on_next(2)
                held = rx.using(lambda: Disposable(release), lambda _: subject.pipe(ops.map(log.append), *inner))
                held.pipe(*outer).subscribe().dispose()
                self.assertEqual(log, ["release"])

    def test_a_notifier_that_completed_says_nothing_and_holds_nothing(self):
        clock, told, left = TestScheduler(), [], []
        late = rx.empty().pipe(ops.timeout_with_mapper(rx.timer(0.5, scheduler=clock), None, rx.of(3)))
        made = rx.create(lambda observer, _: (observer.on_completed(), Disposable(lambda: left.append("create")))[1])
        for it in late, made:
            rx.never().pipe(ops.take_until(it)).subscribe(told.append, None, lambda: told.append("end"))
        clock.advance_by(1.0)
        self.assertEqual((told, left), ([], ["create"]))

    def test_a_composition_that_is_closed_as_it_is_opened(self):
        subject, told = Subject(), []
        subject.pipe(ops.flat_map(lambda _: rx.of(5, 6).pipe(ops.concat_map(lambda _: rx.range(3)))),
                     ops.timeout_with_mapper(rx.merge(subject, rx.never()), lambda _: subject, subject)).subscribe(told.append)
        subject.on_next(1)
        subject.on_next(2)
        self.assertEqual(told, [2])

    def test_each_kind_of_subject_raises_what_an_observer_raised(self):
        for make in Subject, ReplaySubject, lambda: BehaviorSubject(None), AsyncSubject:
            subject, told = make(), []

            def fails(value):
                if value is not None:
                    raise KeyError(value)
            subject.subscribe(fails)
            subject.subscribe(told.append)
            with self.assertRaises(KeyError):
                subject.on_next(1)
                subject.on_completed()
            self.assertEqual(told[-1], 1)
        self.assertEqual(self.unhandled, [])

    def test_the_average_of_nothing(self):
        told = []
        rx.empty().pipe(ops.average()).subscribe(on_error=lambda error: told.append(type(error)))
        self.assertEqual(told, [SequenceContainsNoElementsError])

    def test_a_clock_of_time_interval_is_not_the_sources(self):
        from cellarcliff.rx.testing import TestScheduler
        for operator in ops.timestamp, ops.time_interval:
            told = []
            rx.of(1).pipe(operator(scheduler=TestScheduler())).subscribe(lambda it: told.append(it.value))
            self.assertEqual(told, [1])

    @unittest.skipIf(is_model(), "it is slow")
    def test_diamonds_of_shares(self):
        cell = Subject()
        for _ in range(30):
            cell = rx.zip(cell, cell).pipe(ops.map(lambda it: it[0]), ops.share())
        began = time.process_time()
        cell.subscribe().dispose()
        self.assertLess(time.process_time() - began, 5)

    @unittest.skipIf(is_model(), "it is slow")
    def test_more_shares_than_hubs(self):
        source, told = Subject(), []
        shares = [source.pipe(ops.share()) for _ in range(600)]
        subscriptions = [it.subscribe(told.append) for it in shares for _ in range(2)]
        self.assertEqual(len(source.observers), 600)
        source.on_next(1)
        self.assertEqual(told, [1] * 1200)
        for it in subscriptions:
            it.dispose()
        self.assertEqual((len(source.observers), self.engine.counts().nodes), (0, 0))
        ended = rx.of(1).pipe(ops.share())
        for it in shares:
            it.subscribe()
        for _ in range(2):  # connected anew
            del told[:]
            ended.subscribe(told.append)
            self.assertEqual(told, [1])

    def test_a_subject_with_a_way_of_its_own_to_subscribe(self):
        class Loud(Subject):
            def _subscribe_core(self, observer, scheduler=None):
                observer.on_next("hello")
                return super()._subscribe_core(observer, scheduler)
        subject, told = Loud(), []
        subscription = subject.pipe(ops.map(str)).subscribe(told.append)
        subject.on_next(1)
        subscription.dispose()
        subject.on_next(2)
        self.assertEqual(told, ["hello", "1"])

    @unittest.skipUnless(is_exact(), "by ctypes an engine holds what it tells")
    def test_an_object_that_subscribes_to_its_own_subject_is_collected(self):
        class View:
            def __init__(self, operators):
                self.subject, self.heard = Subject(), None
                self.subscription = self.subject.pipe(*operators).subscribe(self.hear)

            def hear(self, value):
                self.heard = value
        inner = rx.just
        for operators in ((), (ops.map(lambda it: it), ops.scan(lambda _, it: it)), (ops.flat_map(inner),), (ops.flat_map_latest(inner), ops.map(str)),
                          (ops.share(),), (ops.replay(buffer_size=1), ops.ref_count()), (ops.concat(rx.never()),), (lambda it: it.pipe(ops.merge(Subject())),),
                          (ops.concat_map(inner), ops.share(), ops.flat_map(inner)), (ops.retry(), lambda it: it.pipe(ops.take_until(Subject()))),
                          (ops.start_with(1), ops.scan(lambda _, it: it)), (ops.buffer_with_count(1), ops.map(len)), (ops.pairwise(), ops.repeat())):
            views = [View(operators) for _ in range(20)]
            known = [weakref.ref(it) for it in views]
            gc.collect()
            for value in 1, 1:
                for it in views:
                    it.subject.on_next(value)
            self.assertEqual([it() is not None for it in known], [True] * 20)
            self.assertGreaterEqual(self.engine.counts().nodes, 20)
            del views, it
            gc.collect()
            self.assertEqual([it() for it in known], [None] * 20, operators)
            self.assertEqual((self.engine.counts().nodes, self.engine.core.kept), (0, 0), operators)

    def test_what_is_collected_as_an_end_is_told_loses_no_end(self):
        ends = (lambda it: it.on_completed()), (lambda it: it.on_error(KeyError()))
        for operators in (), (ops.map(str),), (ops.flat_map(rx.just),), (ops.share(),), (ops.to_list(),), (ops.concat(rx.of(1)), ops.to_list()):
            for end in ends:
                log, subject = [], Subject()

                class Hears:
                    def on_next(self, _):
                        gc.collect()

                    def on_error(self, _):
                        gc.collect()
                        log.append("end")

                    def on_completed(self):
                        self.on_error(None)
                for _ in range(4):
                    held = rx.using(lambda: Disposable(lambda: log.append("released")), lambda _: subject)
                    held.pipe(*operators).subscribe(Hears())
                subject.on_next(1)
                end(subject)
                self.assertEqual(sorted(log), ["end"] * 4 + ["released"] * 4, operators)

    def test_an_engine_that_was_exchanged_is_closed_at_the_end(self):
        from cellarcliff.rx import _engine
        log = []
        engine = rx.use(fresh_engine())
        rx.using(lambda: Disposable(lambda: log.append("released")), lambda _: rx.never()).subscribe()
        rx.use(fresh_engine())
        self.assertIn(engine, _engine._former)
        _engine._at_exit()
        self.assertEqual(log, ["released"])
        rx.use(self.engine)
        self.assertNotIn(engine, _engine._former)

    def test_a_future_of_a_loop_that_has_ended(self):
        async def wait():
            rx.from_future(asyncio.get_running_loop().create_future()).subscribe()
        asyncio.run(wait())
        self.engine.close()
        self.assertEqual(self.unhandled, [])


if __name__ == "__main__":
    unittest.main()
