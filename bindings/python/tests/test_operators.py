"""Tests in the manner of RxPY's suite, each with one expectation for RxPY and for this package."""
import unittest

from tests.kits import kits

ERROR = Exception("ex")


class Operators(unittest.TestCase):
    def each(self, test):
        for make in kits():
            kit = make()
            with self.subTest(kit.name):
                test(kit)
                if kit.engine is not None:  # nothing is left behind
                    kit.engine.close()
                    counts = kit.engine.counts()
                    self.assertEqual((counts.nodes, counts.held, counts.waiting), (0, 0, 0))
                    self.assertEqual(counts.accepted, counts.taken)
                    self.assertEqual(kit.engine.core.kept, 0)

    # sources

    def test_of_emits_its_items_and_completes(self):
        def test(k):
            told = []
            k.rx.of(1, 2, 3).subscribe(told.append, told.append, lambda: told.append("completed"))
            self.assertEqual(told, [1, 2, 3, "completed"])
        self.each(test)

    def test_from_iterable_stops_when_it_is_disposed_of(self):
        def test(k):
            told, seen = [], []

            def items():
                for it in range(10):
                    seen.append(it)
                    yield it
            k.rx.from_iterable(items()).pipe(k.ops.take(2)).subscribe(told.append, None, lambda: told.append("completed"))
            self.assertEqual(told, [0, 1, "completed"])
            self.assertLess(len(seen), 4)
        self.each(test)

    def test_just_on_a_scheduler(self):
        def test(k):
            scheduler = k.TestScheduler()
            results = scheduler.start(lambda: k.rx.just(42))
            self.assertEqual([it.value.kind for it in results.messages], ["N", "C"])
            self.assertEqual(results.messages[0].value.value, 42)
        self.each(test)

    def test_empty_and_never(self):
        def test(k):
            told = []
            k.rx.empty().subscribe(told.append, told.append, lambda: told.append("completed"))
            k.rx.never().subscribe(told.append, told.append, lambda: told.append("completed"))
            self.assertEqual(told, ["completed"])
        self.each(test)

    def test_throw(self):
        def test(k):
            told = []
            k.rx.throw(ERROR).subscribe(told.append, told.append)
            self.assertEqual(told, [ERROR])
        self.each(test)

    def test_an_error_that_nobody_hears_is_raised(self):
        def test(k):
            with self.assertRaises(ZeroDivisionError):
                k.rx.throw(ZeroDivisionError()).subscribe(lambda _: None)
        self.each(test)

    def test_create_disposes_of_what_it_answered_after_the_end(self):
        def test(k):
            told = []

            def subscribe(observer, scheduler):
                observer.on_next(1)
                observer.on_completed()
                observer.on_next(2)
                return k.disposable.Disposable(lambda: told.append("disposed"))
            k.rx.create(subscribe).subscribe(told.append, told.append, lambda: told.append("completed"))
            self.assertEqual(told, [1, "completed", "disposed"])
        self.each(test)

    def test_create_that_raises_fails(self):
        def test(k):
            def subscribe(observer, scheduler):
                raise ERROR
            told = []
            k.rx.create(subscribe).subscribe(told.append, told.append)
            self.assertEqual(told, [ERROR])
        self.each(test)

    def test_timer_with_a_scheduler(self):
        def test(k):
            scheduler = k.TestScheduler()
            results = scheduler.start(lambda: k.rx.timer(duetime=300))
            self.assertEqual(results.messages, [k.on_next(500, 0), k.on_completed(500)])
        self.each(test)

    def test_interval_until_it_is_disposed_of(self):
        def test(k):
            scheduler = k.TestScheduler()
            results = scheduler.start(lambda: k.rx.interval(100), disposed=550)
            self.assertEqual(results.messages, [k.on_next(300, 0), k.on_next(400, 1), k.on_next(500, 2)])
        self.each(test)

    def test_a_subject_tells_who_comes_later_its_end(self):
        def test(k):
            told, subject = [], k.Subject()
            subject.subscribe(lambda v: told.append(("a", v)), None, lambda: told.append("a completed"))
            subject.on_next(1)
            subject.on_completed()
            subject.on_next(2)
            subject.subscribe(lambda v: told.append(("b", v)), None, lambda: told.append("b completed"))
            self.assertEqual(told, [("a", 1), "a completed", "b completed"])
        self.each(test)

    def test_a_subject_that_failed(self):
        def test(k):
            told, subject = [], k.Subject()
            subject.on_error(ERROR)
            subject.subscribe(told.append, told.append)
            self.assertEqual(told, [ERROR])
        self.each(test)

    def test_who_is_disposed_of_while_an_item_is_told_hears_nothing(self):
        def test(k):
            told, subject, second = [], k.Subject(), [None]
            subject.subscribe(lambda v: (told.append(("a", v)), second[0].dispose()))
            second[0] = subject.subscribe(lambda v: told.append(("b", v)))
            subject.on_next(1)
            subject.on_next(2)
            self.assertEqual(told, [("a", 1), ("a", 2)])
        self.each(test)

    # functions on items

    def test_map_and_filter(self):
        def test(k):
            scheduler = k.TestScheduler()
            xs = scheduler.create_hot_observable(k.on_next(180, 5), k.on_next(210, 1), k.on_next(220, 2), k.on_next(230, 3),
                                                 k.on_completed(240), k.on_next(250, 4))
            results = scheduler.start(lambda: xs.pipe(k.ops.map(lambda x: x * 10), k.ops.filter(lambda x: x != 20)))
            self.assertEqual(results.messages, [k.on_next(210, 10), k.on_next(230, 30), k.on_completed(240)])
            self.assertEqual(xs.subscriptions, [k.subscribe(200, 240)])
        self.each(test)

    def test_a_map_that_raises_fails(self):
        def test(k):
            scheduler = k.TestScheduler()
            xs = scheduler.create_hot_observable(k.on_next(210, 1), k.on_next(220, 0), k.on_next(230, 2))

            def divide(x):
                if not x:
                    raise ERROR
                return 4 / x
            results = scheduler.start(lambda: xs.pipe(k.ops.map(divide)))
            self.assertEqual(results.messages, [k.on_next(210, 4.0), k.on_error(220, ERROR)])
            self.assertEqual(xs.subscriptions, [k.subscribe(200, 220)])
        self.each(test)

    def test_scan_with_and_without_a_seed(self):
        def test(k):
            told = []
            numbers = k.rx.of(1, 2, 3)
            numbers.pipe(k.ops.scan(lambda a, x: a + x)).subscribe(told.append)
            numbers.pipe(k.ops.scan(lambda a, x: a + x, 10)).subscribe(told.append)
            numbers.pipe(k.ops.scan(lambda a, x: a + x, seed=None and 0)).pipe(k.ops.take(0)).subscribe(told.append)
            self.assertEqual(told, [1, 3, 6, 11, 13, 16])
        self.each(test)

    def test_take_completes_and_disposes(self):
        def test(k):
            scheduler = k.TestScheduler()
            xs = scheduler.create_hot_observable(k.on_next(210, 1), k.on_next(220, 2), k.on_next(230, 3))
            results = scheduler.start(lambda: xs.pipe(k.ops.take(2)))
            self.assertEqual(results.messages, [k.on_next(210, 1), k.on_next(220, 2), k.on_completed(220)])
            self.assertEqual(xs.subscriptions, [k.subscribe(200, 220)])
        self.each(test)

    def test_start_with(self):
        def test(k):
            told = []
            k.rx.of(3).pipe(k.ops.start_with(2), k.ops.start_with(0, 1)).subscribe(told.append)
            self.assertEqual(told, [0, 1, 2, 3])
        self.each(test)

    def test_do_action_sees_each_note_before_the_observer(self):
        def test(k):
            told = []
            k.rx.of(1).pipe(k.ops.do_action(lambda v: told.append(("do", v)), None, lambda: told.append("do completed"))).subscribe(
                told.append, None, lambda: told.append("completed"))
            self.assertEqual(told, [("do", 1), 1, "do completed", "completed"])
        self.each(test)

    def test_map_indexed_counts_from_0(self):
        def test(k):
            told = []
            k.rx.of("a", "b").pipe(k.ops.map_indexed(lambda x, i: (x, i))).subscribe(told.append)
            self.assertEqual(told, [("a", 0), ("b", 1)])
        self.each(test)

    # Using and finally

    def test_using_makes_and_disposes_of_its_resource(self):
        def test(k):
            scheduler, told = k.TestScheduler(), []
            xs = []

            def create():
                def make():
                    told.append(("made", scheduler.clock))
                    return k.disposable.Disposable(lambda: told.append(("disposed", scheduler.clock)))

                def source(_):
                    xs.append(scheduler.create_cold_observable(k.on_next(100, 1), k.on_completed(200)))
                    return xs[0]
                return k.rx.using(make, source)
            results = scheduler.start(create)
            self.assertEqual(results.messages, [k.on_next(300, 1), k.on_completed(400)])
            self.assertEqual(told, [("made", 200), ("disposed", 400)])
            self.assertEqual(xs[0].subscriptions, [k.subscribe(200, 400)])
        self.each(test)

    def test_using_without_a_resource(self):
        def test(k):
            told = []
            k.rx.using(lambda: None, lambda resource: k.rx.of(resource)).subscribe(told.append)
            self.assertEqual(told, [None])
        self.each(test)

    def test_using_whose_factory_raises(self):
        def test(k):
            def fail(*_):
                raise ERROR
            told = []
            k.rx.using(fail, lambda _: k.rx.never()).subscribe(told.append, told.append)
            k.rx.using(lambda: k.disposable.Disposable(lambda: told.append("disposed")), fail).subscribe(told.append, told.append)
            self.assertEqual(told, [ERROR, ERROR, "disposed"])
        self.each(test)

    def test_defer_whose_factory_raises_tells_at_once_whatever_the_scheduler(self):
        def test(k):
            def fail(*_):
                raise ERROR
            told = []
            for source in k.rx.defer(fail), k.rx.if_then(fail, k.rx.never()), k.rx.using(lambda: None, fail):
                source.subscribe(told.append, told.append, scheduler=k.TestScheduler())
            self.assertEqual(told, [ERROR, ERROR])
        self.each(test)

    def test_using_that_is_disposed_of(self):
        def test(k):
            scheduler, told = k.TestScheduler(), []
            scheduler.start(lambda: k.rx.using(lambda: k.disposable.Disposable(lambda: told.append(scheduler.clock)),
                                               lambda _: k.rx.never()))
            self.assertEqual(told, [1000])
        self.each(test)

    def test_finally_comes_after_the_end_and_the_inner_one_first(self):
        def test(k):
            told = []
            k.rx.empty().pipe(k.ops.finally_action(lambda: told.append("inner")), k.ops.finally_action(lambda: told.append("outer"))
                              ).subscribe(told.append, None, lambda: told.append("completed"))
            self.assertEqual((told[0], sorted(told[1:])), ("completed", ["inner", "outer"]))  # in an order that the engine leaves open
        self.each(test)

    def test_finally_with_a_disposal(self):
        def test(k):
            told = []
            subscription = k.rx.never().pipe(k.ops.finally_action(lambda: told.append("finally"))).subscribe(told.append)
            subscription.dispose()
            subscription.dispose()
            self.assertEqual(told, ["finally"])
        self.each(test)

    # FlatMap, Switch, merge

    def test_flat_map_merges_until_all_are_complete(self):
        def test(k):
            scheduler = k.TestScheduler()
            xs = scheduler.create_hot_observable(k.on_next(210, 4), k.on_next(300, 2), k.on_completed(350))
            inners = []

            def mapper(x):
                inners.append(scheduler.create_cold_observable(k.on_next(50, x), k.on_next(100, x * 10), k.on_completed(120)))
                return inners[-1]
            results = scheduler.start(lambda: xs.pipe(k.ops.flat_map(mapper)))
            self.assertEqual(results.messages, [k.on_next(260, 4), k.on_next(310, 40), k.on_next(350, 2), k.on_next(400, 20),
                                                k.on_completed(420)])
            self.assertEqual([it.subscriptions for it in inners], [[k.subscribe(210, 330)], [k.subscribe(300, 420)]])
            self.assertEqual(xs.subscriptions, [k.subscribe(200, 350)])
        self.each(test)

    def test_flat_map_fails_with_an_inner_and_lets_the_others_go(self):
        def test(k):
            scheduler = k.TestScheduler()
            xs = scheduler.create_hot_observable(k.on_next(210, 1), k.on_next(220, 2))
            slow = scheduler.create_cold_observable(k.on_next(500, 1))
            fails = scheduler.create_cold_observable(k.on_error(30, ERROR))
            results = scheduler.start(lambda: xs.pipe(k.ops.flat_map(lambda x: slow if x == 1 else fails)))
            self.assertEqual(results.messages, [k.on_error(250, ERROR)])
            self.assertEqual((slow.subscriptions, xs.subscriptions), ([k.subscribe(210, 250)], [k.subscribe(200, 250)]))
        self.each(test)

    def test_flat_map_whose_mapper_raises(self):
        def test(k):
            def mapper(x):
                if x == 2:
                    raise ERROR
                return k.rx.of(x)
            told = []
            k.rx.of(1, 2, 3).pipe(k.ops.flat_map(mapper)).subscribe(told.append, told.append)
            self.assertEqual(told[-1], ERROR)
        self.each(test)

    def test_flat_map_of_iterables(self):
        def test(k):
            told, subject = [], k.Subject()
            subject.pipe(k.ops.flat_map(lambda x: [x, x + 1])).subscribe(told.append)
            subject.on_next(1)
            subject.on_next(5)
            self.assertEqual(told, [1, 2, 5, 6])
        self.each(test)

    def test_flat_map_of_flat_map_with_functions_between(self):
        def test(k):
            told, subject = [], k.Subject()
            subject.pipe(k.ops.flat_map(lambda x: k.rx.of(x, x)), k.ops.map(lambda x: x + 1),
                         k.ops.flat_map(lambda x: k.rx.just(x * 2)), k.ops.scan(lambda a, x: a + x), k.ops.take(3)
                         ).subscribe(told.append, None, lambda: told.append("completed"))
            subject.on_next(1)
            subject.on_next(2)
            self.assertEqual(told, [4, 8, 14, "completed"])
            self.assertEqual(len(subject.observers), 0)
        self.each(test)

    def test_switch_latest_leaves_each_inner_for_the_next(self):
        def test(k):
            scheduler = k.TestScheduler()
            first = scheduler.create_cold_observable(k.on_next(10, 101), k.on_next(120, 103))
            second = scheduler.create_cold_observable(k.on_next(10, 201), k.on_completed(50))
            xs = scheduler.create_hot_observable(k.on_next(300, first), k.on_next(400, second), k.on_completed(600))
            results = scheduler.start(lambda: xs.pipe(k.ops.switch_latest()))
            self.assertEqual(results.messages, [k.on_next(310, 101), k.on_next(410, 201), k.on_completed(600)])
            self.assertEqual((first.subscriptions, second.subscriptions), ([k.subscribe(300, 400)], [k.subscribe(400, 450)]))
        self.each(test)

    def test_flat_map_latest_releases_the_resource_of_the_inner_before(self):
        def test(k):
            told, subject = [], k.Subject()

            def inner(x):
                def make():
                    told.append(("made", x))
                    return k.disposable.Disposable(lambda: told.append(("disposed", x)))
                return k.rx.using(make, lambda _: k.rx.never())
            subscription = subject.pipe(k.ops.flat_map_latest(inner)).subscribe(told.append)
            subject.on_next(1)
            subject.on_next(2)
            subscription.dispose()
            self.assertEqual(told, [("made", 1), ("disposed", 1), ("made", 2), ("disposed", 2)])
        self.each(test)

    def test_an_item_pushed_in_the_midst_of_an_inner_exchanges_it_at_once(self):
        def test(k):
            told, subject = [], k.Subject()

            def hear(x):
                told.append(x)
                if x == 1:
                    subject.on_next(2)
            subject.pipe(k.ops.flat_map_latest(lambda x: k.rx.range(x, x + 5))).subscribe(hear)
            subject.on_next(1)
            self.assertEqual(told, [1, 2, 3, 4, 5, 6])
        self.each(test)

    def test_merge(self):
        def test(k):
            scheduler = k.TestScheduler()
            a = scheduler.create_hot_observable(k.on_next(210, 1), k.on_completed(240))
            b = scheduler.create_hot_observable(k.on_next(220, 2), k.on_completed(250))
            results = scheduler.start(lambda: k.rx.merge(a, b))
            self.assertEqual(results.messages, [k.on_next(210, 1), k.on_next(220, 2), k.on_completed(250)])
        self.each(test)

    def test_merge_of_cold_sources_and_the_operator(self):
        def test(k):
            told = []
            k.rx.merge(k.rx.of(1, 2), k.rx.of(3)).subscribe(told.append, None, lambda: told.append("completed"))
            k.rx.of(1).pipe(k.ops.merge(k.rx.of(2))).subscribe(told.append)
            self.assertEqual(told, [1, 2, 3, "completed", 1, 2])
        self.each(test)

    # TakeUntil

    def test_take_until_an_item(self):
        def test(k):
            scheduler = k.TestScheduler()
            xs = scheduler.create_hot_observable(k.on_next(210, 1), k.on_next(230, 2), k.on_next(250, 3))
            ys = scheduler.create_hot_observable(k.on_next(240, 9))
            results = scheduler.start(lambda: xs.pipe(k.ops.take_until(ys)))
            self.assertEqual(results.messages, [k.on_next(210, 1), k.on_next(230, 2), k.on_completed(240)])
            self.assertEqual((xs.subscriptions, ys.subscriptions), ([k.subscribe(200, 240)], [k.subscribe(200, 240)]))
        self.each(test)

    def test_a_notifier_that_completes_ends_nothing_and_one_that_fails_does(self):
        def test(k):
            scheduler = k.TestScheduler()
            xs = scheduler.create_hot_observable(k.on_next(210, 1), k.on_next(230, 2), k.on_completed(250))
            ys = scheduler.create_hot_observable(k.on_completed(220))
            results = scheduler.start(lambda: xs.pipe(k.ops.take_until(ys)))
            self.assertEqual(results.messages, [k.on_next(210, 1), k.on_next(230, 2), k.on_completed(250)])
            told, source, notifier = [], k.Subject(), k.Subject()
            source.pipe(k.ops.take_until(notifier)).subscribe(told.append, told.append)
            notifier.on_error(ERROR)
            self.assertEqual((told, len(source.observers)), ([ERROR], 0))
        self.each(test)

    def test_take_until_of_the_source_itself(self):
        def test(k):
            told, subject = [], k.Subject()
            subject.pipe(k.ops.take_until(subject)).subscribe(told.append, None, lambda: told.append("completed"))
            subject.on_next(1)
            subject.on_next(2)
            self.assertEqual(told, [1, "completed"])
        self.each(test)

    # what is shared

    def test_publish_and_connect(self):
        def test(k):
            scheduler = k.TestScheduler()
            xs = scheduler.create_hot_observable(k.on_next(210, 1), k.on_next(310, 2), k.on_next(410, 3), k.on_next(510, 4))
            shared = xs.pipe(k.ops.publish())
            connection = []
            scheduler.schedule_absolute(300, lambda *_: connection.append(shared.connect()))
            scheduler.schedule_absolute(450, lambda *_: connection[0].dispose())
            results = scheduler.start(lambda: shared)
            self.assertEqual(results.messages, [k.on_next(310, 2), k.on_next(410, 3)])
            self.assertEqual(xs.subscriptions, [k.subscribe(300, 450)])
        self.each(test)

    def test_connect_twice_is_one_connection(self):
        def test(k):
            told, subject = [], k.Subject()
            shared = subject.pipe(k.ops.publish())
            shared.subscribe(told.append)
            self.assertIs(shared.connect(), shared.connect())
            subject.on_next(1)
            self.assertEqual(told, [1])
        self.each(test)

    def test_ref_count_connects_with_the_first_and_disconnects_with_the_last(self):
        def test(k):
            scheduler = k.TestScheduler()
            xs = scheduler.create_hot_observable(k.on_next(215, 1), k.on_next(225, 2), k.on_next(235, 3), k.on_next(245, 4))
            shared = xs.pipe(k.ops.publish(), k.ops.ref_count())
            a, b = [], []
            first, second = [], []
            scheduler.schedule_absolute(210, lambda *_: first.append(shared.subscribe(a.append)))
            scheduler.schedule_absolute(220, lambda *_: second.append(shared.subscribe(b.append)))
            scheduler.schedule_absolute(230, lambda *_: first[0].dispose())
            scheduler.schedule_absolute(240, lambda *_: second[0].dispose())
            scheduler.start()
            self.assertEqual((a, b), ([1, 2], [2, 3]))
            self.assertEqual(xs.subscriptions, [k.subscribe(210, 240)])
        self.each(test)

    def test_share_makes_its_resource_once_at_a_time(self):
        def test(k):
            told, subject = [], k.Subject()

            def make():
                told.append("made")
                return k.disposable.Disposable(lambda: told.append("disposed"))
            shared = k.rx.using(make, lambda _: subject).pipe(k.ops.share())
            for _ in range(2):
                a, b = shared.subscribe(told.append), shared.subscribe(told.append)
                subject.on_next(1)
                a.dispose()
                b.dispose()
            self.assertEqual(told, ["made", 1, 1, "disposed"] * 2)
        self.each(test)

    def test_share_below_share(self):
        def test(k):
            told, subject = [], k.Subject()
            inner = subject.pipe(k.ops.share())
            outer = subject.pipe(k.ops.flat_map(lambda x: inner.pipe(k.ops.map(lambda y: (x, y)))), k.ops.share())
            before = inner.subscribe(lambda _: None)
            first, second = outer.subscribe(told.append), outer.subscribe(told.append)
            subject.on_next(1)
            subject.on_next(2)
            self.assertIn((1, 2), told)
            for it in (first, second, before):
                it.dispose()
            self.assertEqual(len(subject.observers), 0)
        self.each(test)

    def test_multicast_through_a_subject(self):
        def test(k):
            told, source, subject = [], k.Subject(), k.Subject()
            shared = source.pipe(k.ops.multicast(subject))
            shared.subscribe(lambda v: told.append(("a", v)))
            connection = shared.connect()
            source.on_next(1)
            subject.on_next(2)
            connection.dispose()
            source.on_next(3)
            self.assertEqual(told, [("a", 1), ("a", 2)])
        self.each(test)

    # what observers and releases raise

    def test_what_an_observer_raises_is_raised_where_it_was_emitted(self):
        def test(k):
            subject = k.Subject()

            def hear(_):
                raise ZeroDivisionError
            subject.subscribe(hear)
            with self.assertRaises(ZeroDivisionError):
                subject.on_next(1)
        self.each(test)

    def test_what_a_disposable_raises_is_raised_by_the_disposal(self):
        def test(k):
            def fail():
                raise ZeroDivisionError
            subscription = k.rx.never().pipe(k.ops.finally_action(fail)).subscribe()
            with self.assertRaises(ZeroDivisionError):
                subscription.dispose()
        self.each(test)

    def test_a_group_whose_duration_is_over_as_it_begins(self):
        """It hears no item."""
        def test(k):
            failed = k.Subject()
            failed.on_error(ERROR)
            for duration in k.rx.empty(), k.rx.of(1), k.rx.range(3), k.rx.throw(ERROR), failed, k.rx.merge(failed, k.rx.never()):
                source, told = k.Subject(), []
                groups = source.pipe(k.ops.group_by_until(lambda it: it, None, lambda _: duration))
                groups.subscribe(lambda it: it.subscribe(told.append, told.append, lambda: told.append("completed")), told.append)
                source.on_next(1)
                self.assertIn(told, (["completed"], [ERROR, ERROR]))
            for many in range(3):
                told = []
                groups = k.rx.range(many).pipe(k.ops.group_by_until(lambda it: it, None, lambda _: k.rx.never()), k.ops.flat_map(lambda it: it))
                groups.subscribe(told.append, None, lambda: told.append("completed"))
                self.assertEqual(told, [*range(many), "completed"])
        self.each(test)

    def test_what_follows_in_two_subscriptions_interleaves(self):
        """As their sources do: also where a timer subscribes."""
        def test(k):
            failed, clock = k.Subject(), k.TestScheduler()
            failed.on_error(ERROR)
            for make in (lambda *those: those[1], k.rx.catch, k.rx.on_error_resume_next, lambda *those: k.rx.concat(k.rx.empty(), those[1])):
                told = []

                def begin(_):
                    for name in "ab":
                        make(failed, k.rx.range(2)).subscribe(lambda it, name=name: told.append((name, it)))
                    return k.rx.empty()
                k.rx.of(1).pipe(k.ops.delay_subscription(0.5, scheduler=clock), k.ops.flat_map(begin)).subscribe()
                clock.advance_by(1)
                self.assertEqual(told, [("a", 0), ("b", 0), ("a", 1), ("b", 1)])
            first = []
            k.rx.amb(k.rx.from_callable(lambda: 1).pipe(k.ops.flat_map(k.rx.just)), k.rx.empty().pipe(k.ops.do_while(lambda _: 1 // 0))).subscribe(
                first.append, first.append)
            self.assertEqual(first, [1])
        self.each(test)


if __name__ == "__main__":
    unittest.main()
