"""An engine that remembers where what is open was made."""
import ctypes
import json
import sys
import unittest
from unittest import mock

from cellarcliff import audit, rx
from cellarcliff.rx import operators as ops
from cellarcliff.rx.disposable import Disposable
from cellarcliff.rx.subject import Subject
from cellarcliff.rx.watched import Place, Watched, place_of
from tests.kits import is_model

HERE = __file__


def line():
    """The line that calls this."""
    return sys._getframe(1).f_lineno


def connect():
    return Disposable()


class WatchedEngines(unittest.TestCase):
    def setUp(self):
        self.engine = rx.use(Watched())

    def tearDown(self):
        self.engine.close()
        self.assertEqual(self.engine.open_now(), [])

    def kinds(self):
        return [(it.what, it.place.line) for it in self.engine.open_now()]

    def test_a_subscription_and_its_resource_have_their_lines(self):
        source = Subject()
        held = rx.using(connect, lambda _: source).pipe(ops.map(lambda it: it)).subscribe(); at = line()
        subscription, resource = self.engine.open_now()
        self.assertEqual((subscription.what, subscription.place), ("subscription", Place(HERE, at, self._testMethodName)))
        self.assertEqual((resource.what, resource.name, resource.place.line), ("resource", "Disposable", at))
        self.assertEqual(resource.of, place_of(connect))
        self.assertIs(resource.within, subscription)
        self.assertIn("test_watched.py", str(resource))
        held.dispose()
        self.assertEqual(self.kinds(), [])

    def test_an_end_closes_what_was_made(self):
        source = Subject()
        source.pipe(ops.finally_action(lambda: None)).subscribe(); at = line()
        self.assertEqual(self.kinds(), [("subscription", at), ("action", at)])
        source.on_completed()
        self.assertEqual(self.kinds(), [])

    def test_what_an_item_made_has_the_line_that_emitted(self):
        source = Subject()
        source.pipe(ops.flat_map(lambda _: rx.using(connect, lambda _: rx.never()))).subscribe(); first = line()
        source.on_next(1); second = line()
        self.assertEqual(self.kinds(), [("subscription", first), ("resource", second)])
        self.assertEqual(self.engine.open_now()[1].within.place.line, first)

    def test_what_create_answered(self):
        released = []
        for answer in (lambda: released.append(1)), Disposable(lambda: released.append(2)):
            held = rx.create(lambda observer, _: answer).subscribe(); at = line()
            self.assertEqual(self.kinds(), [("subscription", at), ("answer", at)])
            held.dispose()
        self.assertEqual((released, self.kinds()), ([1, 2], []))

    def test_the_resource_itself_comes_to_the_factory(self):
        resource, given = Disposable(), []
        rx.using(lambda: resource, lambda it: given.append(it) or rx.never()).subscribe().dispose()
        self.assertEqual((given, resource.is_disposed), ([resource], True))
        rx.using(lambda: None, lambda it: given.append(it) or rx.never()).subscribe().dispose()
        self.assertEqual(given, [resource, None])

    def test_a_connection_by_hand(self):
        source = Subject()
        published = source.pipe(ops.publish())
        connection = published.connect(); at = line()
        published.connect()
        self.assertEqual(self.kinds(), [("connection", at)])
        connection.dispose()
        self.assertEqual(self.kinds(), [])

    def test_a_factory_that_raises_leaves_nothing(self):
        def fail():
            raise KeyError
        rx.using(fail, lambda _: rx.never()).subscribe(None, lambda _: None)
        rx.using(connect, lambda _: rx.throw(KeyError())).subscribe(None, lambda _: None)
        self.assertEqual(self.kinds(), [])

    def test_what_operators_subscribe_to_by_themselves_is_not_shown(self):
        rx.combine_latest(Subject(), rx.timer(5)).pipe(ops.debounce(1)).subscribe(); at = line()
        self.assertEqual(self.kinds(), [("subscription", at)])

    def test_nothing_of_what_is_over_is_kept(self):
        source = Subject()
        for _ in range(3 if is_model() else 300):
            rx.using(connect, lambda _: source).subscribe().dispose()
        self.assertEqual((len(self.engine._kept), len(self.engine._roots), len(self.engine._made), len(self.engine._of)), (0, 0, 0, 0))

    @unittest.skipIf(is_model(), "the model has no dump of an engine")
    def test_its_places_are_those_of_the_history(self):
        rx.using(connect, lambda _: rx.never()).subscribe()
        subscription, resource = self.engine.open_now()
        history = json.loads(self.engine.history())
        place = history.index(["open", "root", "pass"])  # behind the hubs that an engine may make whenever it likes
        self.assertIn(["accept", place], [it[:2] for it in history])
        self.assertEqual((subscription.node, resource.node), (place, place))

    @unittest.skipIf(is_model(), "the model has no dump of an engine")
    def test_an_item_that_comes_while_a_history_is_asked_for_takes_nothing_away(self):
        source, made, items = Subject(), ctypes.create_string_buffer, [0]
        source.subscribe()

        def beside(size):  # another thread's item, behind the question how long the history is
            if items[0] < 9:
                items[0] += 1
                source.on_next(0)
            return made(size)
        with mock.patch.object(ctypes, "create_string_buffer", beside):
            history = self.engine.history()
        told = [it for it in json.loads(history) if it[0] != "hub"]  # an engine may make hubs whenever it likes
        self.assertEqual(told, [["open", "root", "leaf"]] + 9 * [["item", 0, 0]])

    @unittest.skipIf(is_model(), "the model makes no checkpoint")
    def test_a_history_that_is_cut_is_none(self):
        engine = rx.use(Watched(100))
        source = Subject()
        source.subscribe()
        for i in range(200):
            source.on_next(i)
        self.assertIsNone(engine.history())
        engine.close()


if __name__ == "__main__":
    unittest.main()
