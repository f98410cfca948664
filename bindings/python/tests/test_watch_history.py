"""A history that is written down by hand: what may not come is refused at once, with the rule and the lines."""
import os
import sys
import unittest

from cellarcliff.watch.history import History, WrongOrder
from tests import kits  # noqa: F401 (the model of the engine)


def line():
    """The line that calls this."""
    return sys._getframe(1).f_lineno


class WrittenByHand(unittest.TestCase):
    def setUp(self):
        self.history = History()

    def refused(self, rule, call, *words, about=None):
        """Refuses it by this rule; says the line of the call, and the one that made what it is about."""
        before = self.history.report()
        with self.assertRaises(WrongOrder) as caught:
            call(*words)
        said = str(caught.exception)
        self.assertEqual(caught.exception.rule, rule, said)
        self.assertIn(f"({rule})", said)
        self.assertEqual(os.path.basename(caught.exception.place.file), "test_watch_history.py")
        if about is not None:
            self.assertIn(f"test_watch_history.py:{about}", said)
        self.assertEqual(self.history.report(), before)

    def is_empty(self):
        self.assertEqual(self.history.open_now(), [])
        self.assertEqual(self.history.report(), "history: nothing of what was written down is open\n")

    def test_a_subscription_with_a_source_and_a_resource(self):
        view = self.history.opened(name="view")
        prices = self.history.opened("leaf", "source", view); made = line()
        socket = self.history.held(view, "socket"); held = line()
        self.history.item(prices)
        self.assertIn(f"the leaf, written down at {os.path.relpath(__file__)}:{made}", self.history.report())
        self.history.completed(prices)
        self.assertEqual(self.history.open_now(), [socket])
        self.assertIn(f"resource socket, written down at {os.path.relpath(__file__)}:{held}", self.history.report())
        self.history.released(socket)
        self.is_empty()

    def test_a_resource_that_is_released_before_its_subscription_ends(self):
        view = self.history.opened()
        socket = self.history.held(view)
        self.history.released(socket)
        self.assertEqual(self.history.open_now(), [view])
        self.history.closed(view)
        self.is_empty()

    def test_nothing_comes_behind_an_end(self):
        view = self.history.opened(); made = line()
        prices = self.history.opened("leaf", "source", view)
        self.history.completed(prices); ended = line()
        self.refused("Gone", self.history.item, prices, about=ended)
        self.refused("Gone", self.history.completed, prices)
        self.refused("Gone", self.history.failed, prices)
        self.refused("Gone", self.history.closed, view, about=made)
        self.refused("Gone", self.history.held, view)
        self.refused("Gone", self.history.opened, "leaf", "source", view)
        self.is_empty()

    def test_nothing_comes_behind_a_closing(self):
        view = self.history.opened()
        prices = self.history.opened("leaf", "source", view)
        self.history.closed(view)
        self.refused("Gone", self.history.item, prices)
        self.refused("Gone", self.history.closed, view)

    def test_a_release_comes_once(self):
        view = self.history.opened()
        socket = self.history.held(view); made = line()
        self.history.closed(view)
        self.history.released(socket); released = line()
        self.refused("NoLease", self.history.released, socket, about=made)
        self.refused("NoLease", self.history.released, socket, about=released)

    def test_what_a_kind_does_not_do(self):
        view = self.history.opened()
        leaf = self.history.opened("leaf", "source", view)
        self.refused("WrongKind", self.history.item, view)
        self.refused("WrongKind", self.history.completed, view)
        self.refused("WrongKind", self.history.declined, view)
        self.refused("WrongKind", self.history.opened, "leaf", "source", leaf)
        self.refused("WrongKind", self.history.opened, "leaf", "inner", view)
        self.refused("WrongKind", self.history.opened, "leaf", "notifier", view)

    def test_one_source_and_one_notifier(self):
        until = self.history.opened("until")
        for place in "source", "notifier":
            self.history.opened("leaf", place, until)
            self.refused("PlaceTaken", self.history.opened, "leaf", place, until)

    def test_an_inner_comes_of_an_item(self):
        latest = self.history.opened("switch"); made = line()
        routes = self.history.opened("leaf", "source", latest)
        self.refused("NothingOwed", self.history.opened, "leaf", "inner", latest, about=made)
        self.refused("NothingOwed", self.history.declined, latest)
        self.history.item(routes)
        first = self.history.opened("leaf", "inner", latest)
        self.refused("NothingOwed", self.history.opened, "leaf", "inner", latest)
        self.history.item(routes)
        self.history.opened("leaf", "inner", latest)
        self.refused("Gone", self.history.item, first)
        self.history.item(routes)
        self.history.declined(latest)
        self.history.item(routes)
        self.history.failed(latest)
        self.is_empty()

    def test_only_a_root_is_closed_from_outside(self):
        view = self.history.opened()
        leaf = self.history.opened("leaf", "source", view)
        self.refused("NotRoot", self.history.closed, leaf)

    def test_what_is_shared(self):
        feed = self.history.hub("manual", "feed")
        connection = self.history.connected(feed)
        self.refused("Connected", self.history.connected, feed)
        source = self.history.opened("leaf", "source", connection)
        first = self.history.opened(("sub", feed))
        self.history.item(source)
        self.history.closed(first)
        self.history.closed(connection)
        self.refused("NotConnected", self.history.closed, connection)

    def test_a_share_is_connected_while_it_has_a_subscriber(self):
        feed = self.history.hub("auto", "feed")
        self.refused("WrongKind", self.history.connected, feed)
        first = self.history.opened(("sub", feed))
        source = self.history.opened("leaf", "source", feed.connection)
        self.assertEqual(self.history.open_now(), [feed.connection, first, source])
        self.history.closed(first)
        self.refused("Gone", self.history.item, source)
        self.is_empty()

    def test_no_such_words(self):
        for words in ("loaf",), ("leaf", "source"), ("leaf", "top"), (("share", None),):
            self.assertRaises(ValueError, self.history.opened, *words)


if __name__ == "__main__":
    unittest.main()
