"""share() and doFinally over a live book: an adapter that asks nothing twice.

Run as `python3 share_and_finally.py PROGRAM ..`, where the words are those that start a live book: ./rxbook live
Without any word the book is in this process, by the shared library. The package is found where it is installed, or beside
this folder. An observable is a function that opens what it needs at a place of the book and returns the name of its node.
"""
import itertools
import pathlib
import sys

sys.path.append(str(pathlib.Path(__file__).resolve().parent.parent))

from cellarcliff import live  # noqa: E402


class Adapter:
    """Observables over one book."""

    def __init__(self, book):
        self.book, self.names = book, map("n{}".format, itertools.count())

    def source(self, start):
        """`start` gets the name of the leaf of each subscription, and emits by it."""
        def subscribe(observer=None, **place):
            name = next(self.names)
            self.book.open(name, observer, kind="leaf", **place)
            start(name)
            return name
        return subscribe

    def do_finally(self, source, action):
        """`action` is called once for each subscription, when it completes, fails or is disposed of: as the release of a resource."""
        def subscribe(observer=None, **place):
            name = next(self.names)
            self.book.using(name, observer, action, **place)
            source(place="source", of=name)
            return name
        return subscribe

    def share(self, source):
        """One subscription to `source` for all subscribers; the answer to `open` says who is the first of them."""
        hub = next(self.names)
        self.book.send("hub", name=hub, mode="auto")

        def subscribe(observer=None, **place):
            name, connection = next(self.names), next(self.names)
            answer = self.book.open(name, observer, kind="sub", hub=hub, connection=connection, **place)
            if "connected" in answer:
                source(place="source", of=connection)
            return name
        return subscribe


def main():
    leaves = []
    with live.Book(sys.argv[1:]) as book:
        rx = Adapter(book)
        prices = rx.share(rx.do_finally(rx.source(leaves.append), lambda: print("the source is let go")))
        first = prices(lambda note: print("first", note), place="root")
        second = prices(lambda note: print("second", note), place="root")
        book.send("next", node=leaves[-1], value=7)
        book.send("dispose", node=first)
        book.send("next", node=leaves[-1], value=8)
        book.send("dispose", node=second)
        print("subscribed to the source", len(leaves), "time")
        prices(lambda note: print("third", note), place="root")
        book.send("end", node=leaves[-1])
        print("subscribed to the source", len(leaves), "times")


main()
