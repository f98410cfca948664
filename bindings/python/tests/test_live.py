"""A live book by lines, over a pipe to a book in Python."""
import os
import pathlib
import signal
import sys
import threading
import unittest

from cellarcliff.live import Book, Refused

PROGRAM = [sys.executable, "-B", str(pathlib.Path(__file__).resolve().parent / "fake_live.py")]


class Interrupt(Exception):
    pass


def interrupted(seconds, call):
    """Makes the call, and interrupts it."""
    def stop(*_):
        raise Interrupt
    before = signal.signal(signal.SIGALRM, stop)
    signal.setitimer(signal.ITIMER_REAL, seconds)
    try:
        call()
    finally:
        signal.setitimer(signal.ITIMER_REAL, 0)
        signal.signal(signal.SIGALRM, before)


def shared(book, observers):
    """Roots that hear one leaf by way of a hub; each holds a resource."""
    book.send("hub", name="h", mode="manual")
    book.send("connect", hub="h", name="c")
    book.open("leaf", place="source", of="c", kind="leaf")
    for name, (observer, release) in observers.items():
        book.using(name, observer, release)
        book.open(f"sub-{name}", place="source", of=name, kind="sub", hub="h")


class Live(unittest.TestCase):
    def book(self):
        return Book(PROGRAM)

    def test_what_an_observer_does_is_told_behind_what_waits(self):
        a, b = [], []
        with self.book() as book:
            def first(note):
                a.append(note)
                if "next" in note:
                    book.send("end", node="leaf")
            shared(book, {"a": (first, lambda: a.append("released")), "b": (b.append, lambda: b.append("released"))})
            book.send("next", node="leaf", value=1)
        self.assertEqual(a, [{"to": "a", "next": 1}, {"to": "a", "completed": True}, "released"])
        self.assertEqual(b, [{"to": "b", "next": 1}, {"to": "b", "completed": True}, "released"])

    def test_threads_tell_in_order_and_nothing_after_an_end(self):
        a, b = [], []
        with self.book() as book:
            shared(book, {"a": (a.append, lambda: a.append("released")), "b": (b.append, lambda: b.append("released"))})

            def emit(number):
                for value in range(40):
                    try:
                        book.send("next", node="leaf", value=100 * number + value)
                    except Refused:
                        return
                if number == 0:
                    book.send("end", node="leaf")
            threads = [threading.Thread(target=emit, args=(number,)) for number in range(4)]
            for it in threads:
                it.start()
            for it in threads:
                it.join()
        self.assertEqual([it["next"] for it in a[:-2]], [it["next"] for it in b[:-2]])
        for told, name in (a, "a"), (b, "b"):
            self.assertEqual(told[-2:], [{"to": name, "completed": True}, "released"])

    def test_several_commands_go_in_one_line(self):
        a = []
        with self.book() as book:
            shared(book, {"a": (a.append, lambda: a.append("released"))})
            answers = book.send_all({"do": "next", "node": "leaf", "value": 1}, {"do": "next", "node": "nobody", "value": 2},
                                    {"do": "end", "node": "leaf"})
            self.assertEqual(a, [{"to": "a", "next": 1}, {"to": "a", "completed": True}, "released"])
            self.assertEqual(["ok" in it for it in answers], [True, False, True])
            self.assertEqual(answers[1], {"refused": "NoName"})
            self.assertRaises(TypeError, book.send_all, {"do": "hold", "node": "leaf", "res": "r"})

    def test_a_resource_that_is_held_is_released(self):
        told = []
        with self.book() as book:
            book.using("a", None, lambda: told.append("a"))
            book.hold("a", "r", lambda: told.append("r"))
            self.assertRaises(TypeError, book.send, "hold", node="a", res="s")
            self.assertRaises(Refused, book.hold, "no", "s", lambda: told.append("s"))
            self.assertEqual(told, ["s"])
            book.send("dispose", node="a")
        self.assertEqual(told, ["s", "a", "r"])

    def test_a_node_is_opened_with_its_resource(self):
        told = []
        with self.book() as book:
            book.open("a", release=lambda: told.append("r"), place="root", kind="leaf", res="r")
            self.assertRaises(Refused, book.open, "b", None, lambda: told.append("s"), place="source", of="no", kind="leaf", res="s")
            self.assertEqual(told, ["s"])
            self.assertRaises(TypeError, book.open, "b", place="root", kind="leaf", res="t")
            self.assertRaises(TypeError, book.open, "b", None, lambda: None, place="root", kind="leaf")
            book.send("end", node="a")
        self.assertEqual(told, ["s", "r"])

    def test_a_call_that_is_interrupted_leaves_every_answer_with_its_line(self):
        told = []
        with self.book() as book:
            book.using("a", told.append, lambda: told.append("released"))
            book.open("leaf", place="source", of="a", kind="leaf")
            slow = lambda: book.send("next", node="leaf", value=1, slow=0.3)
            self.assertRaises(Interrupt, interrupted, 0.1, slow)
            self.assertRaisesRegex(Refused, "NoName", book.send, "next", node="no", value=1)
            self.assertEqual(told, [{"to": "a", "next": 1}])
            slow = lambda: book.using("late", None, lambda: told.append("late"), place="root", slow=0.3)
            self.assertRaises(Interrupt, interrupted, 0.1, slow)
            book.send("dispose", node="late")
            self.assertEqual(told[1:], ["late"])
        self.assertEqual(told[2:], ["released"])

    def test_a_call_that_is_interrupted_before_the_end(self):
        told = []
        with self.book() as book:
            slow = lambda: book.using("a", None, lambda: told.append("a"), place="root", slow=0.3)
            self.assertRaises(Interrupt, interrupted, 0.1, slow)
        self.assertEqual(told, ["a"])

    def test_observers_are_let_go(self):
        with self.book() as book:
            for number in range(300):
                book.using(f"a{number}", lambda _: None, lambda: None)
                book.send("dispose", node=f"a{number}")
            self.assertEqual((len(book._observers), len(book._held)), (0, 0))
            book._sweep_at = 64
            book.open("root", place="root", kind="switch")
            book.open("leaf", place="source", of="root", kind="leaf")
            for number in range(300):  # each Switch closes unheard, as the next takes its place
                book.send("next", node="leaf", value=number)
                book.open(f"i{number}", lambda _: None, place="inner", of="root", kind="switch")
                book._sweep_at = min(book._sweep_at, 64)
            self.assertLessEqual(len(book._observers), 65)

    def test_a_name_that_is_given_again_is_not_heard_by_the_observer_before(self):
        old, new = [], []
        with self.book() as book:
            book.using("a", old.append, lambda: None)
            book.send("dispose", node="a")
            book.open("a", place="root", kind="leaf")
            book.send("next", node="a", value=1)
            book.send("dispose", node="a")
            book.open("a", new.append, place="root", kind="leaf")
            book.send("next", node="a", value=2)
        self.assertEqual((old, new), ([], [{"to": "a", "next": 2}]))

    def test_a_projection_is_told_to_the_operator(self):
        told = []
        with self.book() as book:
            book.open("f", told.append, place="root", kind="flat")
            book.open("leaf", place="source", of="f", kind="leaf")
            book.send("next", node="leaf", value=3)
        self.assertEqual(told, [{"to": "f", "project": 3}])

    def test_what_one_raises_keeps_no_other_from_being_called(self):
        told = []

        def fail():
            told.append("fails")
            raise OSError("busy")
        with self.book() as book:
            book.using("a", None, fail)
            book.hold("a", "r", lambda: told.append("r"))
            with self.assertRaises(OSError):
                book.send("dispose", node="a")
            book.using("b", None, lambda: told.append("b"))
        self.assertEqual(told, ["fails", "r", "b"])

    def test_a_book_whose_program_is_gone_releases_what_is_left(self):
        told = []
        with self.book() as book:
            book.using("a", None, lambda: told.append("a"))
            with self.assertRaises(Refused):
                book.send("next", node="a", value=1, die=True)
            self.assertEqual(told, [])
        self.assertEqual(told, ["a"])


@unittest.skipUnless(os.environ.get("CELLARCLIFF_LIBRARY"), "without the library")
class InProcess(Live):
    """The same over the library, but for what the program in Python alone can do."""

    def book(self):
        return Book()

    test_a_call_that_is_interrupted_leaves_every_answer_with_its_line = None
    test_a_call_that_is_interrupted_before_the_end = None
    test_a_book_whose_program_is_gone_releases_what_is_left = None

    def test_an_answer_that_is_longer_than_the_buffer(self):
        told = []
        with self.book() as book:
            for number in range(300):
                book.using(f"a-{number}-{'x' * 20}", None, lambda: told.append(True))
            self.assertEqual(len(book.send("list")["nodes"]), 300)
        self.assertEqual(len(told), 300)


if __name__ == "__main__":
    unittest.main()
