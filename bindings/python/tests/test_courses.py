"""The thousand courses of an engine that each crossing runs before anything else: by ctypes and by the extension."""
import json
import pathlib
import unittest

from tests import kits

FILE = pathlib.Path(__file__).resolve().parents[2] / "courses/courses.jsonl"
NOTHING = 2**64 - 1


def by_ctypes(events):
    from cellarcliff.rx._cellar import Cellar
    return Cellar(events)


def by_extension(events):
    """An engine that the extension made."""
    from cellarcliff.rx._cellar import Lent
    from cellarcliff.rx._crossing import C
    return Lent(C.Core(events))


def numbers(it):
    """Numbers that stand as texts of their digits."""
    if isinstance(it, list):
        return [numbers(each) for each in it]
    if isinstance(it, dict):
        return {name: numbers(each) for name, each in it.items()}
    return int(it) if isinstance(it, str) and it.isdigit() else it


class Course:
    def __init__(self, test, course, crossing):
        self.test, self.engine, self.keys, self.tickets = test, crossing(course["events"]), {}, [0]
        for self.at, step in enumerate(course["steps"]):
            getattr(self, f"does_{step[0]}")(*numbers(step[1:]))

    def key(self, it):
        if it is None:
            return NOTHING, NOTHING
        return tuple(it[:2]) if len(it) == 3 else self.keys[tuple(it)]

    def stack(self, words):
        by, depth, begun = words
        stack = self.engine.stack()
        stack[:] = [by, depth, self.tickets[begun]]
        return stack

    def handed(self, words, wanted):
        """What is handed out, whose ticket stands as its place."""
        is_handed, own, ticket, _, user, value, by, kind = words
        if is_handed and ticket not in self.tickets:
            self.tickets.append(ticket)
        got = [self.tickets.index(ticket), kind & 0xFFFFFFFF, user, value, by, kind >> 32] if is_handed else None
        self.test.assertEqual((got, own), (wanted.get("handed"), wanted.get("own", 0)), self.at)

    def does_step(self, stack, command, wanted):
        what, place, kind, flags, level, hub, node, user, value, by, spare = command
        status, a, closings, handed = self.engine.step(self.stack(stack), (
            what | place << 8 | kind << 16 | flags << 24 | level << 32, hub, *self.key(node), user, value, by, spare))
        self.handed(handed, wanted)
        self.test.assertEqual((status, a[6], closings), (wanted.get("status", 0), wanted.get("copies", 0), wanted.get("closings", [])), (self.at, command))
        for which, name in enumerate(("node", "other")):
            if wanted.get(name):
                self.keys[self.at, which] = a[2 * which], a[2 * which + 1]

    def does_next(self, stack, wanted):
        self.handed(self.engine.next(self.stack(stack)), wanted)

    def does_pass(self, stack, depth, now):
        self.engine.let_pass(self.stack(stack), depth, now)

    def does_stop(self, stack):
        self.engine.stop(self.stack(stack))

    def does_totals(self, wanted):
        self.test.assertEqual(list(self.engine.totals()), wanted, self.at)

    def does_finish(self, status):
        self.test.assertEqual(self.engine.finish(), status, self.at)


class Courses(unittest.TestCase):
    def each(self, crossing):
        many = 0
        for line in FILE.read_text().splitlines():
            many += len(json.loads(line)["steps"])
            Course(self, json.loads(line), crossing)
        self.assertGreater(many, 29000)

    @unittest.skipUnless(FILE.is_file(), "this is no checkout")
    def test_by_ctypes(self):
        try:
            by_ctypes(0)
        except OSError:
            self.skipTest("libcellarcliff is not there")
        self.each(by_ctypes)

    @unittest.skipUnless(FILE.is_file() and kits.is_exact(), "the extension is not there")
    def test_by_the_extension(self):
        kits.fresh_engine()
        self.each(by_extension)


if __name__ == "__main__":
    unittest.main()
