"""Tests of the engine's definitions: `python3 -m unittest model.test_engine` in tools/, in some seconds.

What they say of a few commands, as crates/cellarcliff/cellarcliff.h has it; and the laws of the engine on random courses, where the library's
place is taken by the definitions themselves, in another order.
"""
import random
import unittest
from collections import Counter
from unittest import mock

from .cellar import Told
from .courses import Course
from .engine import *
from .history import forget
from .scenario import Canonical, Differs, Last
from .texts import dump_of
from .turns import Stack, Turns


class Counted(Turns):
    """It counts the copies and last effects that came out of the lanes."""

    def __init__(self, *words):
        super().__init__(*words)
        self.given, self.heard = 0, Counter()

    def hear(self, e, times=1):
        self.given += e.carries * times
        if e.kind in (E_COMPLETED, E_FAILED, E_GONE, E_MERGED, E_RELEASE):
            self.heard[e.kind in (E_RELEASE, E_MERGED) and e.kind, e.user] += times

    def take(self, name, inside, by):
        effect = super().take(name, inside, by)
        if effect:
            self.hear(effect)
        return effect

    def give_up(self, name, by, untold):
        if untold:
            self.hear(untold, -1)
        return super().give_up(name, by, untold)


class Itself:
    """The definitions in the place of the library, in another order: where that is free, the last comes first."""

    def new(self, limit):
        self.engine, self.seen, self.slots = Counted(Last(), limit or None), 0, {}
        self.kept, self.roles, self.closed = 0, Counter(), ()
        return DONE

    def key(self, named):
        return (0, named)

    def step(self, stack, c=None):
        it = self.engine.step(stack, c)
        made, handed = it.made, (it.task.effect, it.task.ticket, int(it.is_own)) if it.task else ()
        if made.status or c is None:
            return Told(made.status, *(None, None, 0, 0, 0, ()), *handed)
        self.slots |= {n: 0 for n in (made.node, made.other) if n is not None}
        self.kept += made.copies
        self.roles.update(roles_of(c))
        self.closed = made.closings
        return Told(0, made.node, made.other, made.is_connected, made.hub, made.copies, made.closings, *handed)

    def ended(self, what, stack, *now):
        (self.engine.let_pass if now else self.engine.stop)(stack, *now)

    def closings(self, start, room):
        return list(self.closed[start:start + room])

    def dump(self, size):
        text = dump_of(list(self.engine.h))
        return (8, 0, b'') if self.engine.since else (7, len(text), b'') if size < len(text) else (0, len(text), text)

    def events(self):
        found = self.engine.h.behind(self.seen - 1)
        self.seen = len(self.engine.h)
        return found

    def totals(self):
        return self.engine.totals()

    def finish(self):
        return DONE if self.engine.is_done() else UNTAKEN

    def drop(self):
        pass


def roles_of(c):
    """The last effects that an accepted command owes: to a root, to a FlatMap or Switch, for a tag."""
    if c.what in (OPEN, USING) and c.place == 0:
        yield False, c.user
    if c.what == OPEN and c.kind in (FLAT, SWITCH):
        yield E_MERGED, c.user
    if c.what in (USING, HOLD):
        yield E_RELEASE, c.value


class Examples(unittest.TestCase):
    def setUp(self):
        self.engine, self.one, self.two = Turns(Canonical()), Stack(1, 1), Stack(2, 1)

    def make(self, what, stack=None, **words):
        it = self.engine.step(stack or self.one, Command(what, **words))
        self.assertEqual(it.made.status, DONE)
        return it

    def told(self, stack, it=None):
        """What is handed out, begun and asked for on, until there is nothing more."""
        found, it = [], it or self.engine.step(stack)
        while it.task:
            found.append((it.task.effect.kind, it.task.effect.user, it.task.effect.value))
            stack.begun = it.task.ticket
            it = self.engine.step(stack)
        return found

    def begins(self, it, stack=None):
        """Goes on from within the effect."""
        stack = stack or self.one
        stack.begun, stack.depth = it.task.ticket, stack.depth + 1

    def test_what_is_disposed_of_in_an_observer_is_released_there(self):
        root = self.make(USING, user=7, value=42).made.node
        leaf = self.make(OPEN, place=1, node=root, user=8, flags=WISHES).made.node
        item = self.make(NEXT, node=leaf, value=99)
        self.assertEqual((item.task.effect, item.is_own, item.made.copies), (Effect(E_NEXT, 7, 99, 1, 1), True, 1))
        self.begins(item)
        gone = self.make(DISPOSE, node=root)
        self.assertEqual((gone.made.closings, self.told(self.one, gone)), ((8,), [(E_RELEASE, 42, 0)]))
        self.one.depth = 1
        self.assertEqual(self.told(self.one), [(E_GONE, 7, 0)])
        self.assertTrue(self.engine.is_done())

    def test_another_thread_waits_for_who_serves(self):
        leaf = self.make(OPEN, user=7).made.node
        item = self.make(NEXT, node=leaf, value=1)
        self.assertIsNone(self.make(NEXT, self.two, node=leaf, value=2).task)
        self.assertEqual(self.told(self.one, item), [(E_NEXT, 7, 1), (E_NEXT, 7, 2)])

    def test_what_was_not_begun_comes_again(self):
        leaf = self.make(OPEN, user=7).made.node
        item = self.make(NEXT, node=leaf, value=1)
        again = self.make(NEXT, node=leaf, value=2)
        self.assertEqual((again.task, again.is_own), (item.task, False))
        self.assertEqual(self.told(self.one, again), [(E_NEXT, 7, 1), (E_NEXT, 7, 2)])

    def test_what_a_stopped_call_did_not_begin_another_stack_tells(self):
        leaf = self.make(OPEN, user=7).made.node
        self.make(NEXT, node=leaf, value=1)
        self.assertIsNone(self.make(NEXT, self.two, node=leaf, value=2).task)
        self.engine.stop(self.one)
        self.two.depth = 2
        self.assertEqual(self.told(self.two), [])
        self.two.depth = 1
        self.assertEqual(self.told(self.two), [(E_NEXT, 7, 1), (E_NEXT, 7, 2)])

    def test_what_a_deeper_call_did_not_come_to_the_outer_one_tells(self):
        first, second = (self.make(OPEN, user=word).made.node for word in (7, 8))
        self.begins(self.make(NEXT, node=first, value=1))
        self.assertTrue(self.make(NEXT, node=second, value=2).is_own)
        self.one.depth = 1
        self.assertEqual(self.told(self.one), [(E_NEXT, 8, 2)])

    def test_what_is_behind_an_end_comes_before_the_call_returns_where_its_lane_passes(self):
        for now, here in (True, [(E_NEXT, 7, 2)]), (False, []):
            with self.subTest(now):
                self.setUp()
                leaf = self.make(OPEN, user=7).made.node
                item = self.make(NEXT, node=leaf, value=1)
                self.make(NEXT, self.two, node=leaf, value=2)
                self.begins(item)
                self.engine.let_pass(self.one, 1, now)
                self.assertEqual(self.told(self.one), here)
                self.one.depth = 1
                self.assertEqual(self.told(self.one), [(E_NEXT, 7, 2)][len(here):])

    def test_a_lane_that_is_due_whole_stays_so(self):
        root = self.make(OPEN, user=7).made.node
        self.make(HOLD, node=root, value=42)
        self.begins(self.make(NEXT, node=root, value=1))
        self.begins(self.make(DISPOSE, node=root))
        self.engine.let_pass(self.one, 1, False)
        self.engine.let_pass(self.one, 2, True)
        self.one.depth = 1
        self.assertEqual(self.told(self.one), [(E_GONE, 7, 0)])

    def switched(self):
        """A Switch with an inner that holds something, its source, and another root."""
        merging, other = self.make(OPEN, kind=SWITCH, user=7).made.node, self.make(OPEN, user=8).made.node
        source = self.make(OPEN, place=1, node=merging).made.node
        self.begins(self.make(NEXT, node=source, value=1))
        inner = self.make(OPEN, place=2, node=merging).made.node
        self.make(HOLD, node=inner, value=42)
        self.one.depth = 1
        self.assertEqual(self.told(self.one), [])
        return merging, source, inner, other

    def opens(self, merging, source):
        """The source emits, and an inner is opened: what is told before that comes back."""
        self.begins(self.make(NEXT, node=source, value=3))
        return self.told(self.one, self.make(OPEN, place=2, node=merging))

    def test_what_is_due_further_out_comes_before_an_inner_in_its_lane(self):
        merging, source, inner, other = self.switched()
        item = self.make(NEXT, node=other, value=2)
        self.make(COMPLETE, node=inner)
        self.begins(item)
        self.assertEqual(self.opens(merging, source), [(E_RELEASE, 42, 0)])

    def test_what_is_due_inside_comes_before_an_inner_but_not_another_stacks(self):
        for stack, here in ((1, [(E_RELEASE, 42, 0)]), (2, [])):
            with self.subTest(stack):
                self.setUp()
                merging, source, inner, other = self.switched()
                outer = self.one if stack == 1 else self.two
                self.begins(self.make(NEXT, outer, node=inner, value=2), outer)
                item = self.make(NEXT, outer, node=other, value=4)
                self.make(COMPLETE, outer, node=inner)
                self.begins(item, outer)
                self.assertEqual(self.opens(merging, source), here)

    def test_an_item_waits_where_its_turn_has_something_else(self):
        first, second = (self.make(OPEN, user=word).made.node for word in (7, 8))
        self.assertIsNone(self.engine.step(self.one).task)
        self.engine.stop(self.one)
        queued = self.make(NEXT, node=first, value=1, flags=QUEUES)
        self.assertEqual((queued.task.effect.value, queued.is_own), (1, False))
        self.one.begun = queued.task.ticket
        behind = self.make(NEXT, node=second, value=2)
        self.assertEqual((behind.task.effect.value, behind.is_own), (2, False))

    def test_what_is_projected_has_a_lane_of_its_own(self):
        merging = self.make(OPEN, kind=FLAT, user=7).made.node
        leaf = self.make(OPEN, place=1, node=merging).made.node
        item = self.make(NEXT, node=leaf, value=5)
        self.begins(item)
        inner = self.make(OPEN, place=2, node=merging).made.node
        told = self.make(NEXT, node=inner, value=6)
        self.assertEqual((item.task.effect.kind, told.task.effect.kind), (E_PROJECT, E_NEXT))
        self.begins(told)
        self.make(COMPLETE, node=leaf)
        ended = self.make(COMPLETE, node=inner)
        self.assertEqual((ended.task, ended.made.copies), (None, 0))
        self.one.depth = 2
        self.assertEqual(self.told(self.one), [(E_COMPLETED, 7, 0)])
        self.one.depth = 1
        self.assertEqual(self.told(self.one), [(E_MERGED, 7, 0)])

    def test_an_item_that_is_all_that_comes_is_handed_out_at_once(self):
        share = self.make(OPEN, kind=SHARED, value=1, user=7)
        leaf = self.make(OPEN, place=1, node=share.made.other).made.node
        item = self.make(NEXT, node=leaf, value=4)
        self.assertEqual((item.is_own, self.told(self.one, item)), (True, [(E_NEXT, 7, 4)]))
        queued = self.make(NEXT, node=leaf, value=5, flags=QUEUES)
        self.assertEqual((queued.is_own, self.told(self.one, queued)), (False, [(E_NEXT, 7, 5)]))
        self.make(OPEN, kind=SHARED, value=1, user=8)
        item = self.make(NEXT, node=leaf, value=6)
        self.assertEqual((item.is_own, item.made.copies, self.told(self.one, item)), (False, 2, [(E_NEXT, 7, 6), (E_NEXT, 8, 6)]))

    def test_what_is_open_is_shut_one_by_one(self):
        self.make(OPEN, user=7)
        lease = self.make(LEASE, node=self.make(USING, user=8, value=42).made.other).made.other
        self.make(SHUT)
        self.assertEqual(self.engine.made(Command(GIVE_BACK, node=lease)).status, REFUSED['NoLease'])
        self.assertEqual([self.told(self.one, self.make(SHUT)) for _ in range(2)], [[(E_GONE, 7, 0)], [(E_GONE, 8, 0), (E_RELEASE, 42, 0)]])
        self.assertEqual(self.engine.made(Command(SHUT)).status, REFUSED['Gone'])

    def test_a_full_history_wants_memory_for_a_checkpoint(self):
        self.engine = Turns(Canonical(), 6)
        leaf = self.make(OPEN, user=7).made.node
        self.engine.has_memory = False
        item = Command(NEXT, node=leaf, value=5)
        self.assertEqual([self.engine.made(item).status for _ in range(6)], [DONE] * 4 + [REFUSED['NoMemory']] * 2)
        self.engine.has_memory = True
        self.assertEqual([self.engine.made(item).status, self.engine.made(Command(USING, value=42)).status], [DONE, DONE])
        while (status := self.engine.made(Command(OPEN)).status) == DONE:
            pass
        self.assertEqual(status, REFUSED['Full'])

    def test_a_share_below_a_share_has_an_earlier_hub(self):
        outer = self.make(OPEN, kind=SHARED, value=1, level=1).made
        inner = self.make(OPEN, kind=SHARED, value=2, place=1, node=outer.other).made
        self.assertEqual((outer.is_connected, outer.hub, inner.hub), (1, 815, 783))
        again = self.engine.made(Command(OPEN, kind=SHARED, value=1, place=1, node=inner.other))
        self.assertEqual(again.status, REFUSED['HubOrder'])

    def test_a_number_that_is_none_is_refused_before_all_else(self):
        for c in (Command(18), Command(OPEN, kind=7), Command(OPEN, place=4), Command(NEXT, flags=WISHES), Command(OPEN, flags=OF_PROJECTIONS),
                  Command(DISPOSE, spare=1), Command(OPEN, place=1, flags=LANE_OF_NODE)):
            self.assertEqual(self.engine.made(c).status, NO_SUCH_CODE)


class Laws(unittest.TestCase):
    def test_courses_in_another_order(self):
        for seed in range(60):
            it = Itself()
            Course(random.Random(seed), it).run(20)
            forget()
            if it.finish() == DONE:  # each value was given back, and each role had its last effect
                self.assertEqual((it.engine.given, +it.engine.heard), (it.kept, it.roles), seed)

    def test_what_is_answered_otherwise_is_found(self):
        faults = {'step': lambda it: it._replace(copies=it.copies + (it.copies > 0)), 'step ': lambda it: it.effect and it._replace(
            effect=it.effect._replace(by=it.effect.by ^ 1)) or it, ' step': lambda it: it._replace(own=0),
                  'totals': lambda it: (*it[:7], it[7] + (it[7] > 2)), 'finish': lambda it: DONE}
        for name, turn in faults.items():
            call = name.strip()
            was = getattr(Itself, call)
            with self.subTest(name), mock.patch.object(Itself, call, lambda s, *words: turn(was(s, *words))), self.assertRaises(Differs):
                for seed in range(60):
                    Course(random.Random(seed), Itself()).run(30)


if __name__ == '__main__':
    unittest.main()
