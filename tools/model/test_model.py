"""Tests of the model: `python3 -m unittest model.test_model` in tools/, in some seconds.

The stored scenarios and histories; what is proved of the definitions, on random histories: that what goes on from a base
goes on as before, and that the order of forced events leaves no trace but in numbers; and the programs' places taken by the
model itself, in another order.
"""
import pathlib
import random
import re
import unittest

from . import cases, try_pages
from .compare import difference, smallest
from .crossing import REFUSED, event_of, numbers_of
from .definitions import *
from .engines import Model, copy_of_the_model
from .explain import explain
from .history import History
from .plants import PLANTS
from .scenario import Canonical, Course, Differs, Longest
from .texts import Faulty, command_of, dump_of, events_of, json_of, scenario_of

data = pathlib.Path(__file__).resolve().parents[2] / 'examples/stored'
FEW = 120  # events or steps of a stored case: what searches a longer history takes too long


def stored(pattern, suffix):
    for file in sorted(data.glob(pattern)):
        if file.with_suffix(suffix).exists() and file.read_bytes().count(b'["' if file.suffix == '.dump' else b'"do"') <= FEW:
            yield file, file.with_suffix(suffix).read_text()


class Stored(unittest.TestCase):
    def test_histories_have_their_verdicts(self):
        for pattern in ('*.dump', 'histories/*.dump', 'cases/*.dump'):
            for file, wanted in stored(pattern, '.verdict'):
                if 'hubs-that-branch' not in file.name and 'visit' not in file.name:
                    self.assertEqual(verdict(events_of(file.read_bytes())), wanted, file.name)

    def test_scenarios_have_their_reports(self):
        for pattern in ('*.json', 'cases/*.json'):
            for file, wanted in stored(pattern, '.report'):
                self.assertEqual(Course(scenario_of(file.read_bytes()), Canonical()).report(), wanted, file.name)

    def test_mistakes_are_faulty_or_not_lawful(self):
        for file in sorted(data.glob('mistakes/*.input')):
            text = file.read_bytes()
            try:
                said = verdict(events_of(text)) if text.lstrip()[:1] == b'[' else scenario_of(text) and ''
            except Faulty:
                continue
            self.assertRegex(said, '^un', file.name)


class Laws(unittest.TestCase):
    def histories(self, many):
        for seed in range(many):
            rng = random.Random(seed)
            yield rng, cases.grown(rng, History(), 20)

    def test_a_history_goes_on_as_over_its_base(self):
        for rng, h in self.histories(60):
            k = over(base_of(h))
            self.assertTrue(agree(h, k))
            for _ in range(12):
                e = cases.candidate(rng, h)
                self.assertEqual((is_forced(h, e), is_allowed(h, e), may_follow(h, e)), (is_forced(k, e), is_allowed(k, e), may_follow(k, e)), e)
                if may_follow(h, e):
                    self.assertEqual(mail_of(h, e), mail_of(k, e))
                    h, k = h.then(e), k.then(e)
                    while due := forced(h):
                        self.assertEqual(due, forced(k))
                        e = rng.choice(due)[1]
                        h, k = h.then(e), k.then(e)
                    self.assertTrue(agree(h, k))

    def test_the_order_of_what_is_forced_leaves_no_trace(self):
        def left(h):
            return (open_nodes(h), [(r, is_held(h, r), is_waiting(h, r)) for r in resources(h)], debt(h),
                    [[note[2:] for note in notes_to(h, n)] for n in nodes(h)])
        for rng, h in self.histories(60):
            for _ in range(10):
                e = cases.candidate(rng, h)
                if not may_follow(h, e):
                    continue
                ways = []
                for _ in range(4):
                    k = h.then(e)
                    while due := forced(k):
                        k = k.then(rng.choice(due)[1])
                    ways.append(left(k))
                self.assertEqual(ways, ways[:1] * 4)

    def test_what_the_grammar_and_the_debt_say(self):
        for _, h in self.histories(60):
            self.assertTrue(is_lawful(h) and is_settled(h))
            self.assertTrue(all(is_grammatical(notes_to(h, n)) for n in nodes(h)))
            self.assertEqual(accepted_count(h), held_count(h) + waiting_count(h) + taken_count(h))
            before = len(h) + debt(h)
            while found := [n for n in open_nodes(h) if is_allowed(h, Close(n))] or [l for l in range(len(h)) if is_out(h, l)]:
                h = h.then(Close(found[0]) if not makes_lease(h, found[0]) else Return(found[0]))
                while due := forced(h):
                    h = h.then(due[0][1])
            self.assertLessEqual(len(h) + waiting_count(h), before)
            self.assertEqual((open_nodes(h), held_count(h)), ([], 0))

    def test_each_event_is_explained(self):
        for _, h in self.histories(30):
            lines = explain(list(h))
            self.assertTrue(all('  forced (' in it or '  allowed: ' in it for it in lines[:len(h)]))
        self.assertIn('neither: node 0 is not open, since it was gone at 1', explain(
            [Open('root', None, 'leaf'), End(0, COMPLETED), Item(0, 1)])[2])


class Texts(unittest.TestCase):
    def test_a_dump_is_read_as_it_was_written(self):
        for seed in range(100):
            events = cases.grown_history(random.Random(seed))
            self.assertEqual(events_of(dump_of(events)), events)

    def test_whole_numbers_names_and_nesting(self):
        for text in (b'-0', b'1.0', b'1e2', b'18446744073709551616'):
            self.assertNotIsInstance(json_of(text), int)
        for text in (b'1e400', b'NaN', b'"\\ud800"', b'\xff', b'', b'[' * 128 + b']' * 128, b'\xef\xbb\xbf1'):
            self.assertRaises(Faulty, json_of, text)
        self.assertEqual(json_of(b'{"a":1,"a":2}'), {'a': 2})
        self.assertRaises(Faulty, command_of, {'do': 'cancel', 'step': 'a'})
        self.assertRaises(Faulty, scenario_of, b'{"steps":[{"do":"drain","after":1}]}')


class Comparing(unittest.TestCase):
    def test_another_order_is_as_good(self):
        engine = Model(copy_of_the_model('other'), 'Last')
        for seed in range(60):
            limit = [b'{"limit":%d}' % seed] * (seed % 2)  # of the events since a checkpoint, which a live book makes by itself
            for kind, make in (('json', cases.scenario), ('lines', lambda rng: b''.join(it + b'\n' for it in limit + cases.session(rng)))):
                self.assertIsNone(difference(kind, engine, make(random.Random(seed))), (kind, seed))

    def test_what_only_some_order_fills_is_left_open(self):
        text = (pathlib.Path(__file__).parent / 'found/one-order-is-full.json').read_bytes()
        scenario = scenario_of(text)
        self.assertFalse(Course(scenario, Canonical()).was_full())
        self.assertTrue(Course(scenario, Longest()).was_full())

    def test_a_case_that_differs_is_made_smaller(self):
        _, turned = PLANTS['json: next emits another value']
        engine = turned(Model(copy_of_the_model('other')))
        text = next(it for it in (cases.scenario(random.Random(seed)) for seed in range(99)) if difference('json', engine, it))
        self.assertEqual(smallest('json', engine, text).count(b'"do"'), 2)

    def test_a_claim_of_the_page_can_fail(self):
        section, sentence, holds = try_pages.CLAIMS[0]
        self.assertFalse(holds(history([Open('root', None, 'leaf')]), None))

    def test_each_command_has_a_fault_planted(self):
        from .texts import COMMANDS
        for command in COMMANDS:
            self.assertTrue(any(command in name.split() for name in PLANTS), command)


class Numbers(unittest.TestCase):
    def test_the_header_is_followed(self):
        header = (pathlib.Path(__file__).resolve().parents[2] / 'crates/cellarcliff/cellarcliff.h').read_text(encoding='utf-8')
        statuses = {int(n): name for name, n in re.findall(r'\bCELLAR_(\w+) = (\d+)', header.partition('enum cellar_status {')[2].partition('};')[0])}
        self.assertEqual({n: name.replace('_', '').lower() for n, name in statuses.items() if n > 15},
                         {n: name.lower() for name, n in REFUSED.items() if n not in (26, 32)})

    def test_an_event_is_read_as_it_was_written(self):
        for seed in range(40):
            for e in cases.grown_history(random.Random(seed)):
                self.assertEqual(event_of(numbers_of(e)), e)
        for members in ([13, 0, 0, 0, 0, 0, 0], [0, 4, 0, 0, 0, 0, 0], [1, 0, 0, 0, 5, 0, 0], [0, 0, 0, 0, 0, 7, 0]):
            self.assertRaises(Differs, event_of, members)


if __name__ == '__main__':
    unittest.main()
