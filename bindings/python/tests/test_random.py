"""Pipelines at random: what is made is released once, nobody is told anything after an end, and nothing is left over.

CELLARCLIFF_PIPELINES says how many there are (400); RxPY is beside them where it is installed.
"""
import os
import threading
import unittest

from cellarcliff import rx
from tests import kits
from tests.pipelines import Course

MANY = int(os.environ.get("CELLARCLIFF_PIPELINES", "400"))


def is_empty(engine):
    return engine.core.kept == 0


@unittest.skipIf(kits.is_model(), "its history would be long, and each command looks at all of it")
class Random(unittest.TestCase):
    def setUp(self):
        self.kit = kits.ours()
        self.unhandled = []
        rx.set_error_hook(self.unhandled.append)

    def tearDown(self):
        rx.set_error_hook(None)

    def settled(self, course, seed):
        self.assertEqual(course.after_end, [], seed)
        self.assertEqual(course.released, {number: 1 for number in range(course.made)}, seed)
        counts = self.kit.engine.counts()
        self.assertEqual((counts.nodes, counts.held, counts.waiting, counts.accepted), (0, 0, 0, counts.taken), seed)
        self.assertTrue(is_empty(self.kit.engine), seed)

    def test_all_is_released_once(self):
        made = failures = told = 0
        for seed in range(MANY):
            course = Course(self.kit, seed).run()
            self.settled(course, seed)
            made, failures, told = made + course.made, failures + course.failures, told + len(course.trace)
        self.assertGreater(min(made, failures), MANY // 4)
        self.assertGreater(told, MANY)
        self.assertEqual([it for it in self.unhandled if not isinstance(it, (OSError, ArithmeticError))], [])

    def test_all_is_released_once_with_threads(self):
        for seed in range(MANY // 8):
            course = Course(self.kit, seed)
            observables, subscriptions = [course.source(4) for _ in range(3)], []
            for it in observables:
                course.subscribe(subscriptions, it)

            def drive():
                for _ in range(15):
                    course.act(subscriptions, observables)
            threads = [threading.Thread(target=drive) for _ in range(4)]
            for it in threads:
                it.start()
            for it in threads:
                it.join()
            for subscription, _ in list(subscriptions):
                course.attempt(subscription.dispose)
            course.after_end = []  # what is under way in one thread may be told while another disposes
            self.settled(course, seed)

    @unittest.skipIf(kits.rxpy is None, "RxPY is not installed")
    def test_what_is_told_is_what_rxpy_tells(self):
        differ = []
        for seed in range(MANY):
            a = Course(kits.theirs(), seed, raises=False, shares=False).run()
            b = Course(self.kit, seed, raises=False, shares=False).run()
            if self.told(a) != self.told(b):
                differ.append(seed)
            self.assertEqual(b.released, {number: 1 for number in range(b.made)}, seed)
        self.assertEqual(differ, [])

    @staticmethod
    def told(course):
        return [it for it in course.trace if it[0] not in ("made", "released", "finally")]


if __name__ == "__main__":
    unittest.main()
