"""What runs for days does not grow: items, subscriptions and shares without end, in tables that stay small.

CELLARCLIFF_ITEMS says how many items there are (20,000).
"""
import gc
import os
import resource
import unittest

from cellarcliff import rx
from cellarcliff.rx import operators as ops
from cellarcliff.rx.disposable import Disposable
from cellarcliff.rx.subject import Subject
from tests.kits import fresh_engine, is_model

ITEMS = int(os.environ.get("CELLARCLIFF_ITEMS", "40" if is_model() else "20000"))


def sizes(engine):
    return [engine.core.kept]


class Days(unittest.TestCase):
    def grows_not(self, step, every):
        """Takes steps, and looks at the tables and at the memory of the process, which is in kB."""
        largest, early = 0, 0
        for number in range(ITEMS // every):
            step(number)
            largest = max(largest, *sizes(self.engine))
            if number == ITEMS // every // 4:
                early = resource.getrusage(resource.RUSAGE_SELF).ru_maxrss
        late = resource.getrusage(resource.RUSAGE_SELF).ru_maxrss
        self.assertLess(largest, 16)
        self.assertLess(late - early, 8000)

    def setUp(self):
        self.engine = rx.use(fresh_engine())

    def tearDown(self):
        self.engine.close()
        self.assertEqual(self.engine.counts().nodes, 0)

    def test_items(self):
        told, subject = [0], Subject()

        def hear(_):
            told[0] += 1
        subject.pipe(ops.map(lambda it: [it]), ops.flat_map(lambda it: rx.just(it)), ops.filter(lambda it: it)).subscribe(hear)
        self.grows_not(subject.on_next, 1)
        self.assertEqual(told, [ITEMS])

    def test_subscriptions_and_shares(self):
        released, subject = [0], Subject()

        def release():
            released[0] += 1
        feed = rx.using(lambda: Disposable(release), lambda _: subject)

        def step(number):
            shared = feed.pipe(ops.share())
            both = [shared.subscribe(), shared.pipe(ops.take(1)).subscribe()]
            subject.on_next(number)
            both[0].dispose()
        self.grows_not(step, 10)
        self.assertEqual(released, [ITEMS // 10])

    def test_engines(self):
        gc.collect()
        for _ in range(100):
            rx.use(fresh_engine()).counts()
        self.assertLess(gc.collect(), 100)  # as many cycles, or more, where each finds the library anew


if __name__ == "__main__":
    unittest.main()
