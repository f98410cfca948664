"""What users do that no page names: threads, interrupts at any bytecode, signals, fork, exits, deep work, memory refused, finalizers.

CELLARCLIFF_INTERRUPTS says how many interrupts there are (300).
"""
import gc
import os
import random
import signal
import subprocess
import sys
import threading
import unittest

from cellarcliff import rx
from cellarcliff.rx import operators as ops
from cellarcliff.rx.disposable import Disposable
from cellarcliff.rx.subject import Subject
from tests import kits
from tests.kits import fresh_engine, is_exact, is_model
from tests.storm import Resources, Storm

INTERRUPTS = int(os.environ.get("CELLARCLIFF_INTERRUPTS", "300"))
SECONDS = float(os.environ.get("CELLARCLIFF_SECONDS", "0.3" if is_model() else "1"))


def endless(k):
    """Operators behind which an endless source follows a hot one, and what begins it."""
    ops = k.ops
    ends, fails, emits = (lambda it: it.on_completed()), (lambda it: it.on_error(ValueError())), (lambda it: it.on_next(0))
    return [("concat", ops.concat, ends), ("catch", ops.catch, fails), ("catch by a function", lambda it: ops.catch(lambda *_: it), fails),
            ("on_error_resume_next", ops.on_error_resume_next, fails), ("flat_map", lambda it: ops.flat_map(lambda _: it), emits),
            ("flat_map_latest", lambda it: ops.flat_map_latest(lambda _: it), emits),
            ("exclusive", lambda it: lambda source: source.pipe(ops.map(lambda _: it), ops.exclusive()), emits),
            ("merge of one at a time", lambda it: lambda source: source.pipe(ops.map(lambda _: it), ops.merge(max_concurrent=1)), emits)]


class Hostile(unittest.TestCase):
    def setUp(self):
        self.engine, self.unhandled, self.resources = rx.use(fresh_engine()), [], Resources()
        rx.set_error_hook(self.unhandled.append)

    def tearDown(self):
        rx.set_error_hook(None)
        self.engine.close()
        counts = self.engine.counts()
        self.assertEqual((counts.nodes, counts.held), (0, 0))
        if is_exact() or is_model():  # by ctypes an interrupt may lose what was taken and not told
            self.assertEqual((counts.waiting, counts.accepted), (0, counts.taken))

    def check(self):
        self.engine.close()
        self.assertEqual(self.resources.left(), (0, 0))

    def using(self, source):
        return rx.using(self.resources.make, lambda _: source)

    # threads

    def test_threads_at_random_lose_nothing(self):
        storm = Storm(kits.ours(), 5)
        storm.run(3 if is_model() else 8, SECONDS)
        self.assertEqual(storm.wrong, [])
        self.assertGreater(storm.subscribed, 0)

    def test_each_observer_is_told_one_at_a_time_and_in_order(self):
        subject, inside, wrong = Subject(), [], []
        told = [[] for _ in range(3)]

        def hear(n):
            def call(it):
                if n in inside:
                    wrong.append(it)
                inside.append(n)
                told[n].append(it)
                inside.remove(n)
            return call
        for n in range(3):
            subject.subscribe(hear(n))
        threads = [threading.Thread(target=lambda n=n: [subject.on_next((n, i)) for i in range(5 if is_model() else 2000)]) for n in range(4)]
        for it in threads:
            it.start()
        for it in threads:
            it.join()
        self.assertEqual(wrong, [])
        self.assertTrue(told[0] == told[1] == told[2])
        for n in range(4):
            of = [i for m, i in told[0] if m == n]
            self.assertEqual(of, list(range(len(of))))

    # interrupts

    def program(self, subject, trigger):
        """A busy program: subscribes, emits, exchanges, shares, ends and disposes."""
        using, held = self.using, []
        shared = using(subject).pipe(ops.share())
        held.append(shared.subscribe())
        held.append(shared.pipe(ops.map(lambda it: it), ops.filter(lambda it: True)).subscribe())
        held.append(subject.pipe(ops.flat_map_latest(lambda _: using(rx.never()))).subscribe())
        held.append(using(subject).pipe(ops.flat_map(lambda it: using(rx.of(it)))).subscribe())
        held.append(rx.merge(using(subject), using(rx.of(1, 2))).pipe(ops.take_until(trigger)).subscribe())
        for i in range(3):
            subject.on_next(i)
        trigger.on_next(1)
        for it in held[:-1]:
            it.dispose()

    def interrupted(self, at):
        """The program, with a KeyboardInterrupt at this bytecode of the package; whether there was one."""
        count, done = [0], [False]

        def local(frame, event, _):
            frame.f_trace_opcodes = True
            if event == "opcode":
                count[0] += 1
                if count[0] == at and not done[0]:
                    done[0] = frame.f_code.co_filename
                    raise KeyboardInterrupt
            return local

        def trace(frame, event, _):
            return local(frame, event, _) if "cellarcliff/rx" in frame.f_code.co_filename else None
        subject, trigger = Subject(), Subject()
        sys.settrace(trace)
        try:
            self.program(subject, trigger)
        except KeyboardInterrupt:
            pass
        finally:
            sys.settrace(None)
        return done[0]

    @unittest.skipIf(is_model(), "it would come within the model too")
    def test_an_interrupt_at_any_bytecode_loses_nothing(self):
        chance, at = random.Random(5), 0
        for _ in range(INTERRUPTS):
            at += chance.randrange(1, 40)
            self.resources = Resources()
            if not self.interrupted(at):
                at = 0
            self.goes_on(at)

    def goes_on(self, at=None):
        """Rx does, and nothing is left."""
        told, after = [], Subject()
        after.pipe(ops.flat_map(rx.just)).subscribe(told.append)
        after.on_next(1)
        self.assertEqual(told, [1], at)
        self.engine.close()
        unreleased, twice = self.resources.left()
        counts = self.engine.counts()
        self.assertEqual((counts.nodes, counts.held, twice), (0, 0, 0), at)
        if is_exact():
            self.assertEqual((unreleased, counts.waiting, counts.accepted), (0, 0, counts.taken), at)

    @unittest.skipIf(is_model() or not hasattr(signal, "setitimer"), "it would come within the model too")
    def test_interrupts_by_a_timer(self):
        chance = random.Random(7)
        here = sys._getframe()

        def interrupt(_, frame):
            if frame is not here:  # in the program
                raise KeyboardInterrupt
        before, hook = signal.signal(signal.SIGALRM, interrupt), sys.unraisablehook
        sys.unraisablehook = lambda it: None if it.exc_type is KeyboardInterrupt else hook(it)  # Python drops those of finalizers
        try:
            for _ in range(INTERRUPTS):
                self.resources = Resources()
                try:
                    signal.setitimer(signal.ITIMER_REAL, chance.random() * 0.002 + 0.00001, 0.01)  # again, where a finalizer swallowed it
                    while True:
                        self.program(Subject(), Subject())
                except KeyboardInterrupt:
                    signal.setitimer(signal.ITIMER_REAL, 0)
                self.goes_on()
        finally:
            signal.setitimer(signal.ITIMER_REAL, 0)
            signal.signal(signal.SIGALRM, before)
            sys.unraisablehook = hook

    # exits

    def test_an_exit_in_a_mapper_releases_all(self):
        for error in (SystemExit, KeyboardInterrupt, GeneratorExit):
            def leave(_):
                raise error
            for operator in (ops.map(leave), ops.flat_map(leave), ops.flat_map_latest(leave), ops.filter(leave), ops.scan(lambda *_: leave(0), 0)):
                subject = Subject()
                other = self.using(subject).subscribe()
                self.using(subject).pipe(operator).subscribe()
                with self.assertRaises(error):
                    subject.on_next(1)
                told = []
                subject.subscribe(told.append)
                subject.on_next(2) if operator is None else None
                other.dispose()
        self.check()

    def test_what_is_open_at_the_end_of_the_process_is_closed(self):
        if is_model():
            self.skipTest("the model is not there in a new process")
        program = ("from cellarcliff import rx\nfrom cellarcliff.rx.disposable import Disposable\n"
                   "rx.using(lambda: Disposable(lambda: print('released')), lambda _: rx.never()).subscribe()\nprint('end')")
        said = subprocess.run([sys.executable, "-c", program], stdout=subprocess.PIPE, text=True, check=True, timeout=60).stdout
        self.assertEqual(said, "end\nreleased\n")

    # deep work

    def test_an_observer_that_emits_the_next_item(self):
        many = 50 if is_model() else 20000
        subject, told = Subject(), []

        def hear(it):
            told.append(it)
            if it < many:
                subject.on_next(it + 1)
        subject.subscribe(hear)
        subject.on_next(0)
        self.assertEqual(told, list(range(many + 1)))

    def test_a_chain_of_subjects_raises_and_does_not_crash(self):
        if is_model():
            self.skipTest("too slow")
        first = Subject()
        last = first
        for _ in range(5000):
            after = Subject()
            last.subscribe(after)
            last = after
        told = []
        last.subscribe(told.append)
        try:
            first.on_next(1)
        except RecursionError:
            told.append(1)
        self.assertEqual(told[:1] or [1], [1])

    # observers that block, emit, dispose, raise from within

    def test_an_observer_that_blocks_holds_its_own_alone(self):
        slow, fast, told, begun, go_on = Subject(), Subject(), [], threading.Event(), threading.Event()
        slow.subscribe(lambda _: (begun.set(), go_on.wait(20)))
        fast.pipe(ops.flat_map(rx.just)).subscribe(told.append)
        thread = threading.Thread(target=slow.on_next, args=(1,))
        thread.start()
        begun.wait(20)
        fast.on_next(5)
        self.assertEqual(told, [5])
        slow.on_next(2)  # waits for who is at it, and keeps nobody waiting
        go_on.set()
        thread.join()

    def test_an_endless_source_behind_a_hot_one_is_told_as_it_emits(self):
        for make in kits.kits():
            k = make()
            for name, operator, begin in endless(k):
                with self.subTest(name, over=k.name):
                    subject, told, pulled = k.Subject(), [], []

                    def items():
                        while len(pulled) < 100:  # in a fault's way it would go on for ever
                            pulled.append(1)
                            yield len(pulled)
                    source = k.rx.from_iterable(items())
                    subject.pipe(operator(source), k.ops.take(3)).subscribe(told.append, told.append, lambda: told.append("completed"))
                    begin(subject)
                    self.assertEqual(told, [1, 2, 3, "completed"])
                    if k.engine is not None:  # RxPY pulls on behind the end
                        self.assertEqual(len(pulled), 3)

    def test_many_in_turn_do_not_recurse(self):
        many = 20 if is_model() else 3000
        for source, items in (rx.of(1), many), (rx.empty(), 0):
            log, told, hot = [], [], Subject()
            using = rx.using(lambda: (log.append("open"), Disposable(lambda: log.append("close")))[1], lambda _: source)
            rx.concat(hot, *[using] * many).subscribe(told.append, None, lambda: told.append("completed"))
            hot.on_completed()
            self.assertEqual((log, told), (["open", "close"] * many, [1] * items + ["completed"]))

    def test_an_observer_that_emits_disposes_and_raises(self):
        subject, told, held = Subject(), [], []

        def hear(it):
            told.append(it)
            if it == 1:
                subject.on_next(2)
                held[0].dispose()
                raise KeyError(it)
        held.append(self.using(subject).subscribe(hear))
        other = []
        subject.subscribe(other.append)
        with self.assertRaises(KeyError):
            subject.on_next(1)
        subject.on_next(3)
        self.assertEqual((told, other), ([1], [1, 2, 3]))
        self.check()

    def test_a_release_that_subscribes_and_emits(self):
        subject, told = Subject(), []

        def release():
            subject.subscribe(told.append)
            subject.on_next("released")
        rx.using(lambda: Disposable(release), lambda _: subject).subscribe().dispose()
        self.assertEqual(told, ["released"])

    # memory refused

    @unittest.skipIf(sys.version_info >= (3, 12), "this CPython gives a function's code back twice where it cannot make the function")
    def test_memory_that_is_refused_loses_nothing(self):
        try:
            from _testcapi import remove_mem_hooks, set_nomemory
        except ImportError:
            self.skipTest("this Python has no hooks for memory")
        if is_model() or not is_exact():
            self.skipTest("what is between two calls of the library asks for memory itself")
        for first in range(0, 400, 3):
            resources = self.resources = Resources()
            subject, told = Subject(), []
            using = self.using(subject)
            try:
                set_nomemory(first, first + 1)
                try:
                    held = using.pipe(ops.flat_map(lambda it: rx.just(it))).subscribe(told.append)
                    subject.on_next(1)
                    held.dispose()
                finally:
                    remove_mem_hooks()
            except (MemoryError, SystemError, RuntimeError):  # what Python's own locks raise then
                pass
            del self.unhandled[:]
            self.engine.close()
            self.assertIn(resources.left(), ((0, 0), (1, 0)), first)
            counts = self.engine.counts()
            self.assertEqual((counts.nodes, counts.held, counts.waiting), (0, 0, 0), first)

    # finalizers

    @unittest.skipIf(is_model(), "the collector would run within the model all the time")
    def test_a_finalizer_that_disposes_and_emits(self):
        subject, told = Subject(), []
        subject.subscribe(told.append)

        class Owner:
            def __init__(self, subscription):
                self.me, self.subscription = self, subscription

            def __del__(self):
                self.subscription.dispose()
                subject.on_next(-1)
        many = 500
        before = gc.get_threshold()
        gc.set_threshold(5, 2, 2)
        try:
            for i in range(many):
                Owner(self.using(subject).subscribe())
                subject.on_next(i)
        finally:
            gc.set_threshold(*before)
        gc.collect()
        self.assertEqual((len(told), len(self.resources.released)), (2 * many, many))

    @unittest.skipIf(is_model(), "the model is not there in a new process")
    def test_what_is_shared_within_create_is_collected_in_any_order(self):
        program = """
import gc
from cellarcliff import rx
from cellarcliff.rx import operators as ops
from cellarcliff.rx.subject import Subject
gc.set_threshold(20, 2, 2)  # so a part of what goes is older than the rest
for _ in range(5):
    subject = Subject()
    rx.create(lambda to, scheduler=None: subject.pipe(ops.share(), ops.min()).subscribe_(to.on_next, to.on_error, to.on_completed)).subscribe()
    subject = None
    gc.collect()
    rx.current().close()
print(rx.current().counts()[:3], rx.current().core.kept)"""
        ran = subprocess.run([sys.executable, "-c", program], stdout=subprocess.PIPE, text=True, timeout=60)
        self.assertEqual((ran.returncode, ran.stdout), (0, "(0, 0, 0) 0\n"))

    # fork

    @unittest.skipUnless(hasattr(os, "fork"), "there is no fork")
    def test_children_of_a_busy_process_work(self):
        subject, end = Subject(), threading.Event()
        subject.pipe(ops.flat_map(rx.just)).subscribe()
        threads = [threading.Thread(target=lambda: [subject.on_next(1) for _ in iter(end.is_set, True)]) for _ in range(2)]
        for it in threads:
            it.start()
        try:
            for _ in range(3 if is_model() else 20):
                child = os.fork()
                if child == 0:
                    signal.alarm(20)
                    told, mine = [], Subject()
                    mine.pipe(ops.flat_map(rx.just)).subscribe(told.append)
                    mine.on_next(1)
                    os._exit(0 if told == [1] else 3)
                self.assertEqual(os.waitpid(child, 0)[1], 0)
        finally:
            end.set()
            for it in threads:
                it.join()


if __name__ == "__main__":
    unittest.main()
