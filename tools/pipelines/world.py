"""What a program of `tools/try-pipelines python` stands on: its subjects, callbacks, resources and observers, and a note of all they do.

A program is plain Python: it sets `deeds`, which say what a callback does at its n-th call, builds its observables, and gives `run` its
steps. World takes RxPY or this package by name, so one text runs over both.
"""
import collections
import gc
import importlib
import itertools
import os
import sys
import threading

LONGEST = 1500  # so many notes, and then nobody does anything from within any more


class Held(int):
    """An item that needs a resource."""

    resource = None


def says(value):
    """An item as a note has it; with `!` where the resource that it needs is released."""
    if isinstance(value, Held):
        return f"{int(value)}!" if value.resource.released else str(int(value))
    if hasattr(value, "kind") and hasattr(value, "accept"):
        return f"{value.kind}({says(getattr(value, 'value', None))})"
    if isinstance(value, dict):
        return "{" + ", ".join(f"{says(k)}: {says(it)}" for k, it in value.items()) + "}"
    if isinstance(value, (set, frozenset)):
        return "{" + ", ".join(sorted(map(says, value))) + "}"
    if isinstance(value, (list, tuple)):
        return "(" + ", ".join(map(says, value)) + ")"
    if value is None or isinstance(value, (bool, int, float, str)):
        return str(value)
    return type(value).__name__


class Resource:
    """Something that is to be released once, and used by nobody behind that."""

    def __init__(self, world, k):
        self.world, self.k, self.released = world, k, 0
        self.made_in, self.released_in = world.at, None  # steps
        world.resources.append(self)

    def holds(self, value):
        if self.released and self.world.is_ours:
            self.world.wrong("an item passes a resource that is released")
        if type(value) is int:
            value = Held(value)
            value.resource = self
        return value

    def dispose(self):
        self.released += 1
        self.released_in = self.world.at
        self.world.called(self.k, "release")


class Gate:
    """How many inner observables of one subscription are open at a time."""

    def __init__(self, world, most):
        self.world, self.most, self.many = world, most, 0

    def enter(self):
        self.many += 1
        self.world.reached["a bound reached"] += self.many == self.most
        if self.many > self.most and self.world.is_ours:
            self.world.wrong("more inner observables at a time than the bound")
        return self

    def dispose(self):
        self.many -= 1


class Observer:
    """An observer, which notes what it hears and whether it may."""

    def __init__(self, world, name, k):
        self.world, self.name, self.k = world, name, k
        self.heard, self.is_over, self.is_left, self.at_work, self.is_interrupted = [], False, False, None, False
        world.observers.append(self)

    def hears(self, note, *value):
        world, me = self.world, threading.get_ident()
        if world.is_ours:
            if self.at_work is not None:
                world.wrong("an observer is told in the midst of a note" if self.at_work == me else "two threads tell one observer")
            if self.is_over:
                world.wrong("an observer is told something behind its end")
            if self.is_left and world.many_threads == 1:
                world.wrong("an observer is told something behind dispose()")
        self.heard.append((note, *map(says, value)))
        self.at_work = me
        try:
            world.called(self.k, "observer")
        except BaseException as error:
            self.is_interrupted |= not isinstance(error, Exception)
            self.is_over = isinstance(error, Exception)
            raise
        finally:
            self.at_work = None

    def on_next(self, value):
        self.hears("next", value)

    def on_error(self, error):
        try:
            self.hears("error", type(error).__name__)
        finally:
            self.is_over = True

    def on_completed(self):
        try:
            self.hears("completed")
        finally:
            self.is_over = True


class Failure(Exception):
    """What a callback raises, or a subject fails with."""


class World:
    def __init__(self, package="cellarcliff.rx", engine=None):
        of = lambda name: importlib.import_module(f"{package}.{name}")
        self.rx, self.ops, self.is_ours = importlib.import_module(package), of("operators"), package != "rx"
        self.is_extension = self.is_ours and of("_crossing").IS_EXTENSION
        self.testing, self.kinds_of_subject = of("testing"), of("subject")
        self.engine = self.rx.use(engine) if self.is_ours else None
        self.clock = self.testing.TestScheduler()
        self.deeds, self.shared, self.pipelines, self.subjects = {}, [], [], []
        self.observers, self.resources, self.found, self.raised, self.hooked = [], [], [], [], []
        self.counts, self.subscriptions, self.reached = collections.Counter(), {}, collections.Counter()
        self.emitted, self.depth, self.is_spoiled, self.is_ordered, self.many_threads = [], threading.local(), False, True, 1
        self.lock, self.notes, self.is_calm = threading.RLock(), 0, False
        self.exceeded = 0  # by how much each bound is, where that is planted
        self.at = 0  # which step is under way: those that begin are less than 0
        self.kept, self.is_collected = set(), False  # whose subscriptions are not dropped; whether nothing stays where all is dropped
        if self.is_ours:
            self.rx.set_error_hook(lambda error: self.hooked.append(type(error).__name__))

    def wrong(self, what):
        if what not in self.found:
            self.found.append(what)

    # what programs are made of

    def subject(self, kind):
        of = self.kinds_of_subject
        it = {"Subject": of.Subject, "BehaviorSubject": lambda: of.BehaviorSubject(0), "ReplaySubject": lambda: of.ReplaySubject(2),
              "AsyncSubject": of.AsyncSubject}[kind]()
        self.subjects.append(it)
        return it

    def text(self, value):
        return says(value).replace("!", "")

    def item(self, k):
        return lambda value, *_: (self.called(k, "projection"), value)[1]

    def pair(self, k):
        return lambda one, value, *_: (self.called(k, "accumulator"), value)[1]

    def test(self, k, holds=lambda value: True):
        return lambda *given: (self.called(k, "predicate"), holds(*given))[1]

    def times(self, k, many):
        left = [many]

        def holds(*_):
            self.called(k, "predicate")
            left[0] -= 1
            return left[0] >= 0
        return holds

    def opens(self, k, make):
        return lambda *given: (self.called(k, "factory"), make(*given))[1]

    def action(self, k):
        return lambda *_: self.called(k, "finalizer")

    def using(self, k, make):
        """An observable whose items need a resource."""
        ops = self.ops
        return self.rx.using(lambda: (self.called(k, "factory"), Resource(self, k + 1))[1], lambda it: make().pipe(ops.map(it.holds)))

    def gated(self, most, operate):
        """An operator, of whose inner observables it is counted how many are open at a time."""
        rx = self.rx

        def gate(source):
            def begin(_):
                it = Gate(self, most - self.exceeded)
                return source.pipe(*operate(lambda k, make: self.opens(k, lambda *_: rx.using(it.enter, lambda _: make()))))
            return rx.defer(begin)
        return gate

    def concat_map(self, mapper):
        """RxPY has it in two, and a mapper that is called as its turn comes by a third."""
        if self.is_ours:
            return self.ops.concat_map(mapper)
        return self.rx.pipe(self.ops.map(lambda it: self.rx.defer(lambda _: mapper(it))), self.ops.merge(max_concurrent=1))

    # what is done

    def called(self, k, kind):
        with self.lock:
            n = self.counts[k]
            self.counts[k] = n + 1
            self.notes += 1
            if self.notes > LONGEST:
                self.is_calm = True
        deeds = () if self.is_calm else self.deeds.get(k, {}).get(n, ())
        if not deeds:
            return
        depth = self.depth.many = getattr(self.depth, "many", 0) + 1
        try:
            if kind != "observer":
                self.is_ordered = False  # what a function emits may come before what it answers
            for it in deeds:
                self.reached[f"{it[0]} in {kind}"] += 1
                self.reached[f"depth {min(depth, 9)}"] += 1
                self.do(*it)
        except BaseException as error:
            if kind != "observer" or isinstance(error, Exception):
                self.is_spoiled = True
            raise
        finally:
            self.depth.many -= 1

    def do(self, what, *of):
        getattr(self, f"do_{what}")(*of)

    def do_emit(self, i, value):
        self.emitted.append((threading.get_ident(), i, value))
        self.subjects[i].on_next(value)

    def do_end(self, i):
        self.subjects[i].on_completed()

    def do_fail(self, i):
        self.subjects[i].on_error(Failure("failed"))

    def do_subscribe(self, i, k):
        it = Observer(self, f"{i}:{k}", k)
        self.subscriptions[k] = it, None
        subscription = self.pipelines[i].subscribe_(it.on_next, it.on_error, it.on_completed, self.clock if i % 4 == 3 else None)
        if k in self.kept:
            self.subscriptions[k] = it, subscription

    def do_dispose(self, k):
        it, subscription = self.subscriptions.get(k, (None, None))
        if subscription is not None:
            if it.at_work is None:
                it.is_left = True
            subscription.dispose()

    def do_connect(self, i):
        self.shared[i].connect()

    def do_advance(self, seconds):
        self.clock.advance_by(seconds)

    def do_schedule(self, seconds, k):
        self.clock.schedule_relative(seconds, lambda *_: self.called(k, "scheduler"))

    def do_serve(self):
        """What an interrupt left is told with the next call."""
        self.rx.empty().subscribe_()

    def do_raise(self):
        raise Failure("raised")

    def do_interrupt(self):
        self.reached["interrupts"] += 1
        raise KeyboardInterrupt

    # the course of a program

    def step(self, at, it):
        self.at = at
        try:
            self.do(*it)
        except RecursionError:
            self.raised.append((at, "RecursionError"))
        except (Exception, KeyboardInterrupt) as error:
            self.raised.append((at, type(error).__name__))

    def begin(self, steps, is_calm=False):
        """Subscribes and connects; where it is calm, with nothing done from within."""
        self.is_calm = is_calm
        for at, it in enumerate(steps, -len(steps)):
            self.step(at, it)
        self.is_calm = False

    def run(self, *threads):
        """Does the steps of each thread."""
        self.many_threads = len(threads)
        if len(threads) == 1:
            for at, it in enumerate(threads[0]):
                self.step(at, it)
        else:
            gate = threading.Barrier(len(threads))

            def work(steps):
                gate.wait()
                for at, it in enumerate(steps):
                    self.step(at, it)
            all_of_them = [threading.Thread(target=work, args=(steps,)) for steps in threads]
            for it in all_of_them:
                it.start()
            for it in all_of_them:
                it.join()
        self.is_calm = True
        self.held = [[it.k, it.made_in, it.released_in] for it in self.resources]
        self.told = [[it.name, [list(note) for note in it.heard]] for it in self.observers]
        if self.is_ours:
            self.step("close", ("serve",))
        self.heard_before_the_end = [list(it.heard) for it in self.observers]

    def close(self):
        """Drops all, looks whether that is collected, closes what is open, and looks whether anything is left."""
        for it in self.subjects, self.shared, self.pipelines, self.subscriptions:
            it.clear()
        self.clock = None
        gc.collect()
        if self.is_collected and self.is_extension and self.engine.counts().nodes:
            self.wrong("something stays that nobody can tell anything")
        for _ in range(3):
            try:
                self.engine.close()
            except (Exception, KeyboardInterrupt) as error:
                self.raised.append(("close", type(error).__name__))
        counts = self.engine.counts()
        if (counts.nodes, counts.held, counts.waiting, counts.effects) != (0, 0, 0, 0) or counts.accepted != counts.taken:
            self.wrong("something is left in the engine")
        if self.engine.core.kept:
            self.wrong("the engine kept a reference")
        if any(it.released > 1 for it in self.resources):
            self.wrong("a resource is released twice")
        if any(not it.released for it in self.resources):
            self.wrong("a resource is never released")
        self.rx.set_error_hook(None)  # or this world is frozen with the next, and never collected

    def expects(self, ways, is_ordered):
        """Each observer, by its k, hears each item of each subject so many times: `ways` has that by subject. Where they are ordered, it hears in
        one thread those of a subject in the order in which they were emitted; of several in that of each."""
        if self.is_spoiled or self.notes > LONGEST:
            return
        for it, heard in zip(self.observers, self.heard_before_the_end):
            if it.is_interrupted or it.k not in ways:
                continue
            wanted = collections.Counter()
            for _, i, value in self.emitted:
                if ways[it.k].get(i):
                    wanted[str(value)] += ways[it.k][i]
            told = collections.Counter(note[1].rstrip("!") for note in heard if note[0] == "next" and note[1] != "None")
            if wanted - told:
                self.wrong("an item is lost")
            if told - wanted:
                self.wrong("an item is doubled, or told to another")
            if is_ordered and self.is_ordered and ways[it.k] and max(ways[it.k].values()) == 1 and wanted == told:
                at = {note[1].rstrip("!"): n for n, note in enumerate(heard)}
                last = {}
                for by, i, value in self.emitted:
                    if i in ways[it.k]:
                        if last.get((by, i), -1) > at[str(value)]:
                            self.wrong("items overtake one another")
                        last[by, i] = at[str(value)]

    def report(self):
        """What is compared, and what was reached. The program has ended, and holds nothing any more."""
        if self.is_ours:
            self.close()
        heard = [[it.name, list(map(list, heard))] for it, heard in zip(self.observers, self.heard_before_the_end)]
        return {"notes": self.told, "heard": heard, "raised": [it for it in self.raised if it[0] != "close"], "made": len(self.resources), "held": self.held,
                "found": self.found, "hooked": sorted(self.hooked), "reached": dict(self.reached), "is_long": self.notes > LONGEST}
