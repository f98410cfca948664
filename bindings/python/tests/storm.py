"""Threads that emit, subscribe, dispose and exchange at random, and what has to hold of them.

Each item says which thread emitted it, and as which of its own. So each observer, of each way that leads to it, is told the items of
one thread in order and none twice; it is told one at a time, and nothing behind an end; observers of one subject that stay hear all
items, and in one order. Each resource is released once: by its observer's end, its disposal, or close().
"""
import itertools
import random
import threading
from functools import partial

SUBJECTS = 4


class Planned(Exception):
    """What observers, mappers and releases raise now and then."""


class Resource(partial):
    """One whose release is a call of C."""

    dispose = partial.__call__


class Resources:
    """Resources that a factory returned, and their releases that began. Both happen in C alone, so that an interrupt comes before or
    behind, and never between. Each `fails`-th release raises."""

    def __init__(self, fails=0):
        self.released, self._numbers, self._fails = [], itertools.count(), fails
        release = self._release if fails else self.released.append
        self.make = map(Resource, itertools.repeat(release), self._numbers).__next__

    def _release(self, number):
        self.released.append(number)
        if number % self._fails == 0:
            raise Planned("a release")

    @property
    def made(self):
        return int(repr(self._numbers)[6:-1])

    def left(self):
        """How many were not released, and how many more than once."""
        return self.made - len(set(self.released)), len(self.released) - len(set(self.released))


class Observer:
    """One that checks what it is told."""

    def __init__(self, storm, chance=None, stays=False):
        self.storm, self.chance, self.stays = storm, chance, stays
        self.last, self.busy, self.is_over, self.order, self.many = {}, threading.Lock(), False, 0, 0

    def wrong(self, what, it=None):
        self.storm.wrong.append((what, it))

    def on_next(self, it):
        if not self.busy.acquire(False):
            self.wrong("two at a time", it)
            return
        try:
            if self.is_over:
                self.wrong("behind its end", it)
            way, (thread, number) = it
            if self.last.get((way, thread), -1) >= number:
                self.wrong("twice, or before an earlier one", (it, self.last[way, thread]))
            self.last[way, thread] = number
            self.many += 1
            if self.stays:
                self.order = hash((self.order, it))
        finally:
            self.busy.release()
        if self.chance is not None:
            self.act(self.chance.random())

    def act(self, at):
        """What an observer does from within an item now and then."""
        if at < 0.002:
            raise Planned("an observer")
        if at < 0.004:
            self.storm.subjects[0].subscribe(lambda _: None).dispose()
        elif at < 0.006 and len(self.last) < 50:
            self.storm.emit(self.chance)

    def on_error(self, error):
        if not isinstance(error, (Planned, TimeoutError)):
            self.wrong("an error", repr(error))
        self.on_completed()

    def on_completed(self):
        if self.is_over:
            self.wrong("a second end")
        self.is_over = True


class Storm:
    """Does it with this package, or with RxPY: `kit` is of kits.py, and its engine a fresh one."""

    def __init__(self, kit, seed=1, fails=997):
        self.rx, self.ops, self.engine = kit.rx, kit.ops, kit.engine
        Subject, ops = kit.Subject, kit.ops
        self.seed, self.resources, self.wrong, self.unhandled = seed, Resources(fails), [], []
        self.subjects, self.numbers, self.emitted = [Subject() for _ in range(SUBJECTS)], {}, {}
        self.shared = self.subjects[0].pipe(ops.share())
        self.published = self.subjects[1].pipe(ops.publish())
        self.end, self._making = threading.Event(), threading.Lock()
        self.subscribed, self.connection = 0, None
        if self.engine is not None:
            self.rx.set_error_hook(self.unhandled.append)

    def make(self):
        with self._making:
            return self.resources.make()

    def held(self, source, way):
        """A source with a resource, of which each item says by which way it came."""
        return self.rx.using(self.make, lambda _: source).pipe(self.ops.map(lambda it: (way, it)))

    def emit(self, chance):
        """The next item of this thread, into one of the subjects."""
        me = threading.get_ident()
        number = self.numbers[me] = self.numbers.get(me, -1) + 1
        at = chance.randrange(SUBJECTS)
        self.emitted[me, at] = self.emitted.get((me, at), 0) + 1
        try:
            self.subjects[at].on_next((me, number))
        except Planned:
            pass

    def pipeline(self, chance):
        rx, ops = self.rx, self.ops
        source, other, kind = chance.choice(self.subjects), chance.choice(self.subjects), chance.randrange(12)
        ways = itertools.count().__next__
        held = lambda it=source: self.held(it, ways())
        late = lambda: rx.defer(lambda _: held())
        if kind == 0:
            return held().pipe(ops.filter(lambda it: True), ops.take(5))
        if kind == 1:
            return source.pipe(ops.flat_map_latest(lambda _: late()))
        if kind == 2:
            return rx.merge(held(), self.shared.pipe(ops.map(lambda it: ("shared", it)))).pipe(ops.take_until(other.pipe(ops.skip(20))))
        if kind == 3:
            return source.pipe(ops.take(3), ops.flat_map(lambda _: late().pipe(ops.take(2))))
        if kind == 4:
            return rx.combine_latest(held(), held(other)).pipe(ops.map(lambda it: it[0]), ops.distinct_until_changed())
        if kind == 5:
            return rx.concat(held().pipe(ops.take(2)), late().pipe(ops.take(2)))
        if kind == 6:
            return held().pipe(ops.buffer_with_count(3), ops.map(lambda it: it[-1]))
        if kind == 7:
            return held().pipe(ops.timeout(0.001, late()))
        if kind == 8:
            return held().pipe(ops.group_by(lambda it: it[1][1] % 2), ops.flat_map(lambda it: it), ops.map(lambda it: ((it[0], it[1][1] % 2), it[1])))
        if kind == 9:
            return held().pipe(ops.finally_action(lambda: None), ops.debounce(0.0005))
        if kind == 10:
            return self.published.pipe(ops.map(lambda it: ("published", it)), ops.scan(lambda _, it: it, None))
        return late().pipe(ops.map(self.fails), ops.retry(3))

    @staticmethod
    def fails(it):
        if it[1][1] % 50 == 0:
            raise Planned("a mapper")
        return it

    def step(self, chance, mine):
        """One thing at random; `mine` are this thread's subscriptions."""
        at = chance.random()
        if at < 0.12 or not mine:
            mine.append(self.pipeline(chance).subscribe(Observer(self, chance)))
            self.subscribed += 1
        elif at < 0.24 or len(mine) > 6:
            mine.pop(chance.randrange(len(mine))).dispose()
        elif at < 0.25:
            self.connection = self.published.connect()
        elif at < 0.26 and self.connection is not None:
            self.connection.dispose()
        else:
            self.emit(chance)

    def work(self, seed):
        chance, mine = random.Random(seed), []
        while mine or not self.end.is_set():
            try:
                if self.end.is_set():
                    mine.pop().dispose()
                else:
                    self.step(chance, mine)
            except Planned:
                pass
            except Exception as error:
                self.wrong.append(("raised", repr(error)))

    def run(self, threads, seconds):
        """For so many seconds."""
        stay = [[Observer(self, stays=True) for _ in range(2)] for _ in self.subjects]
        for subject, observers in zip(self.subjects, stay):
            for it in observers:
                subject.pipe(self.ops.map(lambda it: (0, it))).subscribe(it)
        before = set(threading.enumerate())
        workers = [threading.Thread(target=self.work, args=(self.seed * 100 + it,)) for it in range(threads)]
        hook = threading.excepthook
        threading.excepthook = lambda it: None if it.exc_type is Planned else hook(it)  # what an observer raised that a timer told
        for it in workers:
            it.start()
        self.end.wait(seconds)
        self.end.set()
        while more := set(threading.enumerate()) - before:  # a timer that is at it tells what waits, and releases it behind that
            for it in more:
                if it.is_alive():  # else it is being started
                    it.join(120)
                    if it.is_alive():
                        self.wrong.append(("hangs", it.name))
                    before.add(it)
        threading.excepthook = hook
        for at, observers in enumerate(stay):
            emitted = sum(many for (_, of), many in self.emitted.items() if of == at)
            if any(it.many != emitted for it in observers):
                self.wrong.append(("not all items", (at, emitted, [it.many for it in observers])))
            if len({it.order for it in observers}) != 1:
                self.wrong.append(("two orders", at))
        self.close()

    def close(self):
        """What is left behind all that."""
        if self.engine is not None:
            for _ in range(1000):
                try:
                    self.engine.close()
                    break
                except Planned:
                    pass
            self.rx.set_error_hook(None)
            counts = self.engine.counts()
            if (counts.nodes, counts.held, counts.waiting, counts.effects, counts.accepted) != (0, 0, 0, 0, counts.taken):
                self.wrong.append(("left in the engine", counts))
        for what, many in zip(("unreleased", "released twice"), self.resources.left()):
            self.wrong += [(what, None)] * many
        self.wrong += [("unhandled", repr(it)) for it in self.unhandled if not isinstance(it, Planned)]

    def __str__(self):
        return (f"{sum(self.emitted.values()):,} items, {self.subscribed:,} subscriptions, {self.resources.made:,} resources, "
                f"{len(self.unhandled):,} errors heard by the hook, {len(self.wrong)} faults")
