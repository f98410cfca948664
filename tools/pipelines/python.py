"""The Python package under random programs: by the extension, beside RxPY in the same process, and beside ctypes in another."""
import ast
import collections
import contextlib
import gc
import itertools
import json
import os
import pathlib
import select
import signal
import subprocess
import sys
import tempfile
import threading
import time

from . import programs
from .rows import WAITS, Rows, differs, planted

TOP = pathlib.Path(__file__).resolve().parents[2]
PYTHON = "/usr/bin/python3"  # which has RxPY, if any has
SECONDS = 10  # so long a program may take of a processor, and then it never ends
WAIT = 120  # so long by the clock, and then it stands
MOST_DEATHS = 200
BATCH = 200  # programs that a process is given at a time
PLANTED = 97  # faults are planted in programs of which both tell the same, at each seed that this divides
MANNERS = {"wild": ("wild", 1), "beside": ("beside", 1), "plain": ("plain", 1), "wild-threads": ("wild", 4), "plain-threads": ("plain", 4)}
#: How many of a hundred programs are of each.
SHARE = {"wild": 35, "beside": 35, "plain": 15, "wild-threads": 5, "plain-threads": 10}
IN_TURN = [it for _, it in sorted((n * 100 / many, it) for it, many in SHARE.items() for n in range(many))]
OURS, THEIRS = "cellarcliff.rx", "rx"


def manner_of(seed):
    return IN_TURN[seed % 100]


def program_of(seed):
    return programs.made(seed, *MANNERS[manner_of(seed)])


# the process that runs programs

class Late(BaseException):
    pass


def come_to(program, package, run=programs.run, exceeded=0):
    """What a program comes to over this package; each bound that it reaches exceeded, where that is planted."""
    from .world import World
    if package == OURS:
        gc.collect()
        gc.freeze()  # so that all of the program is collected again and again, at any moment
        gc.set_threshold(20, 2, 2)
    else:
        gc.set_threshold(700, 10, 10)
    world = World(package)
    world.exceeded = exceeded
    signal.setitimer(signal.ITIMER_VIRTUAL, SECONDS)
    try:
        run(program, world)
        return world.report()
    finally:
        signal.setitimer(signal.ITIMER_VIRTUAL, 0)


def run_text(program, world):
    """Does a program by its text."""
    space = {}
    exec(compile(programs.as_python(program), "program", "exec"), space)
    space["program"](world)


class Trial:
    """Runs programs in this process, and says what is wrong with them."""

    def __init__(self, with_rxpy):
        self.with_rxpy = with_rxpy
        self.counts = collections.defaultdict(collections.Counter)

    def over_rxpy(self, program, run=programs.run):
        """Of the names of rows, what RxPY comes to with those; none where it never ends, or is too long."""
        from .peer import with_rows

        def ask(names):
            try:
                with with_rows(names):
                    found = come_to(program, THEIRS, run)
            except Late:
                return None
            return None if found["is_long"] else found
        return ask

    def judged(self, program, seed=1, run=programs.run):
        """What it comes to, what is wrong, and the rows by which it differs from RxPY."""
        ours = come_to(program, OURS, run)
        wrong, rows = list(ours["found"]), []
        self.counts["words"].update(programs.forms(program))
        is_planted = seed % PLANTED == 0 and not wrong
        if is_planted and ours["reached"].get("a bound reached") and len(program["steps"]) == 1:
            self.plant_bound(program, run)
        self.counts["reached"].update(ours["reached"])
        if self.with_rxpy and program["manner"] == "beside" and not ours["is_long"]:
            from .peer import rows_of, telling_at_once
            known = Rows(rows_of(program), self.over_rxpy(program, run), telling_at_once(program))
            theirs = known.with_rows([])
            if theirs is not None:
                self.counts["compared"]["RxPY"] += 1
                what = differs(ours, theirs)
                if what:
                    rows = known.that_hold(ours)
                    wrong += [] if rows else [f"RxPY differs: {what}"]
                elif is_planted:
                    self.plant(known, ours)
        self.counts["excused"].update(rows)
        return ours, wrong, rows

    def plant_bound(self, program, run):
        """Whether it is seen that a bound which is reached is exceeded by one."""
        self.counts["planted"]["bound exceeded"] += 1
        if not come_to(program, OURS, run, 1)["found"]:
            self.counts["let pass"]["bound exceeded"] += 1

    def plant(self, known, ours):
        """Which rows let pass a fault that is planted where both tell the same."""
        for fault, planted_in in planted(ours):
            self.counts["planted"][fault] += 1
            for name in ["no row", *known.names]:
                if known.excuse(planted_in, [] if name == "no row" else [name]):
                    self.counts["let pass"][f"{fault}: {name}"] += 1
            if known.excuse(planted_in, known.names):
                self.counts["let pass"][f"{fault}: all rows together"] += 1
            if known.waits(planted_in):
                self.counts["let pass"][f"{fault}: {WAITS}"] += 1


def child(with_rxpy, at):
    """Reads what is to be done a line, and answers a line for each program of which there is something to say. In the file `at` stands which is at work."""
    def late(*_):
        raise Late
    signal.signal(signal.SIGVTALRM, late)
    out = os.fdopen(os.dup(1), "w")
    os.dup2(2, 1)

    def answer(**it):
        print(json.dumps(it), file=out, flush=True)
    trial, kept = Trial(with_rxpy), 0
    for line in sys.stdin:
        given = ast.literal_eval(line)
        if "program" in given:
            ours, wrong, rows = trial.judged(given["program"], run=run_text)
            theirs = trial.over_rxpy(given["program"], run_text)([]) if with_rxpy and given["program"]["manner"] == "beside" else None
            answer(ours=ours, theirs=theirs, wrong=wrong, rows=rows)
            continue
        for seed in given["seeds"]:
            os.pwrite(at, b"%20d" % seed, 0)
            try:
                ours, wrong, rows = trial.judged(program_of(seed), seed)
            except Late:
                answer(seed=seed, wrong=["never ends"])
                os._exit(0)
            is_shown = seed in given["shown"]
            if is_shown or wrong or rows:
                answer(seed=seed, wrong=wrong, rows=rows, ours=ours if is_shown else None)
        kept, before = gc.get_freeze_count(), kept
        if before and kept > before + BATCH + len(given["seeds"]):
            answer(seed=seed, wrong=["the process keeps what programs are made of"])
        answer(counts={name: it for name, it in trial.counts.items()})
        trial.counts.clear()


class Runner:
    """A process that runs programs, which is made anew where it dies."""

    def __init__(self, package, with_rxpy, **env):
        self.at = tempfile.TemporaryFile()
        self.words = [PYTHON, "-B", "-W", "ignore", "-X", "faulthandler", "-c",
                      f"from pipelines import python; python.child({with_rxpy}, {self.at.fileno()})"]
        self.env = {**os.environ, "PYTHONPATH": f"{TOP / 'tools'}:{package}", "PYTHONHASHSEED": "1", **env}
        self.process, self.deaths = None, 0

    def start(self):
        self.errors = tempfile.TemporaryFile("w+")
        self.process = subprocess.Popen(self.words, stdin=subprocess.PIPE, stdout=subprocess.PIPE, stderr=self.errors, env=self.env, bufsize=0,
                                        pass_fds=[self.at.fileno()])
        self.buffer = b""

    def send(self, what):
        if self.process is None:
            self.start()
        with contextlib.suppress(BrokenPipeError):  # the answer will be how it died
            self.process.stdin.write(f"{what!r}\n".encode())

    def seed(self):
        """The program at work, or that which was."""
        return int(os.pread(self.at.fileno(), 20, 0) or -1)

    def answer(self):
        """The next answer, or {"died": how}."""
        before, end = None, 0
        while b"\n" not in self.buffer:
            if self.seed() != before:
                before, end = self.seed(), time.monotonic() + WAIT
            ready = select.select([self.process.stdout], [], [], 1)[0]
            more = os.read(self.process.stdout.fileno(), 1 << 16) if ready else b""
            if not more and (ready or time.monotonic() > end):
                return self.died(not ready)
            self.buffer += more
        line, self.buffer = self.buffer.split(b"\n", 1)
        return json.loads(line)

    def died(self, is_late):
        if is_late:
            self.process.kill()
        status = self.process.wait()
        self.errors.seek(0)
        trace = self.errors.read()[-3000:]
        self.process, self.deaths = None, self.deaths + 1
        if self.deaths > MOST_DEATHS:
            raise SystemExit(f"it died {self.deaths} times, and so the trial ends: {trace}")
        return {"died": "stands" if is_late else signal.Signals(-status).name if status < 0 else f"status {status}", "trace": trace}

    def one(self, program):
        self.send({"program": program})
        return self.answer()

    def batch(self, seeds, shown=()):
        """Has these run; answers a function that gives each answer, and at last the counts."""
        left = list(seeds)
        self.send({"seeds": left, "shown": list(shown)})

        def answers():
            left = list(seeds)
            while left:
                it = self.answer()
                if "counts" in it:
                    yield it
                    return
                is_dead = "died" in it
                seed = self.seed() if is_dead else it["seed"]
                if is_dead:
                    it = {"seed": seed, "wrong": [f"dies: {it['died']}"]}
                yield it
                if it["wrong"] == ["never ends"]:
                    self.died(False)
                    is_dead = True
                if is_dead:
                    left = [other for other in left if other > seed]
                    if left:
                        self.send({"seeds": left, "shown": list(shown)})
        return answers()

    def end(self):
        if self.process is not None:
            self.process.kill()
            self.process.wait()


# the comparison

class Judge:
    """The processes that run programs, and what is found of each."""

    def __init__(self, words):
        self.ours = Runner(words.package, not words.without_rxpy)
        self.slow = None if words.without_ctypes else Runner(words.package, False, CELLARCLIFF_CTYPES="1")

    def batch(self, seeds, every):
        """Of these: findings as pairs of a seed and what is wrong, those that differ by a row, and the counts."""
        shown = [it for it in seeds if self.slow and it % every == 0]
        fast = self.ours.batch(seeds, shown)
        slow = self.slow.batch(shown, shown) if shown else ()
        found, told, rowed, counts = [], {}, 0, {}
        for it in fast:
            if "counts" in it:
                counts = it["counts"]
                continue
            found += [(it["seed"], what) for what in it["wrong"]]
            rowed += bool(it.get("rows"))
            told[it["seed"]] = it.get("ours")
        many = 0
        for it in slow:
            if "counts" not in it:
                many += 1
                found += [(it["seed"], f"ctypes: {what}") for what in it["wrong"]]
                what = self.differs(it["seed"], told.get(it["seed"]), it.get("ours"))
                found += [(it["seed"], what)] if what else []
        return found, rowed, counts, many

    def differs(self, seed, ours, slow):
        """What the extension and ctypes tell otherwise, where there is one thread. What an interrupt left comes with the next call that reaches the
        engine, which need not be the same for both."""
        if ours is None or slow is None or manner_of(seed).endswith("threads") or ours["is_long"] or slow["is_long"]:
            return None
        keys = ["heard", "raised", "made", "hooked", *([] if ours["reached"].get("interrupts") else ["held"])]
        what = next((it for it in keys if ours[it] != slow[it]), None)
        return f"ctypes differs: {what}" if what else None

    def judged(self, program):
        """One program by itself: what is wrong with it, and what it comes to."""
        found = self.ours.one(program)
        if "died" in found:
            return [f"dies: {found['died']}"], found
        wrong = found["wrong"]
        if self.slow:
            slow = self.slow.one(program)
            wrong += [f"ctypes: dies: {slow['died']}"] if "died" in slow else [f"ctypes: {it}" for it in slow["wrong"]]
            what = "ours" in slow and len(program["steps"]) == 1 and self.differs(0, found["ours"], slow["ours"])
            wrong += [what] if what else []
        return wrong, found

    def end(self):
        for it in (self.ours, self.slow):
            if it is not None:
                it.end()


def shrunk(judge, program, wrong, seconds=60):
    """The smallest program that was found of which the same is wrong."""
    end, is_less = time.monotonic() + seconds, True
    while is_less and time.monotonic() < end:
        is_less = False
        for less in programs.smaller(program):
            if time.monotonic() > end:
                break
            if wrong in judge.judged(less)[0]:
                program, is_less = less, True
                break
    return program


def show(words):
    """Prints programs, or the smallest of which the same is wrong, with what they come to."""
    judge = Judge(words)
    for seed in range(words.first, words.first + words.count):
        program = program_of(seed)
        wrong, found = judge.judged(program)
        print(f"# {seed} {manner_of(seed)}: {'; '.join(wrong) or 'nothing is wrong'}")
        if words.shrink and wrong:
            program = shrunk(judge, program, wrong[0], words.seconds or 60)
            wrong, found = judge.judged(program)
        print(programs.as_python(program))
        for name in "ours", "theirs":
            if found.get(name):
                print(f"# {name}: { {key: found[name][key] for key in ('notes', 'raised', 'held', 'found')} }")
        print(f"# rows: {', '.join(found.get('rows', ())) or 'none'}")
    judge.end()


class Sums:
    """What the processes found together."""

    def __init__(self, words):
        self.words, self.began, self.lock = words, time.monotonic(), threading.Lock()
        self.many = self.rowed = self.slow = 0
        self.first_of, self.kinds = {}, collections.Counter()
        self.counts = collections.defaultdict(collections.Counter)
        self.forms, self.manners = collections.Counter(), collections.Counter()
        self.seeds = (it for it in itertools.count(words.first) if not words.manner or manner_of(it) in words.manner.split(","))
        self.left = words.count

    def next(self):
        """The seeds of the next batch; none where it is over."""
        with self.lock:
            if self.words.seconds and time.monotonic() - self.began > self.words.seconds:
                return []
            found = list(itertools.islice(self.seeds, min(BATCH, self.left)))
            self.left -= len(found)
            return found

    def add(self, seeds, found, rowed, counts, slow):
        with self.lock:
            self.many, self.rowed, self.slow = self.many + len(seeds), self.rowed + rowed, self.slow + slow
            self.manners.update(map(manner_of, seeds))
            for name, those in counts.items():
                self.counts[name].update(those)
            for seed, what in found:
                self.kinds[what] += 1
                self.first_of[what] = min(seed, self.first_of.get(what, seed))
                if self.kinds[what] <= 20:
                    print(f"OTHERWISE {seed} {manner_of(seed)}: {what}", flush=True)

    def work(self):
        """What one of the threads does, each with processes of its own."""
        judge = Judge(self.words)
        while seeds := self.next():
            self.add(seeds, *judge.batch(seeds, self.words.every))
        judge.end()

    def print(self):
        told = {name: dict(it.most_common()) for name, it in self.counts.items()}
        compared, seconds = self.counts["compared"]["RxPY"], time.monotonic() - self.began
        print(f"{self.many} programs in {seconds:.0f} s, from {self.words.first}: " + ", ".join(f"{it} {n}" for it, n in self.manners.most_common()))
        print(f"{self.slow} by ctypes too; {compared} beside RxPY, of which {self.rowed} differ by a row of the page "
              f"({100 * self.rowed / max(1, compared):.2f} %): {told.get('excused', {})}")
        print(f"planted: {told.get('planted', {})}; let pass: {told.get('let pass', {})}")
        print("reached: " + ", ".join(f"{it} {n}" for it, n in sorted(self.counts["reached"].items())))
        forms = self.counts["words"]
        print(f"{len(forms)} of {len(programs.FORMS)} words; least often: " + ", ".join(f"{it} {n}" for it, n in forms.most_common()[:-9:-1])
              + "; never: " + (", ".join(sorted(set(programs.FORMS) - set(forms))) or "none"))
        for it, n in self.kinds.most_common():
            print(f"OTHERWISE {n} programs: {it}; the first is {self.first_of[it]}")
        if not self.kinds:
            print("ok nothing was found")
        return 1 if self.kinds or self.rowed > 0.02 * max(1, compared) else 0


def run(words):
    if "died" in Runner(words.package, False).one(program_of(0)):
        sys.exit("try-pipelines: the package does not run: CELLAR_LIBRARY names the library, tools/build-extension makes the extension")
    if words.print or words.shrink:
        return show(words)
    sums = Sums(words)
    threads = [threading.Thread(target=sums.work) for _ in range(words.jobs)]
    for it in threads:
        it.start()
    for it in threads:
        it.join()
    return sums.print()
