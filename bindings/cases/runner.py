"""Runs cases over RxPY, or over a package with its names, in virtual time.

Usage: runner.py PACKAGE FILE ..; PACKAGE is rx or cellarcliff.rx. Prints an object with, for each case by its name, what was told (a
list), or the name of what the package lacks, or what was raised. README.md beside it has the format.
"""
import importlib
import json
import pathlib
import sys

FOLDER = pathlib.Path(__file__).resolve().parent
WORDS = json.loads((FOLDER / "words.json").read_text())
lacking = []  # what the package was found to lack in this case


class Names:
    """A module of the package; a name that it lacks is noted."""

    def __init__(self, name):
        self._module = importlib.import_module(sys.argv[1] + name)

    def __getattr__(self, name):
        try:
            return getattr(self._module, name)
        except (AttributeError, NotImplementedError):
            lacking.append(name)
            raise


if sys.argv[1] != "rx":
    kits = importlib.import_module("tests.kits")
rx, ops, subject, disposable, testing = map(Names, ("", ".operators", ".subject", ".disposable", ".testing"))

# functions on items, values, errors

FUNCTIONS = {"identity": lambda n: lambda value, *_: value, "add": lambda n: lambda value, *_: value + n,
             "times": lambda n: lambda value, *_: value * n, "mod": lambda n: lambda value, *_: value % n,
             "is": lambda n: lambda value, *_: value == n, "below": lambda n: lambda value, *_: value < n,
             "is even": lambda n: lambda value, *_: value % 2 == 0, "sum": lambda n: lambda *values: sum(values)}
LIBRARY_ERRORS = {"SequenceContainsNoElementsError": "no elements", "ArgumentOutOfRangeException": "out of range",
                  "Sequence contains no elements": "no elements", "Sequence contains more than one element": "more than one",
                  "Argument out of range": "out of range", "Timeout": "timeout"}


def function(text):
    """A function on items by its name, which may fail at an item."""
    name, _, fails_at = text.partition(" or fail at ")
    word, _, number = name.rpartition(" ") if name[-1].isdigit() else (name, "", 0)
    call = FUNCTIONS["identity" if word == "fail" else word](int(number))

    def checked(*values):
        if word == "fail" or fails_at and int(fails_at) in values[:2]:
            raise Exception("failed")
        return call(*values)
    return checked


def plain(value):
    """An item as JSON has it."""
    if hasattr(value, "accept"):  # a notification
        return {"N": lambda: f"next {json.dumps(value.value)}", "E": lambda: f"error {message(value.exception)}",
                "C": lambda: "completed"}[value.kind]()
    if hasattr(value, "interval"):
        return [value.value, int(value.interval.total_seconds())]
    return [plain(it) for it in value] if isinstance(value, (list, tuple)) else value


def message(error):
    return LIBRARY_ERRORS.get(type(error).__name__) or LIBRARY_ERRORS.get(str(error), str(error))


def tell(observer, what, value=""):
    if what == "next":
        observer.on_next(json.loads(value))
    elif what == "error":
        observer.on_error(Exception(value))
    else:
        observer.on_completed()


class Run:
    """One case: what it made, and what was told."""

    def __init__(self, case):
        self.case, self.told, self.when = case, [], dict(case.get("when", {}))
        self.clock = testing.TestScheduler()
        self.subjects, self.counts, self.disposables = {}, {}, {}
        self.lets = {name: self.using(name, lambda _, made=self.fed(name, made): made) for name, made in case["sources"].items()}
        for command in case["do"]:
            time, _, rest = command.partition(" ")
            self.clock.schedule_absolute(float(time), lambda *_, rest=rest: self.act(*rest.split(" ", 2)))
        self.pipe = self.build(case["pipe"])

    def note(self, who, what, *value):
        text = " ".join([who, what, *(it if what in ("error", "called") else json.dumps(plain(it)) for it in value)])
        self.told.append(f"{int(self.clock.clock)} {text}")
        for command in self.when.pop(text, ()):
            self.act(*command.split(" ", 2))

    def act(self, who, what, *value):
        if what in ("subscribe", "connect"):
            self.disposables[who] = whole = disposable.SerialDisposable()
            observable = self.build(who) if what == "connect" else self.build(json.loads(*value)) if value else self.pipe
            whole.disposable = observable.connect() if what == "connect" else observable.subscribe(
                lambda value: self.note(who, "next", value), lambda error: self.note(who, "error", message(error)),
                lambda: self.note(who, "completed"))
        elif what in ("dispose", "disconnect"):
            self.disposables[who].dispose()
        else:
            tell(self.subjects[who], what, *value)

    # observables

    def build(self, it):
        if isinstance(it, str):
            if it not in self.lets:
                self.lets[it] = self.build(self.case["let"][it])
            return self.lets[it]
        if isinstance(it[0], str) and it[0] in WORDS["sources"]:
            words = self.arguments(WORDS["sources"][it[0]].split(), it[1:])
            return SOURCES[it[0]](self, *words) if it[0] in SOURCES else getattr(rx, it[0])(*words)
        source = self.build(it[0])
        for name, *words in it[1:]:
            words = self.arguments(WORDS["operators"][name].split(), words)
            try:
                operator = OPERATORS[name](self, *words) if name in OPERATORS else getattr(ops, name)(*words)
            except NotImplementedError:  # for one of its parameters, if not for itself
                lacking.append(name)
                raise
            source = operator(source)
        return source

    def fed(self, name, made):
        """A subject, or an observable that tells all that is listed so many ticks after each subscription."""
        if isinstance(made, str):
            word, _, number = made.partition(" ")
            kind = getattr(subject, {"hot": "", "behavior": "Behavior", "replay": "Replay", "async": "Async"}[word] + "Subject")
            self.subjects[name] = kind(int(number)) if number else kind()
            return self.subjects[name]

        def subscribe(observer, _):
            timers = [self.clock.schedule_relative(float(time), lambda *_, told=told: tell(observer, *told))
                      for time, *told in (it.split(" ", 2) for it in made)]
            return disposable.Disposable(lambda: [it.dispose() for it in timers])
        return rx.create(subscribe)

    def counted(self, name):
        self.counts[name] = self.counts.get(name, 0) + 1
        return self.counts[name]

    def resource(self, name):
        number = self.counted(name)
        self.note(name, "made", number)
        return disposable.Disposable(lambda: self.note(name, "released", number))

    def using(self, name, factory):
        return rx.using(lambda: self.resource(name), factory)

    def create(self, name, *told):
        def subscribe(observer, _):
            resource = self.resource(name)
            for it in told:
                tell(observer, *it.split(" ", 1))
            return resource
        return rx.create(subscribe)

    # arguments

    def arguments(self, kinds, words):
        convert = {"observable": self.build, "inner": self.inner, "factory": self.factory, "function": function, "error": Exception}
        kinds = [it.rstrip("?*") for it in kinds]
        return [convert.get(kinds[min(index, len(kinds) - 1)], lambda it: it)(word) for index, word in enumerate(words)]

    def inner(self, word):
        """A function from an item to an observable: always the same, or by the item; `self` is the item itself."""
        def project(value, *_):
            self.lets["self"] = value
            return self.factory(word.get(str(value), word.get("else")) if isinstance(word, dict) else word)()
        return project

    def factory(self, word):
        def make(*_):
            if word == "fail":
                raise Exception("failed")
            return self.build(word)
        return make

    def called(self, name):
        return (lambda *value, what=what: self.note(name, "called", " ".join([what, *map(str, value)]))
                for what in ("next", "error", "completed"))


#: What is not called by its name and with its arguments alone.
SOURCES = {
    "range": lambda run, start, many: rx.range(start, start + many), "using": Run.using, "create": Run.create,
    "timer": lambda run, due, period=None: rx.timer(due, period, scheduler=run.clock),
    "interval": lambda run, period: rx.interval(period, scheduler=run.clock)}
OPERATORS = {
    "project": lambda run, inner: ops.map(inner),
    "merge_all": lambda run, bound=None: ops.merge(max_concurrent=bound) if bound else ops.merge_all(),
    "flat_map": lambda run, inner, bound=None: ops.pipe(ops.map(inner), ops.merge(max_concurrent=bound)) if bound else ops.flat_map(inner),
    "concat_map": lambda run, inner: (ops.pipe(ops.map(inner), ops.merge(max_concurrent=1)) if sys.argv[1] == "rx"  # which has none
                                      else ops.concat_map(inner)),
    "exhaust_map": lambda run, inner: ops.pipe(ops.map(inner), ops.exclusive()),
    "catch": lambda run, other: ops.catch(lambda *_: other),
    "find": lambda run, call: ops.find(lambda value, *_: call(value)),
    "find_index": lambda run, call: ops.find_index(lambda value, *_: call(value)),
    "buffer_when": lambda run, closing: ops.buffer_when(lambda: closing),
    "window_when": lambda run, closing: ops.window_when(lambda: closing),
    "sample_time": lambda run, time: ops.sample(time, scheduler=run.clock),
    "multicast": lambda run: ops.multicast(subject.Subject()),
    "replay": lambda run, size: ops.replay(buffer_size=size),
    "timeout": lambda run, due, other=None: ops.timeout(due, other, scheduler=run.clock),
    "do_action": lambda run, name: ops.do_action(*run.called(name)),
    "finally_action": lambda run, name: ops.finally_action(lambda: run.note(name, "released", run.counted(name))),
    **{name: lambda run, *words, name=name: getattr(ops, name)(*words, scheduler=run.clock) for name in (
        "debounce throttle_first delay buffer_with_time buffer_with_time_or_count window_with_time delay_subscription observe_on "
        "subscribe_on time_interval").split()}}


def outcome(case):
    if sys.argv[1] != "rx":  # an engine of its own: the model, or with CELLARCLIFF_LIBRARY=1 libcellarcliff
        rx.use(kits.fresh_engine())
    lacking.clear()
    try:
        run = Run(case)
        run.clock.advance_to(1000)
        told = run.told
    except Exception as why:
        told = f"raised {type(why).__name__}: {why}"
    return f"lacks {lacking[0]}" if lacking else told


if __name__ == "__main__":
    cases = [case for file in sys.argv[2:] for case in json.loads(pathlib.Path(file).read_text())]
    print(json.dumps({case["name"]: outcome(case) for case in cases}))
