"""Random programs of observables, as data: made by a seed, made smaller, and written out as Python.

A program is a dictionary. `subjects` has their kinds; `shared` and `pipelines` have expressions; `deeds` has what a callback does at its
n-th call; `steps` has what each thread does. An expression is a list: a word, its expressions, callbacks and numbers, as FORMS has them.
"""
import copy
import functools
import itertools
import random

#: Of each word what stands for it in Python. In braces: `e` an expression, `h` one that tells nothing as it is subscribed to, `k` a
#: callback, `K` one and the next (a resource), `n` a count from 1, `z` one from 0, `s` seconds, `v` a value, `u` a subject, `l` what is shared.
SOURCES = {
    "subject": "s[{u}]", "lasting": "rx.merge(s[0], rx.never())", "shared": "w.shared[{l}]",
    "of": "rx.of({v}, {v})", "from_iterable": "rx.from_iterable([{v}, {v}, {v}])", "range": "rx.range({z}, 4)", "just": "rx.just({v})",
    "empty": "rx.empty()", "never": "rx.never()", "throw": "rx.throw(ValueError('thrown'))", "repeat_value": "rx.repeat_value({v}, {n})",
    "generate": "rx.generate(0, w.test({k}, lambda it: it < 3), lambda it: it + 1)", "from_callable": "rx.from_callable(w.opens({k}, lambda: {v}))",
    "timer": "rx.timer({s}, scheduler=w.clock)", "interval": "rx.interval(1.0, scheduler=w.clock).pipe(ops.take({n}))",
    "using": "w.using({K}, lambda: {e})", "defer": "rx.defer(w.opens({k}, lambda *_: {e}))", "merge_of": "rx.merge({e}, {e})",
    "concat_of": "rx.concat({e}, {e})", "zip_of": "rx.zip({e}, {e})", "combine_latest_of": "rx.combine_latest({e}, {e})",
    "amb_of": "rx.amb({e}, {e})", "fork_join_of": "rx.fork_join({e}, {e})", "catch_of": "rx.defer(lambda _: rx.catch({e}, {e}))",
    "resume_of": "rx.defer(lambda _: rx.on_error_resume_next({e}, {e}))", "if_then": "rx.if_then(w.test({k}, lambda: True), {e}, {e})",
    "case": "rx.case(w.opens({k}, lambda: 1), dict([(1, {e})]), rx.empty())", "for_in": "rx.for_in([1, 2], w.opens({k}, lambda _: {e}))",
    "create": "rx.create(lambda observer, scheduler=None: (w.called({k}, 'factory'), {e}.subscribe_(observer.on_next, observer.on_error, "
              "observer.on_completed))[1])",
}
OPERATORS = {
    # transparent: each item comes through once, and nothing else
    "map": "ops.map(w.item({k}))", "filter": "ops.filter(w.test({k}))", "do_action": "ops.do_action(w.item({k}))",
    "scan": "ops.scan(w.pair({k}))", "map_indexed": "ops.map_indexed(w.item({k}))", "filter_indexed": "ops.filter_indexed(w.test({k}, lambda *_: True))",
    "finally_action": "ops.finally_action(w.action({k}))", "as_observable": "ops.as_observable()", "share": "ops.share()",
    "flat_map_just": "ops.flat_map(w.opens({k}, lambda it: rx.just(it)))", "concat_map_just": "w.concat_map(w.opens({k}, lambda it: rx.just(it)))",
    "merge_2_just": "ops.map(w.opens({k}, lambda it: rx.just(it))), ops.merge(max_concurrent=2)",
    "flat_map_indexed": "ops.flat_map_indexed(w.opens({k}, lambda it, _: rx.just(it)))",
    "publish_mapper": "ops.publish(lambda it: it.pipe(ops.map(w.item({k}))))", "publish_counted": "ops.publish(), ops.ref_count()",
    "replay_counted": "ops.replay(buffer_size=1), ops.ref_count()", "multicast_counted": "ops.multicast(w.kinds_of_subject.Subject()), ops.ref_count()",
    "multicast_mapper": "ops.multicast(subject_factory=lambda _: w.kinds_of_subject.Subject(), mapper=lambda it: it.pipe(ops.map(w.item({k}))))",
    "notes": "ops.materialize(), ops.dematerialize()", "windows": "ops.window_with_count({n}), ops.flat_map(lambda it: it)",
    "groups": "ops.group_by(lambda it: str(it)[-1:]), ops.flat_map(lambda it: it)", "buffers": "ops.buffer_with_count(1), ops.map(lambda it: it[0])",
    "take_until_never": "ops.take_until(rx.never())", "default_if_empty": "ops.default_if_empty(None)", "expand_none": "ops.expand(lambda _: rx.empty())",
    "starmap": "ops.map(lambda it: (it, it)), ops.starmap(lambda a, b: b)", "pluck": "ops.map(lambda it: [it]), ops.pluck(0)",
    "timestamp": "ops.timestamp(scheduler=w.clock), ops.map(lambda it: it.value)", "time_interval": "ops.time_interval(scheduler=w.clock), ops.map(lambda it: it.value)",
    "partition": "(lambda source: source.pipe(ops.partition(w.test({k})))[0])", "do": "ops.do(w.rx.core.Observer(w.item({k})))",
    # and those that are not
    "flat_map": "ops.flat_map(w.opens({k}, lambda *_: {e}))", "flat_map_latest": "ops.flat_map_latest(w.opens({k}, lambda *_: {e}))",
    "concat_map": "w.concat_map(w.opens({k}, lambda *_: {e}))", "merge": "ops.merge({e})",
    "merge_bounded": "w.gated({n}, lambda opens: [ops.map(opens({k}, lambda: {e})), ops.merge(max_concurrent={same})])",
    "concat_gated": "w.gated(1, lambda opens: [w.concat_map(opens({k}, lambda: {e}))])",
    "switch_gated": "w.gated(1, lambda opens: [ops.map(opens({k}, lambda: {e})), ops.switch_latest()])",
    "exclusive": "w.gated(1, lambda opens: [ops.map(opens({k}, lambda: {e})), ops.exclusive()])",
    "merge_all": "ops.map(w.opens({k}, lambda *_: {e})), ops.merge_all()", "concat": "ops.concat({e})", "start_with": "ops.start_with({v})",
    "zip": "ops.zip({e})", "combine_latest": "ops.combine_latest({e})", "with_latest_from": "ops.with_latest_from({e})", "amb": "ops.amb({e})",
    "fork_join": "ops.fork_join({e})", "sequence_equal": "ops.sequence_equal({e})", "take_until": "ops.take_until({e})",
    "skip_until": "ops.skip_until({e})", "sample": "ops.sample({h})", "sample_time": "ops.sample({s}, scheduler=w.clock)",
    "catch": "ops.catch(w.opens({k}, lambda error, source: {e}))", "catch_with": "(lambda source: rx.defer(lambda _: source.pipe(ops.catch({e}))))", "retry": "(lambda source: rx.defer(lambda _: source.pipe(ops.retry(2))))", "repeat": "ops.repeat(2)",
    "on_error_resume_next": "(lambda source: rx.defer(lambda _: source.pipe(ops.on_error_resume_next({e}))))", "while_do": "(lambda source: rx.defer(lambda _: source.pipe(ops.while_do(w.times({k}, {n})))))", "do_while": "(lambda source: rx.defer(lambda _: source.pipe(ops.do_while(w.times({k}, 1)))))",
    "take": "ops.take({n})", "skip": "ops.skip({n})", "take_last": "ops.take_last({n})", "skip_last": "ops.skip_last({n})", "first": "ops.first()",
    "first_or_default": "ops.first_or_default(w.test({k}), 0)", "last": "ops.last()", "last_or_default": "ops.last_or_default(None, 0)",
    "single": "ops.single()", "single_or_default": "ops.single_or_default(None, 0)", "single_or_default_async": "ops.single_or_default_async(True, 0)",
    "element_at": "ops.element_at({z})", "element_at_or_default": "ops.element_at_or_default({z}, 0)", "find": "ops.find(w.test({k}, lambda *_: True))",
    "find_index": "ops.find_index(w.test({k}, lambda *_: True))", "all": "ops.all(w.test({k}))", "some": "ops.some(w.test({k}, lambda it: False))",
    "contains": "ops.contains({v})", "is_empty": "ops.is_empty()", "count": "ops.count()", "sum": "ops.sum()", "average": "ops.average()",
    "reduce": "ops.reduce(w.pair({k}))", "max": "ops.max()", "min": "ops.min()", "max_by": "ops.max_by(w.item({k}))", "min_by": "ops.min_by(w.item({k}))",
    "to_list": "ops.to_list()", "to_iterable": "ops.to_iterable()", "to_set": "ops.map(w.text), ops.to_set()", "to_dict": "ops.to_dict(w.text)",
    "take_last_buffer": "ops.take_last_buffer({n})", "pairwise": "ops.pairwise()", "distinct": "ops.distinct()", "distinct_until_changed": "ops.distinct_until_changed()",
    "ignore_elements": "ops.ignore_elements()", "take_while": "ops.take_while(w.times({k}, {n}))", "skip_while": "ops.skip_while(w.times({k}, {n}))",
    "take_while_indexed": "ops.take_while_indexed(w.test({k}, lambda _, i: i < 2))", "skip_while_indexed": "(lambda source: rx.defer(lambda _: source.pipe(ops.skip_while_indexed(w.test({k}, lambda _, i: i < 1)))))",
    "slice": "ops.slice(1, 3)", "materialize": "ops.materialize()", "starmap_indexed": "ops.map(lambda it: (it, it)), ops.starmap_indexed(lambda a, b, *_: b)",
    "pluck_attr": "ops.pluck_attr('real')", "zip_with_iterable": "(lambda source: rx.defer(lambda _: source.pipe(ops.zip_with_iterable([1, 2, 3]))))",
    "zip_with_list": "(lambda source: rx.defer(lambda _: source.pipe(ops.zip_with_list([1, 2, 3]))))",
    "expand": "ops.expand(w.opens({k}, lambda it: rx.empty() if isinstance(it, tuple) else rx.of((it,))))",
    "buffer": "ops.buffer({h})", "buffer_when": "ops.buffer_when(w.opens({k}, lambda: {h}))", "buffer_toggle": "ops.buffer_toggle({h}, w.opens({k}, lambda _: {h}))",
    "buffer_with_count": "ops.buffer_with_count({n})", "buffer_with_skip": "ops.buffer_with_count({n}, 2)",
    "window": "ops.window({h}), ops.flat_map(w.item({k}))", "window_when": "ops.window_when(w.opens({k}, lambda: {h})), ops.merge_all()",
    "window_toggle": "ops.window_toggle({h}, w.opens({k}, lambda _: {h})), ops.flat_map(lambda it: it.pipe(ops.to_list()))",
    "window_with_count": "ops.window_with_count({n}, 2), ops.flat_map_latest(w.item({k}))",
    "group_by": "ops.group_by(w.opens({k}, lambda it: str(it)[-1:])), ops.flat_map(lambda it: it.pipe(ops.take(2)))",
    "group_by_until": "ops.group_by_until(w.opens({k}, lambda it: str(it)[-1:]), None, lambda _: {h}), ops.flat_map(lambda it: it)",
    "delay_with_mapper": "ops.delay_with_mapper(w.opens({k}, lambda _: {e}))", "throttle_with_mapper": "ops.throttle_with_mapper(w.opens({k}, lambda _: {h}))",
    "timeout_with_mapper": "ops.timeout_with_mapper({h}, w.opens({k}, lambda _: {h}), {e})",
    "publish": "ops.publish(lambda it: rx.merge(it, it.pipe(ops.skip({n}))))", "publish_value": "ops.publish_value(0, lambda it: rx.zip(it, it.pipe(ops.skip(1))))",
    "replay": "ops.replay(lambda it: rx.merge(it.pipe(ops.take({n})), it), 2)", "publish_value_counted": "ops.publish_value({v}), ops.ref_count()",
    # of time, by a virtual clock
    "debounce": "ops.debounce({s}, scheduler=w.clock)", "throttle_with_timeout": "ops.throttle_with_timeout({s}, scheduler=w.clock)",
    "throttle_first": "ops.throttle_first({s}, scheduler=w.clock)", "delay": "ops.delay({s}, scheduler=w.clock)",
    "delay_subscription": "ops.delay_subscription({s}, scheduler=w.clock)", "timeout": "ops.timeout({s}, {e}, scheduler=w.clock)",
    "observe_on": "ops.observe_on(w.clock)", "subscribe_on": "ops.subscribe_on(w.clock)", "take_with_time": "ops.take_with_time({s}, scheduler=w.clock)",
    "skip_with_time": "ops.skip_with_time({s}, scheduler=w.clock)", "take_until_with_time": "ops.take_until_with_time({s}, scheduler=w.clock)",
    "skip_until_with_time": "ops.skip_until_with_time({s}, scheduler=w.clock)", "take_last_with_time": "ops.take_last_with_time({s}, scheduler=w.clock)",
    "skip_last_with_time": "ops.skip_last_with_time({s}, scheduler=w.clock)", "buffer_with_time": "ops.buffer_with_time({s}, scheduler=w.clock)",
    "buffer_with_time_or_count": "ops.buffer_with_time_or_count({s}, {n}, scheduler=w.clock)",
    "window_with_time": "ops.window_with_time({s}, scheduler=w.clock), ops.flat_map(lambda it: it)",
    "window_with_time_or_count": "ops.window_with_time_or_count({s}, {n}, scheduler=w.clock), ops.flat_map(lambda it: it)",
}
#: What is shared: by an operator that tells all alike, or connected by hand.
SHARES = {"share_of": "{e}.pipe(ops.share())", "publish_of": "{e}.pipe(ops.publish())", "replay_of": "{e}.pipe(ops.replay(buffer_size={n}))",
          "multicast_of": "{e}.pipe(ops.multicast(w.kinds_of_subject.Subject()))", "publish_value_of": "{e}.pipe(ops.publish_value({v}))"}
CONNECTED = "publish_of replay_of multicast_of publish_value_of".split()
FORMS = {**SOURCES, **OPERATORS, **SHARES}
ALL_OPERATORS, ALL_SHARES = list(OPERATORS), list(SHARES)
TIMED = [it for it, text in FORMS.items() if "w.clock" in text]
TRANSPARENT = list(itertools.takewhile(lambda it: it != "flat_map", OPERATORS))
KINDS = "Subject Subject Subject BehaviorSubject ReplaySubject AsyncSubject".split()
LEAVES = "subject subject subject subject shared of of from_iterable range just empty never throw repeat_value generate from_callable timer interval".split()
#: Whose inner sources an interrupt ends in the midst of their items.
COLD = {"concat_map_just", "merge_2_just", "flat_map_just", "flat_map_indexed"}
#: What stays where its subject is dropped: what nobody feeds, and parts of the items.
STAYS = {*TIMED, "never", "lasting", "create", "take_until_never", "windows", "groups", "window", "window_when", "window_toggle", "window_with_count",
         "group_by", "group_by_until"}
#: Of which the page of differences has a row: rarely asked of RxPY.
ROWED = ("expand time_interval zip_of zip publish_value skip_until sample sample_time publish_of publish_counted share share_of partition replay_counted multicast_counted "
         "publish_value_counted").split()
JOINS = "using using using defer merge_of concat_of zip_of combine_latest_of amb_of fork_join_of catch_of resume_of if_then case for_in create".split()


@functools.lru_cache(None)
def slots(form):
    """The places of a form, in their order."""
    return tuple(part.split("}")[0] for part in FORMS[form].split("{")[1:])


class Maker:
    """Makes a program. `manner`: `wild`, where callbacks do anything; `beside`, what RxPY is asked too; `plain`, whose items are counted."""

    def __init__(self, seed, manner, threads=1):
        self.random, self.manner, self.threads = random.Random(f"{seed} {manner} {threads}"), manner, threads
        self.callbacks, self.values = itertools.count(1), itertools.count(1)
        self.kinds = {}  # of the callbacks that were given out, the forms that they are in

    def program(self):
        rand, plain = self.random, self.manner == "plain"
        subjects = [rand.choice(KINDS[:3] if plain or i == 0 else KINDS) for i in range(rand.randrange(2, 5))]
        self.many, self.many_shared = len(subjects), 0
        shared = []
        for _ in range(rand.choice([0, 1, 1, 2])):
            self.used = set()
            form = "share_of" if plain else rand.choice(ALL_SHARES)
            form = "replay_of" if self.is_rare(form) else form
            shared.append([form, *self.fill(form, 1)])
            self.many_shared += 1
        pipelines = []
        for _ in range(rand.randrange(1, 4)):
            self.used = set()
            pipelines.append(self.expression(1 if plain else 2))
        names, steps = [], []
        for i in [*range(len(pipelines)), *(rand.randrange(len(pipelines)) for _ in range(rand.choice([0, 1, 1, 2])))]:
            names.append(next(self.callbacks))
            self.kinds[names[-1]] = "observer"
            steps.append(["subscribe", i, names[-1]])
        first = [*steps, *(["connect", i] for i, it in enumerate(shared) if it[0] in CONNECTED and rand.random() < 0.8)]
        if not plain and rand.random() < 0.3:
            rand.shuffle(first)
        threads = [[self.step(names) for _ in range(rand.randrange(4, 14))] for _ in range(self.threads)]
        return {"manner": self.manner, "subjects": subjects, "shared": shared, "pipelines": pipelines, "deeds": self.deeds(names),
                "first": first, "steps": threads}

    def step(self, names):
        rand = self.random
        chance = rand.random()
        if self.manner == "plain" or chance < 0.62:
            return ["emit", rand.randrange(self.many), next(self.values)]
        if chance < 0.74 and self.threads == 1:
            return ["advance", rand.choice([0.5, 1.0, 2.0])]
        if chance < 0.82:
            return ["dispose", rand.choice(names)]
        if chance < 0.9:
            return [rand.choice(["end", "end", "fail"]), rand.randrange(self.many)]
        return ["subscribe", 0, next(self.callbacks)]

    def deeds(self, names):
        """What callbacks do from within."""
        rand, found = self.random, {}
        beside = self.manner == "beside"
        is_interrupted = not COLD & set(self.kinds.values())
        for k in sorted(self.kinds):
            if rand.random() > (0.35 if beside else 0.5):
                continue
            is_observer, calls = self.kinds[k] == "observer", {}
            for _ in range(rand.choice([1, 1, 2])):
                chance = rand.random()
                if self.manner == "plain":
                    if self.kinds[k] == "finally_action":
                        continue
                    deed = ["interrupt"] if is_observer and is_interrupted and chance < 0.1 else ["emit", rand.randrange(self.many), next(self.values)]
                elif beside:
                    if is_observer and chance < 0.75:
                        deed = ["dispose", rand.choice(names)]
                    elif chance < 0.6 and not is_observer and self.kinds[k] not in ("release", "finally_action"):
                        deed = ["raise"]
                    elif self.kinds[k] in ("release", "finally_action"):
                        continue
                    elif chance < 0.9:
                        deed = ["dispose", rand.choice(names)]
                    else:
                        deed = ["subscribe", 0, next(self.callbacks)]
                elif chance < 0.5:
                    deed = ["emit", rand.randrange(self.many), next(self.values)]
                elif chance < 0.6:
                    deed = ["dispose", rand.choice(names)]
                elif chance < 0.75:
                    deed = ["raise"]
                elif chance < 0.85:
                    deed = [rand.choice(["end", "end", "fail"]), rand.randrange(self.many)]
                elif chance < 0.93:
                    deed = ["subscribe", 0, next(self.callbacks)]
                elif chance < 0.96 and self.threads == 1:
                    k_of_timer = next(self.callbacks)
                    deed = ["schedule", 0.5, k_of_timer]
                    found.setdefault(k_of_timer, {0: [["emit", rand.randrange(self.many), next(self.values)]]})
                elif self.many_shared and chance < 0.98:
                    deed = ["connect", rand.randrange(self.many_shared)]
                else:
                    deed = ["interrupt"]
                calls.setdefault(rand.choice([0, 0, 1, 1, 2, 3]), []).append(deed)
            if calls:
                found[k] = calls
        return found

    # expressions

    def expression(self, depth, is_hot=False):
        rand = self.random
        if self.manner == "plain":
            form = "merge_of" if depth > 0 and rand.random() < 0.3 else rand.choice(["subject", "subject", "subject", "shared", "using", "defer"])
        else:
            form = rand.choice(JOINS) if depth > 0 and rand.random() < 0.45 else rand.choice(LEAVES)
        if is_hot:
            form = rand.choice(["lasting", "lasting", "never", "timer"])
        if form == "shared" and not self.many_shared or self.is_rare(form):
            form = "subject"
        if self.threads > 1 and form in TIMED:
            form = "lasting" if is_hot else "subject"
        found = [form, *self.fill(form, depth)]
        for _ in range(0 if is_hot else rand.choice([0, 1, 1, 2, 3] if depth == 2 else [0, 0, 1, 2])):
            name = rand.choice(TRANSPARENT) if self.manner == "plain" or rand.random() < 0.3 else rand.choice(ALL_OPERATORS)
            if self.threads > 1 and name in TIMED or self.is_rare(name):
                continue
            found = [name, found, *self.fill(name, depth)]
        return found

    def one_of(self, place, many):
        """A subject, or what is shared; where RxPY is asked, mostly one that the pipeline has not yet: by two ways items may come otherwise."""
        free = [i for i in range(many) if (place, i) not in self.used] or list(range(many))
        i = self.random.choice(free if self.manner == "beside" and self.random.random() < 0.9 else range(many))
        self.used.add((place, i))
        return i

    def is_rare(self, form):
        return self.manner == "beside" and form in ROWED and self.random.random() < 0.95

    def fill(self, form, depth):
        rand, found = self.random, []
        for it in slots(form):
            if it == "e":
                found.append(self.expression(depth - 1))
            elif it == "h":
                found.append(self.expression(0, True))
            elif it in "kK":
                found.append(next(self.callbacks))
                self.kinds[found[-1]] = form
                if it == "K":
                    self.kinds[next(self.callbacks)] = "release"
            elif it == "n":
                found.append(rand.randrange(1, 4))
            elif it == "z":
                found.append(rand.randrange(3))
            elif it == "s":
                found.append(rand.choice([0.5, 1.0, 1.5]))
            elif it == "v":
                found.append(next(self.values))
            elif it in "ul":
                found.append(self.one_of(it, self.many if it == "u" else self.many_shared))
        return found


def made(seed, manner, threads=1):
    return Maker(seed, manner, threads).program()


# as functions: what a trial runs, since a program that is compiled takes longer than its run

def _made_into_functions():
    """Of each word a function of what its text names: the source, expressions (functions of their own), callbacks, numbers."""
    found = {}
    for form, text in FORMS.items():
        names = [f"x{i}" for i in range(len(slots(form)))]
        values = [names[slots(form).index("n")] if it == "same" else f"{name}()" if it in "eh" else name for name, it in zip(names, slots(form))]
        parts = text.split("{")
        text = parts[0] + "".join(value + part.split("}", 1)[1] for value, part in zip(values, parts[1:]))
        text = f"source().pipe({text})" if form in OPERATORS else text
        source = ["source"] if form in OPERATORS else []
        given = [name for name, it in zip(names, slots(form)) if it != "same"]
        found[form] = eval(f"lambda {', '.join(['w', 'rx', 'ops', 's', *source, *given])}: {text}")
    return found


_FUNCTIONS = _made_into_functions()


def _function(it, w):
    """An expression as a function that builds it."""
    call, rest = _FUNCTIONS[it[0]], [_function(part, w) if isinstance(part, list) else part for part in it[1:]]
    return lambda: call(w, w.rx, w.ops, w.subjects, *rest)


def run(program, w):
    """Does a program over a world, as its text does."""
    w.deeds = program["deeds"]
    for kind in program["subjects"]:
        w.subject(kind)
    for it in program["shared"]:
        w.shared.append(_function(it, w)())
    for it in program["pipelines"]:
        w.pipelines.append(_function(it, w)())
    w.kept, w.is_collected = kept(program), not STAYS & forms(program)
    is_plain = program["manner"] == "plain"
    w.begin(program["first"], is_calm=is_plain)
    w.run(*program["steps"])
    if is_plain:
        w.expects(*expected(program))


def kept(program):
    """Whose subscriptions a program disposes of."""
    done = [program["first"], *program["steps"], *(those for calls in program["deeds"].values() for those in calls.values())]
    return {it[1] for deeds in done for it in deeds if it[0] == "dispose"}


def expected(program):
    """How often each item comes to each observer of a plain program, and whether in order: inner observables of one bound have no order between them,
    where several threads tell them."""
    return ways(program), len(program["steps"]) == 1 or "merge_2_just" not in forms(program)


# as Python

def written(it):
    """An expression as Python."""
    form, rest = it[0], list(it[1:])
    source = rest.pop(0) if form in OPERATORS else None
    values, count = [], None
    for place in slots(form):
        if place == "same":
            values.append(count)
            continue
        value = rest.pop(0)
        if place == "n" and count is None:
            count = value
        values.append(written(value) if place in "eh" else value)
    parts = FORMS[form].split("{")
    text = parts[0] + "".join(str(value) + part.split("}", 1)[1] for value, part in zip(values, parts[1:]))
    return text if source is None else f"{written(source)}.pipe({text})"


def as_python(program, package="cellarcliff.rx"):
    """A program as plain Python: with `tools` and the package on PYTHONPATH it runs by itself."""
    lines = ["from pipelines.world import World", "", "", "def program(w):", "    rx, ops = w.rx, w.ops",
             f"    w.deeds = {program['deeds']}", f"    s = [w.subject(kind) for kind in {program['subjects']}]"]
    lines += [f"    w.shared.append({written(it)})" for it in program["shared"]]
    lines += [f"    w.pipelines.append({written(it)})" for it in program["pipelines"]]
    lines.append(f"    w.kept, w.is_collected = {kept(program)}, {not STAYS & forms(program)}")
    is_plain = program["manner"] == "plain"
    lines += [f"    w.begin({program['first']}, is_calm={is_plain})", f"    w.run({', '.join(map(str, program['steps']))})"]
    if is_plain:
        lines.append("    w.expects({}, {})".format(*expected(program)))
    lines += ["", "", "if __name__ == '__main__':", f"    w = World({package!r})", "    program(w)", "    print(w.report())"]
    return "\n".join(lines) + "\n"


def ways(program):
    """Of a plain program: by observer, how often each item of each subject comes to it."""
    def of(it):
        if it[0] == "subject":
            return {it[1]: 1}
        if it[0] == "shared":
            return of(program["shared"][it[1]])
        found = {}
        for part in it[1:]:
            if isinstance(part, list):
                for i, many in of(part).items():
                    found[i] = found.get(i, 0) + many
        return found
    return {k: of(program["pipelines"][i]) for what, i, k in (it for it in program["first"] if it[0] == "subscribe")}


def forms(program):
    """The words of a program."""
    found, left = set(), [*program["shared"], *program["pipelines"]]
    while left:
        it = left.pop()
        found.add(it[0])
        left += [part for part in it[1:] if isinstance(part, list)]
    return found


def words_of(program, it):
    """The words of an expression and of what it shares, and the kinds of its subjects."""
    yield it[0]
    if it[0] in ("subject", "lasting"):
        yield program["subjects"][it[1] if it[0] == "subject" else 0]
    if it[0] == "shared":
        yield from words_of(program, program["shared"][it[1]])
    for part in it[1:]:
        if isinstance(part, list):
            yield from words_of(program, part)


# smaller

def smaller(program):
    """Programs with one thing less, the greatest first."""
    for at in range(len(program["steps"])):
        if len(program["steps"]) > 1:
            yield _without(program, "steps", at)
    for at in range(len(program["first"])):
        yield _without(program, "first", at)
    for k in program["deeds"]:
        yield {**program, "deeds": {i: it for i, it in program["deeds"].items() if i != k}}
    for thread, steps in enumerate(program["steps"]):
        for at in reversed(range(len(steps))):
            found = copy.deepcopy(program)
            del found["steps"][thread][at]
            yield found
    for k, calls in program["deeds"].items():
        for n, deeds in calls.items():
            for at in range(len(deeds)):
                if len(deeds) > 1 or len(calls) > 1:
                    found = copy.deepcopy(program)
                    del found["deeds"][k][n][at]
                    yield found
    for part in "shared", "pipelines":
        for at, it in enumerate(program[part]):
            for less in _simpler(it):
                found = copy.deepcopy(program)
                if part == "shared" and less[0] not in SHARES:
                    continue
                found[part][at] = less
                yield found


def _without(program, part, at):
    found = copy.deepcopy(program)
    del found[part][at]
    return found


def _simpler(it):
    """An expression with something less."""
    if it[0] in SOURCES and it[0] != "subject":
        yield ["subject", 0]
    for at, part in enumerate(it):
        if isinstance(part, list):
            if it[0] not in SHARES:
                yield part
            for less in _simpler(part):
                yield [*it[:at], less, *it[at + 1:]]
