"""Pipelines made at random, driven at random: for the tests of what is released, and for those beside RxPY."""
import random
import threading


class Course:
    """One pipeline over a kit, with what its observers were told and what it made and released."""

    def __init__(self, kit, seed, raises=True, shares=True, subjects=4):
        self.kit, self.random = kit, random.Random(seed)
        self.raises, self.shares = raises, shares
        self.subjects = [kit.Subject() for _ in range(subjects)]
        self.unused = list(range(subjects))
        self.trace, self.made, self.released, self.after_end = [], 0, {}, []
        self.shared = []
        self.lock = threading.Lock()
        self.failures = 0

    # what is made and released

    def resource(self):
        with self.lock:
            number = self.made
            self.made += 1
        self.note(("made", number))
        fails = self.raises and self.random.random() < 0.2
        return self.kit.disposable.Disposable(lambda: self.release(number, fails))

    def release(self, number, fails):
        with self.lock:
            self.released[number] = self.released.get(number, 0) + 1
        self.note(("released", number))
        if fails:
            raise OSError(number)

    def note(self, event):
        self.trace.append(event)

    # pipelines

    def source(self, depth):
        choice = self.random.randrange(10)
        rx = self.kit.rx
        if depth <= 0 or choice < 3:
            if self.unused and self.random.random() < 0.7:
                which = self.unused.pop() if not self.shares else self.random.choice(self.unused)
                return self.subjects[which]
            return self.random.choice([lambda: rx.of(1, 2), lambda: rx.empty(), lambda: rx.never(), lambda: rx.just(7),
                                       lambda: rx.throw(ValueError("thrown"))])()
        if choice < 5:
            below = self.source(depth - 1)
            return rx.using(self.resource, lambda _: below)
        if choice == 5 and self.shared:
            return self.random.choice(self.shared)
        if choice == 6:
            return rx.merge(self.source(depth - 1), self.source(depth - 1))
        return self.operated(depth)

    def operated(self, depth):
        ops, rand = self.kit.ops, self.random
        below, seed = self.source(depth - 1), rand.random()
        if rand.random() < 0.1 and self.shares:
            shared = below.pipe(ops.share())
            self.shared.append(shared)
            return shared
        inners = [self.source(depth - 2) for _ in range(2)]
        fails = self.raises and seed < 0.1

        def mapper(value):
            if fails and value == 3:
                raise KeyError(value)
            return inners[value % 2]

        def finally_():
            self.note(("finally", seed))
        notifier = self.source(depth - 2)
        return below.pipe(rand.choice([
            lambda: ops.flat_map(mapper), lambda: ops.flat_map_latest(mapper), lambda: ops.take_until(notifier),
            lambda: ops.map(lambda value: value + 1), lambda: ops.filter(lambda value: value % 3), lambda: ops.take(2),
            lambda: ops.scan(lambda a, b: (a + b) % 8), lambda: ops.start_with(5), lambda: ops.finally_action(finally_)])())

    # driving

    def observer(self, name):
        state = {"ended": False}
        fails = self.raises and self.random.random() < 0.3

        def tell(event):
            if state["ended"]:
                self.after_end.append((name, event))
            self.note((name, *event))
        
        def on_next(value):
            tell(("next", value))
            if fails and value == 2:
                state["ended"] = True
                raise ArithmeticError(name)

        def on_error(error):
            tell(("error", str(error)))
            state["ended"] = True

        def on_completed():
            tell(("completed",))
            state["ended"] = True
        return on_next, on_error, on_completed, state

    def attempt(self, call, *words):
        try:
            return call(*words)
        except (OSError, ArithmeticError, KeyError):
            self.failures += 1

    def act(self, subscriptions, observables):
        rand = self.random
        choice = rand.randrange(12)
        subject = rand.choice(self.subjects)
        if choice < 7:
            self.attempt(subject.on_next, rand.randrange(6))
        elif choice == 7:
            self.attempt(subject.on_completed)
        elif choice == 8 and rand.random() < 0.5:
            self.attempt(subject.on_error, ValueError("failed"))
        elif choice < 10 and subscriptions:
            at = rand.randrange(len(subscriptions))
            self.attempt(subscriptions[at][0].dispose)
            subscriptions[at][1]["ended"] = True
        elif observables:
            self.subscribe(subscriptions, rand.choice(observables))

    def subscribe(self, subscriptions, observable):
        on_next, on_error, on_completed, state = self.observer(len(subscriptions))
        subscription = self.attempt(observable.subscribe, on_next, on_error, on_completed)
        if subscription is not None:
            subscriptions.append((subscription, state))

    def run(self, actions=25):
        """Makes it, drives it and disposes of all."""
        observables = [self.source(4) for _ in range(2 if self.shares else 1)]
        subscriptions = []
        for it in observables:
            self.subscribe(subscriptions, it)
        for number in range(actions):
            self.note(("action", number))
            self.act(subscriptions, observables if self.shares else [])
        self.note(("action", "end"))
        for subscription, _ in subscriptions:
            self.attempt(subscription.dispose)
        return self
