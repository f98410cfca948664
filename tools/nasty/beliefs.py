"""A small face over the engine, right as it stands; and the same face with a belief planted in it, one for each thing that the header leaves
open. Over the nasty engine the first never fails, and each of the others does.

What a program does is random: subjects, merges, shares and resources, with commands from within observers and callers that stop in the
midst. A face fails where an observer hears another item than was emitted, or in another order, where a tag is not released once, a copy
of a value is not given back, a role has no last effect, or the engine is not done in the end.
"""
from __future__ import annotations

import random
from collections import Counter, defaultdict
from collections.abc import Callable
from typing import Any

from model.cellar import Cellar, Told
from model.engine import (COMPLETE, DISPOSE, DONE, E_COMPLETED, E_FAILED, E_GONE, E_MERGED, E_NEXT, E_RELEASE, FLAT, HOLD, LANE_OF_NODE,
                          NEXT, OPEN, QUEUES, SHARED, SHUT, USING, WISHES, Command, Effect)
from model.turns import Stack

from .beside import NO_MEMORY

ROOM = 8
LEAF, ROOT, SOURCE = 0, 0, 1


class Failed(Exception):
    """What a face told, or was left with, is not what was asked for."""


def check(is_so: bool, what: str) -> None:
    if not is_so:
        raise Failed(what)


class Face:
    """What it tells is written down, and compared with what was emitted."""

    limit = 0
    is_false_anyway = False  # a belief that fails over each engine
    stops = 0.03   # how often a call stops in the midst, before it begins what it was handed or behind that
    passes = 0.05  # how often an observer lets the lane go in which it is told

    def __init__(self, cellar: Cellar, rng: random.Random):
        self.cellar, self.rng, self.word, self.deep = cellar, rng, 0, 0
        self.stacks = {by: Stack(by) for by in (1, 2, 9)}
        self.copies: Counter = Counter()                 # of values
        self.tags: set[int] = set()                      # that were not released
        self.owed: Counter = Counter()                   # last effects, by role and word
        self.emitted: dict[int, list[int]] = defaultdict(list)
        self.heard: dict[int, list[int]] = defaultdict(list)
        self.leaves: dict[int, list[int]] = {}           # of a leaf the words of the roots that hear it
        self.roots: dict[int, int] = {}                  # of a word its root
        self.leaf_of: dict[int, int] = {}                # of a root that has its own
        self.shares: dict[int, tuple[int, list[int]]] = {}  # of a share its connection, and the words of its subscribers
        self.share_of: dict[int, int] = {}               # of a subscriber
        self.disposed = 0
        self.resources: dict[int, list[int]] = defaultdict(list)
        while cellar.new(self.limit):
            pass

    def new_word(self) -> int:
        self.word += 1
        return self.word

    # What a face does with the engine

    def make(self, then: Callable[[Told], None] = lambda told: None, by: int = 1, **words: Any) -> Told:
        """A command; `then` is done before anything is told; and all that is handed out then."""
        stack, c = self.stacks[by], Command(**words)
        stack.depth += 1
        told = self.made(stack, c)
        if not told.status:
            self.copies[c.value] += told.copies
            for word in self.closings(c, told):
                self.pay('closing', word)
            then(told)
        self.serve(stack, c, told)
        stack.depth -= 1
        return told

    def made(self, stack: Stack, c: Command) -> Told:
        """What was handed out with a refusal, and is not begun, comes again."""
        while (told := self.cellar.step(stack, c)).status == NO_MEMORY:
            pass
        return told

    def closings(self, c: Command, told: Told) -> tuple[int, ...]:
        return told.closings

    def serve(self, stack: Stack, c: Command | None, told: Told) -> None:
        while told.effect:
            if self.rng.random() < self.stops / 2:
                return self.cellar.ended('stop', stack)
            self.begin(stack, told)
            self.hear(stack, self.handed(c, told))
            if self.rng.random() < self.stops / 2:
                return self.cellar.ended('stop', stack)
            told, c = self.cellar.step(stack), None

    def begin(self, stack: Stack, told: Told) -> None:
        stack.begun = told.ticket

    def handed(self, c: Command | None, told: Told) -> Effect:
        return told.effect

    def resume(self) -> None:
        """Goes on with what stopped calls left."""
        for stack in self.stacks.values():
            stack.depth += 1
            self.serve(stack, None, self.cellar.step(stack))
            stack.depth -= 1

    def other_of(self, place: int) -> int:
        """Of an event of the history."""
        cellar = self.cellar
        check(cellar._event(cellar.at, place, cellar.w) == DONE, f'there is no event {place}')
        return cellar.words[2]

    def hear(self, stack: Stack, e: Effect) -> None:
        """An observer is told, and may let its lane go, and make commands of its own."""
        self.give_back(e)
        if e.kind == E_NEXT:
            self.heard[e.user].append(e.value)
        elif e.kind == E_RELEASE:
            self.release(e.user)
        elif e.kind in (E_COMPLETED, E_FAILED, E_GONE):
            self.pay('end', e.user)
        elif e.kind == E_MERGED:
            self.pay('merged', e.user)
        if self.rng.random() < self.passes:
            self.cellar.ended('pass', Stack(stack.by, stack.depth + 1, stack.begun), stack.depth, int(self.rng.random() < 0.5))
        if self.deep < 3 and self.rng.random() < 0.3:
            self.deep += 1
            self.step()
            self.deep -= 1

    def release(self, tag: int) -> None:
        check(tag in self.tags, f'tag {tag} is released twice')
        self.tags.remove(tag)

    def give_back(self, e: Effect) -> None:
        if e.carries:
            self.copies[e.value] -= 1
            check(self.copies[e.value] >= 0, f'a copy of {e.value} too many is given back')

    def pay(self, role: str, word: int) -> None:
        self.owed[role, word] -= 1
        check(self.owed[role, word] == 0, f'{role} {word} is told, and is not owed')

    # What a program does with the face

    def step(self) -> None:
        self.rng.choices((self.subject, self.merge, self.share, self.using, self.emit, self.complete, self.dispose, self.hold),
                         (3, 2, 4, 2, 12, 1, 2, 2))[0]()

    def open(self, then: Callable[[int, Told], None] = lambda user, told: None, **words: Any) -> int:
        """A root, with its closing to be heard of now and then."""
        user = self.new_word()
        flags = WISHES if self.rng.random() < 0.5 else 0
        self.owed['end', user] += 1
        self.owed['closing', user] += flags

        def entered(told: Told) -> None:
            self.roots[user] = told.node
            then(user, told)
        told = self.make(entered, what=words.pop('what', OPEN), user=user, flags=flags | words.pop('flags', 0), by=self.by(), **words)
        check(told.status == DONE, f'an opening is refused: {told.status}')
        return user

    def by(self) -> int:
        return self.rng.choice((1, 1, 1, 2))

    def below(self, user: int) -> None:
        """A leaf, where the root is open still."""
        if user in self.roots:
            told = self.make(lambda told: self.hears(told.node, user), what=OPEN, place=SOURCE, node=self.roots[user], by=self.by())
            check(told.status == DONE, f'a leaf is refused: {told.status}')

    def hears(self, leaf: int, user: int) -> None:
        self.leaves[leaf] = [user]
        self.leaf_of[user] = leaf

    def subject(self) -> None:
        self.open(lambda user, told: self.hears(told.node, user), kind=LEAF)

    def merge(self) -> None:
        """A FlatMap whose source is never asked for an inner: it has a second lane."""
        self.owed['merged', self.word + 1] += 1
        self.open(kind=FLAT)

    def using(self) -> None:
        tag = self.new_word()
        self.tags.add(tag)
        self.below(self.open(lambda user, told: self.resources[user].append(tag), what=USING, value=tag))

    def share(self) -> None:
        word = self.rng.randrange(1, 4)
        for _ in range(self.rng.choice((1, 2, 12))):
            self.subscribe(word)

    def subscribe(self, word: int, **words: Any) -> int:
        """Who connects a share opens its leaf, where it is connected still."""
        connected: list[int] = []

        def joined(user: int, told: Told) -> None:
            if told.is_connected:
                connected.append(told.other)
                self.shares[word] = told.other, []
            self.shares[word][1].append(user)
            self.share_of[user] = word
        user = self.open(joined, kind=SHARED, value=word, **words)
        if connected and self.shares.get(word, (None,))[0] == connected[0]:
            told = self.make(lambda told: self.leaves.update({told.node: self.shares[word][1]}), what=OPEN, place=SOURCE, node=connected[0], by=self.by())
            check(told.status == DONE, f'the leaf of a share is refused: {told.status}')
        return user

    def emit(self) -> None:
        leaf = self.one_of(self.leaves)
        if leaf is not None:
            value = self.new_word()
            for user in self.leaves[leaf]:
                self.emitted[user].append(value)
            queues = self.rng.random() < 0.2
            made = self.make(what=NEXT, node=leaf, value=value, by=self.by(), flags=QUEUES if queues else 0)
            check(made.status == DONE, f'an item is refused: {made.status}')

    def one_of(self, found: Any) -> Any:
        return self.rng.choice(list(found)) if found else None

    def forget(self, user: int) -> None:
        """A root that goes, with its leaf, or the leaf of its share where it is the last."""
        del self.roots[user]
        self.leaves.pop(self.leaf_of.pop(user, None), None)
        if user in self.share_of:
            word = self.share_of.pop(user)
            users = self.shares[word][1]
            users.remove(user)
            if not users:
                del self.shares[word]
                self.leaves = {leaf: heard for leaf, heard in self.leaves.items() if heard is not users}

    def complete(self) -> None:
        leaf = self.one_of(self.leaves)
        if leaf is not None:
            for user in self.leaves[leaf][:]:
                self.forget(user)
            told = self.make(what=COMPLETE, node=leaf, by=self.by())
            check(told.status == DONE, f'an end is refused: {told.status}')

    def dispose(self) -> None:
        user = self.one_of(self.roots)
        if user is not None:
            node, self.disposed = self.roots[user], user
            self.forget(user)
            made = self.make(what=DISPOSE, node=node, by=self.by())
            check(made.status == DONE, f'a disposal is refused: {made.status}')

    def hold(self) -> None:
        user = self.one_of(self.roots)
        if user is not None:
            tag = self.new_word()
            self.tags.add(tag)
            self.resources[user].append(tag)
            made = self.make(what=HOLD, node=self.roots[user], value=tag, by=self.by())
            check(made.status == DONE, f'a hold is refused: {made.status}')

    def program(self, steps: int) -> None:
        for _ in range(steps):
            self.step()
            if self.rng.random() < 0.2:
                self.resume()
        self.deep, self.stops, self.passes = 3, 0.0, 0.0  # nothing more is made from within, and nobody stops
        while self.make(what=SHUT).status == DONE:
            pass
        for _ in range(2):  # the first may leave to the second what it found with another
            self.resume()
        check(not self.tags, f'tags {self.tags} are not released')
        check(not +self.copies, 'copies are not given back')
        check(not any(self.owed.values()), f'{[it for it, many in self.owed.items() if many]} are owed')
        for user in self.emitted | self.heard:
            check(self.heard[user] == self.emitted[user], f'{user} hears {self.heard[user]}, and {self.emitted[user]} was emitted')
        check(self.cellar.finish() == DONE, 'the engine is not done')


# Beliefs --------------------------------------------------------------------------------------------------------------------------

BELIEFS: dict[str, tuple[str, str, type[Face]]] = {}  # of each the choice that it is about, what has to be set for it, and the face


def believes(what: str, choice: str, settings: str = '') -> Any:
    def planted(face: type[Face]) -> type[Face]:
        BELIEFS[what] = choice, settings, face
        return face
    return planted


class Steady(Face):
    """It never stops in the midst, and lets no lane go."""

    stops = passes = 0.0

    def resume(self):
        pass


class Bounded(Face):
    """It fails where the same effect is handed out without end."""

    def __init__(self, cellar, rng):
        super().__init__(cellar, rng)
        self.times = Counter()

    def begin(self, stack, told):
        super().begin(stack, told)
        self.times[told.ticket] += 1
        check(self.times[told.ticket] < 9, 'an effect is handed out nine times')


@believes('what is handed out with an item is that item', 'turns')
class OwnItem(Face):
    is_false_anyway = True

    def handed(self, c, told):
        return told.effect._replace(value=c.value) if c and c.what == NEXT and told.effect.kind == E_NEXT else told.effect


@believes('an item whose lane is empty is handed out as its own', 'own')
class OwnAlone(Steady):
    def serve(self, stack, c, told):
        is_alone = c and c.what == NEXT and not c.flags and self.deep == 0 and len(self.leaves.get(c.node, ())) == 1
        check(not is_alone or told.own == 1, f'{c} is handed out as that of another')
        super().serve(stack, c, told)


@believes('a step hands out all that there is', 'turns')
class OneEffect(Steady):
    is_false_anyway = True

    def serve(self, stack, c, told):
        if told.effect:
            self.begin(stack, told)
            self.hear(stack, told.effect)


@believes('what is handed out needs no beginning', 'turns')
class NeverBegun(Bounded):
    is_false_anyway = True

    def begin(self, stack, told):
        super().begin(stack, told)
        stack.begun = 0


@believes('nobody else is told in a lane that was passed', 'turns')
class Alone(Face):
    is_false_anyway = True
    passes = 0.5

    def hear(self, stack, e):
        self.under_way = [*getattr(self, 'under_way', []), e.user]
        check(e.kind != E_NEXT or self.under_way.count(e.user) == 1, f'{e.user} is told while it is told')
        super().hear(stack, e)
        self.under_way.pop()


@believes('a call that throws need not stop', 'turns')
class NeverStops(Face):
    is_false_anyway = True

    def serve(self, stack, c, told):
        if told.effect and self.rng.random() < self.stops:
            self.begin(stack, told)
            self.hear(stack, told.effect)
            self.stacks[stack.by] = Stack(stack.by + 100, stack.depth)  # the stack is never seen again
        else:
            super().serve(stack, c, told)


@believes('a node that is disposed of hears first that it is gone', 'gone')
class OwnEnd(Steady):
    def serve(self, stack, c, told):
        check(not c or c.what != DISPOSE or self.deep or told.effect.kind == E_GONE, f'{told.effect} is told first')
        super().serve(stack, c, told)


@believes('a refused command leaves the closings of the one before', 'forgets')
class LateClosings(Steady):
    def closings(self, c, told):
        if told.closings:
            self.cellar.step(Stack(77, 7), Command(COMPLETE, node=2**63))
        return tuple(word for place in range(0, len(told.closings), 16) for word in self.cellar.closings(place, 16))


@believes('an answer has at most eight closings', 'turns')
class EightClosings(Steady):
    is_false_anyway = True

    def closings(self, c, told):
        return told.closings[:ROOM]


@believes('what stopped calls left comes in the order in which its observers came', 'left')
class OldestLeft(Face):
    passes = 0.0
    stops = 0.2

    def step(self):
        if self.rng.random() < 0.3:
            self.leave()
        super().step()

    def leave(self):
        """Some items are handed out, and nobody begins them."""
        self.deep += 3
        stack, users = Stack(55, 1), []
        for leaf in [it for it in self.leaves if self.leaves[it]][:3]:
            value = self.new_word()
            for user in self.leaves[leaf]:
                self.emitted[user].append(value)
            self.copies[value] += self.made(stack, Command(NEXT, node=leaf, value=value)).copies
            self.cellar.ended('stop', stack)
        told = self.cellar.step(stack)
        while told.effect:
            stack.begun = told.ticket
            users += [told.effect.user] * (told.effect.kind == E_NEXT)
            self.hear(stack, told.effect)
            told = self.cellar.step(stack)
        self.deep -= 3
        check(users == sorted(users), f'{users} are told in this order')


@believes('tickets grow by one', 'tickets')
class CountsTickets(Steady):
    def begin(self, stack, told):
        super().begin(stack, told)
        check(told.ticket == getattr(self, 'last', 0) + 1, f'ticket {told.ticket} comes behind {getattr(self, "last", 0)}')
        self.last = told.ticket


@believes('a ticket has 32 bits', 'tickets')
class SmallTicket(Bounded):
    def begin(self, stack, told):
        super().begin(stack, told)
        stack.begun = told.ticket & 2**32 - 1


@believes('a ticket is a double', 'tickets')
class DoubleTicket(Bounded):
    def begin(self, stack, told):
        super().begin(stack, told)
        stack.begun = int(float(told.ticket))


@believes('the node itself is told last to be closed', 'closings')
class OwnClosing(Face):
    def below(self, user):
        """What stands below a root wishes to be heard of too."""
        if user not in self.roots:
            return
        word = self.new_word()
        self.owed['closing', word] += 1
        self.make(lambda told: self.hears(told.node, user), what=OPEN, place=SOURCE, node=self.roots[user], user=word, flags=WISHES, by=self.by())

    def closings(self, c, made):
        check(c.what != DISPOSE or len(made.closings) < 2 or made.closings[-1] == self.disposed, f'{made.closings} are told for {self.disposed}')
        return made.closings


@believes('the slot of a key has 32 bits', 'slots')
class SmallSlot(Face):
    def made(self, stack, c):
        slots = self.cellar.slots
        self.cellar.slots = {number: slot & 2**32 - 1 for number, slot in slots.items()}
        found = super().made(stack, c)
        self.cellar.slots = slots | self.cellar.slots
        return found


@believes('a share has the hub that it was told last', 'hub-words')
class LastHub(Face):
    def made(self, stack, c):
        told = super().made(stack, c)
        if c.what == OPEN and c.kind == SHARED:
            self.hubs = {**getattr(self, 'hubs', {}), **({told.hub: c.value} if told.is_connected else {})}
            check(told.hub in self.hubs, f'a subscriber is told hub {told.hub}, which no share has')
        return told


@believes('the only share has the same hub each time', 'hubs')
class SameHub(Face):
    def made(self, stack, c):
        told = super().made(stack, c)
        if told.is_connected and not self.shares:
            hub = self.other_of(told.node)
            self.only = getattr(self, 'only', hub)
            check(hub == self.only, f'the hub was {self.only}, and is {hub}')
        return told


@believes('a refused command makes no event', 'making')
class NoEvent(Face):
    def step(self):
        before = self.cellar.totals()[6]
        self.cellar.step(Stack(77, 7), Command(COMPLETE, node=2**63))
        check(self.cellar.totals()[6] == before, 'a refused command made events')
        super().step()


@believes('subscribers of a share end in the order in which they came', 'forced')
class EndsInOrder(Face):
    """Those of a share stand in one lane."""

    def share(self):
        users = []
        for _ in range(0 if self.shares else 3):
            shares = users and users[0] in self.roots
            users.append(self.subscribe(1, **({'node': self.roots[users[0]], 'flags': LANE_OF_NODE} if shares else {})))
        self.together = [*getattr(self, 'together', []), users]

    def hear(self, stack, e):
        users = next((it for it in getattr(self, 'together', []) if e.user in it), [e.user])
        check(e.kind != E_COMPLETED or not any(self.owed['end', user] for user in users[:users.index(e.user)]), f'{e.user} ends before {users}')
        super().hear(stack, e)


@believes('resources are released in the order in which they were held', 'releases')
class OldestFirst(Face):
    def release(self, tag):
        super().release(tag)
        tags = next(it for it in self.resources.values() if tag in it)
        check(tags.pop(0) == tag, f'{tag} is released before an older one')


@believes('what an effect does not carry is zero', 'values')
class Zero(Face):
    def handed(self, c, told):
        value = self.cellar.stepped[21]
        check(told.effect.carries or not value, f'{told.effect} has the value {value}')
        return told.effect


@believes('a holding in the history says a number of the history', 'others')
class SmallHolding(Face):
    def made(self, stack, c):
        told = super().made(stack, c)
        if c.what == HOLD:
            check(self.other_of(told.other) < told.other, f'a holding says {self.other_of(told.other)}')
        return told


@believes('memory is never refused', 'memory', 'memory=20')
class Memory(Face):
    def made(self, stack, c):
        return self.cellar.step(stack, c)


@believes('what is disposed of from within is released before the call returns', 'astray', 'astray=200')
class AtOnce(Steady):
    def by(self):
        return 1

    def dispose(self):
        user = self.one_of(self.roots)
        super().dispose()
        check(user is None or self.disposed != user or not self.tags & {*self.resources[user]}, f'{user} is not released')


@believes('what is gone is answered so', 'before', 'before=50')
class Gone(Face):
    def step(self):
        made = self.cellar.step(Stack(77, 7), Command(OPEN, place=SOURCE, node=2**63))
        check(made.status == 17, f'an opening below what is gone is answered {made.status}')
        super().step()


@believes('behind 4,000 events the next command makes a checkpoint', 'checkpoints', 'checkpoints=1000')
class Tidy(Steady):
    def program(self, steps):
        self.deep = 3
        self.subject()
        while self.cellar.totals()[6] <= 4000:
            self.emit()
        self.emit()
        check(self.cellar._event(self.cellar.at, 0, self.cellar.w) != DONE, 'the first event is still there')
        super().program(0)


@believes('a full history makes room for itself', 'full', 'full=100')
class Full(Face):
    limit = 600

    def made(self, stack, c):
        return self.cellar.step(stack, c)


def fails(face: type[Face], cellar: Cellar, seed: str) -> str | None:
    """A random program: why the face fails, if it does."""
    try:
        face(cellar, random.Random(seed)).program(40)
        return None
    except Exception as why:
        return f'{type(why).__name__}: {why}'
    finally:
        cellar.drop()
