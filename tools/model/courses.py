"""Random courses of an engine: commands, and stacks whose calls nest, begin what they are handed or do not, pass, stop, and leave early; each on
the library and on the model."""
from __future__ import annotations

import random
from collections import Counter
from typing import Any

from .cellar import Cellar, Told
from .definitions import Accept, is_held, is_out, kind_of, open_nodes, owed, parent, resources, stops, was_opened
from .engine import (ABORT, AT, APPLY, COMPLETE, CONNECT, DECLINE, DISCONNECT, DISPOSE, DONE, ERROR, FAIL, GIVE_BACK, HOLD, LEASE, NEXT,
                     NOTHING, OPEN, PUT, REMOVE, SHUT, USING, BLOCK, MOST, Answer, Command, Effect, Lane, PooledHub, choice)
from .scenario import Canonical, Differs, Following
from .texts import events_of
from .crossing import REFUSED
from .turns import Claim, Stack, Stepped, Task, Turn, Turns

OFTEN = {OPEN: 40, USING: 7, HOLD: 7, NEXT: 40, COMPLETE: 8, ERROR: 4, FAIL: 3, DECLINE: 4, DISPOSE: 3, CONNECT: 3, DISCONNECT: 2, PUT: 4,
         SHUT: 0.3, ABORT: 2, APPLY: 2, REMOVE: 3, LEASE: 4, GIVE_BACK: 4}
BELOW = {'pass': [1], 'connection': [1], 'flat': [1, 2], 'switch': [1, 2], 'until': [1, 3]}
HINTS = (0, 5, 1023, 1024, 2**32 - 1, 2**64 - 1)
DEEPEST = 5


class Followed(Turns):
    """Where an order is free it follows what was told.

    Of lanes that became due in any order each may have been asked first. One that had nothing then may be due still, or not: it is kept, and
    `unsure` what it gives; so is one that was let go, since its place may be another lane's."""

    def __init__(self, way: Canonical, limit: int | None = None):
        super().__init__(way, limit)
        self.heard: Effect | None = None
        self.own = 0
        self.unsure: set[int] = set()

    def claim(self, turn: Turn, claim: Claim) -> None:
        self.unsure.discard(claim.lane)
        super().claim(turn, claim)

    def come_home(self, turn: Turn, lane: int) -> None:
        was = self.unsure & {lane}
        super().come_home(turn, lane)
        self.unsure |= was

    def is_free(self, turn: Turn) -> bool:
        if turn in self.hands or any(self.is_sure(claim) for claim in self.due.get(turn, ())):
            return False
        return not self.due.get(turn) or bool(self.own)

    def is_sure(self, claim: Claim) -> bool:
        return claim.lane in self.lanes and claim.lane not in self.unsure

    def first_due(self, turn: Turn) -> Claim | None:
        while claims := self.due.get(turn):
            many = next((i for i, it in enumerate(claims) if it.part != claims[0].part), len(claims))
            giving = [it for it in claims[:many] if self.gives(turn, it)]
            found = next((it for it in giving if self.heard in self.options(turn, it)), None) or next(filter(self.is_sure, giving), None)
            if found:
                self.unsure |= {it.lane for it in claims[:many] if it not in giving}
                return found
            del claims[:many]
        return None

    def gives(self, turn: Turn, claim: Claim) -> bool:
        return claim.lane in self.lanes and self.lanes[claim.lane].taken(turn.by, claim.inside)[0] != ()

    def options(self, turn: Turn, claim: Claim) -> list[Effect]:
        """What a lane may give next: of those of which no order is said, each."""
        line = next((line for line in self.parts_of(self.lanes[claim.lane]) if line), ())
        return [it.effect for it in line[:self.free_front(line)]]

    @staticmethod
    def parts_of(lane: Lane) -> tuple[tuple[Any, ...], ...]:
        return lane.returned, lane.front, lane.back

    @staticmethod
    def free_front(line: Any) -> int:
        """How many of those that stand first are in no order."""
        return next((i for i, it in enumerate(line) if it.part != line[0].part), len(line)) if line[0].part else 1

    def asked(self, turn: Turn, claim: Claim) -> Task | None:
        if claim.lane in self.lanes:
            self.put_first(self.lanes[claim.lane])
        return super().asked(turn, claim)

    def put_first(self, lane: Lane) -> None:
        """Of those of which no order is said, the one that was told comes first."""
        for part in ('returned', 'front', 'back'):
            line = list(getattr(lane, part))
            if line:
                i = next((i for i in range(self.free_front(line)) if line[i].effect == self.heard), 0)
                line[0], line[i] = line[i], line[0]
                object.__setattr__(lane, part, tuple(line))
                return

    def first_left(self, start: int) -> int | None:
        """One that is due to nobody; one that is due to another may be found first, or not at all."""
        due = {claim.lane for claims in self.due.values() for claim in claims if self.is_sure(claim)}
        left = sorted(self.left(), key=lambda lane: lane in due)
        found = next((lane for lane in left if self.heard in self.options(Turn(0, 0), Claim(lane, False))), None)
        return found if found is not None else next((lane for lane in left if lane not in due), None)


class Beside:
    """An engine of the library, and one by the definitions: what they say is the same, or it differs."""

    def __init__(self, cellar: Cellar, limit: int = 0, definitions: type[Followed] = Followed):
        self.cellar, self.way, self.limit = cellar, Following([]), limit
        if status := cellar.new(limit):
            raise Differs(f'new is answered {status}')
        self.model = definitions(self.way, limit or None)
        self.tickets: dict[int, int] = {0: 0}  # of the library, each with the definitions'
        self.made: dict[int, list[int]] = {}   # of a key: the step of its command, and 1 where it is the other one
        self.steps: list[Any] = []
        self.closings: tuple[int, ...] = ()    # of the last command that was accepted

    def same(self, what: str, said: Any, wanted: Any) -> None:
        if said != wanted:
            raise Differs(f'{what}: {said}, and it is {wanted}')

    def begun(self, stack: Stack) -> Stack:
        """The stack as the definitions have it; a ticket that was never told is none of theirs."""
        return Stack(stack.by, stack.depth, self.tickets.get(stack.begun, -1))

    def stack_at(self, stack: Stack) -> list[int]:
        return [stack.by, stack.depth, self.tickets.get(stack.begun, 0)]

    def step(self, stack: Stack, c: Command | None = None) -> tuple[Told, Stepped]:
        """A step, or the next."""
        told = self.cellar.step(stack, c)
        step: list[Any] = ['step', self.stack_at(stack), self.written(c)] if c else ['next', self.stack_at(stack)]
        self.way.told += self.cellar.events()
        self.model.heard, self.model.own = told.effect, told.own
        wanted = self.model.step(self.begun(stack), c)
        self.same('status', told.status, wanted.made.status)
        self.same('events', len(self.way.told), len(self.model.h))
        for member in ('node', 'other', 'is_connected', 'hub', 'copies'):
            self.same(member, getattr(told, member), getattr(wanted.made, member))
        self.same('closings', sorted(told.closings), sorted(wanted.made.closings))
        self.same('what is handed out', told.effect, wanted.task.effect if wanted.task else None)
        self.same('whether it is the own item', told.own, int(wanted.is_own))
        if wanted.task:
            self.same('the ticket', self.tickets.setdefault(told.ticket, wanted.task.ticket), wanted.task.ticket)
        for which, n in enumerate((told.node, told.other)):
            if n is not None:
                self.made[n] = [len(self.steps), which]
        if c and not told.status:
            self.closings = told.closings
        said = {'status': told.status, 'node': int(told.node is not None), 'other': int(told.other is not None), 'connected': told.is_connected,
                'hub': told.hub, 'copies': told.copies, 'closings': list(told.closings),
                'handed': [wanted.task.ticket, *told.effect] if told.effect and wanted.task else [], 'own': told.own}
        self.steps.append([*step, {name: it for name, it in said.items() if it}])
        return told, wanted

    def written(self, c: Command) -> list[Any]:
        """A command as a stored course has it: a key is the step that made it, or a slot and a number."""
        node = [*c.node, 'raw'] if isinstance(c.node, tuple) else self.made.get(c.node)
        return [c.what, c.place, c.kind, c.flags, c.level, c.hub, node, c.user, c.value, c.by, c.spare]

    def let_pass(self, stack: Stack, depth: int, now: bool) -> None:
        self.cellar.ended('pass', stack, depth, int(now))
        self.model.let_pass(self.begun(stack), depth, now)
        self.steps.append(['pass', self.stack_at(stack), depth, int(now)])

    def stop(self, stack: Stack) -> None:
        self.cellar.ended('stop', stack)
        self.model.stop(self.begun(stack))
        self.steps.append(['stop', self.stack_at(stack)])

    def totals(self) -> None:
        self.same('totals', totals := self.cellar.totals(), self.model.totals())
        self.steps.append(['totals', list(totals)])

    def rest(self, start: int, room: int) -> None:
        """Any part of what the last command that was accepted closed."""
        self.same('the closings', self.cellar.closings(start, room), list(self.closings[start:start + room]))

    def dump(self, less: int) -> None:
        """The history, where it is whole; the tag of a holding is none of the caller's."""
        status, length, text = self.cellar.dump(1 << 16)
        if self.model.since:
            return self.same('a dump that is cut', (status, length), (8, 0))
        tagless = [Accept(e.node, 0) if isinstance(e, Accept) else e for e in events_of(text)]
        self.same('the dump', (status, tagless), (0, self.way.told))
        self.same('a dump with too little room', self.cellar.dump(length - less)[:2], (7, length) if less else (0, length))

    def finish(self) -> int:
        status = self.cellar.finish()
        self.same('finish', status, 0 if self.model.is_done() else 6)
        self.steps.append(['finish', status])
        return status


class Calls:
    """The calls that are under way on a stack: the ticket of what each was handed last."""

    def __init__(self, by: int):
        self.stack, self.handed = Stack(by), []

    def at(self, depth: int) -> Stack:
        return Stack(self.stack.by, depth, self.stack.begun)

    def deeper(self) -> Stack:
        return self.at(len(self.handed) + 1)

    def begin(self) -> None:
        self.stack.begun = self.handed[-1]


class Course:
    """Random commands and stacks. What is done and answered is written down."""

    def __init__(self, rng: random.Random, cellar: Cellar, definitions: type[Followed] = Followed):
        self.rng = rng
        small = rng.random() < 0.15
        self.shares = not small and rng.random() < 0.25
        self.most_shares = rng.choice((1, 2, 8))
        limit = rng.randrange(4, 40) if small else rng.choice((0, 0, 2**32 - 1))
        self.engine = Beside(cellar, limit, definitions)
        self.word, self.keys, self.done = 0, [], Counter()
        self.stacks = {by: Calls(by) for by in (1, 2, 3)}
        self.turns: set[tuple[int, int]] = set()  # that took part, by their words and depths
        self.bad, self.odd = rng.choice((0, 0.02, 0.3)), rng.choice((0, 0.05, 0.3))
        self.asks = {NEXT: self.leaves, COMPLETE: self.leaves, ERROR: self.leaves, FAIL: self.owing, DECLINE: self.owing, APPLY: self.held,
                     REMOVE: self.held, LEASE: self.held, GIVE_BACK: self.leases, DISPOSE: lambda: list(self.engine.model.hears),
                     HOLD: self.open, PUT: self.open, ABORT: self.bare}  # of what a command may be asked

    def new_word(self) -> int:
        """The odd ones too, each once, so that an effect tells of which lane it is."""
        self.word += 1
        return {5: 2**64 - 1, 6: 0}.get(self.word, self.word)

    # A command

    def command(self) -> Command:
        """Mostly one that may be done. What is asked of a node while there is none is mostly the opening of one."""
        rng = self.rng
        what = CONNECT if self.shares and not self.word and rng.random() < 0.7 else rng.choices(list(OFTEN), list(OFTEN.values()))[0]
        if any(it.handed for it in self.stacks.values()) and rng.random() < 0.2:  # from within, what closes is released there
            what = rng.choice((DISPOSE, COMPLETE, REMOVE))
        if what in (CONNECT, DISCONNECT) and not self.shares or what in self.asks and not self.asks[what]() and rng.random() < 0.9:
            what = OPEN
        c = Command(what, user=self.new_word(), value=self.new_word(), by=rng.choice((0, 1, 2, 7)), level=rng.choice((0, 0, 1, 6, 7, 8, 2**32 - 1)),
                    hub=rng.choice(HINTS))
        if what in (OPEN, USING):
            self.place(c)
        elif what in self.asks:
            c.node = self.one_of(self.asks[what]())
        if what == PUT and rng.random() < 0.4:
            c.flags, c.node = 4, self.one_of(self.of_kind('flat', 'switch') if rng.random() < 0.8 else self.open())
        if what == NEXT and rng.random() < 0.2:
            c.flags = 8
        if what in (CONNECT, DISCONNECT) or what == OPEN and c.kind >= 5:
            c.value = rng.randrange(self.most_shares) * 2 + (what != OPEN or c.kind == 6)
        if what in (OPEN, USING, CONNECT) and rng.random() < 0.4:
            c.flags |= 1
        return self.spoiled(c) if rng.random() < self.bad else c

    def open(self) -> list[int]:
        return open_nodes(self.engine.model.h)

    def leaves(self) -> list[int]:
        """Leaves, often those of which what they emit goes to many."""
        leaves, h = self.of_kind('leaf'), self.engine.model.h
        many = [n for n in leaves if len(stops(h, n)) > 1]
        return many if many and self.rng.random() < 0.6 else leaves

    def owing(self) -> list[int]:
        h = self.engine.model.h
        return [n for n in self.of_kind('flat', 'switch') if owed(h, n)]

    def held(self) -> list[int]:
        h = self.engine.model.h
        return [r for r in resources(h) if is_held(h, r)]

    def leases(self) -> list[int]:
        h = self.engine.model.h
        return [l for l in range(len(h)) if is_out(h, l)]

    def bare(self) -> list[int]:
        """What may be aborted: nodes with nothing open below them."""
        h = self.engine.model.h
        return [n for n in self.open() if kind_of(h, n) in BELOW and not any(parent(h, c) == n for c in self.open())]

    def of_kind(self, *kinds: str) -> list[int]:
        h = self.engine.model.h
        return [n for n in open_nodes(h) if kind_of(h, n) in kinds]

    def one_of(self, numbers: list[int]) -> int:
        """One of these, mostly a late one; now and then one that is gone, or that is something else."""
        rng = self.rng
        if numbers and rng.random() < 0.9:
            return numbers[-1 - min(int(rng.expovariate(0.3)), len(numbers) - 1)]
        return rng.choice(self.keys) if self.keys and rng.random() < 0.9 else NOTHING

    def place(self, c: Command) -> None:
        """Mostly one that is free: below what has none yet, or owes one."""
        rng, h = self.rng, self.engine.model.h
        c.kind = rng.choice((0, 0, 0, 1, 2, 3, 4, *((5, 5, 5, 6, 6) if self.shares else ())))
        free = [(n, place) for n in self.open() for place in BELOW.get(kind_of(h, n), ()) if (
            owed(h, n) > 0 if place == 2 else not was_opened(h, n, AT[place]))]
        chance = rng.random()
        if free and chance < (0.3 if c.kind >= 5 else 0.75):
            c.node, c.place = free[-1 - min(int(rng.expovariate(0.5)), len(free) - 1)]
            if rng.random() < 0.4:
                c.kind = 0
        elif chance > 0.95:
            c.node, c.place = self.one_of(self.open()), rng.choice((1, 1, 2, 3))
        elif self.open() and rng.random() < 0.25:
            c.node, c.flags = self.one_of(self.open()), rng.choice((2, 2, 6))

    def spoiled(self, c: Command) -> Command:
        """A code, a flag or a spare field that is none; fields that are not read; a key of something else."""
        rng = self.rng
        match rng.randrange(8):
            case 0:
                c.what = rng.choice((18, 19, 77, 255))
            case 1:
                c.place = rng.choice((4, 5, 255))
            case 2:
                c.kind = rng.choice((7, 8, 255))
            case 3:
                c.flags |= rng.choice((1, 2, 4, 8, 16, 32, 64, 128, 255))
            case 4:
                c.spare = rng.choice((1, 2**63))
            case 5:
                c.flags ^= rng.choice((1, 2, 4, 8))
            case 6:
                c.node = rng.choice(((0, 0), (1, 0), (0, 1), (2**64 - 1, 3), (2**32, 2**63), (5, 2**64 - 1)))
            case 7 if self.keys:
                slot, number = self.engine.cellar.key(rng.choice(self.keys))
                c.node = (slot + rng.choice((1, 2**32))) % 2**64, number
        return c

    # Steps

    def step(self) -> None:
        """A command, mostly one call deeper, which has begun what was handed out further out; a signal's handler comes before that."""
        rng = self.rng
        calls = self.stacks[rng.choice((1, 1, 1, 2, 3))]
        if calls.handed and (rng.random() < 0.9 and len(calls.handed) >= DEEPEST or rng.random() < 0.2):
            self.go_on(calls)
        if calls.handed and rng.random() < 0.85:
            calls.begin()
        self.handed(calls, calls.deeper(), self.command())

    def handed(self, calls: Calls, stack: Stack, c: Command | None = None) -> Told:
        """A step, and what is under way then."""
        self.turns.add((stack.by, stack.depth))
        told, wanted = self.asked(stack, c)
        del calls.handed[max(0, stack.depth - 1):]
        if told.effect and stack.depth:
            calls.handed += [0] * (stack.depth - 1 - len(calls.handed)) + [told.ticket]
        self.done[c.what if c else 'next', told.status] += 1
        self.keys += [n for n in (wanted.made.node, wanted.made.other) if n is not None]
        return told

    def asked(self, stack: Stack, c: Command | None) -> tuple[Told, Stepped]:
        """A key that nobody was told names nothing, unless it is by chance one of something there."""
        if c is None or not isinstance(c.node, tuple):
            return self.engine.step(stack, c)
        pair, cellar, key = c.node, self.engine.cellar, self.engine.cellar.key
        c.node = pair[1] if cellar.slots.get(pair[1]) == pair[0] else NOTHING
        try:
            cellar.key = lambda named: pair  # type: ignore[method-assign]
            return self.engine.step(stack, c)
        finally:
            cellar.key = key  # type: ignore[method-assign]

    def go_on(self, calls: Calls, begins: float = 0.95) -> Told:
        """What was handed out last is told, and the next is asked for."""
        if self.rng.random() < begins:
            calls.begin()
        return self.handed(calls, calls.at(len(calls.handed)))

    def serve(self) -> None:
        """Some go on, some wait, some pass or stop, some leave early."""
        rng = self.rng
        for _ in range(rng.choice((0, 0, 1, 2, 3, 6))):
            calls = self.stacks[rng.choice((1, 1, 1, 2, 3))]
            chance = rng.random()
            if chance < 0.02:
                self.engine.totals()
                self.engine.rest(rng.choice((0, 0, 1, 5, 2**64 - 1)), rng.randrange(6))
            elif chance < 0.02 + self.odd:
                self.stray()
            elif not calls.handed:
                if rng.random() < 0.1:
                    self.handed(calls, calls.deeper())
            elif chance < 0.6:
                self.go_on(calls)
            elif chance < 0.7:
                if rng.random() < 0.9:
                    calls.begin()
                depth = len(calls.handed) if rng.random() < 0.7 else rng.randrange(len(calls.handed)) + 1
                self.engine.let_pass(calls.deeper(), depth, rng.random() < 0.5)
            elif chance < 0.78:
                if rng.random() < 0.5:
                    calls.begin()
                depth = rng.randrange(len(calls.handed)) + 1
                self.engine.stop(calls.at(depth))
                del calls.handed[depth - 1:]
            elif chance < 0.82:
                del calls.handed[rng.randrange(len(calls.handed)):]

    def stray(self) -> None:
        """A call of a stack, at a depth, with a ticket, that are somebody else's or nobody's."""
        rng = self.rng
        tickets = list(self.engine.tickets)
        calls = self.stacks.setdefault(by := rng.choice((1, 2, 3, 4, 0, 2**64 - 1)), Calls(by))
        stack = Stack(by, rng.choice((0, 1, 1, 2, 2, 3, 4, 7, 2**64 - 1)), rng.choice((calls.stack.begun, *tickets[-4:], rng.getrandbits(64))))
        self.turns.add((stack.by, stack.depth))
        match rng.randrange(4):
            case 0:
                self.asked(stack, self.command())
            case 1:
                self.asked(stack, None)
            case 2:
                self.engine.let_pass(stack, rng.choice((0, 1, 2, 3, stack.depth, 2**64 - 1)), rng.random() < 0.5)
            case _:
                self.engine.stop(stack)

    def drained(self, calls: Calls, depth: int) -> None:
        """What is due at this depth and deeper is told."""
        calls.handed = []
        while (told := self.asked(calls.at(depth), None)[0]).effect:
            calls.stack.begun = told.ticket

    def depths_of(self, calls: Calls) -> list[int]:
        """From which all is told that is due to a stack; further in there is nothing that these do not come to."""
        took_part = {depth for by, depth in self.turns if by == calls.stack.by}
        return [0] * (0 in took_part) + [1] * bool(took_part)

    def ended(self) -> None:
        """Everything closes, who is under way stops or goes on, what is left is told, and the engine is finished."""
        engine, rng = self.engine, self.rng
        engine.totals()
        if not self.shares and rng.random() < 0.3:
            engine.dump(rng.choice((0, 1, 2)))
        if rng.random() < 0.3 and engine.finish() == DONE:
            return
        if rng.random() < 0.9:
            calls = self.stacks[2]
            while self.handed(calls, calls.deeper(), Command(SHUT)).status == DONE:
                if calls.handed and rng.random() < 0.5:
                    self.go_on(calls)
                if len(calls.handed) >= DEEPEST:
                    calls.handed.pop()
                if rng.random() < 0.1 and engine.finish() == DONE:
                    return
            for calls in self.stacks.values():
                if calls.handed and rng.random() < 0.5:
                    engine.stop(calls.at(1))
            for calls in self.stacks.values():
                for depth in self.depths_of(calls):
                    self.drained(calls, depth)
            engine.totals()
            if engine.finish():
                raise Differs('all is done, and it is not finished')

    def run(self, commands: int) -> Counter:
        try:
            for number in range(commands):
                self.at = number
                self.step()
                self.serve()
            self.ended()
        finally:
            self.engine.cellar.drop()
        return self.done


def crowd(rng: random.Random, cellar: Cellar, steps: int) -> Counter:
    """Shares until each hub is in use, and some go: which hub each gets, by the choice alone, since the definitions search histories of
    a thousand nodes too slowly."""
    done: Counter = Counter()
    cellar.new(0)
    stack = Stack(1, 1)
    hubs = [PooledHub(('auto', 'manual')[place // BLOCK % 2]) for place in range(MOST)]
    roots: list[tuple[int, int]] = []  # with the places of their hubs
    full = rng.choice((0.5, 0.9, 1))
    for _ in range(steps):
        many = sum(hub.many > 0 for hub in hubs)
        if roots and rng.random() < (0.15 if many < full * MOST else 0.55):
            node, place = roots.pop(rng.randrange(len(roots)))
            if cellar.step(stack, Command(DISPOSE, node=node)).status:
                raise Differs(f'root {node} is not disposed of')
            hubs[place].many -= 1 + (hubs[place].mode == 'auto' and hubs[place].many == 2)  # its connection goes with the last
            continue
        kind, word, level = rng.choice((5, 5, 6)), rng.randrange(1200), rng.randrange(9)
        mode = 'auto' if kind == 5 else 'manual'
        made = cellar.step(stack, Command(OPEN, kind=kind, value=word, level=level, hub=rng.choice(HINTS), user=1))
        wanted = choice(hubs, mode, word, level, MOST)
        said = made.hub if made.status == 0 else made.status
        if said != (REFUSED[wanted] if isinstance(wanted, str) else wanted) or made.status == 0 and isinstance(wanted, str):
            raise Differs(f'share {word} of level {level} gets {said}, and it is {wanted}')
        done[OPEN, made.status] += 1
        if made.status == 0:
            hubs[made.hub].owner = word
            hubs[made.hub].many += 1 + made.is_connected
            roots.append((made.node, made.hub))
    cellar.drop()
    return done
