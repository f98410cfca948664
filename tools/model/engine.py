"""The engine (crates/cellarcliff/cellarcliff.h) by its definitions: what a command is answered, which effects come of it, and in which lane.

A node, a resource and a lease go by their numbers, a lane by how many were opened before it. The history is that of the book; where
its order is free it follows what is told. `Lane` and what is made of one are as in rx_lanes/specs/Lane, the choice of a hub as in
rx_pool/specs/Choice, roles and effects as in rx_roles/specs.
"""
from __future__ import annotations

from collections.abc import Callable, Iterable
from dataclasses import dataclass, replace
from typing import NamedTuple

from .calls import Call, first_cause, outside_of
from .definitions import (COMPLETED, Accept, Close, Connect, Event, Hub, Note, Return, Take, accepted_count, at, forced, held_count,
                          is_allowed, is_open, is_out, is_waiting, mail_of, open_connections, open_nodes, resources)
from .history import History, history
from .scenario import Canonical

(OPEN, USING, HOLD, NEXT, COMPLETE, ERROR, FAIL, DECLINE, DISPOSE, CONNECT, DISCONNECT, PUT, SHUT, ABORT, APPLY, REMOVE, LEASE,
 GIVE_BACK) = range(18)
AT, KINDS = ('root', 'source', 'inner', 'notifier'), ('leaf', 'pass', 'flat', 'switch', 'until', 'sub', 'sub')
FLAT, SWITCH, SHARED, PUBLISHED = 2, 3, 5, 6
WISHES, LANE_OF_NODE, OF_PROJECTIONS, QUEUES = 1, 2, 4, 8
E_NEXT, E_PROJECT, E_COMPLETED, E_FAILED, E_GONE, E_RELEASE, E_PUT, E_MERGED = range(8)
DONE, NOTHING_KEPT, NO_SUCH_CODE, UNTAKEN = 0, 1, 5, 6
REFUSED = {name: status for status, name in enumerate((
    'Full', 'Gone', 'WrongKind', 'PlaceTaken', 'NothingOwed', 'NotRoot', 'NoHub', 'HubOrder', 'Connected', 'NotConnected', 'NotFresh',
    'NotHeld', 'HasChild', 'TooMany', 'NoLease', 'Leased'), 16)} | {'NoMemory': 4}
MOST, BLOCK = 1024, 16  # hubs, and of one mode one after another
NOTHING = 2**64         # a number that names nothing


@dataclass
class Command:
    what: int
    place: int = 0
    kind: int = 0
    flags: int = 0
    level: int = 0
    hub: int = 0
    node: int = NOTHING
    user: int = 0
    value: int = 0
    by: int = 0
    spare: int = 0


class Effect(NamedTuple):
    kind: int
    user: int
    value: int
    by: int
    carries: int


# Lanes -------------------------------------------------------------------------------------------------------------------------

class Waiting(NamedTuple):
    """An effect in a lane; `part` is the same of those of which one command says no order: who is gone."""
    effect: Effect
    part: int


@dataclass(frozen=True)
class Lane:
    """What an interrupted server gave back, what who serves it set free, and the rest; who serves it; how many name it."""
    returned: tuple[Waiting, ...] = ()
    front: tuple[Waiting, ...] = ()
    back: tuple[Waiting, ...] = ()
    server: int | None = None
    many: int = 1

    def line(self) -> tuple[Waiting, ...]:
        return self.returned + self.front + self.back

    def is_left(self) -> bool:
        return self.server is None and self.line() != ()

    def is_idle(self) -> bool:
        return self.server is None and self.line() == ()

    def put(self, e: Waiting) -> Lane:
        """Behind all others."""
        return replace(self, back=self.back + (e,))

    def freed(self, by: int, e: Waiting) -> Lane:
        """What is set free stands before the rest where the caller serves the lane."""
        return replace(self, front=self.front + (e,)) if self.server == by else self.put(e)

    def taken(self, by: int, inside: bool) -> tuple[tuple[Waiting, ...], Lane]:
        """What a word is given of a lane: nothing, and the lane stays, where it may not take. `inside` only what stands before the
        rest. Who is given an effect serves the lane; where there is none it is served no more, but for who asked to go on inside."""
        if self.server != by and (inside or self.server is not None):
            return (), self
        for name in ('returned', 'front') if inside else ('returned', 'front', 'back'):
            if line := getattr(self, name):
                return line[:1], replace(self, **{name: line[1:], 'server': by})
        return (), self if inside else replace(self, server=None)

    def given_up(self, by: int, untold: tuple[Waiting, ...]) -> Lane:
        return replace(self, returned=untold, server=None) if self.server == by else self


# Hubs --------------------------------------------------------------------------------------------------------------------------

@dataclass
class PooledHub:
    mode: str
    owner: int = 0
    many: int = 0  # open nodes that name it


def last_before(test: Callable[[PooledHub], bool], hubs: list[PooledHub], end: int) -> int | None:
    """The last place before the end whose hub passes."""
    return next((place for place in reversed(range(min(end, len(hubs)))) if test(hubs[place])), None)


def choice(hubs: list[PooledHub], mode: str, word: int, level: int, limit: int) -> int | str:
    """The share's own hub, if it stands before the limit; where none serves it, the last that is free before the level's end, else
    before the limit."""
    own = last_before(lambda hub: is_own(hub, mode, word), hubs, MOST)
    if own is not None:
        return own if own < limit else 'HubOrder'
    is_free = lambda hub: hub.mode == mode and hub.many == 0
    for end in (MOST - 32 * max(0, 7 - level), limit):
        found = last_before(is_free, hubs, min(end, limit))
        if found is not None:
            return found
    return 'NoHub' if last_before(is_free, hubs, MOST) is None else 'HubOrder'


def is_own(hub: PooledHub, mode: str, word: int) -> bool:
    return hub.mode == mode and hub.many > 0 and hub.owner == word


# The engine --------------------------------------------------------------------------------------------------------------------

class Role(NamedTuple):
    """A last effect that is still to come: for whom, and in which lane."""
    word: int
    lane: int


class Sent(NamedTuple):
    """An effect that a command comes to."""
    lane: int
    effect: Effect
    part: int = 0


class Due(NamedTuple):
    """A lane that the caller is to serve, and by which effect of the command; those of one part are named in any order."""
    lane: int
    inside: bool
    by: int


@dataclass
class Answer:
    status: int
    node: int | None = None
    other: int | None = None
    is_connected: int = 0
    hub: int = 0
    copies: int = 0
    closings: tuple[int, ...] = ()
    handed: Effect | None = None
    lanes: tuple[Due, ...] = ()
    hands: int | None = None  # who is handed the item that is all that comes of the command


class Stands(Exception):
    """What stands against a command."""


def flags_of(c: Command) -> int:
    """The flags that a command may have."""
    if c.what in (OPEN, USING):
        at_node = LANE_OF_NODE | (OF_PROJECTIONS if c.flags & LANE_OF_NODE else 0)
        return WISHES | (at_node if c.place == 0 else 0)
    return {NEXT: QUEUES, CONNECT: WISHES, PUT: OF_PROJECTIONS}.get(c.what, 0)


def is_known(c: Command) -> bool:
    """Each number of it is one of its enum, and what is spare is zero."""
    opens = c.what in (OPEN, USING)
    return (c.spare == 0 and c.what <= GIVE_BACK and not (opens and c.place >= len(AT)) and not (c.what == OPEN and c.kind >= len(KINDS))
            and not c.flags & ~flags_of(c))


class Engine:
    """A book with the roles of what is open and held, the lanes, and the pool of hubs."""

    def __init__(self, way: Canonical, limit: int | None = None):
        self.h: History = history([])
        self.way, self.limit, self.since = way, limit, 0
        self.hears: dict[int, Role] = {}     # open roots
        self.merges: dict[int, Role] = {}    # open FlatMaps and Switches
        self.holds: dict[int, Role] = {}     # resources that were not taken
        self.wishes: dict[int, Role] = {}    # who wants to hear of its closing
        self.homes: dict[int, Role] = {}     # every open node: its lane
        self.limits: dict[int, int] = {}     # the place of the hub inside whose connection it stands
        self.hub_of: dict[int, int] = {}     # of a subscriber or connection
        self.hubs: list[PooledHub] = []
        self.first_hub = 0                   # its number in the book
        self.lanes: dict[int, Lane] = {}
        self.next_lane, self.parts = 0, 0
        self.gone: list[int] = []            # closed by the command under way
        self.has_memory = True               # for a checkpoint; of nothing else is it said here where memory lacks

    # The book: a call adds its event, and what that forces

    def come(self, free: list[Event]) -> Event:
        e = self.way.choose(self.h, free)
        self.h = self.h.then(e)
        return e

    def ask(self, call: Call) -> list[Note]:
        """Makes a call of the book: the notes that come of it."""
        if why := first_cause(self.h, call, self.limit, self.since):
            raise Stands(why)
        return self.happens(outside_of(self.h, call))

    def opened_and_held(self, call: Call) -> tuple[list[Note], int]:
        """Opens a node, and then holds its resource there: what the opening forces comes between. The notes, and the resource."""
        if why := first_cause(self.h, call, self.limit, self.since):
            raise Stands(why)
        opening, holding = outside_of(self.h, call)
        told = self.happens([opening])
        resource = len(self.h)
        return told + self.happens([holding]), resource

    def happens(self, events: list[Event]) -> list[Note]:
        """These events of the caller, and what they force."""
        told: list[Note] = []
        free = [[e] for e in events]
        while free or (due := forced(self.h)):
            before = self.h
            told += mail_of(before, self.come(free.pop(0) if free else list(dict.fromkeys(e for _, e in due))))
        return told

    # Commands

    def hand(self, answer: Answer, due: Due) -> None:
        """The caller takes the item, which stands alone in its lane, and serves that."""
        assert answer.hands is not None
        answer.handed = self.take(due.lane, due.inside, answer.hands)

    def made(self, c: Command) -> Answer:
        """A command that is refused changes nothing but the history's beginning: behind a checkpoint it may not be full any more."""
        if not is_known(c):
            return Answer(NO_SUCH_CODE)
        try:
            try:
                return self.perform(c)
            except Stands as why:
                if why.args[0] != 'Full':
                    raise
            self.checkpoint()
            return self.perform(c)
        except Stands as why:
            return Answer(REFUSED[why.args[0]])

    def checkpoint(self) -> None:
        """The limit counts from here. Refused for want of memory, it refuses the command that wants it."""
        if not self.has_memory:
            raise Stands('NoMemory')
        self.since = len(self.h)

    def perform(self, c: Command) -> Answer:
        plain = {COMPLETE: Call('end', c.node, value=COMPLETED), ERROR: Call('end', c.node, value=0), FAIL: Call('fail', c.node, value=0),
                 DECLINE: Call('decline', c.node), DISPOSE: Call('dispose', c.node), ABORT: Call('abort', c.node, value=0),
                 APPLY: Call('apply', c.node), REMOVE: Call('remove', c.node), GIVE_BACK: Call('return', c.node),
                 NEXT: Call('next', c.node, value=0)}
        others = {OPEN: self.open, USING: self.open, HOLD: self.hold, LEASE: self.lease, CONNECT: self.connect,
                  DISCONNECT: self.disconnect, PUT: self.put, SHUT: self.shut}
        return others[c.what](c, Answer(DONE)) if c.what in others else self.settled(c, Answer(DONE), self.ask(plain[c.what]))

    def hold(self, c: Command, answer: Answer) -> Answer:
        lane = self.lane_of(c.node, 0)
        answer.other = len(self.h)
        told = self.ask(Call('hold', c.node, value=0))
        self.enter(self.holds, answer.other, c.value, lane)
        return self.settled(c, answer, told)

    def lease(self, c: Command, answer: Answer) -> Answer:
        answer.other = len(self.h)
        return self.settled(c, answer, self.ask(Call('lease', c.node)))

    def put(self, c: Command, answer: Answer) -> Answer:
        """An effect of the face's own."""
        return self.delivered(c, answer, [Sent(self.lane_of(c.node, c.flags), Effect(E_PUT, c.user, c.value, c.by, 1))])

    def disconnect(self, c: Command, answer: Answer) -> Answer:
        place = last_before(lambda hub: is_own(hub, 'manual', c.value), self.hubs, MOST)
        if place is None:
            raise Stands('NotConnected')
        return self.settled(c, answer, self.ask(Call('disconnect', self.published(place))))

    def open(self, c: Command, answer: Answer) -> Answer:
        """A node is opened, with what it holds where it is a Using's."""
        lane = self.lane_of(c.node, c.flags) if c.place or c.flags & LANE_OF_NODE else None
        above = c.node if c.place else None
        limit = self.limits[c.node] if c.place else MOST
        kind, hub = ('pass', None) if c.what == USING else (KINDS[c.kind], None)
        if kind == 'sub':
            answer.hub = place = self.chosen(c, 'auto' if c.kind == SHARED else 'manual', limit)
            hub = self.published(place)
        answer.node = n = len(self.h)
        call = Call('using' if c.what == USING else 'open', above, AT[c.place], kind, hub, 0 if c.what == USING else None)
        if c.what == USING:
            told, answer.other = self.opened_and_held(call)
        else:
            told = self.ask(call)
        self.enter_node(n, c, lane, limit)
        if answer.other is not None:
            self.enter(self.holds, answer.other, c.value, self.homes[n].lane)
        if kind == 'sub':
            self.join(n, answer.hub, c.value)
            if isinstance(at(self.h, n + 1), Connect):
                answer.other, answer.is_connected = n + 1, 1
                self.enter_connection(n + 1, answer.hub, c.value, 0)
        return self.settled(c, answer, told)

    def connect(self, c: Command, answer: Answer) -> Answer:
        answer.hub = place = self.chosen(c, 'manual', MOST)
        answer.other = n = len(self.h)
        told = self.ask(Call('connect', self.published(place)))
        self.enter_connection(n, place, c.value, c.user)
        if c.flags & WISHES:
            self.wishes[n] = Role(c.user, 0)
        return self.settled(c, answer, told)

    def shut(self, c: Command, answer: Answer) -> Answer:
        """The oldest lease is given back, or else the oldest root unsubscribed, or else the oldest hub disconnected."""
        nodes = [n for n in open_nodes(self.h) if is_allowed(self.h, Close(n))]
        connections = sorted((e.hub, n) for n in nodes if isinstance(e := at(self.h, n), Connect))
        free = [*(Return(l) for l in range(len(self.h)) if is_out(self.h, l)), *(Close(n) for n in nodes if not isinstance(at(self.h, n), Connect)),
                *(Close(n) for _, n in connections)]
        if not free:
            raise Stands('Gone')
        return self.settled(c, answer, self.happens([free[0]]))

    # Which lane, and which hub

    def lane_of(self, node: int, flags: int) -> int:
        """The lane of an open node, or that of what is projected to it."""
        if not is_open(self.h, node):
            raise Stands('Gone')
        if not flags & OF_PROJECTIONS:
            return self.homes[node].lane
        if node not in self.merges:
            raise Stands('Gone')
        return self.merges[node].lane

    def opened(self) -> int:
        """A new lane, which nobody names yet."""
        self.lanes[self.next_lane] = Lane(many=0)
        self.next_lane += 1
        return self.next_lane - 1

    def enter(self, table: dict[int, Role], number: int, word: int, lane: int) -> None:
        table[number] = Role(word, lane)
        self.lanes[lane] = replace(self.lanes[lane], many=self.lanes[lane].many + 1)

    def enter_node(self, n: int, c: Command, lane: int | None, limit: int) -> None:
        """A root has a new lane, or one that it asked for; a node below has that of the node above it."""
        self.enter(self.homes, n, c.user, self.opened() if lane is None else lane)
        self.limits[n] = limit
        if c.place == 0:
            self.enter(self.hears, n, c.user, self.homes[n].lane)
        if c.what == OPEN and c.kind in (FLAT, SWITCH):
            self.enter(self.merges, n, c.user, self.opened())
        if c.flags & WISHES:
            self.wishes[n] = Role(c.user, 0)

    def enter_connection(self, n: int, place: int, share: int, word: int) -> None:
        self.enter(self.homes, n, word, self.opened())
        self.limits[n] = place
        self.join(n, place, share)

    def chosen(self, c: Command, mode: str, limit: int) -> int:
        """The place of the hub of a share. All hubs are made where the first is asked for."""
        if not self.hubs:
            self.make_hubs()
        place = choice(self.hubs, mode, c.value, c.level, limit)
        if isinstance(place, str):
            raise Stands(place)
        return place

    def make_hubs(self) -> None:
        self.hubs = [PooledHub(('auto', 'manual')[place // BLOCK % 2]) for place in range(MOST)]
        self.first_hub = len(self.h)
        self.h = history([*self.h, *(Close(self.first_hub + place) for place in range(MOST))])

    def published(self, place: int) -> int:
        """The number of a hub in the book. One that nobody subscribed to or connected stands in the history as an event that says
        nothing, since the definitions search for hubs."""
        number, hub = self.first_hub + place, Hub(self.hubs[place].mode)
        if at(self.h, number) != hub:
            self.h = history([*self.h.before(number), hub, *self.h.behind(number)])
        return number

    def join(self, n: int, place: int, share: int) -> None:
        self.hub_of[n] = place
        self.hubs[place].owner = share
        self.hubs[place].many += 1

    # What a call comes to

    def told(self, c: Command, note: Note) -> Sent:
        """A note, for the role that it goes to; an end is the last for who hears."""
        if note.what == 'project':
            role, kind = self.merges[note.to], E_PROJECT
        elif note.what == 'next':
            role, kind = self.hears[note.to], E_NEXT
        else:
            role, kind = self.hears.pop(note.to), E_COMPLETED if note.what == COMPLETED else E_FAILED
        carries = int(kind != E_COMPLETED)
        return Sent(role.lane, Effect(kind, role.word, c.value if carries else 0, c.by, carries))

    def last(self, c: Command, table: dict[int, Role], number: int, kind: int, part: int = 0) -> list[Sent]:
        """The last effect of a role, if there is one."""
        role = table.pop(number, None)
        return [Sent(role.lane, Effect(kind, role.word, 0, c.by, 0), part)] if role else []

    def settles(self, c: Command, notes: list[Note]) -> list[Sent]:
        """All notes are told; who was closed has ended; what waits is released."""
        effects = [self.told(c, note) for note in notes]
        closed = [n for n in self.homes if n not in self.gone and not is_open(self.h, n)]
        self.gone += closed
        self.parts += 1
        for n in closed:
            effects += self.last(c, self.hears, n, E_GONE, self.parts) + self.last(c, self.merges, n, E_MERGED, self.parts)
        while waits := [r for r in resources(self.h) if is_waiting(self.h, r)]:
            effects += self.last(c, self.holds, self.come([Take(r) for r in waits]).resource, E_RELEASE)
        return effects

    def settled(self, c: Command, answer: Answer, notes: list[Note]) -> Answer:
        return self.delivered(c, answer, self.settles(c, notes))

    def delivered(self, c: Command, answer: Answer, effects: list[Sent]) -> Answer:
        """The effects stand in their lanes, each last one in the place of its role; the lanes that got something are named."""
        answer.copies = sum(it.effect.carries for it in effects)
        answer.closings = tuple(self.wishes.pop(n).word for n in self.gone if n in self.wishes)
        is_alone = not self.gone and len(effects) == 1 and self.lanes[effects[0].lane].is_idle()
        fresh: dict[int, int] = {}
        for i, (name, e, part) in enumerate(effects):
            lane, waiting = self.lanes[name], Waiting(e, part)
            self.lanes[name] = lane.freed(c.by, waiting) if e.kind == E_RELEASE else lane.put(waiting)
            fresh.setdefault(name, -part if part else i)
            if e.kind not in (E_NEXT, E_PROJECT, E_PUT):
                self.part(name)
        for n in self.gone:
            self.part(self.homes.pop(n).lane)
            if n in self.hub_of:
                self.hubs[self.hub_of.pop(n)].many -= 1
        self.gone = []
        answer.lanes = tuple(Due(name, lane.server is not None, first) for name, first in fresh.items()
                             for lane in [self.lanes[name]] if lane.server is None or lane.server == c.by and lane.front)
        if c.what == NEXT and not c.flags & QUEUES and is_alone:
            answer.hands = c.by
        return answer

    def part(self, name: int) -> None:
        """One fewer names a lane."""
        self.kept(name, replace(self.lanes[name], many=self.lanes[name].many - 1))

    def kept(self, name: int, lane: Lane) -> None:
        """A lane that nobody names or serves, with nothing in it, is let go."""
        self.lanes[name] = lane
        if lane.many == 0 and lane.is_idle():
            del self.lanes[name]

    # Serving

    def take(self, name: int, inside: bool, by: int) -> Effect | None:
        if name not in self.lanes:
            return None
        found, lane = self.lanes[name].taken(by, inside)
        self.kept(name, lane)
        return found[0].effect if found else None

    def give_up(self, name: int, by: int, untold: Effect | None) -> int | None:
        """Whether the lane has something then; None where the word does not serve it."""
        lane = self.lanes.get(name)
        if lane is None or lane.server != by:
            return None
        self.kept(name, lane := lane.given_up(by, (Waiting(untold, 0),) if untold else ()))
        return int(lane.is_left())

    def left(self) -> set[int]:
        return {name for name, lane in self.lanes.items() if lane.is_left()}

    # Questions

    def waiting(self) -> list[Effect]:
        return [it.effect for lane in self.lanes.values() for it in lane.line()]

    def totals(self) -> tuple[int, ...]:
        """Nodes, held, waiting, leases, accepted, taken, events, effects."""
        h, effects = self.h, self.waiting()
        held, accepted, releases = held_count(h), accepted_count(h), sum(e.kind == E_RELEASE for e in effects)
        return (len(open_nodes(h)), held, releases, sum(is_out(h, l) for l in range(len(h))), accepted, accepted - held - releases, len(h),
                len(effects))

    def is_done(self) -> bool:
        nodes, held, _, leases, *_, effects = self.totals()
        return nodes == held == leases == effects == 0
