"""Runs scenarios (docs/reference/scenario.md; docs/explanation/definitions.md, 16) and the lines of a live book (docs/reference/live-protocol.md) on the definitions.

Where a choice is free, which of several forced events comes first and which of the waiting resources is taken, a `Way`
makes it: by the canonical order, or as a history that somebody else wrote, which is followed event by event, and refused
where it is not one of the ways.
"""
from __future__ import annotations

import heapq
from collections import deque
from typing import Any

from .calls import Call, first_cause, outside_of
from .definitions import (COMPLETED, Connect, End, Event, History, Take, accepted_count, at, forced, held_count, history, is_held, is_leased,
                          is_open, is_waiting, is_within, kind_of, leases_of, nodes, notes_to, open_nodes, resources, taken_count, uses, waiting_count)
from .texts import MOST_UNTIL

STOCK = 256


class Differs(Exception):
    """What was told is not what may be."""


class Canonical:
    """Each choice as the canonical course has it: the first rule, the node, or the resource, of the least number."""

    def choose(self, h: History, free: list[Event]) -> Event:
        return free[0]


class Last(Canonical):
    """Another order, to see what rests on the order: the last of what is free."""

    def choose(self, h: History, free: list[Event]) -> Event:
        return free[-1]


class Longest(Canonical):
    """The order that has the most events, to see what may be full: what ends takes the fewest others with it."""

    def choose(self, h: History, free: list[Event]) -> Event:
        return min(free, key=lambda e: sum(is_within(h, n, e.node) for n in open_nodes(h)) if isinstance(e, End) else 0)


class Following(Canonical):
    """The choices of a history that is told."""

    def __init__(self, told: list[Event]):
        self.told = told

    def choose(self, h: History, free: list[Event]) -> Event:
        if len(h) >= len(self.told):
            raise Differs(f'the history ends at {len(h)}, where {free} may come')
        e = self.told[len(h)]
        if e not in free:
            raise Differs(f'at {len(h)} stands {e}, and {free} may come')
        return e


class Book:
    """A history with names: what a scenario and a live book have in common."""

    def __init__(self, way: Canonical, limit: int | None = None):
        self.h, self.way, self.limit, self.since = history([]), way, limit, 0
        self.names: dict[str, dict[str, int]] = {'node': {}, 'hub': {}, 'res': {}, 'lease': {}}
        self.tags = 0

    def number(self, space: str, name: str) -> int | None:
        """What a name stands for, where it is bound."""
        return self.names[space].get(name)

    def tag(self) -> int | None:
        """The tag of the next resource; None where there is none."""
        return self.tags if self.tags < STOCK else None

    def own_cause(self, step: dict[str, Any]) -> str | None:
        do = step['do']
        used = [('node', step.get('of')), ('node', step.get('node')), ('lease', step.get('lease')),
                ('hub', step.get('hub')), ('res', step.get('res') if do in ('apply', 'remove', 'lease') else None)]
        if any(name is not None and self.number(space, name) is None for space, name in used):
            return 'NoName'
        bound = self.binds(step)
        if any(self.number(space, name) is not None for space, name in bound) or len(set(bound)) < len(bound):
            return 'NameTaken'
        return 'NoStock' if do in ('using', 'hold') and self.tag() is None else None

    def binds(self, step: dict[str, Any]) -> list[tuple[str, str]]:
        """The names that a step would bind, each with its space."""
        space = {'open': 'node', 'using': 'node', 'connect': 'node', 'hub': 'hub', 'lease': 'lease'}.get(step['do'])
        bound = [(space, step['name'])] if space and 'name' in step else []
        bound += [('node', step['connection'])] if 'connection' in step else []
        return bound + ([('res', step['res'])] if step['do'] in ('using', 'hold') else [])

    def call_of(self, step: dict[str, Any]) -> Call:
        do = step['do']
        number = lambda space, member: self.number(space, step[member]) if member in step else None
        match do:
            case 'open' | 'using':
                return Call(do, number('node', 'of'), step['place'], step.get('kind', 'pass'), number('hub', 'hub'),
                            self.tag() if do == 'using' else None)
            case 'hub':
                return Call(do, value=step['mode'])
            case 'connect' | 'disconnect':
                return Call(do, number('hub', 'hub'))
            case 'apply' | 'remove' | 'lease':
                return Call(do, number('res', 'res'))
            case 'return':
                return Call(do, number('lease', 'lease'))
            case 'checkpoint':
                return Call(do)
        value = self.tag() if do == 'hold' else step.get('value', step.get('error', COMPLETED))
        return Call(do, number('node', 'node'), value=value)

    def come(self, free: list[Event]) -> None:
        self.h = self.h.then(self.way.choose(self.h, free))

    def settle(self) -> None:
        while due := forced(self.h):
            self.come(list(dict.fromkeys(e for _, e in due)))

    def drain(self) -> list[int]:
        taken = []
        while waits := [r for r in resources(self.h) if is_waiting(self.h, r)]:
            self.come([Take(r) for r in waits])
            taken.append(at(self.h, len(self.h) - 1).resource)
        return taken

    def checkpoint(self) -> None:
        self.since = len(self.h)

    def perform(self, step: dict[str, Any]) -> str | None:
        """One step: None where it is accepted, and else what it is refused for, and nothing is changed."""
        if why := self.own_cause(step):
            return why
        if step['do'] == 'drain':
            self.drain()
            return None
        if step['do'] == 'checkpoint':
            self.checkpoint()
            return None
        call = self.call_of(step)
        if why := self.refused_for(call):
            return why
        place = len(self.h)
        for e in outside_of(self.h, call):
            self.come([e])
        self.settle()
        for space, name in self.binds(step):
            self.bind(step, space, name, place)
        return None

    def refused_for(self, call: Call) -> str | None:
        return first_cause(self.h, call, self.limit, self.since)

    def bind(self, step: dict[str, Any], space: str, name: str, place: int) -> None:
        if step['do'] == 'using' and space == 'res':
            place += 1
        elif name == step.get('connection'):
            place += 1
            if not isinstance(at(self.h, place), Connect):
                return
        self.names[space][name] = place
        if space == 'res':
            self.tags += 1


def report(refused: list[tuple[int, str]], names: list[tuple[str, int]], stock: list[tuple[str, int]], h: History,
           faults: int) -> str:
    """The text that a course determines: its refusals, the nodes and resources with their names, and its history."""
    lines = [f'refused {k} {name}' for k, name in refused]
    for name, n in names:
        if at(h, n).place == 'root' or kind_of(h, n) in ('flat', 'switch'):
            told = [note.what if note.value is None else f'{note.what}={note.value}' for note in notes_to(h, n)]
            lines.append(' '.join([f'node {name} {"open" if is_open(h, n) else "closed"}:', *told]))
    for name, r in stock:
        state = 'held' if is_held(h, r) else 'waiting' if is_waiting(h, r) else 'taken'
        out = f' leases={len(leases_of(h, r))}' if is_leased(h, r) else ''
        lines.append(f'res {name} tag={at(h, r).tag} uses={uses(h, r)} {state}{out}')
    held, waiting = held_count(h), waiting_count(h)
    lines.append(f'totals nodes={len(nodes(h))} open={len(open_nodes(h))} accepted={accepted_count(h)} held={held} '
                 f'waiting={waiting} taken={taken_count(h)}')
    return '\n'.join([*lines, f'closed {held + waiting} faults {faults}', ''])


class Course(Book):
    """A scenario that is run: what was refused, and the last stage."""

    def __init__(self, scenario: dict[str, Any], way: Canonical, limited: bool = True):
        super().__init__(way, scenario.get('events', 1_048_576) if limited else None)
        self.refused: list[tuple[int, str]] = []
        self.executed = 0
        self.opened: list[tuple[str, int]] = []
        until, order, waiting = scenario.get('until', MOST_UNTIL), 0, []
        for step in scenario['steps']:
            heapq.heappush(waiting, (step.get('at', 0), order, step))
            order += 1
        while waiting and waiting[0][0] <= until:
            now, _, head = heapq.heappop(waiting)
            turn = deque([head])
            while turn:
                step = turn.popleft()
                if step['do'] == 'cancel':
                    found = next((it for it in waiting if it[2].get('label') == step['step']), None)
                    why = None if found else 'NoStep'
                    if found:
                        waiting.remove(found)
                        heapq.heapify(waiting)
                else:
                    why = self.perform(step)
                if why:
                    self.refused.append((self.executed, why))
                self.executed += 1
                for follower in step.get('then', []) if not why else []:
                    if 'after' in follower:
                        heapq.heappush(waiting, (now + follower['after'], order, follower))
                        order += 1
                    else:
                        turn.append(follower)

    def bind(self, step: dict[str, Any], space: str, name: str, place: int) -> None:
        super().bind(step, space, name, place)
        if step['do'] in ('open', 'using') and space == 'node' and name == step['name']:
            self.opened.append((name, place))

    def faults(self) -> int:
        """Of the program's stock those answer a fault whose tag is 3 modulo 8; each resource is released by the end."""
        return sum(at(self.h, r).tag % 8 == 3 for r in resources(self.h))

    def report(self) -> str:
        return report(self.refused, self.opened, list(self.names['res'].items()), self.h, self.faults())

    def was_full(self) -> bool:
        return any(why == 'Full' for _, why in self.refused)
