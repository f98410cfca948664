"""Courses of an engine as lines of JSON (bindings/courses/README.md): how they are written, and replayed on the library."""
from __future__ import annotations

import json
from typing import Any

from .cellar import Cellar
from .engine import NOTHING, Command
from .turns import Stack

SAFE = 2**53  # from there on a number is written as a text


def large(it: Any) -> Any:
    if isinstance(it, (list, tuple)):
        return [large(one) for one in it]
    if isinstance(it, dict):
        return {name: large(one) for name, one in it.items()}
    return str(it) if isinstance(it, int) and it >= SAFE else it


def read(it: Any) -> Any:
    if isinstance(it, list):
        return [read(one) for one in it]
    if isinstance(it, dict):
        return {name: read(one) for name, one in it.items()}
    return int(it) if isinstance(it, str) and it.isdigit() else it


def written(engine: Any) -> str:
    return json.dumps(large({'events': engine.limit, 'steps': engine.steps}), separators=(',', ':'))


def features(engine: Any) -> set[Any]:
    """What is worth seeing in a course: kinds of answers, of effects and of turns."""
    found: set[Any] = set()
    seen = begun = 0
    for step in engine.steps:
        match step:
            case ['step', [_, depth, _], [what, place, kind, flags, *_], said]:
                found |= {('what', what, said.get('status', 0)), ('opens', what, place, kind, said.get('status', 0) > 0), ('flags', what, flags)}
                found |= {('copies', min(said.get('copies', 0), 3)), ('closings', len(said.get('closings', ())) > 8)}
                found |= {('handed', what, said.get('status', 0) > 0, said['handed'][1], 'own' in said)} if 'handed' in said else set()
            case ['next', [_, depth, _], said]:
                found.add(('next', min(depth, 3), said.get('handed', (0, None))[1]))
            case ['pass' | 'stop' as what, [_, depth, _], *now]:
                found.add((what, min(depth, 3), *now))
            case [other, it]:
                found.add((other, it if other == 'finish' else bool(it)))
        if step[0] in ('step', 'next') and 'handed' in step[-1]:
            ticket, begun = step[-1]['handed'][0], step[1][2]
            found.add(('again', ticket <= seen, ticket == begun, min(step[1][1], 3)))
            seen = max(seen, ticket)
    return found


class Stored:
    """The keys and tickets of a course by the steps that told them."""

    def __init__(self, cellar: Cellar):
        self.cellar, self.keys, self.tickets = cellar, {}, [0]

    def command(self, words: list[Any]) -> Command:
        c = Command(*words)
        node = words[6]
        c.node = NOTHING if node is None else tuple(node[:2]) if len(node) == 3 else self.keys[tuple(node)]
        return c

    def place(self, ticket: int) -> int:
        """The place of a ticket among those that were told."""
        if ticket not in self.tickets:
            self.tickets.append(ticket)
        return self.tickets.index(ticket)

    def does(self, number: int, step: list[Any]) -> list[Any]:
        """The step as the library has it."""
        if step[0] == 'totals':
            return ['totals', list(self.cellar.totals())]
        if step[0] == 'finish':
            return ['finish', self.cellar.finish()]
        by, depth, begun = step[1]
        stack = Stack(by, depth, self.tickets[begun])
        if step[0] in ('pass', 'stop'):
            self.cellar.ended(step[0], stack, *step[2:])
            return step
        told = self.cellar.step(stack, self.command(step[2]) if step[0] == 'step' else None)
        for which, n in enumerate((told.node, told.other)):
            if n is not None:
                self.keys[number, which] = n
        said = {'status': told.status, 'node': int(told.node is not None), 'other': int(told.other is not None), 'connected': told.is_connected,
                'hub': told.hub, 'copies': told.copies, 'closings': list(told.closings),
                'handed': [self.place(told.ticket), *told.effect] if told.effect else [], 'own': told.own}
        return [*step[:-1], {name: it for name, it in said.items() if it}]


def replay(cellar: Cellar, course: dict[str, Any]) -> str | None:
    """What differs."""
    course = read(course)
    cellar.new(course['events'])
    it = Stored(cellar)
    try:
        for number, step in enumerate(course['steps']):
            if (said := it.does(number, step)) != step:
                return f'step {number}: {said}, and it is {step}'
    finally:
        cellar.drop()
    return None
