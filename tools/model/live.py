"""A live book (docs/reference/live-protocol.md): what each line is to be answered. The answers of a program are followed, since some of what
they tell is free: the order of what is forced, and of a release."""
from __future__ import annotations

import json
from collections.abc import Callable
from dataclasses import replace
from typing import Any

from .calls import Call
from .definitions import (COMPLETED, Accept, Connect, History, at, forced, is_held, is_open, is_out, is_waiting, kind_of, notes, open_connections,
                          open_subscribers, resources, uses)
from .scenario import Book, Canonical, Differs, Following
from .texts import Faulty, command_of, events_of, form_of, line_of

MOST_TRIED = 5_000  # sets of what one line forces


class Live(Book):
    """A book whose names are bound as long as what they name is there."""

    def number(self, space: str, name: str) -> int | None:
        n = super().number(space, name)
        stands = {'node': is_open, 'res': is_held, 'lease': is_out, 'hub': lambda h, g: True}[space]
        return n if n is not None and stands(self.h, n) else None

    def call_of(self, step: dict[str, Any]) -> Call:
        """A resource stays with its caller, who knows it by its name: its tag is its number."""
        call = super().call_of(step)
        match step['do']:
            case 'using': return replace(call, value=len(self.h) + 1)
            case 'hold': return replace(call, value=len(self.h))
        return call

    def tag(self) -> int | None:
        return 0  # there is always one

    def binds(self, step: dict[str, Any]) -> list[tuple[str, str]]:
        return super().binds(step) + ([('res', step['res'])] if step['do'] == 'open' and 'res' in step else [])

    def perform(self, step: dict[str, Any]) -> str | None:
        """An opening with a resource opens, and what that forces comes, and then the node holds it; or neither."""
        if step['do'] != 'open' or 'res' not in step:
            return super().perform(step)
        place = len(self.h)
        if why := self.own_cause(step) or self.refused_for(replace(self.call_of(step), value=place)):
            return why
        opening = {member: it for member, it in step.items() if member != 'res'}
        super().perform(opening)
        self.names['res'][step['res']] = len(self.h)
        self.come([Accept(place, place)])
        self.settle()
        return None

    def refused_for(self, call: Call) -> str | None:
        if super().refused_for(call) == 'Full':
            self.since = len(self.h)  # full by its age: a checkpoint is made, and the line is taken again
        return super().refused_for(call)

    def name_of(self, space: str, n: int) -> str | None:
        return next((name for name, number in self.names[space].items() if number == n), None)

    def named(self, space: str) -> list[tuple[str, int]]:
        """The names that are bound, by rising number."""
        bound = [(n, name) for name in self.names[space] if (n := self.number(space, name)) is not None]
        return [(name, n) for n, name in sorted(bound)]

    def list(self) -> dict[str, Any]:
        nodes = []
        for name, n in self.named('node'):
            made, kind = at(self.h, n), kind_of(self.h, n)
            row = {'name': name, 'number': n, 'kind': kind, **({'hub': self.name_of('hub', made.hub)} if kind in ('sub', 'connection') else {})}
            if kind != 'connection':
                row |= {'place': made.place} | ({'of': self.name_of('node', made.of)} if made.place != 'root' else {})
            nodes.append(row)
        owner = lambda r: {'node': self.name_of('node', at(self.h, r).node)} if is_open(self.h, at(self.h, r).node) else {}
        return {'nodes': nodes,
                'resources': [{'name': name, 'number': r, **owner(r), 'uses': uses(self.h, r)} for name, r in self.named('res')],
                'leases': [{'name': name, 'number': l, 'res': self.name_of('res', at(self.h, l).resource)} for name, l in self.named('lease')],
                'hubs': [{'name': name, 'number': g, 'mode': at(self.h, g).mode, 'connected': open_connections(self.h, g) != [],
                          'subscribers': len(open_subscribers(self.h, g))} for name, g in self.named('hub')]}

    def dump(self) -> dict[str, Any]:
        """The history with the names that are bound; where a checkpoint took events away, its place alone."""
        if self.since:
            return {'since': self.since}
        names = {str(n): name for space in self.names for name, n in self.named(space)}
        return {'dump': [form_of(e) for e in self.h], 'names': names}

    def connected(self, step: dict[str, Any], place: int) -> dict[str, Any]:
        """Where an opening connected the hub of its subscriber: that it did, and the name of the connection if one was given."""
        if step['do'] != 'open' or not isinstance(at(self.h, place + 1), Connect):
            return {}
        return {'connected': True, **({'connection': step['connection']} if 'connection' in step else {})}

    def closed(self, asked: int | None, before: History) -> list[str]:
        """The named nodes that went, beside the one that was asked for."""
        return [name for name, n in self.names['node'].items()
                if n != asked and not is_open(self.h, n) and (n >= len(before) or is_open(before, n))]

    def told(self, note: Any) -> dict[str, Any]:
        return {'to': self.name_of('node', note.to), note.what: True if note.what == COMPLETED else note.value}

    def answer(self, text: bytes) -> dict[str, Any] | list[dict[str, Any]]:
        """What a line is answered, and each command of an array by itself."""
        try:
            value = line_of(text)
        except Faulty as fault:
            return {'faulty': str(fault)}
        return [self.carried_out(it) for it in value] if isinstance(value, list) else self.carried_out(value)

    def carried_out(self, value: Any) -> dict[str, Any]:
        """What a command is answered, if it is one."""
        try:
            step = command_of(value)
        except Faulty as fault:
            return {'faulty': str(fault)}
        before, place, said = self.h, len(self.h), len(notes(self.h))
        if step['do'] == 'list':
            return {'ok': place, **self.list()}
        if step['do'] == 'dump':
            return {'ok': place, **self.dump()}
        if step['do'] == 'is':
            return {'ok': place, 'open': self.number('node', step['node']) is not None}
        asked = self.number('node', step['node']) if step['do'] in ('end', 'abort', 'fail', 'dispose') else None
        if why := self.perform(step):
            return {'refused': why}
        names = {n: name for name, n in self.names['res'].items()}
        released = [names[r] for r in self.drain()]
        told, closed = [self.told(note) for note in notes(self.h)[said:]], self.closed(asked, before)
        return {'ok': place, **self.connected(step, place), **({'closed': closed} if closed else {}), **({'notes': told} if told else {}),
                **({'release': released} if released else {})}

    def last(self) -> dict[str, Any]:
        """The answer to the end of the input: all is closed, and what is held is to be released."""
        left = [name for name in self.names['res'] if self.number('res', name) is not None]
        return {'closed': True, **({'release': left} if left else {})}


class Followed(Live):
    """A live book beside the answers of a program, which have to be among those that may be."""

    def __init__(self, limit: int):
        super().__init__(Canonical(), limit)
        self.later: list[Any] = []         # the answers to commands that are to come
        self.wanted: dict[str, Any] = {}   # the answer that is followed
        self.ends_at: int | None = None    # the length after the command, where it is known

    def carried_out(self, value: Any) -> dict[str, Any]:
        self.wanted = self.later.pop(0) if self.later else {}
        self.ends_at = next((it['ok'] for it in self.later if isinstance(it, dict) and 'ok' in it), None)
        return super().carried_out(value)

    def settle(self) -> None:
        """What is forced, in an order that fits what the answer tells and how many events came."""
        if isinstance(self.way, Following):
            return super().settle()
        begin, seen = self.h, set()
        said, wanted = len(notes(begin.before(len(begin) - 1))), self.wanted.get('notes', [])

        def search(h: History) -> History | None:
            told = [self.told(note) for note in notes(h)[said:]]
            came = (frozenset(h.behind(len(begin) - 1)), len(told))  # another order of the same goes on alike
            if told != wanted[:len(told)] or came in seen or len(seen) > MOST_TRIED:
                return None
            seen.add(came)
            due = list(dict.fromkeys(e for _, e in forced(h)))
            if due:
                return next((k for e in due if (k := search(h.then(e))) is not None), None)
            takes = sum(is_waiting(h, r) for r in resources(h))
            return h if told == wanted and self.ends_at in (None, len(h) + takes) else None
        found = search(begin)
        if found is None:
            return super().settle()
        self.h = found

    def compare(self, answer: str, mine: Callable[[], Any]) -> None:
        """The order of a release is free, that of what closed is not looked at, and the words of what is faulty are free."""
        def plain(it: Any) -> Any:
            if isinstance(it, list):
                return [plain(each) for each in it]
            return {**it, **{word: sorted(it[word]) for word in ('closed', 'release') if isinstance(it.get(word), list)},
                    **({'faulty': it['faulty'] != ''} if 'faulty' in it else {})}
        if plain(it := mine()) != plain(value_of(answer)):
            raise Differs(f'{answer}, and it is {json.dumps(it)}')


def value_of(answer: str) -> Any:
    try:
        return json.loads(answer)
    except ValueError:
        raise Differs(f'{answer!r} is no JSON') from None


def follow(lines: list[bytes], answers: list[str], limit: int = 4_194_304) -> None:
    """Says what in the answers to the lines, and in the last one, may not be."""
    if len(answers) != len(lines) + 1:
        raise Differs(f'{len(lines)} lines and {len(answers)} answers')
    book = Followed(limit)
    dumps = [i for i, answer in enumerate(answers) if answer.startswith('{"ok":') and '"dump":' in answer]
    whole = events_of(json.dumps(json.loads(answers[dumps[-1]])['dump']).encode()) if dumps else []
    for i, (line, answer) in enumerate(zip(lines, answers)):
        book.way = Following(whole) if dumps and i <= dumps[-1] else Canonical()
        values = [value_of(it) for it in answers[i:-1]]
        book.later = [each for value in values for each in (value if isinstance(value, list) else [value])]
        try:
            book.compare(answer, lambda: book.answer(line))
        except Differs as difference:
            raise Differs(f'line {i}: {difference}') from None
    book.compare(answers[-1], book.last)
