"""Faults that are planted in what a program answers, each by its name: what is compared has to find them.

A fault of a command is planted in what goes in: the program carries out something else than it was told. A fault of a text
is planted in what comes out.
"""
from __future__ import annotations

import json
import re
from collections.abc import Callable
from typing import Any

from .engines import Model, copy_of_the_model


class Turned:
    """An engine that is asked something else, or whose answers are turned."""

    def __init__(self, engine: Any, step: Callable | None = None, only: str = '', **texts: Callable):
        self.engine, self.step, self.only, self.texts = engine, step, only, texts
        self.answers_cut = hasattr(engine, 'answers_cut') and engine.answers_cut

    def scenario(self, text: bytes) -> bytes:
        try:
            value = json.loads(text)
            return json.dumps({**value, 'steps': self.steps(value['steps'])}).encode() if self.step else text
        except (ValueError, TypeError, KeyError):
            return text

    def steps(self, steps: list[Any]) -> list[Any]:
        return [self.step({**step, **({'then': self.steps(step['then'])} if 'then' in step else {})}) for step in steps]

    def line(self, line: bytes) -> bytes:
        if not self.step:
            return line
        try:
            value = json.loads(line)
            return json.dumps([self.step(it) for it in value] if isinstance(value, list) else self.step(value)).encode()
        except (ValueError, TypeError, KeyError, AttributeError):
            return line

    def told(self, what: str, answer: tuple[int, bytes]) -> tuple[int, bytes]:
        turn = self.texts.get(what, lambda text: text)
        return (answer[0], turn(answer[1].decode()).encode()) if answer[0] in (0, 5) else answer

    def run(self, text: bytes) -> tuple[int, bytes]:
        return self.told('report', self.engine.run(self.scenario(text)))

    def dump(self, text: bytes) -> tuple[int, bytes]:
        return self.told('dump', self.engine.dump(text if self.only else self.scenario(text)))

    def audit(self, text: bytes) -> tuple[int, bytes]:
        return self.told('verdict', self.engine.audit(text))

    def live(self, lines: list[bytes], limit: int | None = None, cut: bytes = b'') -> list[str]:
        turn = self.texts.get('answers', lambda answers: answers)
        return turn(self.engine.live([self.line(line) for line in lines], limit, cut))


def instead(do: str, /, **members: Any) -> Callable:
    """A command is carried out otherwise: with other members, or as another command."""
    def turn(step: dict[str, Any]) -> dict[str, Any]:
        if step.get('do') != do:
            return step
        other = {name: it(step.get(name)) if callable(it) else it for name, it in members.items()}
        when = {name: it for name, it in step.items() if name in ('label', 'at', 'after', 'then')}
        return {**(when if 'do' in members else step), **other}
    return turn


def nothing(do: str) -> Callable:
    return instead(do, do='drain')


COMMANDS = {
    'hub is of the other mode': instead('hub', mode=lambda mode: 'manual' if mode == 'auto' else 'auto'),
    'open makes a mirroring node of a Switch': instead('open', kind=lambda kind: 'flat' if kind == 'switch' else kind),
    'open makes a root of an inner': lambda step: ({**{k: v for k, v in step.items() if k != 'of'}, 'place': 'root'}
                                                   if step.get('do') == 'open' and step.get('place') == 'inner' else step),
    'using takes no resource': lambda step: ({**{k: v for k, v in step.items() if k != 'res'}, 'do': 'open', 'kind': 'pass'}
                                             if step.get('do') == 'using' else step),
    'hold holds nothing': nothing('hold'),
    'apply uses nothing': nothing('apply'),
    'remove leaves the resource': nothing('remove'),
    'lease gives nothing out': nothing('lease'),
    'return keeps the lease': nothing('return'),
    'next emits another value': instead('next', value=lambda value: value - 1 if value and value > 0 else 1),
    'end completes for an error': lambda step: ({k: v for k, v in step.items() if k != 'error'} if step.get('do') == 'end' else step),
    'abort has another code': instead('abort', error=lambda code: 7 if code != 7 else 8),
    'fail has another code': instead('fail', error=lambda code: 7),
    'decline declines nothing': nothing('decline'),
    'dispose does nothing': nothing('dispose'),
    'connect does nothing': nothing('connect'),
    'disconnect does nothing': nothing('disconnect'),
    'cancel cancels nothing': nothing('cancel'),
}


def replaced(pattern: str, by: Any) -> Callable[[str], str]:
    return lambda text: re.sub(pattern, by, text, count=1, flags=re.M)


def one_more(match: re.Match) -> str:
    return match[1] + str(int(match[2]) + 1)


def in_a_row(turn: Callable[[list[dict[str, Any]]], list[dict[str, Any]]]) -> Callable[[list[str]], list[str]]:
    """Of the answers to commands, one behind the other, whether they stand in an array or not."""
    def turned(answers: list[str]) -> list[str]:
        values = [json.loads(it) for it in answers]
        told = iter(turn([each for value in values for each in (value if isinstance(value, list) else [value])]))
        return [json.dumps([next(told) for _ in value] if isinstance(value, list) else next(told)) for value in values]
    return turned


def of_answers(turn: Callable[[dict[str, Any]], dict[str, Any]]) -> Callable[[list[str]], list[str]]:
    return in_a_row(lambda answers: [turn(it) for it in answers])


def no_drain(step: dict[str, Any]) -> dict[str, Any]:
    return {**{k: v for k, v in step.items() if k != 'do'}, 'do': 'checkpoint'} if step.get('do') == 'drain' else step


def forgets(member: str) -> Callable:
    return of_answers(lambda it: {name: value for name, value in it.items() if name != member})


@in_a_row
def twice(answers: list[dict[str, Any]]) -> list[dict[str, Any]]:
    """What was released is released once more, at the next answer."""
    told, last = [], []
    for it in answers:
        last, before = it.get('release', []), last
        told.append({**it, 'release': it.get('release', []) + before} if before and 'ok' in it else it)
    return told


@in_a_row
def late(answers: list[dict[str, Any]]) -> list[dict[str, Any]]:
    """A release comes one answer too late."""
    told, kept = [], []
    for it in answers:
        now, kept = kept, it.get('release', [])
        if 'ok' in it or 'closed' in it:
            it = {name: value for name, value in it.items() if name != 'release'} | ({'release': now} if now else {})
        told.append(it)
    return told


def notes_reversed(it: dict[str, Any]) -> dict[str, Any]:
    return {**it, 'notes': it['notes'][::-1]} if 'notes' in it else it


PLANTS: dict[str, tuple[str, Callable[[Any], Turned]]] = {}


def planted(name: str, kind: str, **how: Any) -> None:
    PLANTS[f'{kind}: {name}'] = (kind, lambda engine: Turned(engine, **how))


for command, turn in COMMANDS.items():
    planted(command, 'json', step=turn)
    if not command.startswith('cancel'):
        planted(command, 'lines', step=turn)
planted('drain takes nothing', 'json', step=lambda step: {**step, 'do': 'cancel', 'step': 'none'} if step['do'] == 'drain' else step)
planted('checkpoint makes no room', 'json', step=nothing('checkpoint'), only='run')
for name, how in {
        'a refusal is not told': replaced(r'^refused .*\n', ''),
        'a refusal is of the step behind it': replaced(r'^(refused )(\d+)', one_more),
        'a refusal has another name': replaced('Gone$', 'WrongKind'),
        'a node is open that is closed': replaced('^(node .*) closed:', r'\1 open:'),
        'a note is not told': replaced(r'^(node .*:.*) (next|project)=\S+$', r'\1'),
        'a completion is an error': replaced('completed$', 'error=0'),
        'a resource waits that is held': replaced('^(res .*) held', r'\1 waiting'),
        'a use too many': replaced(r'(uses=)(\d+)', one_more),
        'a lease too many': replaced(r'(leases=)(\d+)', one_more),
        'a node too many': replaced(r'(nodes=)(\d+)', one_more),
        'a fault is not told': replaced(r'faults [1-9]\d*', 'faults 0')}.items():
    planted(name, 'json', report=how)
for name, how in {
        'the last event lacks': replaced(r',\[[^][]*\]\]$', ']'),
        'a closing comes twice': replaced(r'(,\["close",\d+\])', r'\1\1'),
        'an end is a closing': replaced(r'\["end",(\d+),[^]]*\]', r'["close",\1]'),
        'a take before the last event': replaced(r'(,\[[^][]*\])(,\["take",\d+\])', r'\2\1')}.items():
    planted(f'dump: {name}', 'json', dump=how)
for name, how in {
        'a place too far': replaced(r'^(unlawful )(\d+)', one_more),
        'unsettled is lawful': replaced('^unsettled$', 'lawful\nlive:\nheld:\nwaiting:'),
        'lawful is unsettled': replaced(r'^lawful\n(.*\n)*', 'unsettled\n'),
        'a node that is open lacks': replaced(r'^(live:.*) \d+$', r'\1'),
        'what waits is held': replaced(r'^held:(.*)\nwaiting:( \d+)', r'held:\1\2\nwaiting:')}.items():
    planted(name, 'dump', verdict=how)
for name, how in {
        'a note is not told': forgets('notes'),
        'notes in reverse': of_answers(notes_reversed),
        'a release is not told': forgets('release'),
        'what closed is not told': forgets('closed'),
        'a connection is not told': forgets('connected'),
        'a name lacks in a dump': of_answers(lambda it: {**it, 'names': dict(list(it['names'].items())[1:])} if it.get('names') else it),
        'an open node is told as closed': of_answers(lambda it: {**it, 'open': False} if it.get('open') else it),
        'a release is told twice': twice,
        'a release is told too late': late,
        'a place too far': of_answers(lambda it: {**it, 'ok': it['ok'] + 1} if 'ok' in it else it),
        'a refusal has another name': of_answers(lambda it: {'refused': 'Gone'} if it.get('refused') == 'NoName' else it),
        'a list lacks its last node': of_answers(lambda it: {**it, 'nodes': it['nodes'][:-1]} if it.get('nodes') else it),
        'a dump lacks its last event': of_answers(lambda it: {**it, 'dump': it['dump'][:-1]} if it.get('dump') else it),
        'a faulty line is refused': of_answers(lambda it: {'refused': 'NoName'} if 'faulty' in it else it)}.items():
    planted(name, 'lines', answers=how)


class Lenient(Turned):
    """A faulty input is taken for an empty one."""

    def run(self, text: bytes) -> tuple[int, bytes]:
        answer = self.engine.run(text)
        return self.engine.run(b'{"steps":[]}') if answer[0] == 3 else answer

    def audit(self, text: bytes) -> tuple[int, bytes]:
        answer = self.engine.audit(text)
        return self.engine.audit(b'[]') if answer[0] == 3 else answer


PLANTS['input: a faulty input is taken'] = ('input', Lenient)


# Wrong definitions: the model with one of its functions turned is asked in the place of a program.

def wrong(name: str, *kinds: str, **functions: Callable[[Any], Callable]) -> None:
    """Each function is given the module of the definitions, and gives what stands in the place of its namesake."""
    def engine(_: Any) -> Model:
        package = copy_of_the_model('turned')
        for function, make in functions.items():
            old = getattr(package.definitions, function, None) or getattr(package.calls, function)
            new = make(package.definitions, old)
            for module in (package.definitions, package.calls, package.scenario, package.live):
                if getattr(module, function, None) is old:
                    setattr(module, function, new)
            package.definitions.RULES = tuple(new if rule is old else rule for rule in package.definitions.RULES)
            new.__name__ = function
        return Model(package)
    for kind in kinds:
        PLANTS[f'{kind}: definition: {name}'] = (kind, engine)


wrong('a Switch keeps its old inner', 'json', 'dump', shuts=lambda d, old: lambda h, e, n: old(h, e, n) and not isinstance(e, d.Open))
wrong('closing a node leaves what is below', 'json', 'dump', is_open=lambda d, old: lambda h, n: d.is_standing(h, n))
wrong('a FlatMap completes with an inner, its source open', 'json', 'dump', completed=lambda d, old: lambda h: old(h) + [
    d.End(f, d.COMPLETED) for f in d.open_nodes(h) if d.kind_of(h, f) in ('flat', 'switch') and d.owed(h, f) == 0
    and any(d.COMPLETED in d.ends_of(h, c) for c in d.inners(h, f)) and not any(d.is_open(h, c) for c in d.inners(h, f))])
wrong('a FlatMap completes though it owes', 'json', 'dump', completed=lambda d, old: lambda h: [
    d.End(f, d.COMPLETED) for f in d.open_nodes(h) if d.kind_of(h, f) in ('flat', 'switch') and d.source_completed(h, f)
    and not any(d.is_open(h, c) for c in d.children(h, f))])
wrong('RefCount disconnects with the last but one', 'dump', left=lambda d, old: lambda h: [
    d.Close(c) for c in d.open_nodes(h) if d.kind_of(h, c) == 'connection' and d.at(h, d.at(h, c).hub) == d.Hub('auto')
    and len(d.open_subscribers(h, d.at(h, c).hub)) < 2 and len([n for n in d.nodes(h) if d.kind_of(h, n) == 'sub']) > 1])
wrong('RefCount never disconnects', 'json', 'dump', left=lambda d, old: lambda h: [])
wrong('RefCount never connects', 'json', 'dump', is_connect_due=lambda d, old: lambda h, g: False)
wrong('an ended connection cuts off who comes later', 'json', 'dump', cuts=lambda d, old: lambda h, s: [
    e.terminal for e in h if isinstance(e, d.End) and d.at(h, e.node) == d.Connect(d.at(h, s).hub)])
wrong('an ended connection cuts off nobody', 'json', 'dump', cut=lambda d, old: lambda h: [])
wrong('a TakeUntil mirrors its source alone', 'json', 'dump', mirrored=lambda d, old: lambda h: [
    d.End(p, t) for p in d.open_nodes(h) if d.kind_of(h, p) in ('pass', 'until', 'connection')
    for c in d.children(h, p) if d.at(h, c).place == 'source' for t in d.ends_of(h, c)])
wrong('a TakeUntil is never fired', 'json', 'dump', fired=lambda d, old: lambda h: [])
wrong('a FlatMap fails with its source alone', 'json', 'dump', failed=lambda d, old: lambda h: [
    e for e in old(h) if any(d.at(h, c).place == 'source' and e.terminal in d.ends_of(h, c) for c in d.children(h, e.node))])
wrong('subscribers are reached from the youngest on', 'lines', open_subscribers=lambda d, old: lambda h, g: old(h, g)[::-1])
wrong('a firing takes the item from later stops', 'json', 'lines', stops=lambda d, old: lambda h, n: old(h, n)[:next(
    (i + 1 for i, s in enumerate(old(h, n)) if s.what == 'firing'), None)])
wrong('an item goes to each stop once', 'json', 'lines', stops=lambda d, old: lambda h, n: list(dict.fromkeys(old(h, n))))
wrong('a Decline leaves what is owed', 'json', 'dump', owed=lambda d, old: lambda h, f: old(h, f) + h.behind(f).count(d.Decline(f)))
wrong('an inner leaves what is owed', 'json', 'dump', owed=lambda d, old: lambda h, f: old(h, f) + len(d.inners(h, f)))
wrong('a lease holds nothing', 'json', 'dump', is_held=lambda d, old: lambda h, r: isinstance(d.at(h, r), d.Accept) and d.is_owned(h, r))
wrong('one return gives all leases back', 'json', 'dump', leases_of=lambda d, old: lambda h, r: (
    [] if any(isinstance(e, d.Return) and d.at(h, e.lease) == d.Lease(r) for e in h) else old(h, r)))
wrong('a removal is forgotten', 'json', 'dump', is_owned=lambda d, old: lambda h, r: (
    isinstance(d.at(h, r), d.Accept) and d.is_open(h, d.at(h, r).node)))
wrong('what was taken waits again', 'dump', is_taken=lambda d, old: lambda h, r: False)
wrong('a source may be opened again', 'json', 'dump', was_opened=lambda d, old: lambda h, p, place: any(
    d.at(h, c).place == place and d.is_open(h, c) for c in d.children(h, p)))
wrong('a subscriber may stand in a connection of its own hub', 'json', 'dump', not_hubbed=lambda d, old: lambda h, e: (
    None if e.of is not None and e.kind == 'sub' and any(d.at(h, a) == d.Connect(e.hub) for a in d.ancestors(h, e.of)) else old(h, e)))
wrong('Using is no exception', 'dump', accepts_for_using=lambda d, old: lambda h, e: False)
wrong('any Accept may come before what is forced', 'dump', accepts_for_using=lambda d, old: lambda h, e: isinstance(e, d.Accept))
wrong('callers go on before what is forced', 'dump', is_settled=lambda d, old: lambda h: h.length % 2 == 0 or old(h))
wrong('a connection by RefCount may be closed by hand', 'dump', not_allowed=lambda d, old: lambda h, e: (
    d.no_open_node(h, e.node, 'connection') if isinstance(e, d.Close) and d.kind_of(h, e.node) == 'connection' else old(h, e)))
wrong('a node with an open child may be ended', 'dump', not_allowed=lambda d, old: lambda h, e: (
    d.no_open_node(h, e.node, 'pass', 'until', 'connection') if isinstance(e, d.End) and d.kind_of(h, e.node) in (
        'pass', 'until', 'connection') and e.terminal != d.COMPLETED else old(h, e)))
wrong('an owned resource needs one event', 'json', debt=lambda d, old: lambda h: old(h) - sum(d.is_owned(h, r) for r in d.resources(h)))
wrong('a lease needs no event', 'json', debt=lambda d, old: lambda h: old(h) - sum(d.is_out(h, l) for l in range(len(h))))
wrong('what is owed needs no event', 'json', debt=lambda d, old: lambda h: old(h) - sum(d.owed(h, f) for f in d.open_nodes(h)))
wrong('Full one event too early', 'json', adds=lambda d, old: lambda h, call: old(h, call) + (old(h, call) > 0))
wrong('Full one event too late', 'json', adds=lambda d, old: lambda h, call: old(h, call) - (old(h, call) > 1))
wrong('an inner reserves its room anew', 'json', adds=lambda d, old: lambda h, call: old(h, call) + (call.place == 'inner'))
