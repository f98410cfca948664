"""Random scenarios, sessions, histories and faulty inputs, each by a `random.Random` alone: a seed gives a case again."""
from __future__ import annotations

import functools
import json
import pathlib
import random
from collections.abc import Callable
from typing import Any

from .definitions import (COMPLETED, PLACES, Accept, Close, Connect, Decline, End, Event, History, Hub, Item, Lease, Open, Remove,
                          Return, Take, Use, at, children, debt, forced, held_count, history, hubs, is_held, is_open, is_out, is_owned, is_settled,
                          is_waiting, kind_of, makes_lease, may_follow, nodes, open_connections, open_nodes, owed, resources,
                          source_completed, was_opened)
from .live import Live
from .scenario import Book, Canonical
from .texts import dump_of, events_of, form_of, scenario_of

KINDS = ('leaf', 'pass', 'flat', 'switch', 'until', 'sub')
DATA = pathlib.Path(__file__).resolve().parents[2] / 'examples/stored'
LONG = 45  # events or steps of a stored case with which a random one may begin


@functools.cache
def stored(suffix: str) -> list[Any]:
    """The stored histories, or scenarios, that are short: what somebody thought of is a good beginning."""
    read = {'.dump': events_of, '.json': lambda text: scenario_of(text)['steps']}[suffix]
    files = [file for folder in (DATA, DATA / 'histories', DATA / 'cases') if folder.exists() for file in sorted(folder.glob(f'*{suffix}'))]
    return [it for file in files if file.stat().st_size < 6_000 and len(it := read(file.read_bytes())) <= LONG]


def begun(rng: random.Random) -> History:
    """A front of a stored history, as far as it is lawful; mostly nothing."""
    h = history([])
    for e in rng.choice(stored('.dump') or [[]])[:rng.randrange(LONG)] if rng.random() < 0.3 else []:
        if not may_follow(h, e):
            break
        h = h.then(e)
    return h


def kind_for(rng: random.Random, place: str, has_hubs: bool) -> str:
    """What may be worth opening at such a place: below an operator mostly a subscriber, so that ways meet, or a leaf."""
    if has_hubs and rng.random() < (0.25 if place == 'root' else 0.45):
        return 'sub'
    return rng.choice(KINDS[1:-1] if place == 'root' or rng.random() < 0.35 else KINDS[:1])


class Commands:
    """Commands by names. They are carried out on the model as they are made, so that most of them find what they name and
    are accepted; in a scenario with times they come in another order, and find less."""

    def __init__(self, rng: random.Random, book: Book, checkpoints: float = 0, timed: bool = False, rare: float = 1):
        self.rng, self.book, self.made, self.timed, self.checkpoints = rng, book, 0, timed, checkpoints
        self.rare = rare  # how much likelier the rare commands are
        self.labels: list[str] = []
        self.most = 0  # events and debt at a time, where that is asked for
        self.counts = False

    def new(self, space: str) -> str:
        self.made += 1
        names = list(self.book.names.get(space, ()))
        return self.rng.choice(names) if names and self.rng.random() < 0.02 else f'{space[0]}{self.made}'

    def known(self, space: str, fits: Callable[[int], bool] = lambda n: True) -> str:
        """A name that fits, the younger the likelier; now and then one that does not, or is none."""
        chance, names = self.rng.random(), list(self.book.names[space])
        if chance < 0.02 or not names:
            return f'x{self.rng.randrange(4)}'
        fit = names if chance < 0.07 else [name for name in names if (n := self.book.number(space, name)) is not None and fits(n)]
        fit = fit or names
        return fit[-1 - min(int(self.rng.expovariate(0.3)), len(fit) - 1)]

    def node(self, *kinds: str) -> str:
        h = self.book.h
        return self.known('node', lambda n: is_open(h, n) and (not kinds or kind_of(h, n) in kinds))

    def hub(self, mode: str | None = None, connected: bool | None = None) -> str:
        h = self.book.h
        return self.known('hub', lambda g: mode in (None, at(h, g).mode) and connected in (None, open_connections(h, g) != []))

    def place(self) -> dict[str, Any]:
        """Where something may be opened: an inner that is owed, a place that is bare, a root; now and then anywhere."""
        h, rng = self.book.h, self.rng
        names = [(name, n) for name, n in self.book.names['node'].items() if is_open(h, n)]
        bare = [(name, place) for name, n in names for place in PLACES[kind_of(h, n)] if place != 'inner' and not was_opened(h, n, place)]
        owing, done = [[name for name, n in names if fits(n)] for fits in (lambda n: owed(h, n) > 0, lambda n: source_completed(h, n))]
        if done and rng.random() < 0.06:
            return {'place': 'source', 'of': rng.choice(done)}
        if owing and rng.random() < 0.5:
            return {'place': 'inner', 'of': rng.choice(owing)}
        if bare and rng.random() < 0.8:
            of, place = bare[-1 - min(int(rng.expovariate(0.5)), len(bare) - 1)]
            return {'place': place, 'of': of}
        if names and rng.random() < 0.12:
            return {'place': rng.choice(('source', 'inner', 'notifier')), 'of': self.node()}
        return {'place': 'root'}

    def kind(self, place: str) -> str:
        return kind_for(self.rng, place, bool(self.book.names['hub']))

    def open(self) -> dict[str, Any]:
        name, where = self.new('node'), self.place()
        kind = self.kind(where['place'])
        step = {'do': 'open', 'name': name, **where, 'kind': kind}
        if kind == 'sub':
            step['hub'] = self.hub()
            if self.rng.random() < 0.8:
                step['connection'] = self.new('node')
        if isinstance(self.book, Live) and self.rng.random() < 0.15:
            step['res'] = self.new('res')
        return step

    def command(self) -> dict[str, Any]:
        h, rng, rare = self.book.h, self.rng, self.rare
        some = lambda found, weight: weight if found else 0.3
        leaves = [n for n in open_nodes(h) if kind_of(h, n) == 'leaf']
        by_hand = [g for g in hubs(h) if at(h, g).mode == 'manual']
        held, owing = held_count(h), [f for f in open_nodes(h) if owed(h, f) > 0]
        do = rng.choices(
            ('open', 'using', 'next', 'end', 'hub', 'connect', 'disconnect', 'hold', 'apply', 'remove', 'lease', 'return', 'abort',
             'fail', 'decline', 'dispose', 'drain', 'checkpoint', 'cancel'),
            (34, 7, some(leaves, 24), some(leaves, 9), 3 + 3 * (len(hubs(h)) < 2), some(by_hand, 5), some(by_hand, 2) * rare, some(h, 4),
             some(held, 3), some(held, 1.5) * rare, some(held, 4), some(held, 2.5) * rare, some(h, 1.5) * rare, some(owing, 2) * rare,
             some(owing, 6) * rare, some(h, 3), 2,
             self.checkpoints, 3 * bool(self.labels)))[0]
        step: dict[str, Any] = {'do': do}
        match do:
            case 'open':
                return self.open()
            case 'using':
                step |= {'name': self.new('node'), **self.place(), 'res': self.new('res')}
            case 'next':
                step |= {'node': self.node('leaf'), 'value': rng.choice((0, 1, 5, -7, 2**63 - 1, -2**63, rng.randrange(-99, 99)))}
            case 'end':
                fed = lambda n: is_open(h, n) and kind_of(h, n) == 'leaf' and at(h, n).place == 'source' and owed(h, at(h, n).of) > 0
                step |= {'node': self.known('node', fed) if owing and rng.random() < 0.4 else self.node('leaf'), **({'error': rng.randrange(9)} if rng.random() < 0.35 else {})}
            case 'hub':
                step |= {'name': self.new('hub'), 'mode': rng.choice(('auto', 'auto', 'manual'))}
            case 'connect':
                step |= {'hub': self.hub('manual', False), **({'name': self.new('node')} if rng.random() < 0.85 else {})}
            case 'disconnect':
                step |= {'hub': self.hub('manual', True)}
            case 'hold':
                step |= {'node': self.node(), 'res': self.new('res')}
            case 'apply':
                step |= {'res': self.known('res', lambda r: is_held(h, r)), 'word': rng.choice((0, 3, 2**64 - 1))}
            case 'remove':
                step |= {'res': self.known('res', lambda r: is_owned(h, r))}
            case 'lease':
                step |= {'res': self.known('res', lambda r: is_owned(h, r)), 'name': self.new('lease')}
            case 'return':
                step |= {'lease': self.known('lease', lambda l: is_out(h, l))}
            case 'abort':
                bare = lambda n: is_open(h, n) and kind_of(h, n) not in ('leaf', 'sub') and not any(is_open(h, c) for c in children(h, n))
                step |= {'node': self.known('node', bare), 'error': rng.randrange(9)}
            case 'fail' | 'decline':
                step |= {'node': self.known('node', lambda n: n in owing), **({'error': 2**32 - 1} if do == 'fail' else {})}
            case 'dispose':
                root = lambda n: is_open(h, n) and isinstance(at(h, n), Open) and at(h, n).place == 'root'
                step |= {'node': self.known('node', root)}
            case 'cancel':
                step |= {'step': rng.choice(self.labels)}
        return step

    def next(self) -> dict[str, Any]:
        """A command, which is carried out."""
        step = self.command()
        if step['do'] != 'cancel':
            self.book.perform(step)
        if self.counts:
            self.most = max(self.most, len(self.book.h) - self.book.since + debt(self.book.h))
        return step

    def repeated(self, step: dict[str, Any]) -> None:
        """A stored step is carried out, and what follows it."""
        self.labels += [step['label']] if 'label' in step else []
        if step['do'] == 'cancel' or self.book.perform(step) is None:
            for follower in step.get('then', []):
                self.repeated(follower)

    def steps(self, many: int, deep: int = 0) -> list[dict[str, Any]]:
        """Steps of a scenario, some with a time, a label and followers."""
        steps, rng = [], self.rng
        while many > 0:
            many -= 1
            step = self.next()
            if self.timed and rng.random() < 0.15:
                step['after' if deep else 'at'] = rng.randrange(6)
            if self.timed and rng.random() < 0.15:
                self.made += 1
                step['label'] = f'w{self.made}'
                self.labels.append(step['label'])
            if rng.random() < 0.15 and many and deep < 5:
                below = rng.randint(0, min(many, 5))
                many -= below
                step['then'] = self.steps(below, deep + 1)
            steps.append(step)
        return steps


def scenario(rng: random.Random) -> bytes:
    timed, checkpoints = rng.random() < 0.3, 2 if rng.random() < 0.15 else 0
    made: dict[str, Any] = {}
    if rng.random() < 0.06:
        made['events'] = rng.randrange(1, 60)
    commands = Commands(rng, Book(Canonical(), made.get('events')), checkpoints, timed)
    commands.counts = rng.random() < 0.2
    front = rng.choice(stored('.json') or [[]])[:rng.randrange(LONG)] if rng.random() < 0.2 else []
    for step in front:
        commands.repeated(step)
    made['steps'] = front + commands.steps(rng.randrange(1, 10) if rng.random() < 0.7 or len(front) > 9 else rng.randrange(8, 36))
    if commands.counts:
        made['events'] = max(1, commands.most - rng.randrange(-1, 4))  # there is just room, or not quite
    if timed and rng.random() < 0.3:
        made['until'] = rng.randrange(7)
    return json.dumps(made).encode()


def session(rng: random.Random) -> list[bytes]:
    """Lines of a live book, most of them commands; its history is asked for before it is let go and at the end."""
    commands, lines = Commands(rng, Live(Canonical()), 1 if rng.random() < 0.3 else 0), []
    front = rng.choice(stored('.json') or [[]])[:rng.randrange(LONG)] if rng.random() < 0.2 else []
    for step in front:
        step = {member: it for member, it in step.items() if member not in ('at', 'label', 'then')}
        if step['do'] not in ('cancel', 'checkpoint'):
            commands.book.perform(step)
            commands.book.drain()
            lines.append(json.dumps(step).encode())
    for _ in range(rng.randrange(1, 10) if rng.random() < 0.7 else rng.randrange(8, 36)):
        step = commands.next()
        commands.book.drain()
        line = json.dumps(step).encode()
        if step['do'] == 'checkpoint':
            lines.append(b'{"do":"dump"}')
        if 'node' in step and rng.random() < 0.1:
            lines.append(json.dumps({'do': 'is', 'node': step['node']}).encode())
        lines.append(hurt(rng, line).replace(b'\n', b' ') if rng.random() < 0.04 else line)
        if rng.random() < 0.05:
            lines.append(rng.choice((b'{"do":"list"}', b'{"do":"dump"}', b'{"do":"list"}', b'{"do":"dump","node":"a"}')))
    return [*arrayed(rng, lines), b'{"do":"list"}', b'{"do":"dump"}']


def arrayed(rng: random.Random, lines: list[bytes]) -> list[bytes]:
    """The lines, some of which stand behind each other in an array; what asks for the history stays alone."""
    made: list[bytes] = []
    while lines:
        many = rng.randrange(2, 6) if rng.random() < 0.08 else 1
        part, lines = lines[:many], lines[many:]
        made += [b'[' + b','.join(part) + b']'] if len(part) > 1 and not any(b'dump' in line for line in part) else part
    return made


# Histories

def candidate(rng: random.Random, h: History) -> Event:
    """An event that may perhaps follow: what it names is mostly there, and mostly fits."""
    opened, made = open_nodes(h), resources(h)

    def some(fit: list[int], all_of: list[int]) -> int:
        chance = rng.random()
        numbers = all_of if chance < 0.06 or not fit else fit[-6:]
        return rng.choice(numbers) if numbers and chance > 0.01 else rng.randrange(len(h) + 2)
    node = lambda *kinds: some([n for n in opened if not kinds or kind_of(h, n) in kinds], nodes(h))
    resource = lambda fits: some([r for r in made if fits(h, r)], made)
    owing = [f for f in opened if owed(h, f) > 0]
    what = rng.choices(('open', 'item', 'end', 'close', 'hub', 'connect', 'accept', 'use', 'remove', 'take', 'lease', 'return',
                        'decline', 'fail'), (32, 19, 9, 3, 3 + 3 * (len(hubs(h)) < 2), 3, 6, 2, 2, 5, 4, 4, 4, 3))[0]
    match what:
        case 'open':
            bare = [(n, place) for n in opened for place in PLACES[kind_of(h, n)] if place != 'inner' and not was_opened(h, n, place)]
            chance = rng.random()
            done = [n for n in opened if source_completed(h, n)]
            of, place = (rng.choice(done), 'source') if done and chance < 0.25 else (
                rng.choice(owing), 'inner') if owing and chance < 0.45 else rng.choice(bare[-4:]) if bare and chance < 0.8 else (
                (node(), rng.choice(('source', 'inner', 'notifier'))) if chance < 0.84 else (None, 'root'))
            kind = kind_for(rng, place, hubs(h) != [])
            return Open(place, of, kind, some(hubs(h), hubs(h)) if kind == 'sub' else None)
        case 'item': return Item(node('leaf'), rng.choice((0, 1, -5, 2**63 - 1)))
        case 'end':
            fed = [n for n in opened if kind_of(h, n) == 'leaf' and at(h, n).place == 'source' and at(h, n).of in owing]
            return End(rng.choice(fed) if fed and rng.random() < 0.4 else node('leaf'), rng.choice((COMPLETED, COMPLETED, 0, 3)))
        case 'fail': return End(node('pass', 'flat', 'switch', 'until', 'connection'), rng.choice((1, 2**32 - 1)))
        case 'close': return Close(some([n for n in opened if isinstance(at(h, n), Connect) or at(h, n).place == 'root'], nodes(h)))
        case 'hub': return Hub(rng.choice(('auto', 'auto', 'manual')))
        case 'connect': return Connect(some([g for g in hubs(h) if at(h, g).mode == 'manual' and not open_connections(h, g)], hubs(h)))
        case 'accept': return Accept(node(), rng.choice((0, 7, 2**64 - 1)))
        case 'use': return Use(resource(is_held))
        case 'remove': return Remove(resource(is_owned))
        case 'take': return Take(resource(is_waiting))
        case 'lease': return Lease(resource(is_owned))
        case 'return': return Return(some([l for l in range(len(h)) if is_out(h, l)], [l for l in range(len(h)) if makes_lease(h, l)]))
    return Decline(some(owing, nodes(h)))


def grown(rng: random.Random, h: History, many: int) -> History:
    """h followed by about so many events, each of which may follow, and by what these force."""
    for _ in range(many):
        for _ in range(8):
            e = candidate(rng, h)
            if may_follow(h, e):
                h = h.then(e)
                if isinstance(e, Open) and e.kind == 'pass' and rng.random() < 0.3:
                    h = h.then(Accept(len(h) - 1, 3))
                break
        while due := forced(h):
            h = h.then(rng.choice(due)[1])
    return h


def grown_history(rng: random.Random) -> list[Event]:
    """A lawful history, or one that is turned at one event; most of these are unlawful there or behind it."""
    h = begun(rng)
    h = grown(rng, h, rng.randrange(1, 10) if rng.random() < 0.7 or len(h) > 12 else rng.randrange(8, 28))
    events, how = list(h), rng.random()
    if how < 0.3 or not events:
        return events
    unsettled = [n for n in range(len(events)) if not is_settled(h.before(n))]
    outlived = [n for n in range(len(events)) if n not in unsettled and any(source_completed(h.before(n), f) for f in open_nodes(h.before(n)))]
    n = rng.choice(rng.choice([it for it in (unsettled, outlived, range(len(events))) if it]))
    if how < 0.45:
        return events[:n]
    if how < 0.7:
        wrong = next((e for _ in range(20) if not may_follow(h.before(n), e := candidate(rng, h.before(n)))), events[n])
        return [*events[:n], wrong, *events[n + rng.randrange(2):]]
    if how < 0.8:
        return events[:n] + events[n + 1:]
    if how < 0.87:
        return events[:n] + [rng.choice(events)] + events[n:]
    if how < 0.94 and isinstance(events[n], End):
        return [*events[:n], End(events[n].node, rng.choice((COMPLETED, 0, 3))), *events[n + 1:]]
    m = rng.randrange(len(events))
    events[n], events[m] = events[m], events[n]
    return events


def dump(rng: random.Random) -> bytes:
    events = grown_history(rng)
    if rng.random() < 0.05:
        return json.dumps([form_of(e) for e in events], indent=1).encode()
    return dump_of(events)


# Faulty inputs

WORDS = (None, True, False, 0, -1, 1.0, 5, 2**32, 2**64 - 1, 2**64, -2**63 - 1, '', 'a', 'root', 'leaf', 'sub', 'open', [], {}, [0], 'é',
         'n' * 32, 'n' * 33, 1e2)
TOKENS = (b'-0', b'1.0', b'1e2', b'1e400', b'18446744073709551616', b'nul', b'"\\ud800"', b'NaN', b'{}', b'[', b']', b'}', b',', b':', b'"',
          b' ', b'\xff', b'\x00', b'01', b'+1', b'"do":"drain",', b'"place":"root",', b'"at":1,', b'\\', b'9' * 30)


def hurt(rng: random.Random, text: bytes) -> bytes:
    """The text with something in it that hardly anybody means; now and then it stays what it was."""
    how = rng.random()
    n = rng.randrange(len(text) + 1)
    if how < 0.1:
        return text[:n]
    if how < 0.25 and n < len(text):
        return text[:n] + bytes([text[n] ^ rng.choice((1, 2, 4, 8, 16, 32, 64, 128, 255))]) + text[n + 1:]
    if how < 0.4:
        return text[:n] + rng.choice(TOKENS) + text[n:]
    if how < 0.5:
        return text[:n] + text[min(len(text), n + rng.randrange(1, 8)):]
    try:
        value = json.loads(text)
    except ValueError:
        return text
    for _ in range(rng.randrange(1, 3)):
        value = turned(rng, value)
    return json.dumps(value, ensure_ascii=rng.random() < 0.5).encode()


def turned(rng: random.Random, value: Any) -> Any:
    """The value with another one somewhere, or without one, or with one more."""
    if isinstance(value, list) and value and rng.random() < 0.93:
        n, how = rng.randrange(len(value)), rng.random()
        if how < 0.06:
            return value[:n] + value[n + 1:]
        return [*value[:n], turned(rng, value[n]), *value[n + (how < 0.94):]]
    if isinstance(value, dict) and value and rng.random() < 0.93:
        name, how = rng.choice(list(value)), rng.random()
        if how < 0.12:
            return {member: it for member, it in value.items() if member != name}
        if how < 0.3:
            further = rng.choice(('at', 'after', 'label', 'then', 'of', 'hub', 'name', 'res', 'node', 'error', 'connection', 'step',
                                  'events', 'until', 'steps', 'do'))
            return {**value, further: rng.choice(WORDS)}
        return {**value, name: turned(rng, value[name])}
    return rng.choice(WORDS)


def faulty(rng: random.Random) -> bytes:
    small = scenario(rng) if rng.random() < 0.5 else dump(rng)
    return hurt(rng, small)
