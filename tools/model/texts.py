"""The texts that come in and go out: dumps and scenarios as docs/reference/scenario.md has them, lines as docs/reference/live-protocol.md has them."""
from __future__ import annotations

import json
import math
import re
from typing import Any

from .definitions import (COMPLETED, Accept, Close, Connect, Decline, End, Event, Hub, Item, Lease, Open, Remove, Return, Take,
                          Use)

MOST_BYTES, MOST_LINE, MOST_STEPS, MOST_DEEP = 16_777_216, 65_536, 65_536, 16
MOST_EVENTS, MOST_UNTIL, MOST_TIME = 2**32 - 1, 10**15, 10**12


class Faulty(ValueError):
    """The input is none."""


def json_of(text: bytes) -> Any:
    """The value of a JSON text. A whole number is one without fraction and exponent; a member that stands twice counts as it
    stood last."""
    def whole(digits: str) -> int | float:
        return real(digits) if digits.startswith('-0') or abs(int(digits)) >= 2**64 else int(digits)

    def real(digits: str) -> float:
        if math.isinf(float(digits)):
            raise Faulty('a number that is too large')
        return float(digits)

    def none(word: str) -> None:
        raise Faulty(f'{word} is no JSON')
    try:
        value = json.loads(text.decode('utf-8'), parse_int=whole, parse_float=real, parse_constant=none)
        json.dumps(value, ensure_ascii=False).encode('utf-8')  # refuses half of a surrogate pair
    except (ValueError, RecursionError) as error:
        raise Faulty(str(error)) from None
    deep, quoted = 0, re.sub(r'"(?:[^"\\]|\\.)*"', '', text.decode('utf-8'))
    for sign in re.findall(r'[][{}]', quoted):
        deep += 1 if sign in '[{' else -1
        if deep > 127:
            raise Faulty('nested too deep')
    return value


def is_whole(value: Any, least: int, most: int) -> bool:
    return type(value) is int and least <= value <= most


def is_number(value: Any) -> bool:
    return is_whole(value, 0, 2**64 - 1)


def is_code(value: Any) -> bool:
    return is_whole(value, 0, 2**32 - 1)


def is_item(value: Any) -> bool:
    return is_whole(value, -2**63, 2**63 - 1)


def is_name(value: Any) -> bool:
    return isinstance(value, str) and re.fullmatch(r'[A-Za-z0-9_-]{1,32}', value) is not None


def is_one_of(*words: str) -> Any:
    return lambda value: isinstance(value, str) and value in words


# Dumps

KINDS = ('leaf', 'pass', 'flat', 'switch', 'until')


def event_of(form: Any) -> Event:
    """The event that an array of a dump writes down."""
    def kind(rest: list[Any]) -> tuple[str, int | None] | None:
        if len(rest) == 1 and isinstance(rest[0], str) and rest[0] in KINDS:
            return rest[0], None
        return ('sub', rest[1]) if len(rest) == 2 and rest[0] == 'sub' and is_number(rest[1]) else None
    match form:
        case ['open', 'root', *rest] if found := kind(rest):
            return Open('root', None, *found)
        case ['open', ('source' | 'inner' | 'notifier') as place, n, *rest] if is_number(n) and (found := kind(rest)):
            return Open(place, n, *found)
        case ['hub', ('auto' | 'manual') as mode]:
            return Hub(mode)
        case ['accept', n, tag] if is_number(n) and is_number(tag):
            return Accept(n, tag)
        case ['item', n, value] if is_number(n) and is_item(value):
            return Item(n, value)
        case ['end', n, 'completed'] if is_number(n):
            return End(n, COMPLETED)
        case ['end', n, 'error', code] if is_number(n) and is_code(code):
            return End(n, code)
        case [str(word), n] if word in SIMPLE and is_number(n):
            return SIMPLE[word](n)
    raise Faulty(f'{form} is no event')


SIMPLE = {'connect': Connect, 'use': Use, 'remove': Remove, 'take': Take, 'lease': Lease, 'return': Return, 'decline': Decline,
          'close': Close}


def form_of(e: Event) -> list[Any]:
    """The array that writes an event down."""
    match e:
        case Open(place, n, kind, hub):
            return ['open', place, *([] if n is None else [n]), kind, *([] if hub is None else [hub])]
        case Hub(mode):
            return ['hub', mode]
        case Accept(n, tag):
            return ['accept', n, tag]
        case Item(n, value):
            return ['item', n, value]
        case End(n, terminal):
            return ['end', n, COMPLETED] if terminal == COMPLETED else ['end', n, 'error', terminal]
    word = next(word for word, of in SIMPLE.items() if isinstance(e, of))
    return [word, e.hub if word == 'connect' else e.lease if word == 'return' else e.node if word in ('decline', 'close')
            else e.resource]


def events_of(text: bytes) -> list[Event]:
    if len(text) > MOST_BYTES:
        raise Faulty('too long')
    value = json_of(text)
    if not isinstance(value, list):
        raise Faulty('no array')
    return [event_of(form) for form in value]


def dump_of(events: list[Event]) -> bytes:
    return json.dumps([form_of(e) for e in events], separators=(',', ':')).encode() + b'\n'


# Commands

NODE = {'node': is_name}
ERROR = {**NODE, 'error': is_code}
AT = {'name': is_name, 'place': is_one_of('root', 'source', 'inner', 'notifier')}
COMMANDS = {  # the members that it has, and those that it may have
    'hub': ({'name': is_name, 'mode': is_one_of('auto', 'manual')}, {}),
    'open': ({**AT, 'kind': is_one_of(*KINDS, 'sub')}, {'of': is_name, 'hub': is_name, 'connection': is_name}),
    'using': ({**AT, 'res': is_name}, {'of': is_name}),
    'hold': ({**NODE, 'res': is_name}, {}),
    'apply': ({'res': is_name, 'word': is_number}, {}),
    'remove': ({'res': is_name}, {}),
    'lease': ({'res': is_name, 'name': is_name}, {}),
    'return': ({'lease': is_name}, {}),
    'next': ({**NODE, 'value': is_item}, {}),
    'end': (NODE, {'error': is_code}),
    'abort': (ERROR, {}),
    'fail': (ERROR, {}),
    'decline': (NODE, {}),
    'dispose': (NODE, {}),
    'connect': ({'hub': is_name}, {'name': is_name}),
    'disconnect': ({'hub': is_name}, {}),
    'drain': ({}, {}),
    'checkpoint': ({}, {}),
    'cancel': ({'step': is_name}, {}),
}


def check_command(step: Any, further: dict[str, Any], commands: dict[str, Any]) -> None:
    """Refuses what is no object with `do`, just the members of its command, and some of the further ones."""
    if not isinstance(step, dict) or not isinstance(step.get('do'), str) or step['do'] not in commands:
        raise Faulty('no command')
    needed, possible = commands[step['do']]
    if any(member not in step for member in needed):
        raise Faulty('a member lacks')
    for member, value in step.items():
        check = {'do': lambda _: True, **needed, **possible, **further}.get(member)
        if check is None or not check(value):
            raise Faulty(f'{member} of {step["do"]}')
    if step['do'] in ('open', 'using') and (step['place'] == 'root') == ('of' in step):
        raise Faulty('of')
    if step['do'] == 'open' and (('hub' in step) != (step['kind'] == 'sub') or ('connection' in step and step['kind'] != 'sub')):
        raise Faulty('hub')


def scenario_of(text: bytes) -> dict[str, Any]:
    if len(text) > MOST_BYTES:
        raise Faulty('too long')
    value, labels, counted = json_of(text), set(), 0

    def check(steps: Any, deep: int) -> bool:
        nonlocal counted
        if not isinstance(steps, list) or deep > MOST_DEEP:
            return False
        when = {'after' if deep else 'at': lambda it: is_whole(it, 0, MOST_TIME)}
        for step in steps:
            check_command(step, {'label': is_name, 'then': lambda it: check(it, deep + 1), **when}, COMMANDS)
            counted += 1
            if 'label' in step and step['label'] in labels:
                raise Faulty('a label twice')
            labels.update([step['label']] if 'label' in step else [])
        return counted <= MOST_STEPS
    members = {'steps': lambda it: check(it, 0), 'events': lambda it: is_whole(it, 1, MOST_EVENTS),
               'until': lambda it: is_whole(it, 0, MOST_UNTIL)}
    if not isinstance(value, dict) or 'steps' not in value or not all(
            member in members and members[member](it) for member, it in value.items()):
        raise Faulty('no scenario')
    return value


def has_checkpoint(steps: list[Any]) -> bool:
    return any(step['do'] == 'checkpoint' or has_checkpoint(step.get('then', [])) for step in steps)


LIVE_COMMANDS = {**{do: it for do, it in COMMANDS.items() if do != 'cancel'},
                 'open': (COMMANDS['open'][0], {**COMMANDS['open'][1], 'res': is_name}), 'list': ({}, {}), 'dump': ({}, {}), 'is': (NODE, {})}


def line_of(text: bytes) -> Any:
    """What a line has, which is given without its newline: perhaps a command, or an array of what are perhaps commands."""
    if len(text) > MOST_LINE:
        raise Faulty('too long')
    return json_of(text)


def command_of(value: Any) -> dict[str, Any]:
    check_command(value, {}, LIVE_COMMANDS)
    return value
