"""Compares what programs answer with the definitions, case by case; makes a case that differs smaller."""
from __future__ import annotations

import json
from collections.abc import Callable, Iterator
from typing import Any

from .definitions import (Accept, Close, Connect, Decline, End, Event, Item, Lease, Open, Remove, Return, Take, Use, standing,
                          verdict)
from .live import follow
from .scenario import Canonical, Course, Differs, Following, Last, Longest
from .texts import Faulty, dump_of, events_of, has_checkpoint, scenario_of

FAULTY_INPUT, NOT_LAWFUL = 3, 5


def expect(what: str, said: Any, wanted: Any) -> None:
    if said != wanted:
        raise Differs(f'{what}: {said!r}, and it is {wanted!r}')


def is_sampled(text: bytes) -> bool:
    """Whether it is one of four, for what takes another process or another course."""
    return len(text) % 4 == 0


def compare_words(engine: Any, text: bytes, accepted: bool) -> None:
    """Nothing is explained of what is accepted, and in one line something of everything else."""
    said = engine.explain(text) if hasattr(engine, 'explain') and is_sampled(text) else None
    if said and (said[0] != (0 if accepted else FAULTY_INPUT) or len(said[1].splitlines()) != (not accepted)):
        raise Differs(f'explained: {said}, and it is {"" if accepted else "not "}accepted')


def compare_scenario(engine: Any, text: bytes) -> None:
    """Its report, its dump and the verdict on that; a faulty one is refused."""
    try:
        scenario = scenario_of(text)
    except Faulty as fault:
        expect(f'a scenario that is faulty ({fault})', engine.run(text), (FAULTY_INPUT, b''))
        expect('its dump', engine.dump(text), (FAULTY_INPUT, b''))
        return None if text.lstrip(b' \n\t\r')[:1] == b'[' else compare_words(engine, text, False)
    compare_words(engine, text, True)
    status, told = engine.run(text)
    expect('the status of run', status, 0)
    if has_checkpoint(scenario['steps']):
        expect('the dump of a scenario with a checkpoint', engine.dump(text), (FAULTY_INPUT, b''))
        course = Course(scenario, Canonical())
        if 'events' in scenario:
            courses = [course, Course(scenario, Last()), Course(scenario, Longest())]
            if any(it.was_full() for it in courses) and len({it.report() for it in courses}) > 1:
                return None  # what is refused Full rests on the order, and the order is not told
        return expect('report', told.decode(), course.report())
    status, dump = engine.dump(text)
    expect('the status of run --dump', status, 0)
    told_events = events_of(dump)
    expect('the form of the dump', dump, dump_of(told_events))
    followed = Course(scenario, Following(told_events))
    expect('the events of the dump', len(told_events), len(followed.h))
    expect('report', told.decode(), followed.report())
    if is_sampled(text) and not followed.was_full():
        expect('report of the canonical course', told.decode(), Course(scenario, Canonical(), limited=False).report())
    expect('the verdict on the dump', engine.audit(dump), (0, standing(followed.h).encode()))


def compare_history(engine: Any, text: bytes) -> None:
    """The verdict on it; a faulty one is refused."""
    try:
        events = events_of(text)
    except Faulty as fault:
        expect(f'a dump that is faulty ({fault})', engine.audit(text), (FAULTY_INPUT, b''))
        return compare_words(engine, text, False) if text.lstrip(b' \n\t\r')[:1] == b'[' else None
    wanted = verdict(events)
    compare_words(engine, text, wanted.startswith('lawful'))
    picture = engine.picture(text) if hasattr(engine, 'picture') and is_sampled(text) else None
    if picture:
        expect('the front of the picture', (picture[0], picture[1][:4]), (0, b'<svg'))
    expect('verdict', engine.audit(text), (0 if wanted.startswith('lawful') else NOT_LAWFUL, wanted.encode()))


def compare_input(engine: Any, text: bytes) -> None:
    """As a scenario and as a dump."""
    compare_scenario(engine, text)
    compare_history(engine, text)


def compare_session(engine: Any, text: bytes) -> None:
    """Each answer to the lines, of which the first may tell the limit: {"limit":N}."""
    *lines, cut = text.split(b'\n')
    limit = json.loads(lines.pop(0))['limit'] if lines and lines[0].startswith(b'{"limit":') else None
    answers = engine.live(lines, limit, cut)
    if cut and getattr(engine, 'answers_cut', False):
        expect('the answer to a last line that is cut off', list(json.loads(answers.pop(-2))), ['faulty'])
    follow(lines, answers, limit or 4_194_304)


COMPARE: dict[str, Callable[[Any, bytes], None]] = {
    'json': compare_scenario, 'dump': compare_history, 'lines': compare_session, 'input': compare_input}


def difference(suffix: str, engine: Any, text: bytes) -> str | None:
    """What differs; an exception of the model itself is a difference too."""
    try:
        COMPARE[suffix](engine, text)
    except Differs as found:
        return str(found)
    except Exception as error:
        return f'{type(error).__name__}: {error}'
    return None


# Smaller cases

def parts_left_out(items: list[Any]) -> Iterator[list[Any]]:
    """The list without a part of it, large parts first."""
    size = len(items) // 2
    while size:
        for n in range(0, len(items), size):
            yield items[:n] + items[n + size:]
        size //= 2


def smaller_steps(steps: list[Any]) -> Iterator[list[Any]]:
    yield from parts_left_out(steps)
    if len(steps) == 1:
        yield []
    for n, step in enumerate(steps):
        for member in ('at', 'after', 'label', 'then', 'connection'):
            if member in step:
                yield [*steps[:n], {name: it for name, it in step.items() if name != member}, *steps[n + 1:]]
        if step.get('place') not in (None, 'root') and step.get('of'):
            yield [*steps[:n], {name: it for name, it in step.items() if name != 'of'} | {'place': 'root'}, *steps[n + 1:]]
        if step.get('then'):
            for less in smaller_steps(step['then']):
                yield [*steps[:n], {**step, 'then': less}, *steps[n + 1:]]
            flat = [{name: it for name, it in below.items() if name != 'after'} for below in step['then']]
            yield [*steps[:n], {name: it for name, it in step.items() if name != 'then'}, *flat, *steps[n + 1:]]


def without(events: list[Event], n: int) -> list[Event]:
    """The events without the one at n, with the numbers of those behind it."""
    def moved(it: Any) -> Any:
        return it - 1 if type(it) is int and it > n else it
    kept = []
    for e in events[:n] + events[n + 1:]:
        match e:
            case Open(place, of, kind, hub):
                kept.append(Open(place, moved(of), kind, moved(hub)))
            case Accept(node, tag):
                kept.append(Accept(moved(node), tag))
            case Item(node, value) | End(node, value):
                kept.append(type(e)(moved(node), value))
            case Connect(of) | Use(of) | Remove(of) | Take(of) | Lease(of) | Return(of) | Decline(of) | Close(of):
                kept.append(type(e)(moved(of)))
            case _:
                kept.append(e)
    return kept


def smaller(suffix: str, text: bytes) -> Iterator[bytes]:
    """Texts that are smaller than this one."""
    try:
        if suffix == 'json':
            value = json.loads(text)
            for member in ('events', 'until'):
                if member in value:
                    yield json.dumps({name: it for name, it in value.items() if name != member}).encode()
            for steps in smaller_steps(value['steps']):
                yield json.dumps({**value, 'steps': steps}).encode()
        elif suffix == 'dump':
            events = events_of(text)
            for n in range(len(events) - 1, -1, -1):
                yield dump_of(without(events, n))
        elif suffix == 'lines':
            for lines in parts_left_out(text.split(b'\n')):
                yield b'\n'.join(lines)
        else:
            for n in range(len(text)):
                yield text[:n] + text[n + 1:]
    except (ValueError, KeyError, TypeError):
        return


def smallest(suffix: str, engine: Any, text: bytes, most: int = 3000) -> bytes:
    """A case that differs too, of which nothing can be left out."""
    found = True
    while found and most > 0:
        found = False
        for less in smaller(suffix, text):
            most -= 1
            if len(less) < len(text) and difference(suffix, engine, less):
                text, found = less, True
                break
            if most <= 0:
                break
    return text
