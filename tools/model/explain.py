"""Why each event of a history is forced, or allowed, or neither, in a sentence."""
from __future__ import annotations

import json

from .definitions import (COMPLETED, Accept, Close, Connect, Decline, End, Event, History, Hub, Item, Lease, Open, Remove, Return,
                          RULES, Take, Use, accepts_for_using, at, children, forced, is_settled, kind_of, not_allowed, standing,
                          stops)
from .texts import form_of


def written(e: Event) -> str:
    return json.dumps(form_of(e), separators=(',', ':'))


def because(h: History, rule: str, e: Event) -> str:
    """What in the history brings the rule to force the event."""
    def ended(ns: list[int], terminal: object) -> str:
        return next(f'node {x.node} ended so at {i}' for i, x in enumerate(h)
                    if isinstance(x, End) and x.node in ns and x.terminal == terminal)
    match rule:
        case 'mirrored' | 'failed':
            return f'below node {e.node}, a {kind_of(h, e.node)}, {ended(children(h, e.node), e.terminal)}'
        case 'fired':
            by = next(i for i, x in enumerate(h) if isinstance(x, Item) and ('firing', e.node) in stops(h.before(i), x.node))
            return f'the item at {by} fired node {e.node}, an until'
        case 'completed':
            return (f'the source of node {e.node}, a {kind_of(h, e.node)}, completed, no node below it is open, and it owes '
                    'no inner')
        case 'cut':
            hub = at(h, e.node).hub
            return f'node {e.node} subscribes to hub {hub}, of whose connection ' + ended(
                [n for n, x in enumerate(h) if x == Connect(hub)], e.terminal)
        case 'left':
            return f'hub {at(h, e.node).hub} has no open subscriber, and is RefCount'
    return f'hub {e.hub} has an open subscriber and no connection, and is RefCount'


def permission(h: History, e: Event) -> str:
    """Which row of the table of what callers may do it meets."""
    match e:
        case Open('root'):
            return 'a root may always be opened'
        case Open('inner', f):
            return f'node {f} is open and owes an inner'
        case Open(place, p):
            return f'node {p} is open, and its {place} was never opened'
        case Hub():
            return 'there is room for a hub'
        case Connect(g):
            return f'hub {g} is connected by hand, and is not connected'
        case Accept(n):
            return f'node {n} is open'
        case Use(r):
            return f'resource {r} is held'
        case Remove(r) | Lease(r):
            return f'resource {r} is owned by node {at(h, r).node}'
        case Return(l):
            return f'lease {l} is out'
        case Item(l):
            said = [f'a {s.what} {"of" if s.what == "firing" else "to"} {s.node}' for s in stops(h, l)]
            return f'node {l} is an open leaf; it stops as {", ".join(said) or "nothing"}'
        case Decline(f):
            return f'node {f} owes an inner'
        case End(n):
            return f'node {n} is an open {kind_of(h, n)}' + ('' if kind_of(h, n) == 'leaf' else ', and its caller may fail it')
        case Close(n):
            return f'node {n} is an open ' + ('root' if isinstance(at(h, n), Open) else 'connection by hand')
        case Take(r):
            return f'resource {r} waits'
    raise ValueError(e)


def sentence(h: History, e: Event) -> str:
    """Why e may follow h, or why not."""
    for rule, due in forced(h):
        if due == e:
            return f'forced ({rule}): {because(h, rule, e)}'
    why = not_allowed(h, e)
    if why:
        return f'neither: {why}'
    if not is_settled(h):
        if accepts_for_using(h, e):
            return f'allowed: it accepts the resource of a Using, whose node {e.node} was opened just before'
        rule, due = forced(h)[0]
        return f'neither: {written(due)} is forced before it ({rule}): {because(h, rule, due)}'
    return f'allowed: {permission(h, e)}'


def explain(events: list[Event]) -> list[str]:
    """A line for each event up to the first that may not follow, and one for what the history leaves."""
    h, lines = History(), []
    for place, e in enumerate(events):
        lines.append(f'{place} {written(e)}  {sentence(h, e)}')
        if lines[-1].split('  ')[1].startswith('neither'):
            return [*lines, f'unlawful {place}; what comes behind it is not judged']
        h = h.then(e)
    due = [f'{written(e)} is forced ({rule}): {because(h, rule, e)}' for rule, e in forced(h)]
    return lines + (['unsettled: ' + '; '.join(due)] if due else standing(h).splitlines())
