"""The calls of a book, what each adds to its history, and for what it is refused: docs/explanation/definitions.md, 12 to 14."""
from __future__ import annotations

from dataclasses import dataclass
from typing import Any

from .definitions import (MOST_HUBS, MOST_NODES, MOST_VISITS, PLACES, Accept, Close, Connect, Decline, End, Event, History, Hub, Item,
                          Lease, Open, Remove, Return, Take, Use, at, children, debt, forces_connect, hubs, is_held, is_open, is_out,
                          is_owned, kind_of, not_hubbed, open_connections, open_nodes, owed, stops, visits, was_opened)

@dataclass(frozen=True, slots=True)
class Call:
    """A call of the book, with the words that it needs of these."""
    do: str
    node: int | None = None      # or the hub, resource or lease that it is on
    place: str = ''              # of an opening, and what is opened
    kind: str = ''
    hub: int | None = None
    value: Any = None            # of an item; the code or terminal of an end; the mode of a hub; a tag

def outside_of(h: History, call: Call) -> list[Event]:
    """The caller's events of a call: one, for Using two, for a checkpoint none."""
    n, v = call.node, call.value
    match call.do:
        case 'open': return [Open(call.place, n, call.kind, call.hub)]
        case 'using': return [Open(call.place, n, 'pass'), Accept(len(h), v)]
        case 'hub': return [Hub(v)]
        case 'connect': return [Connect(n)]
        case 'disconnect': return [Close(open_connections(h, n)[0])]
        case 'hold': return [Accept(n, v)]
        case 'apply': return [Use(n)]
        case 'remove': return [Remove(n)]
        case 'lease': return [Lease(n)]
        case 'return': return [Return(n)]
        case 'next': return [Item(n, v)]
        case 'end' | 'abort' | 'fail': return [End(n, v)]
        case 'decline': return [Decline(n)]
        case 'dispose': return [Close(n)]
        case 'take': return [Take(n)]
        case 'checkpoint': return []
    raise ValueError(call.do)

def adds(h: History, call: Call) -> int:
    """What a call adds to events and debt; a closing call adds nothing, and is never Full."""
    inner = call.place == 'inner'  # its room was reserved by the projection
    match call.do:
        case 'open':
            return 2 - inner + 2 * forces_connect(h, outside_of(h, call)[0]) + 3 * (call.value is not None)  # with what it holds
        case 'using':
            return 5 - inner
        case 'hold':
            return 3
        case 'connect' | 'lease':
            return 2
        case 'apply' | 'hub':
            return 1
        case 'next':
            return 1 + sum(s.what == 'projection' for s in stops(h, call.node))
    return 0

# 14. The order of refusals

REFUSAL_ORDER = ('NoHub', 'Gone', 'WrongKind', 'PlaceTaken', 'NothingOwed', 'NotRoot', 'HubOrder', 'Connected', 'NotConnected',
                 'NotFresh', 'NoLease', 'NotHeld', 'Leased', 'HasChild', 'MailLeft', 'TooMany', 'Full', 'NoMemory')

def causes(h: History, call: Call, limit: int | None = None, since: int = 0) -> set[str]:
    """What stands against a call. The limit counts the events from place `since` on; without one nothing is Full."""
    n, found = call.node, set()

    def when(name: str, stands: bool) -> None:
        if stands:
            found.add(name)
    kind, is_hub = kind_of(h, n), isinstance(at(h, n), Hub)
    match call.do:
        case 'open' | 'using':
            e = outside_of(h, call)[0]
            when('NoHub', e.kind == 'sub' and not isinstance(at(h, e.hub), Hub))
            if e.place != 'root':
                when('Gone', not is_open(h, n))
                when('WrongKind', e.place not in PLACES.get(kind, ()))
                when('PlaceTaken', e.place != 'inner' and was_opened(h, n, e.place))
                when('NothingOwed', e.place == 'inner' and owed(h, n) == 0)
            when('HubOrder', not_hubbed(h, e) is not None)
            when('TooMany', len(open_nodes(h)) + 1 + forces_connect(h, e) > MOST_NODES)
        case 'hold':
            when('Gone', not is_open(h, n))
        case 'apply':
            when('NotHeld', not is_held(h, n))
        case 'remove' | 'lease':
            when('NotHeld', not is_held(h, n))
            when('Leased', is_held(h, n) and not is_owned(h, n))
        case 'return':
            when('NoLease', not is_out(h, n))
        case 'next' | 'end':
            when('Gone', not is_open(h, n))
            when('WrongKind', kind != 'leaf')
            when('TooMany', call.do == 'next' and visits(h, n) > MOST_VISITS)
        case 'abort':
            when('Gone', not is_open(h, n))
            when('WrongKind', kind in ('leaf', 'sub'))
            when('HasChild', any(is_open(h, c) for c in children(h, n)))
        case 'decline' | 'fail':
            when('Gone', not is_open(h, n))
            when('WrongKind', kind not in ('flat', 'switch'))
            when('NothingOwed', owed(h, n) == 0)
        case 'dispose':
            when('Gone', not is_open(h, n))
            when('NotRoot', not isinstance(at(h, n), Open) or at(h, n).place != 'root')
        case 'hub':
            when('TooMany', len(hubs(h)) >= MOST_HUBS)
        case 'connect' | 'disconnect':
            when('NoHub', not is_hub)
            when('WrongKind', at(h, n) != Hub('manual'))
            when('Connected', call.do == 'connect' and open_connections(h, n) != [])
            when('NotConnected', call.do == 'disconnect' and open_connections(h, n) == [])
            when('TooMany', call.do == 'connect' and len(open_nodes(h)) >= MOST_NODES)
    if not found and limit is not None and adds(h, call):
        when('Full', len(h) - since + debt(h) + adds(h, call) > limit)
    return found

def first_cause(h: History, call: Call, limit: int | None = None, since: int = 0) -> str | None:
    """Where several causes stand the call is refused for the first of the order."""
    return min(causes(h, call, limit, since), key=REFUSAL_ORDER.index, default=None)

