"""What crosses to C (crates/cellarcliff/cellarcliff.h): the numbers of statuses, and an event as its members."""
from __future__ import annotations

from .definitions import (COMPLETED, Accept, Close, Connect, Decline, End, Event, Hub, Item, Lease, Open, Remove, Return, Take,
                          Use)
from .scenario import Differs

AT, KINDS, MODES = ('root', 'source', 'inner', 'notifier'), ('leaf', 'pass', 'flat', 'switch', 'until', 'sub'), ('auto', 'manual')
WHAT = (Open, Hub, Connect, Accept, Use, Remove, Lease, Return, Item, Decline, End, Close, Take)
DONE, NOTHING_KEPT, NOTHING_WAITS, HELD, NO_MEMORY, NO_SUCH_CODE, UNTAKEN, SMALL, CUT = range(9)
REFUSED = {name: status for status, name in enumerate((
    'Full', 'Gone', 'WrongKind', 'PlaceTaken', 'NothingOwed', 'NotRoot', 'NoHub', 'HubOrder', 'Connected', 'NotConnected', 'NotFresh',
    'NotHeld', 'HasChild', 'TooMany', 'NoLease', 'Leased', 'MailLeft'), 16)}


def numbers_of(e: Event) -> list[int]:
    """An event as the members of `struct cellar_event`: what, place, kind, how, of, other, value."""
    what = WHAT.index(type(e))
    match e:
        case Open(place, of, kind, hub):
            return [what, AT.index(place), KINDS.index(kind), 0, of or 0, hub or 0, 0]
        case Hub(mode):
            return [what, 0, 0, MODES.index(mode), 0, 0, 0]
        case Accept(node, tag):
            return [what, 0, 0, 0, node, tag, 0]
        case Item(node, value):
            return [what, 0, 0, 0, node, 0, value]
        case End(node, terminal):
            return [what, 0, 0, 0, node, 0, 0] if terminal == COMPLETED else [what, 0, 0, 1, node, 0, terminal]
        case Connect(of) | Use(of) | Remove(of) | Take(of) | Lease(of) | Return(of) | Decline(of) | Close(of):
            return [what, 0, 0, 0, of, 0, 0]
    raise ValueError(e)


def event_of(members: list[int]) -> Event:
    """The event of these members; it is told wrong where the members of that event are others."""
    what, place, kind, how, of, other, value = members
    try:
        make = WHAT[what]
        e = (Open(AT[place], of if place else None, KINDS[kind], other if kind == 5 else None) if make is Open else Hub(MODES[how])
             if make is Hub else Accept(of, other) if make is Accept else Item(of, value) if make is Item
             else End(of, value if how else COMPLETED) if make is End else make(of))
        if numbers_of(e) == members:
            return e
    except IndexError:
        pass
    raise Differs(f'{members} is no event')
