"""The events, and what a base keeps of them: the types on which the definitions stand."""
from __future__ import annotations

from dataclasses import dataclass, field

COMPLETED = 'completed'  # how an observable ends: so, or with the code of an error
Terminal = str | int

# The events. A node, a hub, a resource and a lease go by the place of the event that made them.

event = dataclass(frozen=True, slots=True)

@event
class Open:  # a node is opened, at a root or at a place of the node `of`
    place: str  # root, source, inner, notifier
    of: int | None
    kind: str  # leaf, pass (a mirroring node), flat (FlatMap), switch, until (TakeUntil), sub (a subscriber of the hub)
    hub: int | None = None

@event
class Hub: mode: str  # an observable is published: auto is RefCount, manual is Connect by hand
@event
class Connect: hub: int  # a hub is connected; the connection is a node
@event
class Accept: node: int; tag: int  # a node accepts a resource
@event
class Use: resource: int
@event
class Remove: resource: int  # it is taken off its node
@event
class Take: resource: int  # it is handed out for its release
@event
class Lease: resource: int
@event
class Return: lease: int
@event
class Item: node: int; value: int  # a leaf emits
@event
class Decline: node: int  # a projection that is owed an inner gets none
@event
class End: node: int; terminal: Terminal
@event
class Close: node: int

Event = Open | Hub | Connect | Accept | Use | Remove | Take | Lease | Return | Item | Decline | End | Close

# A base (section 20)

@event
class KeptNode:
    made: Event
    opened: tuple[str, ...]  # whether a source and a notifier were ever opened below it
    source_completed: bool
    owed: int

@event
class KeptResource:
    node: int | None  # the node that owns it: None where leases alone hold it, or it waits
    tag: int
    uses: int

@event
class Kept:
    """What a settled history leaves, in place of its events: hubs, open nodes, resources that were not taken, leases that
    are out (each with its resource), and three totals."""
    at: int = 0  # how many events it stands for
    items: int = 0
    accepted: int = 0
    taken: int = 0
    hubs: dict[int, str] = field(default_factory=dict)
    nodes: dict[int, KeptNode] = field(default_factory=dict)
    resources: dict[int, KeptResource] = field(default_factory=dict)
    leases: dict[int, int] = field(default_factory=dict)

NOTHING_KEPT = Kept()
