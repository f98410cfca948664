"""A book in Python, over which the lines of a live book are tried: simple and searching, with the rules of the book.

It keeps every node that is open in a dictionary, and settles by recursion. It checks
of itself what a caller may see: that no tag is told twice, and that none is lost.
"""
from __future__ import annotations

from collections import deque
from typing import Any, Deque, Dict, List, Optional, Set, Tuple

from cellarcliff._refused import Refused

ROOT, SOURCE, INNER, NOTIFIER = range(4)
LEAF, PASS, FLAT, SWITCH, UNTIL, SUB = range(6)
AUTO, MANUAL = range(2)
NEXT, PROJECT, ON_COMPLETED, ON_ERROR = range(4)

MOST_HUBS = 1024


class _Node:
    def __init__(self, number: int, kind: int, place: int, above: Optional["_Node"], hub: Optional["_Hub"]):
        self.number, self.kind, self.place, self.above, self.hub = number, kind, place, above, hub
        self.below: Dict[int, "_Node"] = {}
        self.opened: Set[int] = set()
        self.owed = 0
        self.is_done = False  # its source completed
        self.held: List["_Resource"] = []


class _Resource:
    def __init__(self, number: int, tag: int, node: _Node):
        self.number, self.tag, self.node, self.leases = number, tag, node, 0
        self.is_owned = True


class _Hub:
    def __init__(self, index: int, mode: int):
        self.index, self.mode = index, mode
        self.subscribers: Dict[int, _Node] = {}
        self.connection: Optional[_Node] = None


class _Lease:
    def __init__(self, number: int, resource: _Resource):
        self.number, self.resource = number, resource


CONNECTION = 9  # a kind of its own, which no caller opens


class FakeBook:
    def __init__(self) -> None:
        self.mail: Deque[Tuple[int, int, int]] = deque()
        self.tags: Deque[int] = deque()
        self._events = 0
        self._nodes: Dict[int, _Node] = {}
        self._hubs: Dict[int, _Hub] = {}
        self._leases: Dict[int, _Lease] = {}
        self._resources: Dict[int, _Resource] = {}
        self.accepted = self.taken = 0
        self.history: List[str] = []

    def _place(self) -> int:
        self._events += 1
        return self._events

    # what is open, and what closes it

    def _open_node(self, key: Any) -> _Node:
        node = self._nodes.get(getattr(key, "number", -1))
        if node is not key:
            raise Refused("Gone")
        return node

    def _root_of(self, node: _Node) -> _Node:
        while node.above is not None:
            node = node.above
        return node

    def _shut(self, node: _Node) -> None:
        """Takes the node away with all below it."""
        if self._nodes.pop(node.number, None) is None:
            return
        if node.above is not None:
            node.above.below.pop(node.number, None)
        for it in list(node.below.values()):
            self._shut(it)
        for it in node.held:
            it.is_owned = False
            self._let_go(it)
        if node.kind == SUB:
            del node.hub.subscribers[node.number]
            if node.hub.mode == AUTO and not node.hub.subscribers and node.hub.connection is not None:
                self._shut(node.hub.connection)
        if node.kind == CONNECTION:
            node.hub.connection = None

    def _let_go(self, resource: _Resource) -> None:
        if not resource.is_owned and not resource.leases:
            del self._resources[resource.number]
            self.taken += 1
            self.tags.append(resource.tag)

    def _end(self, node: _Node, error: Optional[int]) -> None:
        if node.number not in self._nodes:
            return
        place, above, kind, hub = node.place, node.above, node.kind, node.hub
        if place == ROOT and kind != CONNECTION:
            self.mail.append((node.number, ON_COMPLETED, 0) if error is None else (node.number, ON_ERROR, error))
        before = list(hub.subscribers.values()) if kind == CONNECTION else []
        self._shut(node)
        for it in before:
            self._end(it, error)
        if above is None or above.number not in self._nodes:
            return
        if above.kind in (FLAT, SWITCH):
            if error is not None:
                self._end(above, error)
                return
            above.is_done = above.is_done or place == SOURCE
            self._see_to(above)
        else:
            self._end(above, error)

    def _see_to(self, merging: _Node) -> None:
        """Completes a FlatMap or Switch whose source did, once nothing is below it and nothing owed."""
        if merging.is_done and not merging.below and not merging.owed:
            self._end(merging, None)

    # opening

    def open(self, place, above=None, kind=PASS, hub=0):
        parent = None
        the_hub = None
        if kind == SUB:
            the_hub = self._hubs.get(hub)
            if the_hub is None:
                raise Refused("NoHub")
        if place != ROOT:
            parent = self._open_node(above)
            wanted = {SOURCE: parent.kind not in (LEAF, SUB), INNER: parent.kind in (FLAT, SWITCH), NOTIFIER: parent.kind == UNTIL}
            if not wanted[place]:
                raise Refused("WrongKind")
            if place != INNER and place in parent.opened:
                raise Refused("PlaceTaken")
            if place == INNER and not parent.owed:
                raise Refused("NothingOwed")
            top = self._root_of(parent)
            if the_hub is not None and top.kind == CONNECTION and the_hub.index >= top.hub.index:
                raise Refused("HubOrder")
        node = _Node(self._place(), kind, place, parent, the_hub)
        self._nodes[node.number] = node
        if parent is not None:
            parent.below[node.number] = node
            parent.opened.add(place)
        connection = None
        if the_hub is not None:
            the_hub.subscribers[node.number] = node
            if the_hub.mode == AUTO and the_hub.connection is None:
                connection = self._connect(the_hub)
        if place == INNER:
            parent.owed -= 1
            if parent.kind == SWITCH:
                for it in [it for it in parent.below.values() if it.place == INNER and it is not node]:
                    self._shut(it)
        return node, connection

    def using(self, place, above, tag):
        node, _ = self.open(place, above, PASS)
        return node, self.hold(node, tag)

    def hold(self, node, tag):
        node = self._open_node(node)
        resource = _Resource(self._place(), tag, node)
        node.held.append(resource)
        self._resources[resource.number] = resource
        self.accepted += 1
        return resource

    # events

    def next(self, leaf, value):
        leaf = self._open_node(leaf)
        if leaf.kind != LEAF:
            raise Refused("WrongKind")
        self._place()
        fired: List[_Node] = []
        self._climb(leaf, value, fired)
        for it in fired:
            self._end(it, None)

    def next_all(self, leaves, value):
        for it in leaves:
            self.next(it, value)

    def _climb(self, node: _Node, value: int, fired: List[_Node]) -> None:
        while True:
            if node.kind == CONNECTION:
                for it in list(node.hub.subscribers.values()):
                    self._climb(it, value, fired)
                return
            if node.place == ROOT:
                self.mail.append((node.number, NEXT, value))
                return
            above = node.above
            if node.place == NOTIFIER:
                fired.append(above)
                return
            if node.place == SOURCE and above.kind in (FLAT, SWITCH):
                above.owed += 1
                self.mail.append((above.number, PROJECT, value))
                return
            node = above

    def end(self, leaf, error=None):
        leaf = self._open_node(leaf)
        if leaf.kind != LEAF:
            raise Refused("WrongKind")
        self._place()
        self._end(leaf, error)

    def abort(self, node, error):
        node = self._open_node(node)
        if node.kind in (LEAF, SUB):
            raise Refused("WrongKind")
        if node.below:
            raise Refused("HasChild")
        self._place()
        self._end(node, error)

    def _owing(self, merging: Any) -> _Node:
        merging = self._open_node(merging)
        if merging.kind not in (FLAT, SWITCH):
            raise Refused("WrongKind")
        if not merging.owed:
            raise Refused("NothingOwed")
        self._place()
        return merging

    def fail(self, merging, error):
        self._end(self._owing(merging), error)

    def decline(self, merging):
        merging = self._owing(merging)
        merging.owed -= 1
        self._see_to(merging)

    def dispose(self, root):
        root = self._open_node(root)
        if root.place != ROOT or root.kind == CONNECTION:
            raise Refused("NotRoot")
        self._place()
        self._shut(root)

    # hubs and resources

    def hub(self, mode):
        if len(self._hubs) >= MOST_HUBS:
            raise Refused("TooMany")
        number = self._place()
        self._hubs[number] = _Hub(number, mode)
        return number

    def _connect(self, hub: _Hub) -> _Node:
        hub.connection = _Node(self._place(), CONNECTION, ROOT, None, hub)
        self._nodes[hub.connection.number] = hub.connection
        return hub.connection

    def connect(self, hub):
        the_hub = self._hubs.get(hub)
        if the_hub is None:
            raise Refused("NoHub")
        if the_hub.mode == AUTO:
            raise Refused("WrongKind")
        if the_hub.connection is not None:
            raise Refused("Connected")
        return self._connect(the_hub)

    def disconnect(self, hub):
        the_hub = self._hubs.get(hub)
        if the_hub is None:
            raise Refused("NoHub")
        if the_hub.mode == AUTO:
            raise Refused("WrongKind")
        if the_hub.connection is None:
            raise Refused("NotConnected")
        self._place()
        self._shut(the_hub.connection)

    def _owned(self, res: Any) -> _Resource:
        if self._resources.get(getattr(res, "number", None)) is not res:
            raise Refused("NotHeld")
        if not res.is_owned:
            raise Refused("Leased")
        return res

    def apply(self, res, word):
        if self._resources.get(getattr(res, "number", None)) is not res:
            raise Refused("NotHeld")
        self._place()
        return word

    def remove(self, res):
        res = self._owned(res)
        self._place()
        res.node.held.remove(res)
        res.is_owned = False
        self._let_go(res)

    def lease(self, res):
        res = self._owned(res)
        lease = _Lease(self._place(), res)
        self._leases[lease.number] = lease
        res.leases += 1
        return lease

    def give_back(self, lease):
        if self._leases.pop(lease.number, None) is not lease:
            raise Refused("NoLease")
        self._place()
        lease.resource.leases -= 1
        self._let_go(lease.resource)

    # questions and upkeep

    def is_open(self, node):
        return self._nodes.get(node.number) is node

    def is_held(self, res):
        return self._resources.get(res.number) is res

    def owed(self, merging):
        return self._nodes[merging.number].owed if self.is_open(merging) else None

    def counts(self):
        return Counts(len(self._nodes), len(self._resources), len(self.tags), len(self._leases), self.accepted, self.taken, self._events)

    def checkpoint(self):
        if self.mail:
            raise Refused("MailLeft")
        return self._events

    def close(self):
        for it in list(self._leases.values()):
            self.give_back(it)
        for it in list(self._nodes.values()):
            if it.number in self._nodes and it.above is None:
                self._shut(it)

    def finish(self):
        if self._resources or self.tags:
            raise Refused("Untaken")
