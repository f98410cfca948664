"""Writes down by hand what a program that is not changed over does, and refuses a wrong order at once.

    from cellarcliff.watch.history import History

    history = History()
    view = history.opened(name="view")                  # a subscription; below it what it subscribed to
    prices = history.opened("leaf", "source", view)
    socket = history.held(view, "socket")               # it holds a resource
    history.item(prices, 5)
    history.completed(prices)                           # the view ends with it
    history.released(socket)
    print(history.report(), end="")                     # what is still open or held, by the lines that wrote it down

Each call is an event of docs/reference/history.md, made of a book that keeps the rules: what may not come there raises `WrongOrder`,
which names the rule, the line, and the line that made what it is about; nothing was written down then. What an event brings about,
such as the end of what mirrors a source, the book writes down by itself. A resource that is held is lent out until `released`, so that
the history says it is held for as long as the program has not released it.
"""
from __future__ import annotations

import json
import os
from typing import Any, Callable, Dict, List, Optional, Tuple, Union

from .._refused import Refused
from ..rx import _cellar as c
from ..rx.watched import Place, here
from .hubs import without_unused_hubs
from .recorder import GIVE_BACK, REMOVE, Recorder

PLACES = {"root": c.ROOT, "source": c.SOURCE, "inner": c.INNER, "notifier": c.NOTIFIER}
KINDS = {"leaf": c.LEAF, "pass": c.PASS, "flat": c.FLAT, "switch": c.SWITCH, "until": c.UNTIL}
HUBS = {"auto": c.SHARED, "manual": c.PUBLISHED}
#: What each rule says of what may not come.
RULES = {
    "Gone": "it is closed, or what it stands below is",
    "WrongKind": "what is of that kind does not do that",
    "PlaceTaken": "something is open at that place already",
    "NothingOwed": "no item of its source asks for an inner one",
    "NotRoot": "what it stands below closes it",
    "NoHub": "there is no such hub",
    "HubOrder": "the source of a hub subscribes only to hubs that were made before it",
    "Connected": "it is connected already",
    "NotConnected": "it is not connected",
    "NotHeld": "it is released already",
    "NoLease": "it is released already",
    "HasChild": "something below it is open",
    "TooMany": "it holds too many resources",
}


class WrongOrder(ValueError):
    """An event that may not come there. `rule` is the name of the rule, `place` the line of the program."""

    def __init__(self, event: str, rule: str, place: Optional[Place], about: "Optional[Written]"):
        self.rule, self.place = rule, place
        words = f"{event} at {_shown(place)} may not come there ({rule}): {RULES.get(rule, 'the book refuses it')}"
        if about is not None:
            words += f"; {about} was written down at {_shown(about.place)}"
            if about.ended is not None:
                words += f", and its end at {_shown(about.ended)}"
        super().__init__(words)


def _shown(place: Optional[Place]) -> str:
    if place is None:
        return "a place that no stack tells"
    file = os.path.relpath(place.file) if os.path.isabs(place.file) else place.file
    return str(place._replace(file=place.file if file.startswith("..") else file))


class Written:
    """What was opened, held or connected, and by which line."""

    def __init__(self, what: str, name: Optional[str], place: Optional[Place], key: Any, above: "Optional[Written]"):
        self.what, self.name, self.place, self.key, self.above = what, name, place, key, above
        self.ended: Optional[Place] = None  # the line that said that it ended, closed or was released
        self.is_open = True
        self.hub: Optional[Written] = None  # of a subscriber
        self.lease: Any = None  # of a resource
        self.connection: Optional[Written] = None  # of a hub: its latest, below which its source is opened

    def __str__(self) -> str:
        return f"{self.what} {self.name}" if self.name else f"the {self.what}"


class History:
    """A history that is written down by hand. One call at a time."""

    def __init__(self) -> None:
        self._engine = Recorder(self._closed)
        self._open: List[Written] = []
        self._names: Dict[str, str] = {}  # those given, by the places of what has them

    # what is opened and held

    def opened(self, kind: "Union[str, Tuple[str, Written]]" = "pass", place: str = "root", below: Optional[Written] = None,
               name: Optional[str] = None) -> Written:
        """A subscription of this kind (leaf, pass, flat, switch, until, or `("sub", hub)`) at the place root, or source, inner or
        notifier of what it stands below."""
        what, hub = (kind, None) if isinstance(kind, str) else kind
        is_kind = what in KINDS if hub is None else what == "sub"
        if place not in PLACES or not is_kind or (below is None) != (place == "root"):
            raise ValueError(f"no such opening: {kind!r} at {place!r}{'' if below is None else ' below'}")
        made, words = Written(what, name, here(), None, below), () if hub is None else (hub.key,)
        made.hub = hub
        made.key, connection = self._checked(f"a {what} that is opened", below, lambda: self._engine.open(
            PLACES[place], KINDS.get(what, 0), below and below.key, made, *words))
        if connection is not None and hub is not None:
            hub.connection = self._kept(Written("connection", hub.name, here(), connection, hub))
        return self._kept(made)

    def held(self, by: Written, name: Optional[str] = None) -> Written:
        """A resource that it holds."""
        key, lease = self._checked("a resource that is held", by, lambda: self._engine.hold(by.key))
        resource = self._kept(Written("resource", name, here(), key, by))
        resource.lease = lease
        return resource

    def hub(self, mode: str = "auto", name: Optional[str] = None) -> Written:
        """What subscribers share: `auto` is connected while it has one, `manual` by `connected`."""
        return Written("hub", name, here(), self._engine.hub(HUBS[mode]), None)

    def connected(self, hub: Written) -> Written:
        """A hub is connected: the connection."""
        if hub.key.kind != c.PUBLISHED:
            raise WrongOrder("a connection", "WrongKind", here(), hub)
        made = Written("connection", hub.name, here(), None, hub)
        made.key = self._checked("a connection", hub, lambda: self._engine.connect(hub.key, made))
        hub.connection = self._kept(made)
        return made

    # what happens

    def item(self, leaf: Written) -> None:
        """A source of the program's own emits."""
        self._checked("an item", leaf, lambda: self._engine.make(c.NEXT, leaf.key))

    def completed(self, leaf: Written) -> None:
        """A source has completed."""
        self._ended("an end", leaf, lambda: self._engine.make(c.COMPLETE, leaf.key))

    def failed(self, node: Written) -> None:
        """A source has failed, or the mapper of a flat or switch."""
        what = c.FAIL if node.what in ("flat", "switch") else c.ERROR
        self._ended("an error", node, lambda: self._engine.make(what, node.key))

    def declined(self, merging: Written) -> None:
        """The mapper of a flat or switch answers nothing to subscribe to."""
        self._checked("a declined projection", merging, lambda: self._engine.make(c.DECLINE, merging.key))

    def closed(self, root: Written) -> None:
        """Unsubscribed from outside; of a connection: closed."""
        if root.what == "connection" and root.above is not None:
            hub = root.above.key
            return self._ended("a closing", root, lambda: self._engine.disconnect(hub))
        self._ended("a closing", root, lambda: self._engine.make(c.DISPOSE, root.key))

    def released(self, resource: Written) -> None:
        """The program has released it."""
        self._ended("a release", resource, lambda: self._engine.make(GIVE_BACK, resource.lease))
        if resource.above is not None and resource.above.is_open:
            self._engine.make(REMOVE, resource.key)  # before what holds it has ended

    # what there is

    def open_now(self) -> List[Written]:
        """What is open, held or connected, the oldest first."""
        self._open = [it for it in self._open if self._is_open(it)]
        return list(self._open)

    def report(self) -> str:
        """What is still open, by the lines that wrote it down."""
        left = self.open_now()
        lines = [f"history: {len(left) or 'nothing'} of what was written down is open"]
        for it in left:
            below = f", for {it.above} of {_shown(it.above.place)}" if it.above is not None else ""
            lines.append(f"  {it}, written down at {_shown(it.place)}{below}")
        return "\n".join(lines) + "\n"

    def dump(self) -> str:
        """The history, for `rxbook audit`."""
        return self._engine.dump()

    def named(self) -> Dict[str, Any]:
        """The history with names, for `rxbook picture`: those given, and the lines of what is open without one."""
        lines = {str(it.key[1]): f"{it.what} {os.path.basename(it.place.file)}:{it.place.line}" for it in self.open_now() if it.place}
        return without_unused_hubs({"dump": json.loads(self.dump()), "names": {**lines, **self._names}})

    # how a call is made

    def _checked(self, event: str, about: Optional[Written], call: Callable[[], Any]) -> Any:
        try:
            answer = call()
        except Refused as why:
            raise WrongOrder(event, why.name, here(), about) from None
        return answer

    def _ended(self, event: str, about: Written, call: Callable[[], Any]) -> None:
        self._checked(event, about, call)
        about.ended = here()

    def _closed(self, it: Written) -> None:
        """The program tells its observers and releases its resources itself."""
        it.is_open = False

    def _kept(self, made: Written) -> Written:
        self._open.append(made)
        if made.name is not None:
            self._names[str(made.key[1])] = made.name
        return made

    def _is_open(self, it: Written) -> bool:
        if it.what == "connection" and it.above is not None and it.above.key.kind == c.SHARED:  # as long as it has a subscriber
            return it is it.above.connection and any(one.is_open and one.hub is it.above for one in self._open)
        return it.ended is None if it.what == "resource" else it.is_open
