"""An engine of its own that only writes down: commands, and whose effects are taken and told to nobody."""
from __future__ import annotations

from itertools import count
from typing import Any, Callable, Dict, Optional, Tuple

from .._refused import REFUSALS, Refused
from ..rx import _cellar as c
from ..rx._crossing import C

_APPLY, REMOVE, LEASE, GIVE_BACK = range(14, 18)
WHOLE = 2**32 - 1
Key = Tuple[int, int]


class Hub:
    """What subscribers share."""

    def __init__(self, word: int, kind: int):
        self.word, self.kind, self.at = word, kind, c.UNKNOWN_HUB


class Recorder:
    """`hears` is called with each thing that has closed."""

    def __init__(self, hears: Callable[[Any], None]):
        make = getattr(C, "make_calls", None)
        self._calls: Any = c.Cellar(WHOLE) if make is None else make(WHOLE)
        self._stack = self._calls.stack()
        self._stack[c.DEPTH] = 1
        self._hears, self._words, self._things = hears, count(1), {}  # type: Any, Any, Dict[int, Any]

    def open(self, place: int, kind: int, above: Optional[Key], thing: Any, hub: Optional[Hub] = None) -> Tuple[Key, Optional[Key]]:
        """The key, and that of the connection that came with it."""
        share = {} if hub is None else {"value": hub.word, "hub": hub.at}
        answer = self._named(thing, c.OPEN | place | (kind if hub is None else hub.kind), above, **share)
        if hub is not None:
            hub.at = answer[5]
        return (answer[0], answer[1]), (answer[2], answer[3]) if hub is not None and answer[4] else None

    def hold(self, node: Key) -> Tuple[Key, Key]:
        """The resource, and its lease."""
        res = self._other(c.HOLD, node)
        return res, self._other(LEASE, res)

    def hub(self, kind: int) -> Hub:
        return Hub(next(self._words), kind)

    def connect(self, hub: Hub, thing: Any) -> Key:
        answer = self._named(thing, c.CONNECT, None, value=hub.word, hub=hub.at)
        hub.at = answer[5]
        return answer[2], answer[3]

    def disconnect(self, hub: Hub) -> None:
        self.make(c.DISCONNECT, value=hub.word, hub=hub.at)

    def make(self, what: int, node: Optional[Key] = None, user: int = 0, value: int = 0, hub: int = 0) -> Any:
        """Makes a command, and takes all that comes of it."""
        slot, number = node or (0, 0)
        status, answer, closings, handed = self._calls.step(self._stack, (what, hub, slot, number, user, value, 0, 0))
        if status:
            raise MemoryError if status == c.NO_MEMORY else Refused(REFUSALS.get(status, f"status {status}"))
        while handed[c.HANDED]:
            self._stack[c.BEGUN] = handed[c.TICKET]
            handed = self._calls.next(self._stack)
        for word in closings:
            self._hears(self._things.pop(word))
        return answer

    def dump(self) -> str:
        return str(self._calls.dump()[1].decode())

    def _other(self, what: int, node: Key) -> Key:
        answer = self.make(what, node)
        return answer[2], answer[3]

    def _named(self, thing: Any, what: int, node: Optional[Key], **words: int) -> Any:
        user = next(self._words)
        self._things[user] = thing
        try:
            return self.make(what | c.WISHES, node, user, **words)
        except Exception:
            del self._things[user]
            raise
