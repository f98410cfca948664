"""A history: a list of events that knows its fronts, and what was asked of each. Nothing here is a definition: with a plain list in
its place the definitions say the same, more slowly."""
from __future__ import annotations

import functools
from collections.abc import Callable, Iterable, Iterator
from typing import Any

from .events import NOTHING_KEPT, Event, Kept

class History:
    """A list of events, oldest first; it may begin with a base (section 20). `h.then(e)` is h followed by e."""

    def __init__(self, kept: Kept = NOTHING_KEPT):
        self.kept, self.length, self.memo, self.on = kept, 0, {}, {}
        self._events: list[Event] = []  # shared with the histories that this one goes on to
        self._before: list[History] = []

    def then(self, e: Event) -> History:
        """h followed by e: each time the same history, of which what was asked is known."""
        k = self.on.get(e)
        return self._longer(e) if k is None else k

    def _longer(self, e: Event) -> History:
        k = self.on[e] = History.__new__(History)
        k.kept, k.length, k.memo, k.on = self.kept, self.length + 1, {}, {}
        shares = len(self._events) == self.length
        k._events = self._events if shares else self._events[:self.length]
        k._before = self._before if shares else self._before[:self.length]
        k._events.append(e)
        k._before.append(self)
        return k

    def __len__(self) -> int:
        return self.length

    def __iter__(self) -> Iterator[Event]:
        return iter(self._events[:self.length])

    def behind(self, n: int) -> list[Event]:
        """The events after place n."""
        return self._events[n + 1:self.length]

    def before(self, n: int) -> History:
        """The history in which the event at place n came."""
        return self._before[n]

NOTHING = [History()]

def forget() -> None:
    """Lets go all histories without a base, and what is known of them."""
    NOTHING[0] = History()

def history(events: Iterable[Event], kept: Kept = NOTHING_KEPT) -> History:
    return functools.reduce(History.then, events, NOTHING[0] if kept is NOTHING_KEPT else History(kept))

def once(define: Callable[..., Any]) -> Callable[..., Any]:
    """A definition is asked once for each history and its words. Without this line it says the same, more slowly."""
    @functools.wraps(define)
    def known(h: History, *words: Any) -> Any:
        key = (define, words)
        if key not in h.memo:
            h.memo[key] = define(h, *words)
        return h.memo[key]
    return known
