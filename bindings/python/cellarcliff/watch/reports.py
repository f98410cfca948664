"""What a report says: what is open, by the lines where it was made, and how that grew."""
from __future__ import annotations

import gc
import json
import os
import threading
import time
from typing import Any, Dict, List, NamedTuple, Optional, Sequence, Tuple

from ..rx.watched import Made, Place, Watched
from .hubs import without_unused_hubs

#: What belongs together: what it is, where its factory stands, and the line that subscribed.
Group = Tuple[str, str, Optional[Place], Optional[Place]]


def grow(counts: Sequence[int]) -> bool:
    """Whether these only grow from report to report."""
    return len(counts) > 1 and counts[-1] > counts[0] and list(counts) == sorted(counts)


class Row(NamedTuple):
    """What is open of a group: how often at each report so far, and since when."""

    group: Group
    counts: Tuple[int, ...]
    oldest: float
    last: Optional[Place]  # the line that made the latest, where that is another

    @property
    def only_grows(self) -> bool:
        return grow(self.counts)


def group_of(made: Made) -> Group:
    subscribed = made.place if made.within is None else made.within.place
    return made.what, made.name if made.what in ("resource", "answer") else "", made.of, subscribed


def shown(place: Place) -> str:
    """A place, as it is read from the folder in which the program runs."""
    file = os.path.relpath(place.file) if os.path.isabs(place.file) else place.file
    return str(place._replace(file=place.file if file.startswith("..") else file))


def told(row: Row) -> str:
    what, name, of, subscribed = row.group
    count = row.counts[-1]
    words = f"{count} {what}{'s' if count > 1 else ''}{f' {name}' if name else ''}"
    if of is not None:
        words += f" of {shown(of)}"
    if subscribed is not None:
        words += f", subscribed at {shown(subscribed)}" if what == "subscription" else f", for what was subscribed at {shown(subscribed)}"
    if row.last is not None:
        words += f", the latest made by {shown(row.last)}"
    words += f", for {row.oldest:.1f} s" if count == 1 else f", the oldest for {row.oldest:.1f} s"
    if len(row.counts) > 1:
        words += f" (at each report: {', '.join(map(str, row.counts))})"
    return words


def grouped(found: List[Made]) -> Dict[Group, List[Made]]:
    groups: Dict[Group, List[Made]] = {}
    for made in found:
        groups.setdefault(group_of(made), []).append(made)
    return groups


def row_of(group: Group, its: List[Made], counts: Tuple[int, ...], now: float) -> Row:
    latest = its[-1].place
    return Row(group, counts, now - its[0].since, None if latest == group[3] else latest)


def lines(found: List[Made]) -> List[str]:
    """What this is, the most of a kind first."""
    now = time.monotonic()
    rows = [row_of(group, its, (len(its),), now) for group, its in grouped(found).items()]
    return [told(it) for it in sorted(rows, key=lambda it: (-it.counts[-1], -it.oldest))]


class Reports:
    """The reports on an engine."""

    def __init__(self, engine: Watched):
        self.engine, self.began, self.many = engine, time.monotonic(), 0
        self._counts: Dict[Group, List[int]] = {}
        self._nodes: List[int] = []
        self._lock = threading.Lock()

    def rows(self) -> List[Row]:
        """What is open now: first what only grows, then what there is most of."""
        if self.engine.open_now():
            gc.collect()  # what is out of reach is no leak
        now, found = time.monotonic(), grouped(self.engine.open_now())
        with self._lock:
            self.many += 1
            for group in {*found, *self._counts}:
                counts = self._counts.setdefault(group, [0] * (self.many - 1))
                counts.append(len(found.get(group, ())))
            rows = [row_of(group, its, tuple(self._counts[group][-6:]), now) for group, its in found.items()]
        return sorted(rows, key=lambda it: (not it.only_grows, -it.counts[-1], -it.oldest))

    def text(self) -> str:
        rows, counts, whole = self.rows(), self.engine.counts(), self.engine.history()
        many = sum(it.counts[-1] for it in rows)
        lines = [f"cellarcliff.watch: after {time.monotonic() - self.began:.1f} s "
                 + (f"{many} of what the program made {'are' if many > 1 else 'is'} open" if many else "nothing that the program made is open")]
        lines += [f"  {'GROWS ' if it.only_grows else ''}{told(it)}" for it in rows]
        self._nodes = [*self._nodes[-5:], counts.nodes]
        if grow(self._nodes) and not any(it.only_grows for it in rows):
            lines.append(f"  GROWS what stands below these (nodes at each report: {', '.join(map(str, self._nodes))})")
        if counts.waiting:
            lines.append(f"  {counts.waiting} releases wait until what is telling their observers comes back")
        lines.append("  " + (f"the history is {verdict(whole)}" if whole is not None else
                             "the engine made a checkpoint, so the history is not whole: this is made of what is open (--whole keeps all of it)"))
        return "\n".join(lines) + "\n"

    def named(self) -> Optional[Dict[str, Any]]:
        """The history with the lines of the program as names, for a picture; None where it is not whole."""
        history = self.engine.history()
        if history is None:
            return None
        events, names = json.loads(history), {}
        for made in self.engine.open_now():
            if made.node is None:
                continue
            place = made.of or made.place
            label = f"{made.name} " if made.what == "resource" else ""
            number = made.node if made.what == "subscription" else next(
                (n for n, it in enumerate(events) if it[0] == "accept" and it[1] == made.node), made.node)
            if place is not None:
                names[str(number)] = f"{label}{os.path.basename(place.file)}:{place.line}"
        return without_unused_hubs({"dump": events, "names": names})


def verdict(history: str) -> str:
    from .. import audit
    try:
        found = audit.audit(history)
    except (OSError, AttributeError, audit.FaultyInput):
        return "not judged: the library of texts is not there, or it is too long"
    left = [f"{len(it)} {word}" for it, word in ((found.live, "open"), (found.held, "held"), (found.waiting, "waiting")) if it]
    return found.word + (f" ({', '.join(left)}, with what operators hold)" if left else "") + (f" at event {found.place}" if found.place is not None else "")
