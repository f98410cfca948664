"""Leaves out of a history the hubs that nothing in it names: at its first share an engine makes all that it has, 1,024, each of them an event."""
from __future__ import annotations

from typing import Any, Dict, List


def _is_place(event: List[Any], i: int) -> bool:
    """Whether the number that stands there is the place of another event, as one behind a word is; but behind "error" it is a code."""
    return isinstance(event[i], int) and isinstance(event[i - 1], str) and event[i - 1] != "error"


def without_unused_hubs(named: Dict[str, Any]) -> Dict[str, Any]:
    """The same history, its places counted anew. The audit judges both alike: where an engine makes hubs no event is forced, and no rule looks at these."""
    events, places = named["dump"], {}
    used = {event[i] for event in events for i in range(len(event)) if _is_place(event, i)}
    for place, event in enumerate(events):
        if event[0] != "hub" or place in used:
            places[place] = len(places)
    dump = [[places[it] if _is_place(event, i) else it for i, it in enumerate(event)] for place, event in enumerate(events) if place in places]
    return {"dump": dump, "names": {str(places[int(place)]): name for place, name in named["names"].items() if int(place) in places}}
