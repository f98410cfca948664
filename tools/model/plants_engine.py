"""Faults that are planted in the definitions of the engine, or in what the library answers: each has to be found."""
from __future__ import annotations

from collections.abc import Callable
from dataclasses import replace
from typing import Any

from . import engine
from .cellar import Cellar
from .engine import (E_COMPLETED, E_FAILED, E_RELEASE, FLAT, LANE_OF_NODE, MOST, OF_PROJECTIONS, QUEUES, WISHES, Answer, Command, Effect,
                     Engine, Lane, Role, Sent, last_before)
from .courses import Followed
from .turns import Turn, Turns

PLANTS: dict[str, tuple[Any, str, Any]] = {}  # what is turned: of which, its name, and what takes its place


def planted(name: str, of: Any, what: str, turn: Callable[[Any], Any]) -> None:
    PLANTS[name] = (of, what, turn(getattr(of, what)))


# Lanes
planted('a release stands behind, whoever serves', Lane, 'freed', lambda was: lambda l, by, e: l.put(e))
planted('a release comes first, whoever serves', Lane, 'freed', lambda was: lambda l, by, e: replace(l, front=l.front + (e,)))
planted('releases are turned round', Lane, 'freed', lambda was: lambda l, by, e: replace(l, front=(e,) + l.front) if l.server == by else l.put(e))
planted('inside takes what stands behind', Lane, 'taken', lambda was: lambda l, by, inside: was(l, by, inside and l.server != by))
planted('who finds nothing serves on', Lane, 'taken', lambda was: lambda l, by, inside: it if (it := was(l, by, inside))[0] else ((), l))
planted('what is given back is forgotten', Lane, 'given_up', lambda was: lambda l, by, untold: was(l, by, ()))
planted('what is given back stands behind', Lane, 'given_up',
        lambda was: lambda l, by, untold: replace(was(l, by, ()), back=l.back + untold) if l.server == by else l)
planted('who gives up serves on', Lane, 'given_up',
        lambda was: lambda l, by, untold: replace(was(l, by, untold), server=l.server) if l.line() else was(l, by, untold))
planted('what is put comes first', Lane, 'put', lambda was: lambda l, e: replace(l, back=(e,) + l.back))

# Turns
planted('what was not begun is told', Turns, 'note', lambda was: lambda s, stack: (
    was(s, stack), s.hands.update({t: it._replace(is_begun=True) for t, it in s.hands.items() if t == stack.turn()}))[0])
planted('what was begun further out is not noted', Turns, 'note', lambda was: lambda s, stack: s.hands.update(
    {t: it._replace(is_begun=True) for t, it in s.hands.items() if t == stack.turn() and it.ticket == stack.begun}))
planted('what another stack began is noted', Turns, 'note', lambda was: lambda s, stack: s.hands.update(
    {t: it._replace(is_begun=True) for t, it in s.hands.items() if it.ticket == stack.begun}))
planted('an item is handed out before what is due', Followed, 'is_free', lambda was: lambda s, turn: turn not in s.hands)
planted('an item waits where its turn has nothing', Followed, 'is_free', lambda was: lambda s, turn: was(s, turn) and turn.depth != 2)
planted('a lane stays due to whom it was', Followed, 'claim', lambda was: lambda s, turn, claim: (
    was(s, turn, claim) if not any(it.lane == claim.lane for claims in s.due.values() for it in claims) else None))
planted('a lane that is due again keeps its place', Followed, 'claim', lambda was: lambda s, turn, claim: (
    was(s, turn, claim) if not any(it.lane == claim.lane for it in s.due.get(turn, ())) else None))
planted('a lane is due to two turns', Turns, 'claim', lambda was: lambda s, turn, claim: s.due.setdefault(turn, []).append(claim))
planted('what is due last comes first', Followed, 'first_due', lambda was: lambda s, turn: next(iter(s.due.get(turn, ())[::-1]), None))
planted('an inner is opened before what stands there', Followed, 'come_home', lambda was: lambda s, turn, lane: None)
planted('deeper calls are forgotten', Turns, 'deeper', lambda was: lambda s, turn: [])
planted('the deepest call comes first', Turns, 'deeper', lambda was: lambda s, turn: was(s, turn)[::-1])
planted('a call further out is served too', Turns, 'deeper', lambda was: lambda s, turn: was(s, Turn(turn.by, 0)))
planted('what stopped calls left is lost', Turns, 'pick_up', lambda was: lambda s, turn: None)
planted('what stopped calls left comes at any depth', Turns, 'go_on', lambda was: lambda s, turn: was(s, turn) or s.pick_up(turn))
planted('a stop leaves deeper calls as they are', Turns, 'stop', lambda was: lambda s, stack: without_deeper(s, was, stack))
planted('a stop leaves what is due', Turns, 'stop', lambda was: lambda s, stack: (s.note(stack), s.let_go(stack.turn()), None)[2])
planted('a pass makes due to the other', Turns, 'let_pass', lambda was: lambda s, stack, depth, now: was(s, stack, depth, not now))
planted('a pass frees nothing', Turns, 'let_pass', lambda was: lambda s, stack, depth, now: s.note(stack))
planted('a pass frees what the nearest call does', Turns, 'let_pass', lambda was: lambda s, stack, depth, now: was(s, stack, stack.depth - 1, now))
planted('a pass frees what is done here', Turns, 'let_pass', lambda was: lambda s, stack, depth, now: was(s, stack, depth + 1, now))


def without_deeper(s: Turns, was: Callable[[Any, Any], None], stack: Any) -> None:
    kept = {t: (s.due.pop(t, []), s.hands.pop(t, None)) for t in s.deeper(stack.turn())}
    was(s, stack)
    for t, (due, hand) in kept.items():
        s.due[t] = due
        s.hands |= {t: hand} if hand else {}


# Hubs
planted('a share gets a second hub', engine, 'is_own', lambda was: lambda hub, mode, word: was(hub, mode, word) and hub.many > 1)
planted('the first hub that is free is chosen', engine, 'last_before', lambda was: lambda test, hubs, end: next(
    (place for place in range(min(end, len(hubs))) if test(hubs[place])), None))
planted('no room is left for shares above', engine, 'choice', lambda was: lambda hubs, mode, word, level, limit: was(hubs, mode, word, 7, limit))
planted('a share may stand inside itself', engine, 'choice', lambda was: lambda hubs, mode, word, level, limit: was(hubs, mode, word, level, MOST))

# Commands
planted('what is projected goes to the lane of what is told', Engine, 'lane_of',
        lambda was: lambda s, node, flags: was(s, node, 0) if flags & OF_PROJECTIONS and node in s.merges else was(s, node, flags))
planted('a node below has a lane of its own', Engine, 'enter_node',
        lambda was: lambda s, n, c, lane, limit: was(s, n, c, lane if c.place == 0 or lane is None else s.opened(), limit))
planted('a root that asks for a lane gets its own', Engine, 'enter_node',
        lambda was: lambda s, n, c, lane, limit: was(s, n, c, None if c.place == 0 else lane, limit))
planted('a FlatMap projects where it is told', Engine, 'enter_node', lambda was: lambda s, n, c, lane, limit: (
    was(s, n, c, lane, limit), s.merges.update({n: Role(c.user, s.homes[n].lane)}) if n in s.merges and c.kind == FLAT else None))
planted('a wish is forgotten', Engine, 'enter_node', lambda was: lambda s, n, c, lane, limit: (
    was(s, n, c, lane, limit), s.wishes.pop(n, None) if c.place == 2 else None))
planted('a flag that is none is taken', engine, 'flags_of', lambda was: lambda c: was(c) | 16)
planted('a node has no flag of its own', engine, 'flags_of', lambda was: lambda c: was(c) & ~(LANE_OF_NODE if c.what else 0))
planted('who was told an end is gone too', Engine, 'told', lambda was: lambda s, c, note: (
    it := was(s, c, note), s.hears.update({note.to: Role(it.effect.user, it.lane)}) if it.effect.kind in (E_COMPLETED, E_FAILED) else None)[0])
planted('a completion carries the value', Engine, 'told', lambda was: lambda s, c, note: with_value(was(s, c, note), c))
planted('an error carries nothing', Engine, 'told', lambda was: lambda s, c, note: (
    it._replace(effect=it.effect._replace(carries=0)) if (it := was(s, c, note)).effect.kind == E_FAILED else it))
planted('what ends is of another caller', Engine, 'last', lambda was: lambda s, c, table, number, kind, part=0: [
    it._replace(effect=it.effect._replace(by=it.effect.by ^ 1)) if kind == E_RELEASE else it for it in was(s, c, table, number, kind, part)])
planted('an item is handed out that was to be queued', Engine, 'delivered', lambda was: lambda s, c, answer, effects: was(
    s, replace(c, flags=c.flags & ~QUEUES), answer, effects))
planted('an item is handed out though something stands before it', Lane, 'is_idle', lambda was: lambda l: l.server is None)
planted('copies are one too few', Engine, 'delivered', lambda was: lambda s, c, answer, effects: replace(
    it := was(s, c, answer, effects), copies=max(0, it.copies - (it.copies > 1))))
planted('closings of a connection are not told', Engine, 'connect', lambda was: lambda s, c, answer: was(
    s, replace(c, flags=c.flags & ~WISHES), answer))
planted('what is full stays full', Engine, 'made', lambda was: lambda s, c: (setattr(s, 'limit', s.limit and s.limit - 1), was(s, c), setattr(
    s, 'limit', s.limit and s.limit + 1))[1])


def with_value(it: Sent, c: Command) -> Sent:
    return it._replace(effect=it.effect._replace(value=c.value)) if it.effect.kind == E_COMPLETED else it


# What the library answers
planted('the closings begin one too late', Cellar, 'closings', lambda was: lambda s, start, room: was(s, start + 1, room))
planted('an effect that comes again has another ticket', Cellar, 'step', lambda was: lambda s, stack, c=None: (
    it._replace(ticket=it.ticket + 1000 * (it.ticket != stack.begun and c is None and it.effect is not None)) if (it := was(s, stack, c)) else it))
planted('each item of a command is its own', Cellar, 'step', lambda was: lambda s, stack, c=None: (
    it._replace(own=int(it.effect is not None and it.effect.value == c.value)) if c and c.what == engine.NEXT and (it := was(s, stack, c)) else was(s, stack, c)))
planted('one effect more waits', Cellar, 'totals', lambda was: lambda s: (*(it := was(s))[:7], it[7] + (it[7] > 3)))
planted('a release that waits was taken', Cellar, 'totals', lambda was: lambda s: (*(it := was(s))[:2], 0, *it[3:5], it[5] + it[2], *it[6:]))
planted('it is finished with something in it', Cellar, 'finish', lambda was: lambda s: 0 if (it := was(s)) == 6 and s.totals()[0] == 0 else it)
