"""What a history of subscriptions means, and which histories may be: the definitions, as Python that can be run.

One function is one definition, in the order and by the names of docs/explanation/definitions.md, with the sentence that it says and, where
the rule is public, its source: Rx is reactivex.io, System.Reactive its documentation of disposables; the rest is this project's own. Every
function is a search of the history. It was written from that page and not from the proved code, with which it shares nothing.
"""
from __future__ import annotations

from typing import NamedTuple

from .events import (COMPLETED, Accept, Close, Connect, Decline, End, Event, Hub, Item, Kept, KeptNode, KeptResource, Lease, Open,
                     Remove, Return, Take, Terminal, Use)
from .history import History, history, once

MOST_NODES = 1_048_576   # open at a time
MOST_HUBS = 1_024
MOST_VISITS = 1_048_576  # of one item

# 1. Places and numbers

def at(h: History, n: int | None) -> Event | None:
    """The event at place n; places count from 0."""
    return h._events[n] if n is not None and n < h.length else None

@once
def nodes(h: History) -> list[int]:
    """Open and Connect make nodes."""
    return [n for n, e in enumerate(h) if isinstance(e, (Open, Connect))]

@once
def hubs(h: History) -> list[int]:
    """Hub makes a hub."""
    return [n for n, e in enumerate(h) if isinstance(e, Hub)]

@once
def resources(h: History) -> list[int]:
    """Accept makes a resource."""
    return [n for n, e in enumerate(h) if isinstance(e, Accept)]

def makes_lease(h: History, n: int) -> bool:
    """Lease makes a lease."""
    return isinstance(at(h, n), Lease)

def kind_of(h: History, n: int | None) -> str | None:
    """What sort of node it is; a connection is one of its own."""
    made = at(h, n)
    return made.kind if isinstance(made, Open) else 'connection' if isinstance(made, Connect) else None

# 2. Parents and ancestors

def parent(h: History, n: int) -> int | None:
    """The node that its place names, followed only where its number is less. Roots and connections have none."""
    made = at(h, n)
    return made.of if isinstance(made, Open) and made.of is not None and made.of < n else None

def ancestors(h: History, n: int) -> list[int]:
    """The node itself, its parent, and so on."""
    walk = [n]
    while (above := parent(h, walk[-1])) is not None:
        walk.append(above)
    return walk

def is_within(h: History, n: int, c: int) -> bool:
    """c is among its ancestors."""
    return c in ancestors(h, n)

@once
def children(h: History, p: int) -> list[int]:
    """The nodes directly below it, open or not."""
    return [n for n in nodes(h) if parent(h, n) == p]

# 3. Open (Rx: Observable Contract, the end and unsubscription; Switch)

def shuts(h: History, e: Event, n: int) -> bool:
    """Its End, its Close, and, of an inner of a Switch, the opening of another inner there."""
    if isinstance(e, Open):
        return e.place == 'inner' and e.of == parent(h, n) and at(h, n).place == 'inner' and kind_of(h, e.of) == 'switch'
    return isinstance(e, (End, Close)) and e.node == n

@once
def is_shut(h: History, n: int) -> bool:
    """Such an event came after it was made."""
    return any(shuts(h, e, n) for e in h.behind(n))

def is_standing(h: History, n: int) -> bool:
    """It is a node, and not shut."""
    return kind_of(h, n) is not None and not is_shut(h, n)

@once
def is_open(h: History, n: int) -> bool:
    """It and each of its ancestors stand."""
    return all(is_standing(h, a) for a in ancestors(h, n))

@once
def open_nodes(h: History) -> list[int]:
    return [n for n in nodes(h) if is_open(h, n)]

# 4. Owned, leased, held, taken, waiting, and uses (Rx: Using, Do; System.Reactive: RefCountDisposable)

def is_owned(h: History, r: int) -> bool:
    """Its node is open, and it was not removed."""
    made = at(h, r)
    return isinstance(made, Accept) and is_open(h, made.node) and Remove(r) not in h.behind(r)

def is_out(h: History, l: int) -> bool:
    """There is no Return of this lease."""
    return makes_lease(h, l) and Return(l) not in h.behind(l)

def leases_of(h: History, r: int) -> list[int]:
    """The leases of it that are out."""
    return [l for l, e in enumerate(h) if isinstance(e, Lease) and e.resource == r and is_out(h, l)]

def is_leased(h: History, r: int) -> bool:
    return leases_of(h, r) != []

@once
def is_held(h: History, r: int) -> bool:
    """It is owned or a lease of it is out: this is what the history leaves open."""
    return isinstance(at(h, r), Accept) and (is_owned(h, r) or is_leased(h, r))

def is_taken(h: History, r: int) -> bool:
    """It was handed out for its release."""
    return isinstance(at(h, r), Accept) and Take(r) in h.behind(r)

def is_waiting(h: History, r: int) -> bool:
    """It is neither held nor taken."""
    return isinstance(at(h, r), Accept) and not is_held(h, r) and not is_taken(h, r)

def uses(h: History, r: int) -> int:
    """The number of its Use events."""
    record = h.kept.resources.get(r)
    return (record.uses if record else 0) + h.behind(r).count(Use(r))

# 5. Subscribers and connections (Rx: Publish, Connect, RefCount)

@once
def open_subscribers(h: History, g: int) -> list[int]:
    """The open nodes of kind `sub` g, by rising number."""
    return [n for n in open_nodes(h) if kind_of(h, n) == 'sub' and at(h, n).hub == g]

@once
def open_connections(h: History, g: int) -> list[int]:
    """The open nodes that a Connect of g made."""
    return [n for n in open_nodes(h) if kind_of(h, n) == 'connection' and at(h, n).hub == g]

# 6. The climb of an item (Rx: Observable Contract, FlatMap, Switch, TakeUntil, Publish)

class Stop(NamedTuple):
    what: str  # delivery, projection, firing
    node: int

def onward(h: History, n: int) -> Stop | list[int]:
    """Where an item that is at n stops, or which nodes it goes on to."""
    made, above = at(h, n), parent(h, n)
    if isinstance(made, Connect):
        return open_subscribers(h, made.hub)
    if isinstance(made, Open) and made.place == 'root':
        return Stop('delivery', n)
    if isinstance(made, Open) and above is not None and made.place == 'notifier':
        return Stop('firing', above)
    if isinstance(made, Open) and made.place == 'source' and kind_of(h, above) in ('flat', 'switch'):
        return Stop('projection', above)
    return [] if above is None else [above]

@once
def climb(h: History, n: int) -> tuple[list[Stop], list[int]]:
    """All stops from n, the climb of the first subscriber finished before the second begins, and the nodes visited, each
    as often as it is reached. It ends after one visit more than an item may have."""
    reached, seen, todo = [], [], [n]
    while todo and len(seen) <= MOST_VISITS:
        seen.append(todo.pop())
        goes = onward(h, seen[-1])
        if isinstance(goes, Stop):
            reached.append(goes)
        else:
            todo += reversed(goes)
    return reached, seen

def stops(h: History, n: int) -> list[Stop]:
    return climb(h, n)[0]

def visited(h: History, n: int) -> list[int]:
    return climb(h, n)[1]

def visits(h: History, n: int) -> int:
    return len(visited(h, n))

# 7. What each event did when it came (Rx: FlatMap, Switch, TakeUntil; that a projection is owed is own)

def moments(h: History) -> list[tuple[int, Event, History]]:
    """Each event since the base, with its place and the history before it."""
    return [(n, at(h, n), h.before(n)) for n in range(h.kept.at, len(h))]

@once
def all_stops(h: History) -> list[Stop]:
    """Those of all items, each in the history before it: later changes of the tree do not change what an item did."""
    return [s for _, e, before in moments(h) if isinstance(e, Item) for s in stops(before, e.node)]

def projections(h: History, f: int) -> int:
    return all_stops(h).count(Stop('projection', f))

def is_fired(h: History, u: int) -> bool:
    """Some item's stops have a firing of it."""
    return Stop('firing', u) in all_stops(h)

def inners(h: History, f: int) -> list[int]:
    """The inners that were opened below it."""
    return [n for n in children(h, f) if at(h, n).place == 'inner']

@once
def owed(h: History, f: int) -> int:
    """The projections to it, less the inners that were opened below it, less its Declines."""
    record = h.kept.nodes.get(f)
    since = [n for n in inners(h, f) if n >= h.kept.at]
    return (record.owed if record else 0) + projections(h, f) - len(since) - h.behind(f).count(Decline(f))

# 8. Notes (Rx: Observable Contract)

class Note(NamedTuple):
    place: int
    to: int
    what: str            # next, project, completed, error
    value: int | None

def mail_of(h: History, e: Event) -> list[Note]:
    """What observers are told of e behind h: a delivery is Next, a projection Project, the End of a root the End."""
    if isinstance(e, Item):
        words = {'delivery': 'next', 'projection': 'project'}
        return [Note(len(h), s.node, words[s.what], e.value) for s in stops(h, e.node) if s.what in words]
    made = at(h, e.node) if isinstance(e, End) else None
    if isinstance(e, End) and isinstance(made, Open) and made.place == 'root':
        return [Note(len(h), e.node, COMPLETED, None) if e.terminal == COMPLETED else Note(len(h), e.node, 'error', e.terminal)]
    return []

@once
def notes(h: History) -> list[Note]:
    return [note for _, e, before in moments(h) for note in mail_of(before, e)]

def notes_to(h: History, n: int) -> list[Note]:
    return [note for note in notes(h) if note.to == n]

def is_grammatical(told: list[Note]) -> bool:
    """Next or Project any number of times, then at most one End, then nothing."""
    return all(note.what in ('next', 'project') for note in told[:-1])

# 9. What is forced: an operator's rule forces an event, and no caller may go on before it came

def ends_of(h: History, n: int) -> list[Terminal]:
    """How it ended: by its End events."""
    return [e.terminal for e in h.behind(n) if isinstance(e, End) and e.node == n]

def mirrored(h: History) -> list[Event]:
    """A mirroring node, a TakeUntil or a connection ends as a child did (Rx: Observable Contract; TakeUntil)."""
    return [End(p, t) for p in open_nodes(h) if kind_of(h, p) in ('pass', 'until', 'connection')
            for c in children(h, p) for t in ends_of(h, c)]

def fired(h: History) -> list[Event]:
    """A TakeUntil that was fired completes (Rx: TakeUntil)."""
    return [End(u, COMPLETED) for u in open_nodes(h) if kind_of(h, u) == 'until' and is_fired(h, u)]

def failed(h: History) -> list[Event]:
    """A FlatMap or Switch fails as a child did (Rx: FlatMap, Switch)."""
    return [End(f, t) for f in open_nodes(h) if kind_of(h, f) in ('flat', 'switch')
            for c in children(h, f) for t in ends_of(h, c) if t != COMPLETED]

def source_completed(h: History, f: int) -> bool:
    """A source of it completed."""
    record = h.kept.nodes.get(f)
    return (record is not None and record.source_completed) or any(
        at(h, c).place == 'source' and COMPLETED in ends_of(h, c) for c in children(h, f))

def completed(h: History) -> list[Event]:
    """A FlatMap or Switch completes where no child failed, its source completed, no child is open and nothing is owed
    (Rx: FlatMap, Switch)."""
    return [End(f, COMPLETED) for f in open_nodes(h) if kind_of(h, f) in ('flat', 'switch') and source_completed(h, f)
            and not any(is_open(h, c) for c in children(h, f)) and owed(h, f) == 0
            and not any(t != COMPLETED for c in children(h, f) for t in ends_of(h, c))]

def cuts(h: History, s: int) -> list[Terminal]:
    """How the connections of its hub ended after the subscriber was opened."""
    return [e.terminal for e in h.behind(s) if isinstance(e, End) and at(h, e.node) == Connect(at(h, s).hub)]

def cut(h: History) -> list[Event]:
    """A subscriber ends as the connection of its hub did (Rx: Publish)."""
    return [End(s, t) for s in open_nodes(h) if kind_of(h, s) == 'sub' for t in cuts(h, s)]

def left(h: History) -> list[Event]:
    """The connection of a RefCount hub without an open subscriber is closed (Rx: RefCount)."""
    return [Close(c) for c in open_nodes(h) if kind_of(h, c) == 'connection'
            and at(h, at(h, c).hub) == Hub('auto') and not open_subscribers(h, at(h, c).hub)]

def is_connect_due(h: History, g: int) -> bool:
    """A RefCount hub has an open subscriber that no ended connection cuts off, and no open connection."""
    return (at(h, g) == Hub('auto') and not open_connections(h, g)
            and any(not cuts(h, s) for s in open_subscribers(h, g)))

def connecting(h: History) -> list[Event]:
    """A hub of which that holds is connected (Rx: RefCount)."""
    return [Connect(g) for g in hubs(h) if is_connect_due(h, g)]

RULES = (mirrored, fired, failed, completed, cut, left, connecting)

@once
def forced(h: History) -> list[tuple[str, Event]]:
    """What is forced, with the rule. While a connection is due nothing else is forced; among the rest the order is free."""
    due = [('connecting', e) for e in connecting(h)]
    return due or [(rule.__name__, e) for rule in RULES for e in rule(h)]

def is_forced(h: History, e: Event) -> bool:
    return any(e == due for _, due in forced(h))

def is_settled(h: History) -> bool:
    """Nothing is forced."""
    return forced(h) == []

# 10. What callers may do. Each function tells what stands against it, in words, and None where nothing does.

PLACES = {'leaf': (), 'sub': (), 'pass': ('source',), 'connection': ('source',), 'flat': ('source', 'inner'),
          'switch': ('source', 'inner'), 'until': ('source', 'notifier')}

def was_opened(h: History, p: int, place: str) -> bool:
    """Such a place of p was ever opened; of an inner it is not asked."""
    record = h.kept.nodes.get(p)
    return (record is not None and place in record.opened) or any(at(h, c).place == place for c in children(h, p))

def no_open_node(h: History, n: int | None, *kinds: str) -> str | None:
    """What stands against a call on n that wants it to be open, and of one of these kinds where some are given."""
    if kind_of(h, n) is None:
        return f'{n} is no node'
    if kinds and kind_of(h, n) not in kinds:
        return f'node {n} is a {kind_of(h, n)}'
    if not is_open(h, n):
        a = next(a for a in ancestors(h, n) if not is_standing(h, a))
        by = next((i for i in range(a + 1, len(h)) if shuts(h, at(h, i), a)), None)
        return f'node {n} is not open' + (f', since {"it" if a == n else f"node {a} above it"} was gone at {by}' if by else '')
    return None

def not_free(h: History, e: Open) -> str | None:
    """`IsFree`: a root always; a source or notifier that the open node has and never had opened; an inner that it owes."""
    if e.place == 'root':
        return None
    if why := no_open_node(h, e.of):
        return why
    if e.place not in PLACES[kind_of(h, e.of)]:
        return f'node {e.of} is a {kind_of(h, e.of)}, which has no {e.place}'
    if e.place == 'inner':
        return None if owed(h, e.of) > 0 else f'node {e.of} owes no inner'
    return f'the {e.place} of {e.of} was opened before' if was_opened(h, e.of, e.place) else None

def not_hubbed(h: History, e: Open) -> str | None:
    """`IsHubbed`: a subscriber's hub exists, and each connection above it is of a later hub, so that no item goes round."""
    if e.kind != 'sub':
        return None
    if not isinstance(at(h, e.hub), Hub):
        return f'{e.hub} is no hub'
    above = [at(h, a).hub for a in ancestors(h, e.of) if kind_of(h, a) == 'connection'] if e.of is not None else []
    return next((f'it would stand below a connection of hub {k}, which was not made after hub {e.hub}'
                 for k in above if not e.hub < k), None)

def forces_connect(h: History, e: Open) -> bool:
    """A subscriber of a RefCount hub that has no connection makes it be connected."""
    return e.kind == 'sub' and at(h, e.hub) == Hub('auto') and not open_connections(h, e.hub)

def not_allowed(h: History, e: Event) -> str | None:
    """`IsAllowed`. A number that names nothing of the needed sort is never allowed."""
    match e:
        case Open():
            crowd = len(open_nodes(h)) + 1 + forces_connect(h, e)
            return not_free(h, e) or not_hubbed(h, e) or ('too many nodes would be open' if crowd > MOST_NODES else None)
        case Hub():
            return None if len(hubs(h)) < MOST_HUBS else f'there are {MOST_HUBS} hubs'
        case Connect(g):
            if at(h, g) != Hub('manual'):
                return f'{g} is no hub that is connected by hand'
            if open_connections(h, g):
                return f'hub {g} is connected, by node {open_connections(h, g)[0]}'
            return None if len(open_nodes(h)) < MOST_NODES else 'too many nodes would be open'
        case Accept(n, _):
            return no_open_node(h, n)
        case Use(r):
            return None if is_held(h, r) else not_there(h, r) or f'resource {r} is not held'
        case Remove(r) | Lease(r):
            return None if is_owned(h, r) else not_there(h, r) or (
                f'leases alone hold resource {r}' if is_held(h, r) else f'resource {r} is not held')
        case Return(l):
            return None if is_out(h, l) else f'lease {l} is not out' if makes_lease(h, l) else f'{l} is no lease'
        case Item(l, _):
            return no_open_node(h, l, 'leaf') or (
                f'it would visit more than {MOST_VISITS} nodes' if visits(h, l) > MOST_VISITS else None)
        case Decline(f):
            return no_open_node(h, f, 'flat', 'switch') or (None if owed(h, f) > 0 else f'node {f} owes no inner')
        case End(n, t):
            if kind_of(h, n) == 'leaf':
                return no_open_node(h, n)
            if why := no_open_node(h, n):
                return why
            if t == COMPLETED or kind_of(h, n) == 'sub':
                return f'node {n} is a {kind_of(h, n)}, which no caller ends so'
            if kind_of(h, n) in ('flat', 'switch') and owed(h, n) > 0:
                return None
            below = [c for c in children(h, n) if is_open(h, c)]
            return f'node {below[0]} below it is open' if below else None
        case Close(n):
            if why := no_open_node(h, n):
                return why
            made = at(h, n)
            by_hand = isinstance(made, Connect) and at(h, made.hub) == Hub('manual')
            return None if by_hand or (isinstance(made, Open) and made.place == 'root') else (
                f'node {n} is no root, and no connection that was made by hand')
        case Take(r):
            return None if is_waiting(h, r) else not_there(h, r) or (
                f'resource {r} is held' if is_held(h, r) else f'resource {r} was taken')

def not_there(h: History, r: int) -> str | None:
    return None if isinstance(at(h, r), Accept) else f'{r} is no resource'

def is_allowed(h: History, e: Event) -> bool:
    return not_allowed(h, e) is None

# 11. Lawful histories

def accepts_for_using(h: History, e: Event) -> bool:
    """The one exception: the Accept at a mirroring node directly after the Open of that node."""
    last = len(h) - 1
    return isinstance(e, Accept) and e.node == last >= h.kept.at and kind_of(h, last) == 'pass'

def may_follow(h: History, e: Event) -> bool:
    """It is forced, or allowed and the history settled; or it accepts the resource of a Using."""
    return is_forced(h, e) or (is_allowed(h, e) and (is_settled(h) or accepts_for_using(h, e)))

def is_lawful(h: History) -> bool:
    """Each event may follow those before it."""
    return all(may_follow(before, e) for _, e, before in moments(h))

# 12. Steps

def is_step(h: History, outside: list[Event], k: History) -> bool:
    """k is h, then the caller's events, then events each of which is forced when it comes; it is lawful and settled."""
    events, since = list(k), len(h) + len(outside)
    return (events[:since] == [*h, *outside] and all(is_forced(k.before(n), events[n]) for n in range(since, len(k)))
            and is_lawful(k) and is_settled(k))

# 13. Totals and the debt

def item_count(h: History) -> int:
    return h.kept.items + sum(isinstance(e, Item) for _, e, _ in moments(h))

def accepted_count(h: History) -> int:
    return h.kept.accepted + sum(isinstance(e, Accept) for _, e, _ in moments(h))

def taken_count(h: History) -> int:
    return h.kept.taken + sum(isinstance(e, Take) for _, e, _ in moments(h))

def held_count(h: History) -> int:
    return sum(is_held(h, r) for r in resources(h))

def waiting_count(h: History) -> int:
    return sum(is_waiting(h, r) for r in resources(h))

@once
def debt(h: History) -> int:
    """How many events closing everything may need: one for each open node, two for each owned resource, one for each that
    is held and not owned, for each waiting one, for each lease that is out, and for each projection that is owed."""
    return (len(open_nodes(h)) + sum(2 if is_owned(h, r) else is_held(h, r) or is_waiting(h, r) for r in resources(h))
            + sum(is_out(h, l) for l in range(len(h)))
            + sum(owed(h, f) for f in open_nodes(h) if kind_of(h, f) in ('flat', 'switch')))

# 18. The verdict on a list of events

def verdict(events: list[Event]) -> str:
    """Unlawful, with the first place whose event may not follow; unsettled, where something is forced; lawful, with what is left."""
    h = history([])
    for place, e in enumerate(events):
        if not may_follow(h, e):
            return f'unlawful {place}\n'
        h = h.then(e)
    return standing(h)

def standing(h: History) -> str:  # the verdict on a lawful history
    if not is_settled(h):
        return 'unsettled\n'
    lists = {'live': open_nodes(h), 'held': [r for r in resources(h) if is_held(h, r)],
             'waiting': [r for r in resources(h) if is_waiting(h, r)]}
    return 'lawful\n' + ''.join(f'{name}:' + ''.join(f' {n}' for n in numbers) + '\n' for name, numbers in lists.items())

# 20. A base and the events since

def shown(b: Kept) -> list[Event]:
    """What a history over it begins with: at each number that is kept the event that made it, elsewhere the closing of a
    node that is not there. A resource that no node owns reads as accepted at itself, which is no node."""
    events: list[Event] = [Close(n) for n in range(b.at)]
    for n, mode in b.hubs.items():
        events[n] = Hub(mode)
    for n, node in b.nodes.items():
        events[n] = node.made
    for r, record in b.resources.items():
        events[r] = Accept(r if record.node is None else record.node, record.tag)
    for l, r in b.leases.items():
        events[l] = Lease(r)
    return events

def over(b: Kept) -> History:
    """The history that begins with the base, and goes on as those of which it is the base."""
    return history(shown(b), b)

def base_of(h: History) -> Kept:
    """What h leaves."""
    return Kept(len(h), item_count(h), accepted_count(h), taken_count(h), {g: at(h, g).mode for g in hubs(h)},
                {n: KeptNode(at(h, n), tuple(p for p in ('source', 'notifier') if was_opened(h, n, p)),
                             source_completed(h, n), owed(h, n)) for n in open_nodes(h)},
                {r: KeptResource(at(h, r).node if is_owned(h, r) else None, at(h, r).tag, uses(h, r))
                 for r in resources(h) if is_held(h, r) or is_waiting(h, r)},
                {l: at(h, l).resource for l in range(len(h)) if is_out(h, l)})

# 21. Agreement

def agree(h: History, k: History) -> bool:
    """They are as long, leave the same, and each operator's rule gives the same in both."""
    return base_of(h) == base_of(k) and all(rule(h) == rule(k) for rule in RULES)

# 22. One step, one outcome

def canonical(h: History) -> Event:
    """What is forced first in the canonical order: a connection, else by the first rule that gives one, at the least node."""
    return forced(h)[0][1]
