#!/usr/bin/env python3
"""Runs the worked examples of docs/explanation/definitions.md on the model: what the page says of each is so there.

Usage: tools/model/try_pages.py, from anywhere; it takes a second. A claim is a sentence of the page, which has to stand in
its section, and what it says of the section's example. Each fault is a line; the last line counts them, and the status is 1
where there is one. Each name at the head of a section of the page is one of the model, or stands in OTHERS, below, with what
the model has for it.
"""
import pathlib
import re
import sys

sys.dont_write_bytecode = True
sys.path.insert(0, str(pathlib.Path(__file__).resolve().parents[1]))
import model.events
from model import calls, definitions, scenario
from model.calls import Call, first_cause
from model.definitions import *
from model.scenario import Canonical, Course
from model.texts import event_of, json_of

docs = pathlib.Path(__file__).resolve().parents[2] / 'docs'
PAGE = docs / 'explanation/definitions.md'
REFUSALS = docs / 'reference/refusals.md'

# The names at the heads of sections for which the model has no function, and what stands for them; a law is proved and not run.
OTHERS = {
    1: '`places`: what `nodes`, `hubs` and `resources` list',
    8: '`accepts`: `is_grammatical`, as a word that computes',
    9: '`IsDue`: that `forced` has it',
    10: '`IsFree`, `IsHubbed`: that `not_free`, `not_hubbed` say nothing',
    12: '`IsForcedOn`, `IsStepOf`: parts of `is_step`',
    13: '`open_count`: the length of `open_nodes`',
    14: '`IsRefusal`: that `first_cause` gives it',
    15: '`Label`, `State`, `IsPromised`, `GoesFirst`, `Request`, `stands`, `Accepts`, `Answers`, '
        '`opening_holding_causes`, `IsOpenedHolding`: `Book`',
    16: '`PlacedStep`, `Executed`, `ComesBefore`, `IsHeld`, `IsStepDue`, `IsCancelled`, `IsInOrder`, '
        '`AreCancelsAnswered`, `Stage`, `after`, `Manner`, `Executes`, `Plays`, `IsCourseIn`, `IsCourseOf`, '
        '`IsCanonicalCourseOf`: `Course` runs a scenario; they say which courses are one of it',
    18: '`IsVerdict`: that `verdict` gives it',
    19: '`marks_of`, `terminal_due`, `due_at`, `after_source`: what the code keeps; `was_opened`, `is_fired`, '
        '`source_completed`, `owed` say the same',
    20: '`stored`: `over`; `source_opened`, `notifier_opened`: `was_opened`; `event_since`, `Started`',
    21: '`IsRead`, `CheckpointsAgree`, `checkpoints_change_nothing`: laws',
    22: '`AreAlike`, `StepsAreDetermined`, `steps_are_determined`, `numbers_do_not_matter`, '
        '`callers_see_no_numbers`, `one_order_comes_to_an_end`: laws',
}


def ends(h):
    """The lengths of all histories to which what is forced may lead."""
    return {len(h)} if is_settled(h) else {n for _, e in forced(h) for n in ends(h.then(e))}


def order(*steps):
    """The order in which steps come that publish a hub each."""
    course = Course({'steps': list(steps)}, Canonical())
    return ', '.join(course.names['hub'])


def hub(name, **when):
    return {'do': 'hub', 'name': name, 'mode': 'auto', **when}


def standing_of(h, r):
    """What section 4 says beside an event."""
    if is_taken(h, r):
        return 'taken'
    if is_waiting(h, r):
        return 'waiting' + (', with one use' if uses(h, r) == 1 else '')
    if is_owned(h, r):
        return 'owned, and so held' if not is_leased(h, r) else f'owned, and lease {leases_of(h, r)[0]} is out'
    return 'held by its lease alone'


ERROR = End(2, 3)
FIRST = '''using a (resource r), open b at the source of a, next b 5, end b, next b 6'''
STEPS = [{'do': 'using', 'name': 'a', 'place': 'root', 'res': 'r'},
         {'do': 'open', 'name': 'b', 'place': 'source', 'of': 'a', 'kind': 'leaf'},
         {'do': 'next', 'node': 'b', 'value': 5}, {'do': 'end', 'node': 'b'}, {'do': 'next', 'node': 'b', 'value': 6}]

# The section, a sentence of it (or wordings of it, of which one stands there), and what that says of h, the history of its example, and of `to(n)`, h up to place n.
CLAIMS = [
    (1, '`nodes` is 0 2, `resources` is 1, `hubs` is empty.', lambda h, to: (nodes(h), resources(h), hubs(h)) == ([0, 2], [1], [])),
    (2, 'The ancestors of 2 are 2, 1 and 0.', lambda h, to: ancestors(h, 2) == [2, 1, 0]),
    (2, 'Node 2 is within 0, within 1 and within 2.', lambda h, to: [n for n in range(4) if is_within(h, 2, n)] == [0, 1, 2]),
    (3, ('0, 1 and 5 are open', 'Open are 0, 1 and 5'), lambda h, to: open_nodes(h) == [0, 1, 5]),
    *((4, said, lambda h, to, n=n, said=said: said.startswith(standing_of(to(n), 1))) for n, said in {
        1: 'owned, and so held', 2: 'owned, and lease 2 is out', 3: 'held by its lease alone', 5: 'waiting, with one use',
        6: 'taken'}.items()),
    (5, ('Of hub 0 the open subscriber is 3, the open connection 2.', 'The open subscribers of hub 0 are 3, its open connections are 2.'),
     lambda h, to: (open_subscribers(h, 0), open_connections(h, 0)) == ([3], [2])),
    (6, 'An item of leaf 5 visits 5, 3, 2, 1 and 4.', lambda h, to: visited(h, 5) == [5, 3, 2, 1, 4]),
    (6, 'Its stops are a delivery to 1, then a firing of 1.', lambda h, to: stops(h, 5) == [('delivery', 1), ('firing', 1)]),
    (7, 'After 3 it owes 2, after 4 it owes 1, after 5 nothing.', lambda h, to: [owed(to(n), 0) for n in (3, 4, 5)] == [2, 1, 0]),
    (8, 'The notes are (place 2, to 0, Next 5) and (place 4, to 0, End Completed).',
     lambda h, to: notes(h) == [(2, 0, 'next', 5), (4, 0, 'completed', None)] and is_grammatical(notes_to(h, 0))),
    (9, 'Now End(2, Error 3) is due (`mirrored`), and after it End(1, Error 3) (`cut`).',
     lambda h, to: forced(h) == [('mirrored', ERROR)] and forced(h.then(ERROR)) == [('cut', End(1, 3))]),
    (9, 'A subscriber that is opened later is not cut off by that end: it is connected anew.',
     lambda h, to: forced(h.then(ERROR).then(End(1, 3)).then(Open('root', None, 'sub', 0))) == [('connecting', Connect(0))]),
    (10, 'Allowed next are, among others, `["item",0,5]`, `["accept",1,7]` and `["close",0]`; not `["close",2]`, since 2 is no '
     'root, and not `["open","source",1,"leaf"]`, since that place was opened before.',
     lambda h, to: [is_allowed(h, e) for e in (Item(0, 5), Accept(1, 7), Close(0), Close(2), Open('source', 1, 'leaf'))]
     == [True, True, True, False, False]),
    (11, 'This is lawful, and settled.', lambda h, to: is_lawful(h) and is_settled(h)),
    (11, 'Without its last event it is lawful and not settled.', lambda h, to: is_lawful(to(2)) and not is_settled(to(2))),
    (11, 'With `["open","root","leaf"]` in place of its last event it is not lawful.',
     lambda h, to: not is_lawful(to(2).then(Open('root', None, 'leaf')))),
    (12, 'call end leaf 1', lambda h, to: calls.outside_of(to(1), Call('end', 1, value=COMPLETED)) == [End(1, COMPLETED)]
     and is_step(to(1), [End(1, COMPLETED)], h)),
    (13, 'After 1 the debt is 3', lambda h, to: debt(to(1)) == 3),
    (13, 'With a limit of 6 the opening at 2 (one event, and one for its closing) would need 2 + 3 + 2 = 7, and would be `Full`.',
     lambda h, to: [first_cause(to(1), Call('open', 0, 'source', 'leaf'), limit) for limit in (6, 7)] == ['Full', None]),
    (13, 'After 2 the debt is 4.', lambda h, to: debt(to(2)) == 4),
    (13, 'After 3 it is 1: nothing is open, and resource 1 waits.',
     lambda h, to: debt(h) == 1 and open_nodes(h) == [] and is_waiting(h, 1)),
    (14, 'After 1, opening another leaf at the source of 0 is refused `PlaceTaken`; opening at the source of 1, a leaf, '
     '`WrongKind`; disposing of 1 `NotRoot`. After 2 each of these is `Gone`, since that comes first.',
     lambda h, to: [[first_cause(to(n), call) for call in (Call('open', 0, 'source', 'leaf'), Call('open', 1, 'source', 'leaf'),
                                                           Call('dispose', 1))] for n in (1, 2)]
     == [['PlaceTaken', 'WrongKind', 'NotRoot'], ['Gone'] * 3]),
    (15, 'After 2 it has no key and the same resource waits.',
     lambda h, to: (open_nodes(to(1)), is_held(to(1), 1), open_nodes(h), is_waiting(h, 1)) == ([0], True, [], True)),
    (16, 'at 5 a, which is followed by c after 0 and by d; at 5 b a, d, b, c',
     lambda h, to: order(hub('a', at=5, then=[hub('c', after=0), hub('d')]), hub('b', at=5)) == 'a, d, b, c'),
    (16, 'at 10 a, which is followed by c after 2; at 11 b a, b, c',
     lambda h, to: order(hub('a', at=10, then=[hub('c', after=2)]), hub('b', at=11)) == 'a, b, c'),
    (16, 'The answers are four times accepted, then refused `Gone`.',
     lambda h, to: (course := Course({'steps': STEPS}, Canonical())).refused == [(4, 'Gone')] and list(course.h) == list(h)),
    (17, ' '.join(Course({'steps': STEPS}, Canonical()).report().split()), lambda h, to: True),
    (18, 'Without its last event this is unsettled; whole it is lawful, with the open nodes 1 and 2; with `["connect",0]` once '
     'more it is unlawful at 3.',
     lambda h, to: [verdict(it) for it in (list(h)[:2], list(h), [*h, Connect(0)])]
     == ['unsettled\n', 'lawful\nlive: 1 2\nheld:\nwaiting:\n', 'unlawful 3\n']),
    (19, 'that its source was opened and completed, that it owes one projection, and that no child is open: nothing is due.',
     lambda h, to: was_opened(h, 0, 'source') and source_completed(h, 0) and owed(h, 0) == 1 and open_nodes(h) == [0] and is_settled(h)),
    (19, 'After `["decline",0]` it owes nothing, and `["end",0,"completed"]` is due.',
     lambda h, to: forced(h.then(Decline(0))) == [('completed', End(0, COMPLETED))]),
    (20, 'Its base stands for 4 events and one item, and keeps node 0, made by `["open","root","flat"]`: its source was opened '
     'and has completed, and it owes one projection.',
     lambda h, to: base_of(h) == Kept(4, 1, nodes={0: KeptNode(Open('root', None, 'flat'), ('source',), True, 1)})),
    (20, 'It shows `["open","root","flat"]` at 0 and closings of 1, 2 and 3 at these places.',
     lambda h, to: shown(base_of(h)) == [Open('root', None, 'flat'), Close(1), Close(2), Close(3)]),
    (20, '`["open","inner",0,"leaf"]` may come next, at place 4, and then nothing is owed; another source may not, since that '
     'place was opened.',
     lambda h, to: (k := over(base_of(h)), e := Open('inner', 0, 'leaf')) and may_follow(k, e) and owed(k.then(e), 0) == 0
     and not may_follow(k, Open('source', 0, 'leaf')) and agree(h, k) and agree(h.then(e), k.then(e))),
    (22, ('The connection ends at 7; then both subscribers are due to end.', 'The connection ends at 7, and then both subscribers are due to end.'),
     lambda h, to: forced(h) == [('mirrored', End(3, COMPLETED))]
     and forced(h.then(End(3, COMPLETED))) == [('cut', End(2, COMPLETED)), ('cut', End(4, COMPLETED))]),
    (22, 'One way is an event longer', lambda h, to: ends(h) == {10, 11}),
]


def sections(text):
    """The text of each numbered section, by its number."""
    parts = re.split(r'^## (\d+)\..*$', text, flags=re.M)
    return {int(n): part.split('\n## ')[0] for n, part in zip(parts[1::2], parts[2::2])}


def example(text):
    """The last history of a section that begins at place 0, from its lines `PLACE EVENT`, or `after PLACE EVENT ..`."""
    found = []
    for line in text.splitlines():
        for place, form in re.findall(r'(\d+) (\[[^]]*\])', line) if line.startswith('    ') else []:
            found = [] if place == '0' else found
            if int(place) == len(found):
                found.append(event_of(json_of(form.encode())))
    return found


def main():
    page, faults, names = sections(PAGE.read_text(encoding='utf-8')), [], set()
    for section, sentence, holds in CLAIMS:
        text = page.get(section, '')
        events = example(text)
        wordings = sentence if isinstance(sentence, tuple) else (sentence,)
        if not any(' '.join(it.split()) in ' '.join(text.split()) for it in wordings):
            faults.append(f'{PAGE.name}, section {section}, does not say: {sentence}')
        elif not holds(history(events), lambda n: history(events[:n + 1])):
            faults.append(f'{PAGE.name}, section {section}: it is not so: {sentence}')
    order = re.findall(r'^\| `(\w+)` \|', REFUSALS.read_text(encoding='utf-8'), re.M)[4:] if REFUSALS.exists() else re.findall(
        r'\w+', page[14].partition('in this order: ')[2].partition('.')[0])
    if tuple(order) != calls.REFUSAL_ORDER:
        faults.append(f'the order of refusals is not {", ".join(order)}')
    table = {n: set(re.findall(r'`(\w+)`', text)) for n, text in OTHERS.items()}
    has = lambda name: any(hasattr(it, name) for it in (definitions, calls, model.events, scenario, Course))
    for section, text in page.items():
        head = re.findall(r'`(\w+)`', re.sub(r'`(specs|crates)/[^`]*`', '', text.strip().split('\n\n')[0]))
        names |= set(head)
        for name in head:
            here = any(map(has, (name, re.sub('(?<!^)(?=[A-Z])', '_', name).lower(), name.upper())))
            if not here and name not in table.get(section, ()):
                faults.append(f'OTHERS has nothing for {name} of section {section}')
        faults += [f'OTHERS: the model has no {name}' for name in sorted(table.get(section, set()) - set(head)) if not has(name)]
    for fault in faults:
        print(fault)
    print(f'{len(CLAIMS)} claims and {len(names)} names, {len(faults)} faults')
    return 1 if faults else 0


if __name__ == '__main__':
    sys.exit(main())
