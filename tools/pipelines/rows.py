"""Whether two packages tell the same of a program, by which rows of the page of differences they do not, and faults that are planted to try that.

A row is fixed before the run: of what programs it is, and what it puts into RxPY (peer.py). It holds of a program where RxPY with that put in
tells what the package tells. One row is no change of RxPY: an item that waits while the operator that subscribes is at work is told behind the
release that came meanwhile; there all else has to be the same.
"""
import itertools

WAITS = "an item that waits is told behind the release"


def in_time(ours, theirs):
    """What RxPY tells, its items that are told behind a release as if before it where ours are."""
    if [name for name, _ in ours] != [name for name, _ in theirs]:
        return theirs
    return [[name, [one if one == [it.replace("!", "") for it in other] else other for one, other in zip(heard, theirs_heard)] + theirs_heard[len(heard):]]
            for (name, heard), (_, theirs_heard) in zip(ours, theirs)]


def made(one):
    """The resources: by whom each was made, and in which step."""
    return sorted(it[:2] for it in one["held"])


def is_late(ours, theirs):
    """Whether a resource that RxPY releases is released in a later step, or never."""
    for one, other in zip(*(sorted(it["held"], key=lambda it: (it[:2], it[2] is None, it[2])) for it in (ours, theirs))):
        if other[2] is not None and (one[2] is None or one[2] > other[2]):
            return True
    return False


def differs(ours, theirs):
    """The first of what is heard, raised, made and released that RxPY does not tell so."""
    if ours["notes"] != in_time(ours["notes"], theirs["notes"]):
        return "notes"
    if ours["raised"] != theirs["raised"]:
        return "raised"
    if made(ours) != made(theirs):
        return "made"
    return "released late" if is_late(ours, theirs) else None


class Rows:
    """Of one program, those that hold: `ask` answers what RxPY comes to with those of the names that it is given."""

    def __init__(self, names, ask, telling_at_once=frozenset()):
        self.names, self.ask, self.telling_at_once, self.answers = names, ask, telling_at_once, {}

    def with_rows(self, names):
        names = tuple(names)
        if names not in self.answers:
            self.answers[names] = self.ask(names)
        return self.answers[names]

    def excuse(self, ours, names):
        theirs = self.with_rows(names)
        return theirs is not None and not differs(ours, theirs)

    def that_hold(self, ours):
        """The fewest by which the two tell the same; none where they do not."""
        names = self.names
        for some in [*([it] for it in names), names, *([it for it in names if it != less] for less in names), *itertools.combinations(names, 2)]:
            if self.excuse(ours, some):
                return self.fewest(ours, list(some))
        return [WAITS] if self.waits(ours) else []

    def fewest(self, ours, found):
        for name in list(found):
            less = [it for it in found if it != name]
            if less and self.excuse(ours, less):
                found = less
        return found

    def waits(self, ours):
        """Whether all is told but what stands on the wrong side of a release, to observers of what tells as it is subscribed to."""
        def differing(theirs):
            return {int(name.split(":")[0]) for (name, heard), (_, other) in zip(ours["notes"], in_time(ours["notes"], theirs["notes"])) if heard != other}
        return any(it is not None and not differs(plain(ours), plain(it)) and differing(it) <= self.telling_at_once for it in self.answers.values())


def plain(one):
    """What was told, whether its resource was released or not."""
    return {**one, "notes": [[name, [[it.replace("!", "") for it in note] for note in heard]] for name, heard in one["notes"]]}


def planted(ours):
    """What a package with a fault would come to: an item or an end lost, an item doubled, told to another observer, out of its order or behind a
    release; a resource that is made and released late."""
    for at, (name, heard) in enumerate(ours["notes"]):
        for n, note in enumerate(heard):
            def with_notes(*notes, other=None, at=at, heard=heard, n=n):
                found = [[name, list(those)] for name, those in ours["notes"]]
                found[at][1][n:n + 1] = notes
                if other is not None:
                    found[other][1].insert(0, heard[n])
                return {**ours, "notes": found}
            yield "lost", with_notes()
            if note[0] == "next":
                yield "doubled", with_notes(note, note)
                if len(ours["notes"]) > 1:
                    yield "told to another", with_notes(other=(at + 1) % len(ours["notes"]))
                if n + 1 < len(heard) and heard[n + 1] != note:
                    yield "out of order", with_notes(heard[n + 1], note)
    for at, (k, made_in, released_in) in enumerate(ours["held"]):
        if released_in is not None:
            yield "released late", {**ours, "held": [*ours["held"][:at], [k, made_in, released_in + 1], *ours["held"][at + 1:]]}
