"""Random courses (tools/model/courses.py) over the nasty engine.

`Free` compares it with the definitions: each choice that it makes has to be one that they allow. `Traced` compares the library with both:
the nasty engine is told what the library came to, and finds the choice that explains it, or says where none does.
"""
from __future__ import annotations

import ctypes
import random
from collections import Counter
from ctypes import c_char_p, c_uint8, c_uint64, c_void_p
from typing import Any
from unittest import mock

from model import courses
from model.cellar import Cellar, Told
from model.courses import Beside, Course, Followed
from model.definitions import Connect, Hub, Open
from model.engine import APPLY, CONNECT, DONE, HOLD, LEASE, MOST, NEXT, OPEN, PUT, REFUSED, USING, Answer, Command, Effect, is_own, last_before
from model.history import forget
from model.scenario import Differs
from model.crossing import numbers_of
from model.turns import Stack, Stepped, Turn

NO_MEMORY = REFUSED['NoMemory']
ASKS = (OPEN, USING, HOLD, APPLY, LEASE, CONNECT, NEXT, PUT)  # what may be refused memory


class CameTo(ctypes.Structure):
    """What an engine came to that is followed: `struct told` of choices.h."""

    _fields_ = [('events', c_void_p), ('many_events', c_uint64), ('status', c_uint8), ('handed', c_uint64), ('own', c_uint64),
                ('effect', c_uint64 * 4), ('differs', c_char_p)]


class Nasty(Cellar):
    """A handle of the nasty engine. What an effect does not carry is not looked at."""

    def __init__(self, path: str):
        super().__init__(path)
        self.library = ctypes.CDLL(path)
        self.library.nasty_count.restype = c_char_p
        self.last = Told(0)

    def set(self, settings: str) -> None:
        self.library.nasty_set(settings.encode())

    def counts(self) -> dict[str, tuple[str, int, int]]:
        """Of each choice what leaves it open, how often it was there, and how often it was not as the library has it."""
        what, there, other, found, which = c_char_p(), c_uint64(), c_uint64(), {}, 0
        while name := self.library.nasty_count(which, ctypes.byref(what), ctypes.byref(there), ctypes.byref(other)):
            found[name.decode()] = what.value.decode(), there.value, other.value
            which += 1
        return found

    @staticmethod
    def effect_at(words: Any, i: int) -> Effect:
        found = Cellar.effect_at(words, i)
        return found if found.carries else found._replace(value=0)

    def step(self, stack: Stack, c: Command | None = None) -> Told:
        self.last = super().step(stack, c)
        return self.last

    def dump(self, size: int) -> tuple[int, int, bytes]:
        """Until it is not refused memory."""
        while (found := super().dump(size))[0] == NO_MEMORY:
            pass
        return found


class FreeEngine(Followed):
    """The definitions, where what the header leaves open is as the nasty engine has it."""

    cellar: Nasty

    def is_free(self, turn: Turn) -> bool:
        return super().is_free(turn) and bool(self.own)

    def made(self, c: Command) -> Answer:
        said = self.cellar.last
        told = self.way.told[len(self.h):]
        if not self.hubs and told and isinstance(told[0], Hub):
            self.make_hubs()
        if said.status == NO_MEMORY and c.what in ASKS:
            return Answer(NO_MEMORY)
        answer = super().made(c)
        answer.hub = said.hub if answer.status == DONE else 0
        return answer

    def chosen(self, c: Command, mode: str, limit: int) -> int:
        place, told = super().chosen(c, mode, limit), self.way.told[len(self.h):]
        if last_before(lambda hub: is_own(hub, mode, c.value), self.hubs, MOST) is not None or not told:
            return place
        place = (told[0].hub if isinstance(told[0], (Open, Connect)) else -1) - self.first_hub
        if not 0 <= place < limit or self.hubs[place].mode != mode or self.hubs[place].many:
            raise Differs(f'a share gets hub {place}')
        return place


class Free(Beside):
    """The nasty engine, and the definitions by which each of its choices is one that may be made."""

    def __init__(self, cellar: Nasty, limit: int = 0, definitions: type[Followed] = FreeEngine):
        while True:
            try:
                super().__init__(cellar, limit, FreeEngine)
                break
            except Differs:  # for want of memory
                pass
        self.model.cellar = cellar

    def rest(self, start: int, room: int) -> None:
        """Nothing is said of it behind another call."""
        self.cellar.closings(start, room)


class Traced(Beside):
    """The library, the definitions, and the nasty engine that follows the library."""

    nasty: Nasty

    def __init__(self, cellar: Cellar, limit: int = 0, definitions: type[Followed] = Followed):
        super().__init__(cellar, limit, definitions)
        self.packed = b''
        self.packed_many = 0
        self.nasty.drop()
        self.same('new', self.nasty.new(limit), DONE)
        self.came_to = CameTo()
        self.nasty.library.nasty_follow(self.nasty.handle, ctypes.byref(self.came_to))

    def follow(self, told: Told) -> None:
        """The nasty engine is told all that the library came to."""
        for e in self.way.told[self.packed_many:]:
            what, place, kind, how, of, other, value = numbers_of(e)
            self.packed += bytes((what, place, kind, how, 0, 0, 0, 0)) + b''.join(it.to_bytes(8, 'little') for it in (of, other, value % 2**64))
        self.packed_many = len(self.way.told)
        self.kept = ctypes.create_string_buffer(self.packed, len(self.packed) + 1)
        self.came_to.events, self.came_to.many_events = ctypes.addressof(self.kept), self.packed_many
        self.came_to.status, self.came_to.handed, self.came_to.own = told.status, told.effect is not None, told.own
        if told.effect:
            kind, user, value, by, carries = told.effect
            self.came_to.effect[:] = user, value, by, kind | carries << 32

    def alike(self, what: str, said: Any, wanted: Any) -> None:
        if self.came_to.differs or said != wanted:
            raise Differs(f'no choice explains {what}: {said}, and it is {wanted}; {(self.came_to.differs or b"").decode()}')

    def step(self, stack: Stack, c: Command | None = None) -> tuple[Told, Stepped]:
        told, wanted = super().step(stack, c)
        self.follow(told)
        said = self.nasty.step(self.begun(stack), c)
        self.alike('an answer', said._replace(closings=sorted(said.closings), hub=0),
                   told._replace(closings=sorted(told.closings), hub=0, ticket=wanted.task.ticket if wanted.task else 0))
        return told, wanted

    def let_pass(self, stack: Stack, depth: int, now: bool) -> None:
        super().let_pass(stack, depth, now)
        self.nasty.ended('pass', self.begun(stack), depth, int(now))

    def stop(self, stack: Stack) -> None:
        super().stop(stack)
        self.nasty.ended('stop', self.begun(stack))

    def begun(self, stack: Stack) -> Stack:
        """A ticket that was never told is none."""
        return Stack(stack.by, stack.depth, self.tickets.get(stack.begun, 0))

    def totals(self) -> None:
        super().totals()
        self.alike('totals', self.nasty.totals(), self.model.totals())

    def finish(self) -> int:
        status = super().finish()
        self.alike('finish', self.nasty.finish(), status)
        return status


def course(beside: type[Beside], cellar: Cellar, seed: str, length: int) -> tuple[Counter, str | None]:
    """One course: what was done, and what differs."""
    done: Counter = Counter()
    try:
        with mock.patch.object(courses, 'Beside', beside):
            it = Course(random.Random(seed), cellar)
            done = it.done
            it.run(length)
        return done, None
    except Exception as why:
        return done, f'{type(why).__name__} at command {sum(done.values())}: {why}'
    finally:
        forget()
