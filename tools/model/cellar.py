"""A handle of the library libcellarcliff, and the calls of crates/cellarcliff/cellarcliff.h on it, in this process."""
from __future__ import annotations

import ctypes
from ctypes import addressof, c_size_t, c_uint8, c_uint32, c_uint64, c_void_p, memset, sizeof
from typing import Any, NamedTuple

from .engine import Command, Effect
from .crossing import Differs, event_of
from .definitions import Accept, Event
from .turns import Stack

ABI, ROOM, NO_SLOT = 0x30000, 8, 2**64 - 1
SIZES = (8, 64, 0, 32, 64, 32, 24, 192)  # handle, command, none, effect, totals, event, stack, stepped
MADE = {0: 1, 1: 3, 2: 2, 9: 2, 16: 2}  # which keys a command makes: 1 node, 2 other
UNTOLD = 0xAAAAAAAAAAAAAAAA
CALLS = {  # what each call takes behind the handle
    'new': [c_uint32], 'step': [c_void_p, c_void_p, c_void_p], 'next': [c_void_p, c_void_p], 'pass': [c_void_p, c_uint64, c_uint8], 'stop': [c_void_p],
    'closings': [c_uint64, c_void_p, c_size_t, c_void_p], 'totals': [c_void_p], 'event': [c_uint64, c_void_p],
    'dump': [c_void_p, c_size_t, c_void_p], 'finish': [], 'drop': []}


class Told(NamedTuple):
    """What a step answers: keys as their numbers; and what it hands out."""
    status: int
    node: int | None = None
    other: int | None = None
    is_connected: int = 0
    hub: int = 0
    copies: int = 0
    closings: tuple[int, ...] = ()
    effect: Effect | None = None
    ticket: int = 0
    own: int = 0


class Cellar:
    """It keeps an engine or nothing. All that a call may write is filled before it, so that what it leaves out shows."""

    def __init__(self, path: str):
        library = ctypes.CDLL(path)
        library.cellar_abi.restype = library.cellar_size.restype = c_uint32
        if library.cellar_abi() != ABI or tuple(library.cellar_size(i) for i in range(9)) != (*SIZES, 0):
            raise Differs('another header')
        for do, words in CALLS.items():
            call = getattr(library, f'cellar_{do}')
            call.argtypes, call.restype = [c_void_p, *words], None if do == 'drop' else c_uint8
            setattr(self, f'_{do}', call)
        self.handle, self.command, self.stack, self.stepped = (c_uint64 * 1)(), (c_uint64 * 8)(), (c_uint64 * 3)(), (c_uint64 * 24)()
        self.words, self.count = (c_uint64 * 16)(), (c_uint64 * 1)()
        self.at, self.c, self.k, self.s, self.w, self.n = map(addressof, (
            self.handle, self.command, self.stack, self.stepped, self.words, self.count))
        self.slots: dict[int, int] = {}  # of the keys that were told
        self.seen = 0                    # events

    def new(self, max_events: int) -> int:
        status = self._new(self.at, max_events)
        if status == 0:
            self.slots, self.seen = {}, 0
        return status

    def key(self, named: Any) -> tuple[int, int]:
        """The key of a number that was told, or a pair that is one or none."""
        return named if isinstance(named, tuple) else (self.slots.get(named, NO_SLOT), min(named, NO_SLOT))

    def step(self, stack: Stack, c: Command | None = None) -> Told:
        """A step, or without a command the next."""
        self.stack[:] = stack.by, stack.depth, stack.begun
        memset(self.s, 0xAA, sizeof(self.stepped))
        if c is None:
            if status := self._next(self.at, self.k, self.s):
                raise Differs(f'next is answered {status}')
        else:
            self.command[:] = [c.what | c.place << 8 | c.kind << 16 | c.flags << 24 | c.level << 32, c.hub, *self.key(c.node), c.user, c.value, c.by, c.spare]
            status = self._step(self.at, self.k, self.c, self.s)
        s = self.stepped
        if s[19] or s[16] > 1 or s[17] > s[16] or s[16] and s[18] in (0, UNTOLD) or tuple(self.stack) != (stack.by, stack.depth, stack.begun):
            raise Differs(f'a step says {s[:]}, and its stack {self.stack[:]}')
        handed = (self.effect_at(s, 20), s[18], s[17]) if s[16] else ()
        if status or c is None:
            if any((s[4], s[6], s[7])):
                raise Differs(f'status {status}, and counts {s[4:8]}')
            return Told(status, *(None, None, 0, 0, 0, ()), *handed)
        makes = MADE.get(c.what, 0) | (2 if c.what == 0 and s[4] == 1 else 0)
        for i in (0, 1):
            if makes & 1 << i:
                self.slots[s[2 * i + 1]] = s[2 * i]
        return Told(status, s[1] if makes & 1 else None, s[3] if makes & 2 else None, s[4] if c.what == 0 else 0,
                    s[5] if c.what == 9 or c.what == 0 and c.kind >= 5 else 0, s[6], self.all_closings(), *handed)

    def all_closings(self) -> tuple[int, ...]:
        """Those of the answer, and the rest."""
        count = self.stepped[7]
        found = list(self.stepped[8:8 + min(count, ROOM)])
        while len(found) < count:
            if not (more := self.closings(len(found), 5)):
                raise Differs(f'{count} were said, and {len(found)} are there')
            found += more
        return tuple(found)

    def closings(self, start: int, room: int) -> list[int]:
        memset(self.w, 0xAA, sizeof(self.words))
        if status := self._closings(self.at, start, self.w, room, self.n):
            raise Differs(f'the closings are answered {status}')
        count = self.count[0]
        if count > room or set(self.words[count:]) - {UNTOLD}:
            raise Differs(f'{count} closings, in a room of {room}: {list(self.words)}')
        return list(self.words[:count])

    def ended(self, what: str, stack: Stack, *now: int) -> None:
        """A pass or a stop."""
        self.stack[:] = stack.by, stack.depth, stack.begun
        if status := getattr(self, f'_{what}')(self.at, self.k, *now):
            raise Differs(f'{what} is answered {status}')

    @staticmethod
    def effect_at(words: Any, i: int) -> Effect:
        return Effect(words[i + 3] & 0xFFFFFFFF, words[i], words[i + 1], words[i + 2], words[i + 3] >> 32)

    def totals(self) -> tuple[int, ...]:
        memset(self.w, 0xAA, 64)
        if status := self._totals(self.at, self.w):
            raise Differs(f'totals are answered {status}')
        return tuple(self.words[:8])

    def events(self) -> list[Event]:
        """Those that are new. The tag of a holding is none of the caller's."""
        found: list[Event] = []
        while self._event(self.at, self.seen, self.w) == 0:
            w = self.words
            if w[0] >> 32:
                raise Differs('the spare field of an event')
            e = event_of([*w[0].to_bytes(8, 'little')[:4], w[1], 0 if w[0] & 255 == 3 else w[2], ctypes.c_int64(w[3]).value])
            found.append(Accept(e.node, 0) if isinstance(e, Accept) else e)
            self.seen += 1
        return found

    def dump(self, size: int) -> tuple[int, int, bytes]:
        """The status, the length that is told, and what was written."""
        buffer = ctypes.create_string_buffer(b'\xAA' * (size + 8), size + 8)
        status = self._dump(self.at, addressof(buffer), size, self.n)
        if buffer.raw[size:] != b'\xAA' * 8 or status and buffer.raw != b'\xAA' * (size + 8):
            raise Differs(f'a dump wrote beyond its room of {size}, or was answered {status} and wrote')
        return status, self.count[0], buffer.raw[:self.count[0]] if status == 0 else b''

    def finish(self) -> int:
        return self._finish(self.at)

    def drop(self) -> None:
        self._drop(self.at)
