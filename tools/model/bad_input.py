"""Bad input of an engine under CELLAR_ARMOR: codes and flags that are none, spare fields that are not zero, keys and words of another
engine, of something gone or made up, stacks that have nothing, null and misaligned pointers. Two engines are taken through random courses; between their steps
each gets some hundred calls that are to be refused, of the other's words among them, by bad_input.c. The definitions say which status each
has; behind the last, all that went in comes out of both."""
from __future__ import annotations

import ctypes
import pathlib
import random
import struct
import subprocess
from collections import Counter
from typing import Any

from .cellar import Cellar
from .courses import Course
from .definitions import is_held, is_open, is_out
from .engine import (ABORT, APPLY, COMPLETE, CONNECT, DECLINE, DISPOSE, ERROR, FAIL, GIVE_BACK, HOLD, LEASE, NEXT, NO_SUCH_CODE, NOTHING,
                     NOTHING_KEPT, OPEN, PUT, REMOVE, UNTAKEN, USING, Command, is_known)
from .history import forget
from .scenario import Differs
from .crossing import CUT, HELD, NOTHING_WAITS, REFUSED, SMALL

STEP, GO_ON, PASS, STOP, CLOSINGS, TOTALS, EVENT, DUMP, FINISH, NEW, DROP = range(11)
CALLS = ('step', 'next', 'pass', 'stop', 'closings', 'totals', 'event', 'dump', 'finish', 'new', 'drop')
POINTERS = (4, 3, 2, 2, 3, 2, 2, 3, 1, 1, 1)  # of each call
MISUSE = 9
OF_ONE = (HOLD, NEXT, COMPLETE, ERROR, FAIL, DECLINE, DISPOSE, PUT, ABORT, APPLY, REMOVE, LEASE, GIVE_BACK)  # which read a key
FLAGS = {OPEN: (0, 1, 2, 3, 6, 7), USING: (0, 1, 2, 3, 6, 7), NEXT: (0, 8), PUT: (0, 4)}
RECORD = struct.Struct('<5B3x11Q')
SMALL_NUMBERS = (0, 1, 2, 3, 5, 8, 2**29 - 1, 2**29, 2**32 - 1, 2**32, 2**62, 2**63 - 1, 2**63, 2**64 - 1)
BATCH = 300


def driver(scratch: str, header: str, library: str, *more: str) -> ctypes.CDLL:
    """bad_input.c over the library."""
    folder, to = pathlib.Path(library).resolve().parent, pathlib.Path(scratch) / 'bad_input.so'
    subprocess.run(['gcc', '-std=c11', '-O2', '-Wall', '-Wextra', '-Werror', '-pedantic', '-fPIC', '-shared', f'-I{header}', *more,
                    str(pathlib.Path(__file__).with_name('bad_input.c')), '-o', str(to), f'-L{folder}', '-lcellarcliff', f'-Wl,-rpath,{folder}'], check=True)
    it = ctypes.CDLL(str(to))
    it.bad_faults.restype = ctypes.c_uint64
    it.bad_calls.argtypes, it.bad_calls.restype = [ctypes.c_void_p, ctypes.c_void_p, ctypes.c_uint64, ctypes.c_void_p], ctypes.c_uint64
    return it


class Bad:
    """Calls that one engine is to refuse, while another has words too."""

    def __init__(self, rng: random.Random, own: Course, other: Course):
        self.rng, self.own, self.other, self.engine = rng, own, other, own.engine
        self.model, self.slots = own.engine.model, own.engine.cellar.slots
        self.calls: list[tuple[Any, ...]] = []
        self.said: dict[Any, int] = {}  # what the definitions say of a command, by what they look at
        self.is_done = self.model.is_done()

    def word(self) -> int:
        rng = self.rng
        return rng.choice(SMALL_NUMBERS) if rng.random() < 0.5 else rng.getrandbits(64)

    def call(self, call: int, wanted: int, words: tuple[int, ...] = (), pointer: int = 0, off: int = 0, handle: int = 0) -> None:
        """By a stack that has nothing."""
        stack = 2**32 + self.rng.randrange(2**32), self.rng.randrange(2, 9), self.word()
        self.calls.append((call, handle, pointer, off, wanted, *words, *(0,) * (8 - len(words)), *stack))

    # Keys

    def is_nothing(self, number: int) -> bool:
        h = self.model.h
        return number >= len(h) or not (is_open(h, number) or is_held(h, number) or is_out(h, number))

    def key(self) -> tuple[tuple[int, int], int]:
        """A key that names nothing here, and the number that the definitions know it by."""
        rng, own, other = self.rng, self.own, self.other
        while True:
            chance = rng.random()
            if chance < 0.4 and other.keys:
                slot, number = other.engine.cellar.key(rng.choice(other.keys))
            elif chance < 0.6 and own.keys:
                slot, number = own.engine.cellar.key(rng.choice(own.keys))
                if not self.is_nothing(number):  # of something else there
                    slot = (slot + rng.choice((1, 2**32))) % 2**64
            else:
                slot, number = self.word(), self.word()
            if self.slots.get(number) != slot:
                return (slot, number), NOTHING
            if self.is_nothing(number):
                return (slot, number), number

    def command(self, c: Command, key: tuple[int, int]) -> tuple[int, ...]:
        return (c.what | c.place << 8 | c.kind << 16 | c.flags << 24 | c.level << 32, c.hub, *key, c.user, c.value, c.by, c.spare)

    def filled(self, c: Command) -> Command:
        c.level, c.hub, c.user, c.value, c.by = self.rng.getrandbits(32), self.word(), self.word(), self.word(), self.rng.choice((1, 2, 3, self.word()))
        return c

    # Kinds of bad input

    def by_key(self) -> None:
        rng, (key, number) = self.rng, self.key()
        c = Command(rng.choice((*OF_ONE, OPEN, USING)), kind=rng.randrange(256), place=rng.randrange(256))
        c.flags = rng.choice(FLAGS.get(c.what, (0,)))
        if c.what in (OPEN, USING):
            c.kind = rng.randrange(7) if c.what == OPEN else c.kind
            c.place = rng.choice((1, 2, 3)) if c.flags < 2 else 0
        seen = c.what, number, c.flags, *((c.place, c.kind) if c.what in (OPEN, USING) else ())
        if seen not in self.said:
            c.node, events = number, len(self.model.h)
            self.said[seen] = self.model.made(c).status
            if self.said[seen] in (0, 16) or len(self.model.h) != events:
                raise Differs(f'{c} is no bad input')
        self.call(STEP, self.said[seen], self.command(self.filled(c), key))

    def by_code(self) -> None:
        """A command that would do, but for a number that is none."""
        rng = self.rng
        key = self.own.engine.cellar.key(rng.choice(self.own.keys)) if self.own.keys and rng.random() < 0.8 else self.key()[0]
        c = self.filled(Command(rng.choice((*OF_ONE, *(OPEN, USING, CONNECT) * 3, 10, 12))))
        c.flags = rng.choice(FLAGS.get(c.what, (0,)))
        match rng.randrange(5):
            case 0:
                c.what = rng.randrange(18, 256)
            case 1 if c.what in (OPEN, USING):
                c.place = rng.randrange(4, 256)
            case 2 if c.what == OPEN:
                c.kind = rng.randrange(7, 256)
            case 3:
                c.spare = self.word() or 1
            case _:
                c.place = rng.randrange(4) if c.what in (OPEN, USING) else rng.randrange(256)
                c.flags = rng.randrange(256)
        if not is_known(c):
            self.call(STEP, NO_SUCH_CODE, self.command(c, key))

    def by_stack(self) -> None:
        """A stack that has nothing goes on, lets a call further out pass, or ends."""
        self.call(self.rng.choice((GO_ON, PASS, STOP)), 0, (self.word(), self.rng.randrange(256)))

    def by_number(self) -> None:
        """Places and rooms that are none; an engine that is there already, or that is not done."""
        rng, model = self.rng, self.model
        match rng.randrange(5):
            case 0:
                self.call(CLOSINGS, 0, (len(self.engine.closings) + self.word() // 2, rng.randrange(9)))
            case 1:
                self.call(EVENT, NOTHING_WAITS, (len(model.h) + self.word() // 2,))
            case 2:
                self.call(DUMP, CUT if model.since else SMALL, (rng.randrange(2),))
            case 3:
                self.call(NEW, HELD, (self.word(),))
            case _ if not self.is_done:
                self.call(FINISH, UNTAKEN)

    def by_pointer(self) -> None:
        """Any call, with one pointer that is none: it is not made, whatever it would have been."""
        rng = self.rng
        call = rng.choice((STEP, STEP, *range(len(CALLS))))
        pointer = rng.randrange(POINTERS[call]) + 1
        off = 0 if (call, pointer) == (DUMP, 2) else rng.randrange(8)  # a buffer of bytes is aligned anywhere
        words: tuple[int, ...] = rng.randrange(2), rng.randrange(9)
        if call == STEP:
            what, has_node = rng.choice(((12, 0), (DISPOSE, 1), (NEXT, 1), (OPEN, 0)))
            key = self.own.engine.cellar.key(rng.choice(self.own.keys)) if has_node and self.own.keys else (0, 0)
            words = self.command(self.filled(Command(what)), key)
        self.call(call, MISUSE, words, pointer, off)

    def by_handle(self) -> None:
        """Any call on a handle that keeps nothing."""
        call = self.rng.choice((STEP, GO_ON, PASS, STOP, CLOSINGS, TOTALS, EVENT, DUMP, FINISH))
        what = self.word() & 2**64 - 256 | self.rng.randrange(18) if call == STEP else self.rng.randrange(64) if call == DUMP else self.word()
        self.call(call, NOTHING_KEPT, (what, self.rng.randrange(9) if call == CLOSINGS else self.word(), *(self.word() for _ in range(6))), handle=1)


HOW = {'codes': Bad.by_code, 'keys': Bad.by_key, 'stacks': Bad.by_stack, 'numbers': Bad.by_number, 'pointers': Bad.by_pointer, 'handles': Bad.by_handle}
OFTEN = (3, 4, 3, 1, 2, 1)


def batch(c: ctypes.CDLL, rng: random.Random, own: Course, other: Course, done: Counter) -> None:
    """Some hundred calls that the first is to refuse."""
    it = Bad(rng, own, other)
    chosen = rng.choices(list(HOW), OFTEN, k=BATCH)
    ends = []
    for name in chosen:
        HOW[name](it)
        ends.append(len(it.calls))
    buffer = b''.join(RECORD.pack(*one) for one in it.calls)
    what = (ctypes.c_uint64 * 2)()
    found = c.bad_calls(own.engine.cellar.at, buffer, len(it.calls), what)
    if found < len(it.calls):
        name = next(name for name, end in zip(chosen, ends) if found < end)
        call, handle, pointer, off, wanted, *words = it.calls[found]
        raise Differs(f'{CALLS[call]} ({name}{", of no engine" * handle}{f", pointer {pointer} is off by {off}" if pointer else ""}) with '
                      f'{[hex(word) for word in words]} is answered {what[0]}, and it is {wanted}'
                      f'{("", ", and something was written that is not", ", and the engine changed")[what[1]]}')
    begin = 0
    for name, end in zip(chosen, ends):
        done[name] += end - begin
        begin = end
    for call in it.calls:
        done[CALLS[call[0]], call[4]] += 1
    own.engine.totals()


def course(c: ctypes.CDLL, seed: str, cellars: tuple[Cellar, Cellar], length: int) -> tuple[Counter, str | None]:
    """Two courses, and between their steps bad input; what was done, and what differs."""
    rng, done, courses = random.Random(seed), Counter(), []
    try:
        for cellar in cellars:
            courses.append(Course(rng, cellar))
        for number in range(length):
            for own, other in (courses, courses[::-1]):
                own.at = number
                own.step()
                own.serve()
            if number % 4 == 3:
                for own, other in (courses, courses[::-1]):
                    batch(c, rng, own, other, done)
        for it in courses:
            it.ended()
        return done, None
    except Exception as why:
        return done, f'{type(why).__name__}: {why}'
    finally:
        for cellar in cellars:
            cellar.drop()
        forget()
