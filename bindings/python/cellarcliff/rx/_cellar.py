"""The calls of libcellarcliff, by ctypes: numbers go in and come out. `extension/engine.c` makes them itself."""
from __future__ import annotations

import ctypes
import functools
import threading
from ctypes import addressof, c_size_t, c_uint8, c_uint32, c_uint64, c_void_p
from typing import Any, List, Optional, Tuple

from .. import _library

#: What a command is.
(OPEN, USING, HOLD, NEXT, COMPLETE, ERROR, FAIL, DECLINE, DISPOSE, CONNECT, DISCONNECT, PUT, SHUT, ABORT) = range(14)
#: Places, kinds and flags, as they stand in the first word of a command beside that.
ROOT, SOURCE, INNER, NOTIFIER = range(0, 4 << 8, 1 << 8)
LEAF, PASS, FLAT, SWITCH, UNTIL, SHARED, PUBLISHED = range(0, 7 << 16, 1 << 16)
WISHES, LANE_OF_NODE, OF_PROJECTIONS = 1 << 24, 2 << 24, 4 << 24
#: Kinds of effects.
E_NEXT, E_PROJECT, E_COMPLETED, E_FAILED, E_GONE, E_RELEASE, E_PUT, E_MERGED = range(8)
NOTHING_KEPT, NO_MEMORY, SMALL, CUT, FULL, GONE, NOTHING_OWED, NO_HUB, HUB_ORDER, CONNECTED, NOT_CONNECTED = 1, 4, 7, 8, 16, 17, 20, 22, 23, 24, 25
UNKNOWN_HUB = 2**64 - 1
#: Of a stack; of an answer; of what is handed out: user, value, by, and the kind below whether it carries the value. All in words.
DEPTH, BEGUN = 1, 2
COPIES, CLOSED, CLOSINGS = 6, 7, 8
HANDED, TICKET, EFFECT = 0, 2, 4
_ROOM, _REST = 8, 16
_ABI, _SIZES = 0x30000, {0: 8, 1: 64, 3: 32, 4: 64, 5: 32, 6: 24, 7: 192}
#: Those that the extension makes, in its order.
FAST = "new step next pass stop closings drop".split()
_ARGUMENTS = {
    "new": [c_void_p, c_uint32], "step": [c_void_p] * 4, "next": [c_void_p] * 3, "pass": [c_void_p, c_void_p, c_uint64, c_uint8], "stop": [c_void_p] * 2,
    "closings": [c_void_p, c_uint64, c_void_p, c_size_t, c_void_p], "totals": [c_void_p] * 2, "event": [c_void_p, c_uint64, c_void_p],
    "dump": [c_void_p, c_void_p, c_size_t, c_void_p], "finish": [c_void_p], "drop": [c_void_p], "abi": [], "size": [c_uint32]}


@functools.lru_cache(maxsize=None)
def library() -> Any:
    """The library, one for the process, with the types of its calls. Raises OSError if there is none, ImportError if it is of another version."""
    found = _library.having("cellar_step", ctypes.PyDLL)
    for name, arguments in _ARGUMENTS.items():
        call = getattr(found, f"cellar_{name}")
        call.argtypes, call.restype = arguments, None if name == "drop" else c_uint32 if name in ("abi", "size") else c_uint8
    abi = found.cellar_abi()
    if abi >> 16 != _ABI >> 16 or abi < _ABI or any(found.cellar_size(which) != size for which, size in _SIZES.items()):
        raise ImportError("libcellarcliff is of another version than this package")
    return found


class Cellar:
    """An engine. Each call has its own memory, since a finalizer may make another in its midst."""

    def __init__(self, max_events: int = 0) -> None:
        self._library, self._handle, self.lock = library(), (c_uint64 * 1)(), threading.RLock()
        self._at = addressof(self._handle)
        if self._library.cellar_new(self._at, max_events):
            raise MemoryError

    def __del__(self) -> None:
        if hasattr(self, "_at"):
            self._library.cellar_drop(self._at)

    def stack(self) -> Any:
        """What a stack of calls keeps for this engine: its word, how many calls are under way, what it began last."""
        return (c_uint64 * 3)(threading.get_ident())

    def step(self, stack: Any, words: Tuple[int, ...]) -> Tuple[int, List[int], List[int], List[int]]:
        """Makes a command of eight words: the status, the answer, all closings, what is handed out."""
        command, step = (c_uint64 * 8)(*words), (c_uint64 * 24)()
        with self.lock:
            status = self._library.cellar_step(self._at, addressof(stack), addressof(command), addressof(step))
            answer = step[:]
            closed = answer[CLOSED]
            closings = answer[CLOSINGS:CLOSINGS + closed] if closed <= _ROOM else self._closings(closed)
        return status, answer, closings, answer[_REST:]

    def _closings(self, many: int) -> List[int]:
        words, count = (c_uint64 * many)(), c_uint64()
        self._library.cellar_closings(self._at, 0, addressof(words), many, addressof(count))
        return words[:count.value]

    def next(self, stack: Any) -> List[int]:
        """What is handed out next."""
        step = (c_uint64 * 24)()
        with self.lock:
            self._library.cellar_next(self._at, addressof(stack), addressof(step))
        return step[_REST:]

    def let_pass(self, stack: Any, depth: int, is_now: bool) -> None:
        with self.lock:
            self._library.cellar_pass(self._at, addressof(stack), depth, is_now)

    def stop(self, stack: Any) -> None:
        with self.lock:
            self._library.cellar_stop(self._at, addressof(stack))

    def totals(self) -> Tuple[int, ...]:
        found = (c_uint64 * 8)()
        with self.lock:
            self._library.cellar_totals(self._at, addressof(found))
        return tuple(found)

    def event(self, place: int) -> Optional[Tuple[int, ...]]:
        """An event of the history in its four words; None behind the last."""
        words = (c_uint64 * 4)()
        with self.lock:
            return None if self._library.cellar_event(self._at, place, addressof(words)) else tuple(words)

    def dump(self) -> Tuple[int, bytes]:
        """The status, and the history as a dump."""
        told, status = c_uint64(), SMALL
        with self.lock:
            while status == SMALL:  # at first, and where another thread's event came between: the extension knows no lock but the interpreter's
                size = told.value
                buffer = ctypes.create_string_buffer(size)
                status = self._library.cellar_dump(self._at, addressof(buffer), size, addressof(told))
        return status, buffer.raw[:told.value]

    def finish(self) -> int:
        with self.lock:
            return int(self._library.cellar_finish(self._at))


class Lent(Cellar):
    """The calls on an engine of the extension's, under the lock that it has: the interpreter's."""

    def __init__(self, core: Any) -> None:
        self._library, self._core, self.lock = library(), core, threading.RLock()
        self._at = core.address

    def __del__(self) -> None:
        pass  # it is the extension's
