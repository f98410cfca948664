"""Judges, draws and explains a history of subscriptions, and runs a scenario of them, by the library libcellarcliff.

    from cellarcliff import audit

    verdict = audit.audit([["open", "root", "leaf"], ["end", 0, "completed"]])
    assert verdict.is_lawful and verdict.leaves_nothing
    print(audit.run({"steps": [{"do": "open", "name": "a", "place": "root", "kind": "leaf"}]}), end="")

Calls may be made by several threads at once: each has memory of its own.
"""
from __future__ import annotations

import ctypes
import json
from dataclasses import dataclass
from functools import lru_cache
from typing import TYPE_CHECKING, Any, Dict, List, Optional, Sequence, Tuple, Union

from . import _library
from ._nearest import lacking

if not TYPE_CHECKING:
    def __getattr__(name: str) -> Any:
        raise lacking(__name__, name)

#: A list of events, or the text of one; a scenario, or the text of one.
History = Union[Sequence[Sequence[Any]], str, bytes]
#: A history with the names of its nodes, hubs and resources: {"dump": [..], "names": {"0": "prices"}}.
Named = Dict[str, Any]
Scenario = Union[dict, str, bytes]

DONE, TOO_SMALL, FAULTY_INPUT, OUT_OF_MEMORY, NOT_LAWFUL = 0, 1, 3, 4, 5
_NO_HISTORY = ("cellar_audit", "cellar_picture")


class FaultyInput(ValueError):
    """The input is not a history, or not a scenario (status 3); the text says what is wrong, as `explain` does."""


class OutOfMemory(MemoryError):
    """Memory was refused to the library (status 4)."""


@dataclass(frozen=True)
class Verdict:
    """The audit's verdict on a history. An unlawful history is an answer, not an exception (status 5)."""

    #: "lawful", "unlawful" or "unsettled"
    word: str
    #: if it is unlawful: the place of the first event, from 0, that may not come there
    place: Optional[int] = None
    #: if it is lawful: the subscriptions that are open, and the resources that are held and that wait
    live: Tuple[int, ...] = ()
    held: Tuple[int, ...] = ()
    waiting: Tuple[int, ...] = ()

    @property
    def is_lawful(self) -> bool:
        """Whether each event is in order, and no operator's rule is undone."""
        return self.word == "lawful"

    @property
    def leaves_nothing(self) -> bool:
        """Whether it is lawful and nothing is open, held or waiting: there is no leak."""
        return self.is_lawful and not (self.live or self.held or self.waiting)


@lru_cache(maxsize=None)
def _call(name: str) -> Any:
    call, size = getattr(_library.having(name), name), ctypes.c_size_t
    call.argtypes = [ctypes.c_char_p, size, ctypes.c_char_p, size, ctypes.POINTER(size)]
    call.restype = ctypes.c_uint8
    return call


def _answer(name: str, value: Any) -> bytes:
    """The text that the call answers, which is asked again where the buffer was too small."""
    if isinstance(value, str):
        value = value.encode()
    elif not isinstance(value, bytes):
        value = json.dumps(value).encode()
    capacity = 4096
    while True:
        buffer, told = ctypes.create_string_buffer(capacity), ctypes.c_size_t(0)
        status = _call(name)(value, len(value), buffer, capacity, ctypes.byref(told))
        if status == FAULTY_INPUT:
            raise FaultyInput(_fault(name, value))
        if status == OUT_OF_MEMORY:
            raise OutOfMemory()
        if status != TOO_SMALL:
            return buffer.raw[: told.value]
        capacity = told.value


def _fault(name: str, text: bytes) -> str:
    """What is wrong with an input that this call finds faulty."""
    what, first = "no history" if name in _NO_HISTORY else "no scenario", text.lstrip()[:1]
    try:
        told = _answer("cellar_explain", text).decode()
    except (OSError, MemoryError):  # an older library explains nothing
        return what
    if told.startswith(("line ", "the input is longer than ")):
        return f"{what}: {told}"
    if first == b"[" and name not in _NO_HISTORY:
        return f"{what}: it is a history, which audit takes"
    if first == b"{" and name == "cellar_audit":
        return f"{what}: it is a scenario, which run and run_names take"
    if not told and name in ("cellar_run_dump", "cellar_run_names"):
        return f"{what}: one that has a checkpoint has no history; run takes it"
    return f"{what}: {told}" if told else what


def audit(history: History) -> Verdict:
    """The verdict on the history."""
    first, *rest = _answer("cellar_audit", history).decode().splitlines()
    word, *place = first.split()
    lists = [tuple(map(int, line.split(":")[1].split())) for line in rest]
    return Verdict(word, int(place[0]) if place else None, *lists)


def run(scenario: Scenario) -> str:
    """The report of the scenario, which is run on a new book."""
    return _answer("cellar_run", scenario).decode()


def run_dump(scenario: Scenario) -> List[List[Any]]:
    """The history of the scenario, which `audit` judges."""
    events: List[List[Any]] = json.loads(_answer("cellar_run_dump", scenario))
    return events


def run_names(scenario: Scenario) -> Named:
    """The same with the names of its nodes, hubs and resources, which `picture` draws."""
    named: Named = json.loads(_answer("cellar_run_names", scenario))
    return named


def picture(history: Union[History, Named]) -> str:
    """The history as a picture, an SVG document; it may be lawful or not, and have names beside it."""
    return _answer("cellar_picture", history).decode()


def explain(text: Union[History, Scenario]) -> Optional[str]:
    """What is wrong with a scenario or a history, in a sentence; None for a scenario, and for a history that is lawful."""
    return _answer("cellar_explain", text).decode() or None
