"""A live book by lines: a program holds its resources by names, and each is released once, when the book says so.

    with Book(["./rxbook", "live"]) as book:       # over a pipe; Book() is in this process, over libcellarcliff
        book.using("log", print, open("log.txt").close)
        book.send("dispose", node="log")

Threads may share a book. Notes and releases go into one queue in the order of the answers, and one thread at a time serves it,
outside every lock: the one that comes while no other does. So an observer may call the book, and receives what follows from that
later; each observer receives all its notes in order, and none after its end or after the release that follows it.
"""
from __future__ import annotations

import contextlib
import ctypes
import json
import os
import threading
import traceback
from collections import deque
from subprocess import PIPE, Popen
from typing import TYPE_CHECKING, Any, Callable, Deque, Dict, List, Optional, Sequence, Tuple

from . import _library
from ._nearest import lacking, near

if not TYPE_CHECKING:
    def __getattr__(name: str) -> Any:
        raise lacking(__name__, name)

__all__ = ["Book", "Refused"]

Observer = Callable[[Dict[str, Any]], Any]
Release = Callable[[], Any]

DONE, TOO_SMALL, OUT_OF_MEMORY = 0, 1, 4
NO_MEMORY = b'{"refused":"NoMemory"}'  # as the program says it: the line was not taken, and may be sent again
GONE = b'{"faulty":"the book is gone"}'


#: The words of a line.
_MEMBERS = ("do", "name", "place", "of", "kind", "hub", "connection", "node", "res", "word", "lease", "value", "error", "mode")
_VALUES = {"do": ("using", "open", "hold", "apply", "remove", "lease", "return", "next", "end", "abort", "decline", "fail", "dispose", "hub",
                  "connect", "disconnect", "drain", "checkpoint", "is", "list", "dump"),
           "place": ("root", "source", "inner", "notifier"), "kind": ("leaf", "pass", "flat", "switch", "until", "sub"), "mode": ("auto", "manual")}


def _hint(words: Dict[str, Any]) -> str:
    """The word that is nearest to the first one of a faulty line that is none."""
    for member, value in words.items():
        if member not in _MEMBERS:
            return near(member, _MEMBERS)
        if isinstance(value, str) and value not in _VALUES.get(member, (value,)):
            return near(value, _VALUES[member])
    return ""


def _hands_in(words: Dict[str, Any]) -> bool:
    """Whether the command has a resource of the caller's held."""
    return words.get("do") in ("using", "hold") or words.get("do") == "open" and "res" in words


class Refused(Exception):
    """The book refuses the line, or calls it faulty; nothing has changed."""


class _Asked:
    """A line on its way, of one command or of several, and what is known of it so far."""

    def __init__(self, words: Any, observer: Optional[Observer], release: Optional[Release]):
        self.words, self.observer, self.release = words, observer, release
        self.line = json.dumps(words).encode()
        self.thread = threading.get_ident()
        self.steps: List[int] = []  # what was written of it, or the statuses of its calls
        self.read: List[bytes] = []
        self.answer: Any = None
        self.due: Optional["_Due"] = None

    def pairs(self) -> List[Tuple[Dict[str, Any], Dict[str, Any]]]:
        """Each command, and its answer."""
        answer = self.answer or {}
        if isinstance(self.words, dict):
            return [(self.words, answer)]
        return list(zip(self.words, answer if isinstance(answer, list) else [answer] * len(self.words)))


class _Due:
    """What an answer makes due, in order. Each is taken from here as it is done."""

    def __init__(self, thread: int):
        self.thread = thread
        self.calls: Deque[Tuple[Callable[..., Any], Tuple[Any, ...]]] = deque()


class _Pipe:
    """A program with two pipes. Each step is one for a signal too: it is done and noted, or neither."""

    def __init__(self, program: Sequence[Any]):
        self._child = Popen(program, stdin=PIPE, stdout=PIPE, bufsize=0)
        assert self._child.stdin and self._child.stdout
        self._in, self._out = self._child.stdin.fileno(), self._child.stdout.fileno()

    def answer(self, asked: _Asked) -> bytes:
        line = asked.line + b"\n"
        try:
            while sum(asked.steps) < len(line):
                asked.steps.extend(map(os.write, (self._in,), (line[sum(asked.steps):],)))
        except BrokenPipeError:
            return GONE
        return self._rest(asked, b"\n") or GONE

    def _rest(self, asked: _Asked, end: bytes) -> bytes:
        """What is read up to this end, or up to the end of all."""
        while not asked.read or (asked.read[-1] and not (end and asked.read[-1].endswith(end))):
            asked.read.extend(map(os.read, (self._out,), (65536,)))
        return b"".join(asked.read)

    def end(self, asked: _Asked) -> bytes:
        with contextlib.suppress(BrokenPipeError):
            self._child.stdin.close()  # type: ignore[union-attr]
        text = self._rest(asked, b"")
        self._child.wait()
        self._child.stdout.close()  # type: ignore[union-attr]
        return [b"{}", *text.splitlines()][-1]


class _Handle(ctypes.Structure):
    _fields_ = [("at", ctypes.c_void_p)]


class _InProcess:
    """The library's live book, behind a handle."""

    def __init__(self, max_events: int):
        self._library = _library.load()
        for name in "new", "send", "read", "end":
            getattr(self._library, f"cellar_live_{name}").restype = ctypes.c_uint8
        self._handle = _Handle()
        self._buffer = ctypes.create_string_buffer(4096)
        self._told = ctypes.c_size_t()
        if self._library.cellar_live_new(ctypes.byref(self._handle), ctypes.c_uint32(max_events)) != DONE:
            raise MemoryError

    def _text(self, asked: _Asked, call: Any, *words: Any) -> bytes:
        book, told = ctypes.byref(self._handle), ctypes.byref(self._told)
        if not asked.steps:
            room = ctypes.c_size_t(len(self._buffer))
            asked.steps.extend(map(call, *([it] for it in (book, *words, self._buffer, room, told))))
        while asked.steps[-1] == TOO_SMALL:  # it was done, and its answer waits
            self._buffer = ctypes.create_string_buffer(max(self._told.value, len(self._buffer)))
            room = ctypes.c_size_t(len(self._buffer))
            asked.steps.extend(map(self._library.cellar_live_read, [book], [self._buffer], [room], [told]))
        status = asked.steps[-1]
        if status not in (DONE, OUT_OF_MEMORY):
            raise RuntimeError(f"libcellarcliff: status {status}")
        return self._buffer.raw[:self._told.value] if status == DONE else NO_MEMORY

    def answer(self, asked: _Asked) -> bytes:
        return self._text(asked, self._library.cellar_live_send, asked.line, ctypes.c_size_t(len(asked.line)))

    def end(self, asked: _Asked) -> bytes:
        try:
            return self._text(asked, self._library.cellar_live_end)
        finally:
            self._library.cellar_live_drop(ctypes.byref(self._handle))


class Book:
    """A live book. `program` is the command that starts one; without it the book is in this process.

    Leaving `with` closes the book and releases the rest, even if the process of the book is gone. If an observer or a release
    raises, the others are still called. The first exception from a thread's own lines is raised by the call of that thread that
    serves the queue; every other goes to `on_failure`.
    """

    def __init__(self, program: Optional[Sequence[Any]] = None, max_events: int = 2**32 - 1):
        self._way: Any = _Pipe(program) if program else _InProcess(max_events)
        self._lock = threading.Lock()
        self._asked: Deque[_Asked] = deque()
        self._held: Dict[str, Release] = {}  # by the names of resources, what releases each
        self._observers: Dict[str, Observer] = {}  # by the names of nodes
        self._sweep_at = 1024
        self._is_late = False
        self._queue: Deque[_Due] = deque()
        self._serving = threading.Lock()
        self._server = 0

    def on_failure(self, failure: BaseException) -> None:
        """Gets the exception of an observer or a release that no call can raise. Prints it; a subclass may do otherwise."""
        traceback.print_exception(type(failure), failure, failure.__traceback__)

    def send(self, do: str, *, observer: Optional[Observer] = None, release: Optional[Release] = None,
             **members: Any) -> Dict[str, Any]:
        """Sends one command of docs/reference/scenario.md, and answers its answer. `observer` receives the notes of the node that it
        opens: a root, a FlatMap or a Switch. `release` is called once for the resource of a `using` or `hold`, or of an `open` that
        has `res`, even if that is refused. Raises Refused. If an interrupt cuts the call off, the line is carried out all the same."""
        words = {"do": do, **members}
        if _hands_in(words) != (release is not None):
            raise TypeError(f"{do}: release= belongs to a resource, and releases it")
        return self._ask(_Asked(words, observer, release))

    def send_all(self, *commands: Dict[str, Any]) -> List[Dict[str, Any]]:
        """Sends several commands in one line, each as a dict, as {"do": "end", "node": "b"}, and answers their answers; for one that
        is refused nothing is raised. What has a resource held, and what has an observer, goes by `send`."""
        if any(map(_hands_in, commands)):
            raise TypeError("send_all: what has a resource held goes by send, with release=")
        asked = _Asked(list(commands), None, None)
        self._take(asked)
        return [answer for _, answer in asked.pairs()]

    def using(self, name: str, observer: Optional[Observer], release: Release, **place: Any) -> Dict[str, Any]:
        """A node, with a resource of the same name."""
        return self.send("using", observer=observer, release=release, name=name, res=name, **(place or {"place": "root"}))

    def open(self, name: str, observer: Optional[Observer] = None, release: Optional[Release] = None, **members: Any) -> Dict[str, Any]:
        """A node of a `kind`, at a `place`, `of` another; with `release`, which needs `res`, one that holds a resource."""
        return self.send("open", observer=observer, release=release, name=name, **members)

    def hold(self, node: str, res: str, release: Release) -> Dict[str, Any]:
        """Lets a node hold one more resource."""
        return self.send("hold", release=release, node=node, res=res)

    def _take(self, asked: _Asked) -> None:
        with self._lock:
            self._carry_out(asked)
            if len(self._observers) > self._sweep_at:
                self._sweep()
        self._serve()

    def _ask(self, asked: _Asked) -> Dict[str, Any]:
        self._take(asked)
        answer: Dict[str, Any] = asked.answer
        assert answer is not None
        if "ok" not in answer:
            told = str(answer.get("faulty"))  # with the nearest word, but by a library older than 0.2.0
            raise Refused(answer.get("refused") or told + ("" if "; the nearest is " in told else _hint(asked.words)))
        return answer

    def _carry_out(self, asked: _Asked) -> None:
        """Sends the line, behind those that an interrupt cut off. Each is gone on with from where it was: every step is
        noted as it is done, or may be done twice."""
        self._asked.append(asked)
        while self._asked:
            first = self._asked[0]
            if first.answer is None:
                first.answer = json.loads(self._way.answer(first))
            if first.due is None:
                first.due = self._due(first)
            self._bind(first)
            self._queue.append(first.due)
            self._asked.popleft()

    def _due(self, asked: _Asked) -> _Due:
        """What the answer makes due. It changes nothing."""
        due = _Due(asked.thread)
        gone = set()  # the names that earlier commands of the line freed
        for words, answer in asked.pairs():
            name, held = words.get("name"), self._held
            if "ok" not in answer:
                if asked.release is not None:
                    due.calls.append((asked.release, ()))
            elif asked.release is not None:
                held = {**self._held, words["res"]: asked.release} if answer.get("release") else held
            for note in answer.get("notes", ()):
                observer = asked.observer if note["to"] == name and "ok" in answer else self._observers.get(note["to"])
                if observer is not None and note["to"] not in gone:
                    due.calls.append((observer, (note,)))
            for res in answer.get("release", ()):
                if res in held:
                    due.calls.append((held[res], ()))
            gone.update(self._ended(words, answer))
            if name is not None and "ok" in answer:
                gone.add(name)
        return due

    @staticmethod
    def _ended(words: Dict[str, Any], answer: Dict[str, Any]) -> List[str]:
        """The nodes that receive nothing more behind this answer."""
        names = [note["to"] for note in answer.get("notes", ()) if "completed" in note or "error" in note]
        if words.get("do") == "dispose" and "ok" in answer and "late" not in answer:
            names.append(words["node"])
        return names

    def _bind(self, asked: _Asked) -> None:
        """Binds the names of the line, and lets go of those that the answer frees."""
        for words, answer in asked.pairs():
            if "ok" in answer:
                if asked.release is not None:
                    self._held[words["res"]] = asked.release
                if words["do"] in ("open", "using"):
                    self._observers.pop(words["name"], None)  # a name that is given again is not heard by whom it had
                    if asked.observer is not None:
                        self._observers[words["name"]] = asked.observer
            self._is_late = "late" in answer
            for name in self._ended(words, answer):
                self._observers.pop(name, None)
            for res in answer.get("release", ()):
                self._held.pop(res, None)

    def _sweep(self) -> None:
        """Lets go of the observers of nodes that are closed: of roots all but those that closed unheard are gone already, but
        nothing is told of a FlatMap or a Switch that a rule closes."""
        asked = _Asked({"do": "list"}, None, None)
        self._carry_out(asked)
        if asked.answer and "nodes" in asked.answer and not self._is_late:
            there = {it.get("name") for it in asked.answer["nodes"]}
            for name in [it for it in self._observers if it not in there]:
                del self._observers[name]
        self._sweep_at = 2 * len(self._observers) + 1024

    def _serve(self) -> None:
        """Does what is due, unless a thread is at it; this one may be, further out."""
        failures: List[BaseException] = []
        me = threading.get_ident()
        while self._queue and self._serving.acquire(blocking=False):
            try:
                self._server = me
                while self._queue:
                    due = self._queue[0]
                    while due.calls:
                        call, words = due.calls.popleft()
                        try:
                            call(*words)
                        except Exception as failure:
                            if due.thread == me and not failures:
                                failures.append(failure)
                            else:
                                self.on_failure(failure)
                    self._queue.popleft()
            finally:
                self._server = 0
                self._serving.release()
        if failures:
            raise failures[0]

    def __enter__(self) -> "Book":
        return self

    def __exit__(self, *_: Any) -> None:
        last = _Asked({"do": "close"}, None, None)
        with self._lock:
            while self._asked:
                self._carry_out(self._asked.pop())
            last.answer = json.loads(self._way.end(last) or b"{}")
            last.due = self._due(last)
            self._bind(last)
            for release in self._held.values():  # of a book that could not say what it held
                last.due.calls.append((release, ()))
            self._held.clear()
            self._observers.clear()
            self._queue.append(last.due)
        if self._server != threading.get_ident():
            self._serve()
            with self._serving:  # another thread may be at the last of it
                pass
            self._serve()
