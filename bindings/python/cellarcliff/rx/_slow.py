"""What extension/engine.c does, in Python, over calls by ctypes or over the model: the same names and the same order.

Each object that the engine keeps is a word there, with a count of how often the engine will give it back. What was handed out and not
begun comes again; an interrupt between two bytecodes may lose what was begun and not told, and by the extension it does not.
"""
from __future__ import annotations

import sys
import threading
import weakref
from collections import deque
from itertools import count
from threading import get_ident
from typing import Any, Callable, Deque, Dict, List, Optional, Tuple

from ._cellar import (BEGUN, COMPLETE, CONNECT, COPIES, DEPTH, DISPOSE, E_COMPLETED, E_FAILED, E_GONE, E_NEXT, E_PROJECT, E_PUT,
                      E_RELEASE, EFFECT, ERROR, FLAT, GONE, HANDED, HOLD, NEXT, NOTHING_KEPT, OPEN, PASS, PUT, ROOT, SWITCH, TICKET, WISHES, Cellar)

make_calls: Callable[..., Any] = Cellar  # what an engine is made of; the tests exchange it
_words = count(1)
_MANY = 1 << 40  # more than a command has effects: an interrupt before they are counted lets a value stay, and takes away none
_generation = [0]
refuse: Callable[[int], Any]
unhandled: Callable[[Any], Any]


def bind(_: Any, refuses: Callable[[int], Any], hears: Callable[[Any], Any]) -> None:
    global refuse, unhandled
    refuse, unhandled = refuses, hears


class _Mine(threading.local):
    """This thread: see `mine` in engine.c."""

    outermost: Any = None  # the frame of the call that is furthest out
    closing: Any = None    # the engine of which closings are heard, and whether something waits for the last of them
    is_late = False
    telling: Any = None    # the stack of which an effect is being told, and how deep that stands
    releasing: Any = None  # the same of a release
    behind: Optional[Deque[Any]] = None  # what comes behind the outermost of the turns under way, if there is one
    errors: Optional[List[BaseException]] = None
    trampoline: Optional[Deque[Callable[[], Any]]] = None
    runner: Any = None     # the frame of who goes on with that
    put_off_: Optional[Deque[Callable[[], Any]]] = None
    lets_go = False


mine = _Mine()


def _caught(error: BaseException, by: int) -> None:
    if by == get_ident() and mine.outermost is not None:
        if mine.errors is None:
            mine.errors = []
        mine.errors.append(error)
    else:
        unhandled(error)


def _runs(frame: Any) -> bool:
    """Whether a call did not end, nor was interrupted as it began or ended."""
    if frame is not None:
        try:
            frame.clear()
        except RuntimeError:
            return True
    return False


def _enter(frame: Any) -> Any:
    """Whether this call is the outermost of its thread; and what comes behind the turns further out, and the engine of which closings are heard, since it
    has turns of its own."""
    is_outermost = not _runs(mine.outermost)
    if is_outermost:
        mine.outermost, mine.closing, mine.behind, mine.errors, mine.put_off_ = frame, None, None, None, None
        mine.telling = mine.releasing = None
    outer = is_outermost, mine.behind, mine.closing
    mine.behind = mine.closing = None
    return outer


def _queue() -> Optional[Deque[Callable[[], Any]]]:
    """What this thread puts off, if somebody goes on with it."""
    return None if mine.trampoline is None or not _runs(mine.runner) else mine.trampoline


def _leave(entered: Any, error: Optional[BaseException], is_quiet: bool = False) -> None:
    is_outermost, mine.behind, mine.closing = entered
    if is_outermost:
        mine.outermost, errors, mine.errors = None, mine.errors, None
        for it in errors or ():
            if error is not None or is_quiet:
                unhandled(it)
            else:
                error = it
    if error is not None:
        raise error


class _Stack(threading.local):
    """What a thread keeps for an engine: the words of its stack, and the frames of the turns under way."""

    def __init__(self, calls: Any):
        self.words, self.frames = calls.stack(), []  # type: Any, List[Any]


class Key:
    __slots__ = ("node",)

    def __init__(self, node: Tuple[int, int]):
        self.node = node

    @property
    def number(self) -> int:
        """Its place in the history."""
        return self.node[1]


class Core:
    """An engine."""

    def __init__(self, max_events: int = 0) -> None:
        self.calls = make_calls(max_events)
        self.things: Dict[int, Any] = {}   # by their words
        self._many: Dict[int, int] = {}    # how often the engine gives each back
        self._lock = threading.RLock()
        self._closed: Deque[int] = deque()
        self._generation = _generation[0]
        self._own = _Stack(self.calls)

    @property
    def kept(self) -> int:
        return len(self.things)

    def _keep(self, it: Any, many: int) -> int:
        word = next(_words)
        self.things[word] = it
        self._count(word, many)
        return word

    def _count(self, word: int, change: int) -> None:
        with self._lock:
            many = self._many.get(word, 0) + change
            self._many[word] = many
            if not many:
                del self._many[word]
                self.things.pop(word, None)

    def turn(self, make: Callable[..., Any], *given: Any) -> Tuple[int, List[int]]:
        """Makes commands, by this function, and does what is handed out: the status, and the answer, of the last."""
        if self._generation != _generation[0]:
            return GONE, []
        own, behind, is_done = self._own, None, False
        stack, frames = own.words, own.frames
        while frames and not _runs(frames[-1]):  # it was interrupted as it ended
            frames.pop()
        depth = len(frames)
        try:
            frames.append(sys._getframe())
            stack[DEPTH] = depth + 1
            if mine.behind is None:
                behind = mine.behind = deque()
            status, answer, handed = make(stack, *given)
            if mine.closing is self:
                mine.is_late = mine.is_late or bool(handed[HANDED])
                return status, answer
            if self._closed:
                self._hear_closed()
            if handed[HANDED]:
                self._serve(stack, handed)
            is_done = True
            return status, answer
        except BaseException:
            if self._generation == _generation[0]:
                stack[DEPTH] = depth + 1
                self.calls.stop(stack)
            raise
        finally:
            del frames[depth:]
            stack[DEPTH] = depth
            if behind is not None:
                mine.behind = None
                queue: Any = deque() if mine.telling is None and _queue() is None else None
                _do(behind, queue)
                while is_done and queue:
                    try:
                        _go_on(queue)
                    except Exception as error:
                        _caught(error, get_ident())

    def make(self, stack: Any, words: Tuple[int, ...], value: int = 0, known: Any = None, is_exchange: bool = False) -> Any:
        """Makes a command: the status, the answer, and what is handed out. `known` is called with the answer, before anything is told."""
        status, answer, closings, handed = self.calls.step(stack, (*words, 0, 0))
        if value:
            self._count(value, (0 if status else answer[COPIES]) - _MANY)
        if not status:
            for it in closings:
                close = self.things[it][1]
                above, close.above, close.is_stopped = close.above, None, True
                if above is not None:
                    above.below -= 1
            self._closed.extend(closings)
            if known is not None:
                known(answer)
            if is_exchange:
                self._let_pass(stack)
        return status, answer, handed

    def _let_pass(self, stack: Any) -> None:
        """What is being told counts as told: its lane is free."""
        if mine.telling is not None and mine.telling[0] is stack:
            self.calls.let_pass(stack, mine.telling[1], False)

    def finish(self, stack: Any) -> Any:
        """What stands behind that which is being told comes now."""
        if mine.telling is not None and mine.telling[0] is stack:
            self.calls.let_pass(stack, mine.telling[1], True)
        return 0, [], self.calls.next(stack)

    def serve_left(self) -> None:
        """Does what is to be done, also what interrupted calls left."""
        self.turn(lambda stack: (0, [], self.calls.next(stack)))

    def _serve(self, stack: Any, handed: List[int]) -> None:
        """Does what was handed out, and what comes next, until nothing does."""
        before, depth = (mine.telling, mine.put_off_, mine.lets_go), stack[DEPTH]
        mine.telling, mine.put_off_, mine.lets_go = (stack, depth), None, False
        try:
            while handed[HANDED]:
                user, value, by, kind = handed[EFFECT:]
                stack[BEGUN] = handed[TICKET]
                try:
                    self._tell(user, value, kind & 0xFFFFFFFF, kind >> 32)
                except Exception as error:
                    _caught(error, by)
                while mine.put_off_:
                    try:
                        if mine.lets_go:
                            stack[DEPTH] = depth + 1
                            self._let_pass(stack)
                            stack[DEPTH] = depth
                        _go_on(mine.put_off_)
                    except Exception as error:
                        _caught(error, by)
                if self._generation != _generation[0]:
                    return
                stack[DEPTH] = depth
                handed = self.calls.next(stack)
        finally:
            mine.telling, mine.put_off_, mine.lets_go = before

    def _hear_closed(self) -> None:
        """What one that closed closes is heard behind the others, and what that came to is told behind all."""
        outer, mine.closing, mine.is_late = (mine.closing, mine.is_late), self, False
        try:
            while self._closed:
                try:
                    word = self._closed.popleft()
                except IndexError:
                    break
                close = self.things[word][1]
                try:
                    owner, close.owner = close.owner, None
                    subject = owner() if owner is not None else None
                    if subject is not None:
                        subject._ups.pop(close, None)
                    call, close.on_closed = close.on_closed, None
                    if call is not None:
                        call()
                except Exception as error:
                    _caught(error, get_ident())
                finally:
                    self._count(word, -1)
        finally:
            is_late = mine.is_late
            mine.closing, mine.is_late = outer
        if is_late:
            self.serve_left()

    def _tell(self, user: int, value: int, kind: int, carries: int) -> None:
        thing, item = self.things[user], self.things[value] if carries and value else None
        if carries and value:
            self._count(value, -1)
        if kind not in (E_NEXT, E_PROJECT):
            self._count(user, -1)
        if kind == E_NEXT:
            thing[0].told_next(item)
        elif kind == E_PROJECT:
            thing[2](item)
        elif kind == E_COMPLETED:
            thing[0].told_end(None)
        elif kind == E_FAILED:
            thing[0].told_end(item)
        elif kind == E_GONE:
            thing[0].is_over = thing[0].is_stopped = True
        elif kind == E_RELEASE:
            outer, mine.releasing = mine.releasing, mine.telling
            try:
                _release(thing)
            finally:
                mine.releasing = outer
        elif kind == E_PUT:
            thing[0]()

    # commands of the operators

    def leaf(self, _: Any) -> "Leaf":
        """A leaf for somebody who feeds it."""
        leaf = Leaf(self)
        leaf.is_fed = True
        return leaf

    def _opened(self, what: int, above: Any, thing: Any, value: int, hub: int = 0, share: Any = None, is_exchange: bool = False,
                first: Tuple[Any, ...] = ()) -> Tuple[int, List[int]]:
        command, place = what & 0xFF, what & 0xFF00
        roles = 1 if what & WISHES else 0
        if command != CONNECT:
            roles += (place == ROOT) + (command == OPEN and what & 0xFF0000 in (FLAT, SWITCH))
        user = self._keep(thing, roles) if thing is not None and roles else 0

        def known(a: List[int]) -> None:
            if thing is not None and command != CONNECT:
                if place == ROOT:
                    thing[0].node = a[0], a[1]
                if thing[1] is not None:
                    thing[1].node = a[0], a[1]
                    if thing[1].above is not None:
                        thing[1].above.below += 1
            if share is not None:
                share.connection = Key((a[2], a[3]))

        def make(stack: Any, words: Tuple[int, ...]) -> Any:
            if is_exchange and mine.releasing is not None and mine.releasing[0] is stack:
                self.calls.let_pass(stack, mine.releasing[1], True)  # the rest first
            status, answer, handed = self.make(stack, words, 0, known, is_exchange)
            for it in first if not status else ():  # in its lane before anything is told
                word = self._keep(it, _MANY) if it is not None else 0
                handed = self.make(stack, (NEXT, 0, *thing[1].node, 0, word), word)[2]
            return status, answer, handed
        status, a = self.turn(make, (what, hub, *(above.node if above is not None else (0, 0)), user, value))
        if status and user:
            self._count(user, -roles)
        return status, a

    def open(self, what: int, above: Any, thing: Any, release: Any, is_exchange: bool, *first: Any) -> Key:
        tag = self._keep(release, 1) if release is not None else 0
        status, a = self._opened(what, above, thing, tag, is_exchange=is_exchange, first=first)
        if status:
            if tag:
                self._count(tag, -1)
            refuse(status)
        return Key((a[0], a[1]))

    def using(self, what: int, above: Any, thing: Any, factory: Callable[[], Any]) -> Tuple[Key, Any]:
        resource = factory()
        if resource is None:
            return self.open(OPEN | PASS | what & 0xFF00FF00, above, thing, None, False), None
        tag = self._keep((resource,), 1)
        status, a = self._opened(what, above, thing, tag)
        if status:
            self._count(tag, -1)
            _release_caught((resource,))
            refuse(status)
        return Key((a[0], a[1])), resource

    def hold(self, node: Any, call: Callable[..., Any], *given: Any) -> Any:
        resource = call(*given)
        if resource is None:
            return None
        thing = (resource,) if hasattr(resource, "dispose") else resource
        tag = self._keep(thing, 1)
        status, _ = self.turn(self.make, (HOLD, 0, *node.node, 0, tag))
        if status:
            self._count(tag, -1)
            _release_caught(thing)
            if status != GONE:
                refuse(status)
        return resource

    def share(self, what: int, above: Any, thing: Any, word: int, hub: int, share: Any, is_exchange: bool) -> Tuple[int, Any, Any, int]:
        status, a = self._opened(what, above, thing, word, hub, share, is_exchange)
        if status:
            return status, None, None, hub
        other = Key((a[2], a[3])) if what & 255 == OPEN and a[4] else None
        return 0, Key((a[0], a[1])), other if share is None else share.connection, a[5]

    def do(self, what: int, node: Any, value: Any) -> int:
        if what & 255 == PUT:
            return self.put(what, node, value)
        word = self._keep(value, _MANY) if value is not None else 0
        return self.turn(self.make, (what, 0, *(node.node if node is not None else (0, 0)), 0, word), word)[0]

    def put(self, what: int, node: Any, call: Tuple[Callable[[], Any]]) -> int:
        word = self._keep(call, 1)
        status, _ = self.turn(self.make, (what, 0, *node.node, word, 0))
        if status:
            self._count(word, -1)
        return status

    def totals(self) -> Tuple[int, ...]:
        return tuple(self.calls.totals()) if self._generation == _generation[0] else (0,) * 8


def _do(calls: Deque[Any], queue: Any) -> None:
    """Each of these, also where one is interrupted; what would have been put off, a tuple, goes into the queue, if there is one."""
    try:
        while calls:
            it = calls.popleft()
            try:
                if type(it) is not tuple:
                    it()
                elif queue is None:
                    it[0]()
                else:
                    queue.append(it[0])
            except Exception as error:
                _caught(error, get_ident())
    finally:
        if calls:
            _do(calls, queue)


def _release(thing: Any) -> None:
    if type(thing) is tuple:
        thing[0].dispose()
    else:
        thing()


def _release_caught(thing: Any) -> None:
    try:
        _release(thing)
    except Exception as error:
        _caught(error, get_ident())


def _go_on(queue: Deque[Callable[[], Any]]) -> None:
    before = mine.trampoline, mine.runner
    mine.trampoline, mine.runner = queue, sys._getframe()
    try:
        queue.popleft()()
    finally:
        mine.trampoline, mine.runner = before


class Root:
    def __init__(self, core: Core, on_next: Any, on_error: Any, on_completed: Any):
        self.core, self._on_next, self._on_error, self._on_completed = core, on_next, on_error, on_completed
        self.head: Any = None
        self.node: Any = None
        self.below = 0
        self.ending: Any = None  # what is told, and how deep, as it is told its end
        self.is_stopped = self.is_over = self.is_told = False

    number = Key.number

    def told_next(self, value: Any) -> None:
        if not self.is_stopped:
            outer, self.is_told = self.is_told, True
            try:
                (self._on_next if self.head is None else self.head.on_next)(value)
            except Exception:
                self.dispose()
                raise
            finally:
                self.is_told = outer

    def told_end(self, error: Any) -> None:
        self.is_over = True
        if not self.is_stopped:
            head, self.ending = self if self.head is None else self.head, mine.telling
            try:
                head.on_completed() if error is None else head.on_error(error)
            finally:
                self.ending = None

    def on_next(self, value: Any) -> None:
        if not self.is_stopped:
            self._on_next(value)

    def on_error(self, error: Any) -> None:
        if not self.is_stopped:
            self.is_stopped = True
            try:
                self._on_error(error)
            finally:
                self.dispose()

    def on_completed(self) -> None:
        if not self.is_stopped:
            self.is_stopped = True
            try:
                self._on_completed()
            finally:
                self.dispose()

    def dispose(self) -> None:
        self.is_stopped = True
        if not self.is_over and self.node is not None:
            self.is_over = True
            status = self.core.do(DISPOSE, self, None)
            if status not in (0, GONE, NOTHING_KEPT):
                refuse(status)

    def unsubscribe(self) -> None:
        """As a call of the user's: from within its end what it held is released now."""
        call(self.dispose)
        if self.ending is not None and self.ending == mine.telling:
            call(finish, self)


class Leaf:
    def __init__(self, core: Core):
        self.core = core
        self.node: Any = None
        self.owner: Any = None
        self.on_closed: Optional[Callable[[], Any]] = None
        self.above: Any = None  # the root or leaf above, while this is open
        self.below = 0          # how many are open below it
        self.is_stopped = self.is_fed = False

    @property
    def alone(self) -> Any:
        """The root that hears of nothing but this leaf, or None."""
        it = self
        while type(it) is Leaf:
            above = it.above
            if it.is_stopped or above is None or above.below != 1:
                return None
            it = above
        return it

    number = Key.number

    def on_next(self, value: Any) -> None:
        if not self.is_stopped:
            status = self.core.do(NEXT, self, value)
            if status == GONE:
                self.is_stopped = True
            elif status:
                refuse(status)

    def _end(self, error: Any) -> None:
        if not self.is_stopped:
            self.is_stopped = True
            status = self.core.do(COMPLETE if error is None else ERROR, self, error)
            if status and status != GONE:
                refuse(status)

    def on_error(self, error: Any) -> None:
        self._end(error)

    def on_completed(self) -> None:
        self._end(None)


class Chain:
    def __init__(self, down: Any, kinds: bytes, steps: Tuple[Any, ...], emits: Optional[Leaf] = None):
        self.down, self._steps, self._emits = down, tuple(zip(kinds, steps)), emits
        at = down if isinstance(down, (Leaf, Root)) else getattr(down.on_next, "__self__", None)
        self.node_is = at if isinstance(at, (Leaf, Root)) else getattr(down, "node_is", None)

    def through(self, value: Any) -> Any:
        """What comes out, in a tuple; None where nothing does. Behind one that ends what they stand at no function is called."""
        try:
            for kind, function in self._steps:
                if self._is_over():
                    return None
                if kind == 0:
                    value = function(value)
                elif not function(value):
                    return None
        except Exception as error:
            self.down.on_error(error)
            return None
        return None if self._is_over() else (value,)

    def _is_over(self) -> bool:
        return self.node_is is not None and bool(self.node_is.is_stopped)

    @property
    def is_stopped(self) -> bool:
        of = self._emits or self.node_is or self.down
        return bool(of.is_stopped)

    def _tells(self, tell: Callable[..., Any], *given: Any) -> None:
        """What create() gives, and timers have, emits from anywhere, and it is told before the call ends."""
        if self._emits is None:
            tell(*given)
        elif not self._emits.is_stopped:
            call(tell, *given)

    def on_next(self, value: Any) -> None:
        found = self.through(value)
        if found is not None:
            self._tells(self.down.on_next, found[0])

    def on_error(self, error: Any) -> None:
        self._tells(self.down.on_error, error)

    def on_completed(self) -> None:
        self._tells(self.down.on_completed)

    def dispose(self) -> None:
        pass


class Subject:
    _ups: Dict[Leaf, Tuple[Any, Leaf]]
    _memory: Any
    _order: Any
    _limit: int
    is_stopped: bool
    is_disposed: bool
    exception: Any

    def __new__(cls, *_: Any, **__: Any) -> Any:
        self = super().__new__(cls)
        self._ups, self._memory, self._limit, self._order = {}, None, -1, threading.RLock()
        self.is_stopped, self.is_disposed, self.exception = False, False, None
        return self

    def __init__(self) -> None:
        pass

    def __del__(self) -> None:
        """Nobody can tell its subscribers anything any more: those that hear of nothing else go."""
        for leaf in tuple(getattr(self, "_ups", ())):  # an interrupt may have come before there are any
            root = leaf.alone
            if root is not None:
                root.unsubscribe()

    def on_next(self, value: Any) -> None:
        """Tells the item to each that subscribed."""
        if self.is_stopped:
            if self.is_disposed:
                self.check_disposed()  # type: ignore[attr-defined]
            return
        call(self._tell, NEXT, value, None)

    _on_next_core = on_next

    def _next_kept(self, value: Any, kept: Any) -> None:
        if not self.is_stopped:
            call(self._tell, NEXT, value, kept)

    def _end(self, error: Any) -> None:
        call(self._tell, COMPLETE if error is None else ERROR, error, None)

    def _tell(self, what: int, value: Any, kept: Any) -> None:
        ready: List[Tuple[Leaf, Any]] = []
        for up, leaf in tuple(self._ups.values()):
            if what == NEXT and up is not leaf:
                found = None if leaf.is_stopped else up.through(value)
                if found is not None:
                    ready.append((leaf, found[0]))
            else:
                ready.append((leaf, value))
        cores = {leaf.core for leaf, _ in ready}
        if len(cores) == 1:
            core = cores.pop()
            status = core.turn(self._put, core, what, ready, kept)[0]
            if status not in (0, GONE):
                refuse(status)
            return
        with self._order:
            self._remember(kept)
        for leaf, it in ready:  # an engine was exchanged meanwhile
            leaf.on_next(it) if what == NEXT else leaf._end(it)

    def _remember(self, kept: Any) -> None:
        if kept is not None and self._memory is not None:
            self._memory.append(kept)
            if self._limit >= 0:
                del self._memory[:max(0, len(self._memory) - self._limit)]

    def _put(self, stack: Any, core: Core, what: int, ready: List[Tuple[Leaf, Any]], kept: Any = None) -> Any:
        """All have it in their lanes before another item is put there: the last refusal, and what is handed out."""
        refusal, handed = 0, [0]
        with self._order:
            self._remember(kept)
            for leaf, value in ready:
                if leaf.is_stopped:
                    continue
                if what != NEXT:
                    leaf.is_stopped = True
                word = core._keep(value, _MANY) if value is not None else 0
                status, _, handed = core.make(stack, (what, 0, *leaf.node, 0, word), word)
                if status == GONE:
                    leaf.is_stopped = True
                else:
                    refusal = status or refusal
        return refusal, [], handed

    def _join(self, up: Any, leaf: Leaf) -> bool:
        is_open, items = True, ()  # type: bool, Tuple[Any, ...]

        def join(stack: Any = None) -> Any:
            nonlocal is_open, items
            with self._order:
                is_open = not self.is_stopped
                if is_open and not leaf.is_stopped:
                    self._ups[leaf] = up, leaf
                    leaf.owner = weakref.ref(self)
                items = tuple(self._memory or ())
                return self._put(stack, leaf.core, NEXT, [(leaf, value) for _, value in items] if up is leaf else [])
        if self._memory is None or up is not leaf:
            join()
            for _, value in items:
                up.on_next(value)
            return is_open
        status = leaf.core.turn(join)[0]
        if status not in (0, GONE):
            refuse(status)
        return is_open

    def _forget(self) -> None:
        for leaf in self._ups:
            leaf.owner = None
        self._ups.clear()


# this thread

def call(function: Callable[..., Any], *given: Any) -> Any:
    entered = _enter(sys._getframe())
    answer, failed = None, None
    try:
        answer = function(*given)
    except BaseException as error:
        failed = error
    _leave(entered, failed)
    return answer


def _run(queue: Deque[Callable[[], Any]]) -> None:
    while queue:
        queue.popleft()()


def trampolined(function: Callable[..., Any], *given: Any) -> Any:
    if _queue() is not None:
        return function(*given)
    queue: Deque[Callable[[], Any]] = deque()
    mine.trampoline, mine.runner = queue, sys._getframe()
    try:
        answer = function(*given)
        _run(queue)
    finally:
        mine.trampoline = mine.runner = None
    return answer


def subscribe(root: Root, function: Callable[..., Any], *given: Any) -> Any:
    entered = _enter(sys._getframe())
    answer, failed = None, None
    try:
        answer = trampolined(function, *given)
    except BaseException as error:
        failed = error
        root.dispose()
    _leave(entered, failed, not root.is_over)
    return answer


def _behind_the_lane(lets_go: bool, function: Callable[..., Any], given: Tuple[Any, ...]) -> Any:
    if _queue() is not None:
        return function(*given)
    if mine.telling is None:
        return trampolined(function, *given)
    if mine.put_off_ is None:
        mine.put_off_ = deque()
    mine.trampoline, mine.runner, mine.lets_go = mine.put_off_, sys._getframe(), mine.lets_go or lets_go
    try:
        return function(*given)
    finally:
        mine.trampoline = mine.runner = None


def projected(function: Callable[..., Any], *given: Any) -> Any:
    return _behind_the_lane(False, function, given)


def fed(function: Callable[..., Any], *given: Any) -> Any:
    return _behind_the_lane(True, function, given)


def apart(function: Callable[..., Any], *given: Any) -> Any:
    before, mine.trampoline = (mine.trampoline, mine.runner), None
    try:
        return function(*given)
    finally:
        mine.trampoline, mine.runner = before


def put_off(act: Callable[[], Any]) -> bool:
    queue = _queue()
    if queue is None:
        return False
    queue.append(act)
    return True


def queue() -> Any:
    """What this thread puts off, if somebody goes on with it."""
    return _queue()


def raised(error: Exception) -> None:
    _caught(error, get_ident())


def behind(act: Callable[[], Any]) -> None:
    """Calls this behind all that the turns under way come to: so what they release is released."""
    act() if mine.behind is None else mine.behind.append(act if _queue() is None else (act,))


def finish(root: Root) -> None:
    root.core.turn(root.core.finish)


def forked() -> None:
    _generation[0] += 1


def pull(up: Any, leaf: Leaf, items: Any) -> bool:
    while not leaf.is_stopped:
        try:
            value = next(items)
        except StopIteration:
            return True
        up.on_next(value)
    return False


__all__ = ["Chain", "Core", "Key", "Leaf", "Root", "Subject", "apart", "behind", "bind", "call", "fed", "finish", "forked", "projected",
           "pull", "put_off", "queue", "raised", "subscribe", "trampolined"]
