"""Schedulers, with the names and the manners of RxPY's.

Any scheduler of RxPY may be given in their place: what is called of one is `now`, `to_seconds`, `to_timedelta`, `schedule`,
`schedule_relative`, `schedule_absolute` and `schedule_periodic`. Times are seconds, or timedelta.
"""
from __future__ import annotations

import heapq
import itertools
import threading
import time
from concurrent.futures import ThreadPoolExecutor
from datetime import datetime, timedelta, timezone
from typing import TYPE_CHECKING, Any, Callable, List, Optional, Tuple, Union

from ..._nearest import lacking, names, near
from .._crossing import C
from ..disposable import Disposable, MultipleAssignmentDisposable, SerialDisposable, SingleAssignmentDisposable
from ..internal import DisposedException, Missing, WouldBlockException

if not TYPE_CHECKING:
    def __getattr__(name: str) -> Any:
        if name in ("VirtualTimeScheduler", "HistoricalScheduler"):
            from .. import testing
            return getattr(testing, name)
        if name == "eventloop":
            import importlib
            return importlib.import_module(f"{__name__}.eventloop")
        stems = [it[:-9] for it in names(__name__) if it.endswith("Scheduler")]
        if name.endswith("Scheduler") and not near(name[:-9], stems) or name in ("mainloop", "ScheduledItem"):
            raise Missing(f"cellarcliff.rx.scheduler has no {name}: give one of RxPY's own, which serves here too")
        raise lacking(__name__, name)


RelativeTime = Union[float, timedelta]
AbsoluteTime = Union[float, datetime]
Action = Callable[[Any, Any], Any]


class Scheduler:
    """The times of RxPY: `now` is a datetime in UTC, without a zone."""

    @property
    def now(self) -> datetime:
        return datetime.now(timezone.utc).replace(tzinfo=None)

    @classmethod
    def to_seconds(cls, value: Union[AbsoluteTime, RelativeTime]) -> float:
        if isinstance(value, datetime):
            return (value - datetime(1970, 1, 1)).total_seconds()
        return value.total_seconds() if isinstance(value, timedelta) else float(value)

    @classmethod
    def to_timedelta(cls, value: Union[AbsoluteTime, RelativeTime]) -> timedelta:
        return timedelta(seconds=cls.to_seconds(value)) if not isinstance(value, timedelta) else value

    @classmethod
    def to_datetime(cls, value: Union[AbsoluteTime, RelativeTime]) -> datetime:
        return value if isinstance(value, datetime) else datetime(1970, 1, 1) + cls.to_timedelta(value)

    def schedule(self, action: Action, state: Any = None) -> Any:
        raise NotImplementedError

    def schedule_relative(self, duetime: RelativeTime, action: Action, state: Any = None) -> Any:
        raise NotImplementedError

    def schedule_absolute(self, duetime: AbsoluteTime, action: Action, state: Any = None) -> Any:
        return self.schedule_relative((self.to_datetime(duetime) - self.now).total_seconds(), action, state)

    def schedule_periodic(self, period: RelativeTime, action: Callable[[Any], Any], state: Any = None) -> Any:
        """Calls the action each period with what it answered before; None leaves that as it was."""
        seconds, current = max(0.0, self.to_seconds(period)), MultipleAssignmentDisposable()

        def tick(_: Any, __: Any = None) -> None:
            nonlocal state
            if current.is_disposed:
                return
            began = self.now
            try:
                answer = action(state)
                state = state if answer is None else answer
            except Exception:
                current.dispose()
                raise
            finally:  # behind what the action schedules, and also where it is interrupted
                if not current.is_disposed:
                    current.disposable = self.schedule_relative(max(0.0, seconds - (self.now - began).total_seconds()), tick)
        current.disposable = self.schedule_relative(seconds, tick)
        return current

    def invoke_action(self, action: Action, state: Any = None) -> Any:
        answer = action(self, state)
        return answer if hasattr(answer, "dispose") else Disposable()

    def _into(self, whole: Any, action: Action, state: Any) -> Callable[[], None]:
        """Does the action, unless `whole` was disposed of before; whatever it answers is disposed of with that."""
        def act() -> None:
            if not whole.is_disposed:
                whole.disposable = self.invoke_action(action, state)
        return act


class _Shared(Scheduler):
    """One that serves all."""

    _one: Any = None

    @classmethod
    def singleton(cls) -> Any:
        """The one that sources use where they are given none."""
        if "_one" not in cls.__dict__:
            cls._one = cls()
        return cls._one


class ImmediateScheduler(_Shared):
    """Does it at once, in this thread."""

    def schedule(self, action: Action, state: Any = None) -> Any:
        return self.invoke_action(action, state)

    def schedule_relative(self, duetime: RelativeTime, action: Action, state: Any = None) -> Any:
        if self.to_seconds(duetime) > 0:
            raise WouldBlockException()
        return self.invoke_action(action, state)


class _Agenda:
    """What is due, and when, for the one that is at it."""

    def __init__(self) -> None:
        self.condition, self._numbers = threading.Condition(threading.RLock()), itertools.count()
        self._heap: List[Tuple[float, int, Callable[[], Any]]] = []

    def put(self, seconds: float, act: Callable[[], Any]) -> None:
        with self.condition:
            heapq.heappush(self._heap, (time.monotonic() + max(0.0, seconds), next(self._numbers), act))
            self.condition.notify()

    def next(self, is_over: Callable[[], bool]) -> Optional[Callable[[], Any]]:
        """Waits for the next that is due; None where there is none and it is over, which is asked under the lock."""
        with self.condition:
            while self._heap or not is_over():
                left = self._heap[0][0] - time.monotonic() if self._heap else None
                if left is not None and left <= 0:
                    return heapq.heappop(self._heap)[2]
                self.condition.wait(left)
        return None

    def clear(self) -> None:
        with self.condition:
            del self._heap[:]
            self.condition.notify()


class TrampolineScheduler(Scheduler):
    """Does it behind what it is at, and first what is due first: in the thread that found it at nothing."""

    def __init__(self) -> None:
        self._agenda, self._is_idle = _Agenda(), True

    def schedule_required(self) -> bool:
        """Whether nothing is under way."""
        return self._is_idle

    def ensure_trampoline(self, action: Action) -> Any:
        """Does it at once, with what that schedules behind it."""
        return self.schedule(action) if self.schedule_required() else action(self, None)

    def schedule(self, action: Action, state: Any = None) -> Any:
        return self.schedule_relative(0.0, action, state)

    def schedule_relative(self, duetime: RelativeTime, action: Action, state: Any = None) -> Any:
        whole = SingleAssignmentDisposable()
        self._put(self.to_seconds(duetime), self._into(whole, action, state), whole)
        return whole

    def _put(self, seconds: float, act: Callable[[], Any], _: Any) -> None:
        with self._agenda.condition:
            self._agenda.put(seconds, act)
            if not self._is_idle:
                return
            self._is_idle = False
        try:
            while True:
                due = self._agenda.next(self._ends)
                if due is None:
                    return
                due()
        except BaseException:
            self._agenda.clear()
            self._is_idle = True
            raise

    def _ends(self) -> bool:
        self._is_idle = True
        return True


class _Later:
    """What is due later of what this thread put off: it stands there, and waits once nothing else does."""

    def __init__(self) -> None:
        self._heap: List[Tuple[float, int, Any, Callable[[], Any]]] = []

    def add(self, seconds: float, act: Callable[[], Any], whole: Any) -> None:
        heapq.heappush(self._heap, (time.monotonic() + seconds, next(_numbers), whole, act))

    def __call__(self) -> None:
        heap = self._heap
        while heap and heap[0][2].is_disposed:
            heapq.heappop(heap)
        if not heap:
            return
        left = heap[0][0] - time.monotonic()
        if left > 0:
            C.put_off(self)
            if len(C.queue()) == 1:
                time.sleep(left)
            return
        act = heapq.heappop(heap)[3]
        if heap:
            C.put_off(self)
        act()


_numbers = itertools.count()


class CurrentThreadScheduler(TrampolineScheduler, _Shared):
    """Does it in this thread, behind what is under way there, and first what is due first."""

    def schedule_required(self) -> bool:
        return C.queue() is None

    def _put(self, seconds: float, act: Callable[[], Any], whole: Any) -> None:
        call: Any = act
        if seconds > 0:
            call = next((it for it in C.queue() or () if type(it) is _Later), None)
            if call is not None:
                call.add(seconds, act, whole)
                return
            call = _Later()
            call.add(seconds, act, whole)
        if not C.put_off(call):
            C.trampolined(call)


class _Threaded(_Shared):
    """Does it in a thread, when its time has come."""

    def _in_thread(self, work: Callable[[], Any]) -> None:
        thread = threading.Thread(target=work, daemon=True)
        thread.start()

    def schedule(self, action: Action, state: Any = None) -> Any:
        whole = SingleAssignmentDisposable()
        self._in_thread(self._into(whole, action, state))
        return whole

    def schedule_relative(self, duetime: RelativeTime, action: Action, state: Any = None) -> Any:
        seconds, whole, over = max(0.0, self.to_seconds(duetime)), SerialDisposable(), threading.Event()
        act = self._into(whole, action, state)
        whole.disposable = Disposable(over.set)

        def wait() -> None:
            if not over.wait(seconds):
                act()
        self._in_thread(wait)
        return whole


class TimeoutScheduler(_Shared):
    """Does it in a thread of its own, when its time has come."""

    def schedule(self, action: Action, state: Any = None) -> Any:
        return self.schedule_relative(0.0, action, state)

    def schedule_relative(self, duetime: RelativeTime, action: Action, state: Any = None) -> Any:
        whole = SerialDisposable()
        timer = threading.Timer(max(0.0, self.to_seconds(duetime)), self._into(whole, action, state))
        timer.daemon = True
        whole.disposable = Disposable(timer.cancel)
        timer.start()
        return whole


class NewThreadScheduler(_Threaded):
    """Does each in a thread of its own."""

    def __init__(self, thread_factory: Optional[Callable[[Callable[[], Any]], Any]] = None):
        self.thread_factory = thread_factory

    def _in_thread(self, work: Callable[[], Any]) -> None:
        if self.thread_factory is None:
            super()._in_thread(work)
        else:
            self.thread_factory(work).start()

    def schedule_periodic(self, period: RelativeTime, action: Callable[[Any], Any], state: Any = None) -> Any:
        seconds, over = max(0.0, self.to_seconds(period)), threading.Event()

        def work() -> None:
            nonlocal state
            while not over.wait(seconds):
                answer = action(state)
                state = state if answer is None else answer
        self._in_thread(work)
        return Disposable(over.set)


class ThreadPoolScheduler(_Threaded):
    """Does it in one of so many threads."""

    def __init__(self, max_workers: Optional[int] = None):
        self.executor = ThreadPoolExecutor(max_workers=max_workers)

    def _in_thread(self, work: Callable[[], Any]) -> None:
        self.executor.submit(work)


class EventLoopScheduler(_Shared):
    """Does all in one thread of its own, in order."""

    def __init__(self, thread_factory: Optional[Callable[[Callable[[], Any]], Any]] = None, exit_if_empty: bool = False):
        self._factory = thread_factory or (lambda work: threading.Thread(target=work, daemon=True))
        self._is_disposed, self._exit_if_empty = False, exit_if_empty
        self._agenda, self._thread = _Agenda(), None  # type: _Agenda, Any

    def _put(self, seconds: float, act: Callable[[], Any]) -> None:
        with self._agenda.condition:
            if self._is_disposed:
                raise DisposedException()
            self._agenda.put(seconds, act)
            if self._thread is None:
                self._thread = self._factory(self._run)
                self._thread.start()

    def schedule(self, action: Action, state: Any = None) -> Any:
        return self.schedule_relative(0.0, action, state)

    def schedule_relative(self, duetime: RelativeTime, action: Action, state: Any = None) -> Any:
        whole = SingleAssignmentDisposable()
        self._put(self.to_seconds(duetime), self._into(whole, action, state))
        return whole

    def _is_over(self) -> bool:
        over = self._is_disposed or self._exit_if_empty
        if over:
            self._thread = None
        return over

    def _run(self) -> None:
        while True:
            act = self._agenda.next(self._is_over)
            if act is None:
                return
            act()

    def dispose(self) -> None:
        """Does nothing more."""
        with self._agenda.condition:
            self._is_disposed = True
            self._agenda.clear()


class CatchScheduler(Scheduler):
    """Another scheduler, whose actions' exceptions go to a handler; it answers whether that was all."""

    def __init__(self, scheduler: Any, handler: Callable[[Exception], bool]):
        self._scheduler, self._handler = scheduler, handler

    @property
    def now(self) -> datetime:
        return self._scheduler.now  # type: ignore[no-any-return]

    def _caught(self, action: Action) -> Action:
        def act(_: Any, state: Any = None) -> Any:
            try:
                return action(self, state)
            except Exception as error:
                if not self._handler(error):
                    raise
                return Disposable()
        return act

    def schedule(self, action: Action, state: Any = None) -> Any:
        return self._scheduler.schedule(self._caught(action), state)

    def schedule_relative(self, duetime: RelativeTime, action: Action, state: Any = None) -> Any:
        return self._scheduler.schedule_relative(duetime, self._caught(action), state)

    def schedule_absolute(self, duetime: AbsoluteTime, action: Action, state: Any = None) -> Any:
        return self._scheduler.schedule_absolute(duetime, self._caught(action), state)

