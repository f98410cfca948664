"""Disposables, with the names and the manners of RxPY."""
from __future__ import annotations

from threading import RLock
from typing import TYPE_CHECKING, Any, Callable, List, Optional

from ..._nearest import lacking

if not TYPE_CHECKING:
    def __getattr__(name: str) -> Any:
        raise lacking(__name__, name)


class Disposable:
    """Calls its action once, with the first `dispose`."""

    def __init__(self, action: Optional[Callable[[], Any]] = None):
        self.is_disposed = False
        self.action = action
        self.lock = RLock()

    def dispose(self) -> None:
        with self.lock:
            is_first, self.is_disposed = not self.is_disposed, True
        if is_first and self.action is not None:
            self.action()

    def __enter__(self) -> "Disposable":
        return self

    def __exit__(self, *_: Any) -> None:
        self.dispose()


class BooleanDisposable(Disposable):
    """Says whether it was disposed of."""

    def __init__(self) -> None:
        super().__init__()


def _dispose_all(disposables: List[Any]) -> None:
    """All of them, also where one raises; the first that raises is heard."""
    failed: Optional[BaseException] = None
    for it in disposables:
        try:
            it.dispose()
        except Exception as error:
            failed = failed or error
    if failed is not None:
        raise failed


class CompositeDisposable(Disposable):
    """A group that is disposed of together. What is added after that is disposed of at once."""

    def __init__(self, *args: Any):
        super().__init__()
        self.disposable: List[Any] = args[0] if args and isinstance(args[0], list) else list(args)

    def add(self, item: Any) -> None:
        with self.lock:
            if not self.is_disposed:
                self.disposable.append(item)
                return
        item.dispose()

    def remove(self, item: Any) -> bool:
        """Removes the first that equals it, and disposes of it."""
        with self.lock:
            if self.is_disposed or item not in self.disposable:
                return False
            self.disposable.remove(item)
        item.dispose()
        return True

    def dispose(self) -> None:
        with self.lock:
            if self.is_disposed:
                return
            self.is_disposed = True
            disposables, self.disposable = self.disposable, []
        _dispose_all(disposables)

    def clear(self) -> None:
        """Disposes of all that are in it, and stays."""
        with self.lock:
            disposables, self.disposable = self.disposable, []
        _dispose_all(disposables)

    def contains(self, item: Any) -> bool:
        return item in self.disposable

    def to_list(self) -> List[Any]:
        return self.disposable[:]

    def __len__(self) -> int:
        return len(self.disposable)

    @property
    def length(self) -> int:
        return len(self.disposable)


class _Assignable(Disposable):
    """Has one disposable in it; one that comes after its own disposal is disposed of at once."""

    def __init__(self) -> None:
        super().__init__()
        self.current: Any = None

    def get_disposable(self) -> Any:
        return self.current

    def _replace(self, value: Any) -> Any:
        """What it had, and whether the new one is to go at once."""
        with self.lock:
            if self.is_disposed:
                return None, True
            old, self.current = self.current, value
            return old, False

    def dispose(self) -> None:
        with self.lock:
            if self.is_disposed:
                return
            self.is_disposed = True
            old, self.current = self.current, None
        if old is not None:
            old.dispose()


class SerialDisposable(_Assignable):
    """Disposes of what it has when it is given another."""

    def set_disposable(self, value: Any) -> None:
        old, is_late = self._replace(value)
        if old is not None:
            old.dispose()
        if is_late and value is not None:
            value.dispose()

    disposable = property(_Assignable.get_disposable, set_disposable)


class MultipleAssignmentDisposable(_Assignable):
    """Lets go of what it has when it is given another."""

    def set_disposable(self, value: Any) -> None:
        if self._replace(value)[1] and value is not None:
            value.dispose()

    disposable = property(_Assignable.get_disposable, set_disposable)


class SingleAssignmentDisposable(_Assignable):
    """Is given one once."""

    def set_disposable(self, value: Any) -> None:
        if self.current:
            raise Exception("Disposable has already been assigned")
        if self._replace(value)[1] and value is not None:
            value.dispose()

    disposable = property(_Assignable.get_disposable, set_disposable)


class RefCountDisposable(Disposable):
    """Disposes of what it was given once it and all its dependents were disposed of."""

    class InnerDisposable:
        def __init__(self, parent: "RefCountDisposable"):
            self.parent: Optional["RefCountDisposable"] = parent
            self.is_disposed = False
            self.lock = RLock()

        def dispose(self) -> None:
            with self.lock:
                parent, self.parent, self.is_disposed = self.parent, None, True
            if parent is not None:
                parent.release()

    def __init__(self, disposable: Any):
        super().__init__()
        self.underlying_disposable = disposable
        self.is_primary_disposed = False
        self.count = 0

    def _is_last(self) -> bool:
        """Whether this was the last. The lock is held."""
        if self.is_disposed or self.count or not self.is_primary_disposed:
            return False
        self.is_disposed = True
        return True

    def dispose(self) -> None:
        with self.lock:
            self.is_primary_disposed = True
            is_last = self._is_last()
        if is_last:
            self.underlying_disposable.dispose()

    def release(self) -> None:
        with self.lock:
            self.count -= 1
            is_last = self._is_last()
        if is_last:
            self.underlying_disposable.dispose()

    @property
    def disposable(self) -> Any:
        """A dependent."""
        with self.lock:
            if self.is_disposed:
                return Disposable()
            self.count += 1
            return self.InnerDisposable(self)


class ScheduledDisposable(Disposable):
    """Disposes of what it was given by a scheduler."""

    def __init__(self, scheduler: Any, disposable: Any):
        super().__init__()
        self.scheduler = scheduler
        self.disposable = SingleAssignmentDisposable()
        self.disposable.disposable = disposable

    @property
    def is_disposed(self) -> bool:
        return self.disposable.is_disposed

    @is_disposed.setter
    def is_disposed(self, _: bool) -> None:
        pass

    def dispose(self) -> None:
        self.scheduler.schedule(lambda *_: self.disposable.dispose())
