"""Answers the names of RxPY, `rx`, and of its successor, `reactivex`, by this package. What this package lacks is RxPY's own, where that
is installed: it takes observables of this package as it takes its own."""
from __future__ import annotations

import abc
import importlib
import importlib.machinery
import pkgutil
import sys
import types
from typing import Any, Dict, Optional, Tuple

PACKAGES = ("rx", "reactivex")
#: What stands in the place of RxPY's module of that name; of `core.typing`, whose classes RxPY asks for, only where RxPY is not there.
OURS = ("", "operators", "subject", "disposable", "scheduler", "scheduler.eventloop", "testing", "core", "core.notification", "internal")
ABSENT = ("core.typing", "typing", "abc")


class Answered(types.ModuleType):
    """A module of RxPY's name."""

    def __init__(self, name: str, ours: types.ModuleType, theirs: Optional[types.ModuleType]):
        super().__init__(name, ours.__doc__)
        self.__spec__ = importlib.machinery.ModuleSpec(name, None, is_package=True)
        self.__path__ = list(getattr(theirs, "__path__", []))
        self.__package__ = name
        self._found: Tuple[types.ModuleType, Optional[types.ModuleType]] = (ours, theirs)

    def __getattr__(self, name: str) -> Any:
        ours, theirs = self._found
        if name == "__version__":
            return getattr(theirs, name, "of cellarcliff")
        try:
            return getattr(ours, name)
        except (AttributeError, NotImplementedError):
            if theirs is None or not hasattr(theirs, name):
                raise
        return getattr(theirs, name)

    def __dir__(self) -> Any:
        return sorted({it for of in self._found if of is not None for it in dir(of)})


def _load(package: str) -> Dict[str, types.ModuleType]:
    """All modules of a package that is installed, each loaded once, so that they have found one another before names are exchanged."""
    try:
        top = importlib.import_module(package)
    except ImportError:
        return {}
    for it in pkgutil.walk_packages(top.__path__, f"{package}.", onerror=lambda _: None):
        try:
            importlib.import_module(it.name)
        except Exception:  # it wants what is not installed, such as a toolkit of windows
            continue
    return {name: it for name, it in sys.modules.items() if name == package or name.startswith(f"{package}.")}


def _ours(part: str) -> Optional[types.ModuleType]:
    name = {"typing": "core.typing", "abc": "core.typing"}.get(part, part)
    try:
        return importlib.import_module(f"cellarcliff.rx.{name}" if name else "cellarcliff.rx")
    except ImportError:
        return None


def _relate(ours: types.ModuleType, theirs: types.ModuleType) -> None:
    """Makes each class here an instance's class for RxPY too where its own of that name is asked for, as by its tests of marbles."""
    for name, its in list(vars(theirs).items()):
        mine = getattr(ours, name, None) if isinstance(its, abc.ABCMeta) else None
        if isinstance(mine, type) and not issubclass(mine, its):
            its.register(mine)


def answer(package: str) -> bool:
    """From now on `import` of this package, and of its modules, is answered by this one. Whether the package itself is installed."""
    theirs = _load(package)
    for part in OURS + (() if theirs else ABSENT):
        name, ours = f"{package}.{part}" if part else package, _ours(part)
        if ours is not None:
            if part in ("", "subject") and name in theirs:
                _relate(ours, theirs[name])
            sys.modules[name] = Answered(name, ours, theirs.get(name))
    for name in [it for it in sys.modules if it.startswith(f"{package}.")]:
        above, _, last = name.rpartition(".")
        if isinstance(sys.modules.get(above), Answered):
            setattr(sys.modules[above], last, sys.modules[name])
    return bool(theirs)
