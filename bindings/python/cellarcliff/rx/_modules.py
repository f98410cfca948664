"""Says of a module of RxPY's that is not here where its names are."""
from __future__ import annotations

import sys
from typing import Any

#: RxPY's modules below its packages, which have one file for each class; the packages here have the classes.
_INSIDE = {
    "core": "abc observable observer operators pipe run",
    "disposable": "booleandisposable compositedisposable disposable multipleassignmentdisposable refcountdisposable scheduleddisposable "
                  "serialdisposable singleassignmentdisposable",
    "internal": "basic concurrency constants exceptions priorityqueue utils",
    "scheduler": "catchscheduler currentthreadscheduler eventloopscheduler historicalscheduler immediatescheduler mainloop newthreadscheduler "
                 "periodicscheduler scheduleditem scheduler threadpoolscheduler timeoutscheduler trampoline trampolinescheduler virtualtimescheduler",
    "subject": "asyncsubject behaviorsubject innersubscription replaysubject subject",
    "testing": "coldobservable hotobservable marbles mockdisposable mockobserver reactivetest recorded subscription testscheduler",
}
_PLACES = {f"{__package__}.{package}.{name}": f"{__package__}.{package}" for package, names in _INSIDE.items() for name in names.split()}


class _Finder:
    """Asked behind all others."""

    @staticmethod
    def find_spec(name: str, _path: Any = None, _target: Any = None) -> None:
        place = _PLACES.get(name)
        if place is not None:
            raise ModuleNotFoundError(f"{name} is a module of RxPY's that is not here: what users need of it is in {place}, the rest in RxPY", name=name)


sys.meta_path.append(_Finder)  # type: ignore[arg-type]
