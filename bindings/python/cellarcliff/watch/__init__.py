"""Finds the leak in a program that is written for RxPY, as it is:

    python3 -m cellarcliff.watch PROGRAM ARGS ..

Its imports of `rx`, and of `reactivex`, are answered by this package. At the end, and on the signal USR1, standard error gets a report: what is
still open, by the line where it was subscribed to or made, and how that grew. From within a program: `begin()` before it imports rx,
then `report()`.
"""
from __future__ import annotations

import atexit
import signal
import sys
import threading
from typing import Any, List, Optional, TextIO

from .. import rx
from ..rx.watched import Watched
from .names import PACKAGES, answer
from .reports import Reports

_reports: List[Reports] = []


def begin(whole: bool = False, names: bool = True) -> Watched:
    """Watches what is subscribed to from now on. With `whole` the engine makes no checkpoint, so that the history stays whole, and grows;
    without `names` the imports of rx stay as they are."""
    engine = Watched(0xFFFFFFFF if whole else 0)
    rx.use(engine)
    _reports[:] = [Reports(engine)]
    if names:
        for package in PACKAGES:
            answer(package)
    return engine


def report(to: Optional[TextIO] = None) -> str:
    """What is open now, as a text; it is written to this stream, if there is one."""
    if not _reports:
        raise RuntimeError("nothing is watched: call cellarcliff.watch.begin() first")
    text = _reports[0].text()
    if to is not None:
        to.write(text)
        to.flush()
    return text


def reports() -> Reports:
    """The reports so far."""
    return _reports[0]


def on_signal() -> None:
    """Reports on USR1, where the platform has it and the main thread asks."""
    if hasattr(signal, "SIGUSR1") and threading.current_thread() is threading.main_thread():
        signal.signal(signal.SIGUSR1, lambda *_: threading.Thread(target=report, args=(sys.stderr,), name="cellarcliff.watch").start())


def at_end(call: Any) -> None:
    """Calls this as the process ends, before the engine closes what is open."""
    atexit.register(call)


__all__ = ["at_end", "begin", "on_signal", "report", "reports"]
