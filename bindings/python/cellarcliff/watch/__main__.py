"""python3 -m cellarcliff.watch [--whole] [--picture FILE] [--dump FILE] [--fail] PROGRAM ARGS ..
       python3 -m cellarcliff.watch [OPTION ..] -m MODULE ARGS ..

Runs a program that is written for RxPY (`rx`, or `reactivex`) over this package, and tells on standard error what it left open, by the lines
that subscribed to it or made it: at its end, and whenever it gets the signal USR1.

    --whole         the engine makes no checkpoint: the history stays whole, and takes memory for each item
    --picture FILE  the history as a picture, where it is whole, with these lines as names
    --dump FILE     the history, where it is whole, with these lines as names, for `rxbook picture`
    --fail          the status is 3 where something was left open, if the program's own is 0

What this package lacks is RxPY's own, where that is installed. A process that ends by KILL, or by os._exit, tells nothing.
"""
from __future__ import annotations

import atexit
import builtins
import json
import os
import pathlib
import runpy
import signal
import sys
import threading
import types
from typing import Any, Callable, Dict, List

from . import at_end, begin, on_signal, report, reports


_kept: List[Any] = []
INTERRUPTED = object()


class Words:
    """What the command line says."""

    def __init__(self, words: List[str]):
        self.whole = self.fails = self.is_module = False
        self.files: Dict[str, str] = {}  # the picture, the dump
        while words and words[0].startswith("-"):
            word = words.pop(0)
            if word == "--whole":
                self.whole = True
            elif word == "--fail":
                self.fails = True
            elif word in ("--picture", "--dump") and words:
                self.files[word[2:]] = words.pop(0)
            elif word == "-m" and words:
                self.is_module = True
                break
            elif word in ("-h", "--help"):
                print(__doc__)
                sys.exit()
            else:
                sys.exit(f"cellarcliff.watch: {word} is no option, or lacks its word; --help tells more")
        if not words:
            sys.exit("cellarcliff.watch: no program is named; --help tells more")
        self.program, self.arguments = words[0], words[1:]


def write(what: str, file: str) -> None:
    """The picture or the dump of the history."""
    from .. import audit
    named = reports().named()
    if named is None:
        sys.stderr.write(f"cellarcliff.watch: there is no {what}, since the history is not whole; --whole keeps it\n")
        return
    try:
        pathlib.Path(file).write_text(audit.picture(named) if what == "picture" else f"{json.dumps(named)}\n")
    except (OSError, AttributeError, audit.FaultyInput) as why:
        sys.stderr.write(f"cellarcliff.watch: there is no {what}: {why}\n")


def run(words: Words) -> None:
    """Runs the program as the module `__main__`, whose names live until the process ends, as those of any program do."""
    sys.argv = [words.program, *words.arguments]
    if words.is_module:
        sys.path[0] = os.getcwd()
        _kept.append(runpy.run_module(words.program, run_name="__main__", alter_sys=True))
        return
    try:
        source = pathlib.Path(words.program).read_bytes()
    except OSError as why:
        sys.exit(f"cellarcliff.watch: {words.program} cannot be read: {why.strerror}")
    sys.path[0] = os.path.dirname(os.path.abspath(words.program))
    main = types.ModuleType("__main__")
    main.__dict__.update(__file__=words.program, __builtins__=builtins)
    sys.modules["__main__"] = main
    exec(compile(source, words.program, "exec"), main.__dict__)


def at_term(tell: Any) -> None:
    """Tells before TERM ends the process, which it does as if nothing had been told. Of a thread, since the main one may hold any lock."""
    process = os.getpid()

    def tell_and_end() -> None:
        try:
            if os.getpid() == process:  # and not one that was forked from it
                tell()
        finally:
            os.kill(os.getpid(), signal.SIGTERM)

    def heard(*_: Any) -> None:
        signal.signal(signal.SIGTERM, signal.SIG_DFL)
        threading.Thread(target=tell_and_end, name="cellarcliff.watch").start()
    if signal.getsignal(signal.SIGTERM) is signal.SIG_DFL:
        signal.signal(signal.SIGTERM, heard)


def end() -> None:
    """Ends the program as the interpreter does: waits for its threads, so that pools end too, then calls what was registered for its exit."""
    threading._shutdown()  # type: ignore[attr-defined]
    atexit._run_exitfuncs()


def status_of(call: Callable[[], Any]) -> Any:
    """Calls, and prints what that raises, without the rows of this module and of runpy: the status."""
    try:
        call()
    except SystemExit as ended:
        return ended.code
    except BaseException as error:
        trace = error.__traceback__
        while trace is not None and any(trace.tb_frame.f_globals is it for it in (globals(), vars(runpy))):
            trace = trace.tb_next
        sys.excepthook(type(error), error.with_traceback(trace), trace)
        return INTERRUPTED if isinstance(error, KeyboardInterrupt) else 1
    return 0


def interrupt() -> None:
    """Ends the process as the interpreter does that was interrupted."""
    sys.stdout.flush()
    sys.stderr.flush()
    signal.signal(signal.SIGINT, signal.SIG_DFL)
    os.kill(os.getpid(), signal.SIGINT)


def main() -> None:
    words = Words(sys.argv[1:])
    begin(words.whole)
    on_signal()
    left: List[Any] = []

    def tell() -> None:
        report(sys.stderr)
        left.extend(reports().engine.open_now())
        for what, file in words.files.items():
            write(what, file)
    at_term(tell)
    at_end(tell)  # behind what the program registers itself, which may let go of something
    status, ended = status_of(lambda: run(words)), status_of(end)
    if INTERRUPTED in (status, ended):
        interrupt()
    sys.exit(3 if words.fails and left and status in (0, None) else status or ended)


if __name__ == "__main__":
    main()
