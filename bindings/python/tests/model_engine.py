"""An engine by its definitions, in the place of libcellarcliff: the calls that cellarcliff/rx/_slow.py makes.

It keeps the whole history and asks all of it, so it is slow, and for small programs.
"""
import gc
import os
import pathlib
import sys
import threading

TOOLS = pathlib.Path(__file__).resolve().parents[3] / "tools"


class _Still:
    """A lock under which nothing is collected: a finalizer that disposes would come in the midst of a command."""

    def __init__(self):
        self._lock, self._was = threading.RLock(), True
        gc.enable()

    def __enter__(self):
        self._lock.acquire()
        self._was = gc.isenabled()
        gc.disable()

    def __exit__(self, *_):
        if self._was:
            gc.enable()
        self._lock.release()


_still = _Still()
if hasattr(os, "register_at_fork"):
    os.register_at_fork(after_in_child=_still.__init__)  # another thread may have had it


def find():
    """The class of such engines; None where this is no checkout."""
    if not (TOOLS / "model/engine.py").is_file():
        return None
    if str(TOOLS) not in sys.path:
        sys.path.append(str(TOOLS))
    from model import turns as definitions
    from model.engine import Command
    from model.scenario import Canonical

    class ModelCalls:
        """A key is (number, number)."""

        def __init__(self, max_events=0):
            self.lock, self._engine = _still, definitions.Turns(Canonical())

        def stack(self):
            return [threading.get_ident(), 0, 0]

        def step(self, stack, words):
            first, hub, slot, _, user, value, by, spare = words
            with self.lock:
                step = self._engine.step(definitions.Stack(*stack), Command(
                    first & 255, first >> 8 & 255, first >> 16 & 255, first >> 24 & 255, first >> 32, hub, slot, user, value, by, spare))
            made, answer = step.made, [0] * 24
            for at, key in ((0, made.node), (2, made.other)):
                answer[at] = answer[at + 1] = 2**64 - 1 if key is None else key
            answer[4:8] = made.is_connected, made.hub, made.copies, len(made.closings)
            return made.status, answer, list(made.closings), self._handed(step)

        def next(self, stack):
            with self.lock:
                return self._handed(self._engine.step(definitions.Stack(*stack)))

        def _handed(self, step):
            if step.task is None:
                return [0] * 8
            kind, user, value, by, carries = step.task.effect
            return [1, int(step.is_own), step.task.ticket, 0, user, value, by, kind | carries << 32]

        def let_pass(self, stack, depth, is_now):
            with self.lock:
                self._engine.let_pass(definitions.Stack(*stack), depth, is_now)

        def stop(self, stack):
            with self.lock:
                self._engine.stop(definitions.Stack(*stack))

        def totals(self):
            with self.lock:
                return self._engine.totals()
    return ModelCalls
