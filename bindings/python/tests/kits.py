"""What the tests of operators are run over: RxPY where it is installed, this package, and this package under RxPY's own clock.

The package stands over the model of the engine, or with CELLARCLIFF_LIBRARY=1 over libcellarcliff: by the extension where that is
built, with CELLARCLIFF_CTYPES=1 by ctypes.
"""
import importlib
import os
from types import SimpleNamespace

from cellarcliff import rx
from cellarcliff.rx import _crossing, _engine
from tests import model_engine

try:
    import rx as rxpy
    if not hasattr(rxpy, "operators") and not hasattr(importlib.import_module("rx.operators"), "flat_map"):
        rxpy = None
except ImportError:
    rxpy = None

_model = None if os.environ.get("CELLARCLIFF_LIBRARY") else model_engine.find()
if _model is not None:
    _crossing.C.make_calls = _model


def is_model():
    """Whether the engine is the model, which is slow."""
    return _model is not None


def is_exact():
    """Whether no interrupt can come between what has to stand together: by the extension."""
    return _crossing.IS_EXTENSION


def fresh_engine(max_events=0):
    return _engine.Engine(max_events)


def _kit(name, package, testing, engine):
    of = lambda module: importlib.import_module(f"{package}.{module}")
    time = importlib.import_module(testing)
    kit = SimpleNamespace(name=name, rx=importlib.import_module(package), ops=of("operators"), Subject=of("subject").Subject,
                          disposable=of("disposable"), TestScheduler=time.TestScheduler, engine=engine)
    kit.on_next, kit.on_error, kit.on_completed, kit.subscribe = (
        getattr(time.ReactiveTest, it) for it in ("on_next", "on_error", "on_completed", "subscribe"))
    return kit


def ours(testing="cellarcliff.rx.testing", name="cellarcliff"):
    return _kit(name, "cellarcliff.rx", testing, rx.use(fresh_engine()))


def theirs():
    return _kit("RxPY", "rx", "rx.testing", None)


def kits():
    """RxPY first, so that an expectation which is wrong is seen there."""
    if rxpy is not None:
        yield theirs
    yield ours
    if rxpy is not None:
        yield lambda: ours("rx.testing", "cellarcliff, RxPY's TestScheduler")
