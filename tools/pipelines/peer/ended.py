"""Nothing is opened after the end: in RxPY as put right a subscription knows for which other it was made."""
from rx.core import ConnectableObservable, Observable
from rx.core.observer.autodetachobserver import AutoDetachObserver
from rx.disposable import Disposable
from rx.scheduler import CurrentThreadScheduler, ImmediateScheduler
from rx.scheduler.scheduleditem import ScheduledItem

from ..world import World
from .operators import other_of_amb
from .sharing import Hub


class Asked(AutoDetachObserver):
    """A subscription, which knows for whose it was made: `asking` is that whose operator is at work."""

    asking, of, outlives, has_ended = None, None, False, False

    def __init__(self, on_next=None, on_error=None, on_completed=None):
        super().__init__(on_next, on_error, on_completed)
        self.by = Asked.asking
        self._on_next, self._on_error, self._on_completed = (asked(self.by, it) for it in (self._on_next, self._on_error, self._on_completed))

    def takes_marks(self, source):
        """Takes over what is known of the observable that is subscribed to."""
        self.outlives = getattr(source, "outlives", False)

    def on_next(self, value):
        if not self.is_past:
            super().on_next(value)

    def on_error(self, error):
        if not self.is_past:
            self.has_ended = True
            super().on_error(error)

    def on_completed(self):
        if not self.is_past:
            self.has_ended = True
            super().on_completed()

    @property
    def is_past(self):
        """Whether it has ended, or one above. A window outlives the end of those with which it was told: they are neighbours, and nobody left them."""
        it, run, outlives = self, False, False
        while it is not None:
            outlives = it.outlives or run and outlives
            if it.is_stopped and not it.has_ended or run and not it.is_stopped and not outlives:
                return True
            run, outlives = it.is_stopped, outlives and it.is_stopped
            it = it.by
        return run


Asked.of = Asked


def asked(by, call):
    """A function that is called for the subscription that it belongs to."""
    def called(*given, **more):
        before, Asked.asking = Asked.asking, by
        try:
            return call(*given, **more)
        finally:
            Asked.asking = before
    return called


def subscribe_asked(self, on_next=None, on_error=None, on_completed=None, scheduler=None):
    """Nothing is opened after the end: what subscribes for one who has ended is given nothing."""
    it = Asked.of(on_next, on_error, on_completed)
    it.takes_marks(self)
    if it.by is not None and it.by.is_past:
        return Disposable()

    def begin(*_):
        try:
            found = asked(it, self._subscribe_core)(it, scheduler)
        except Exception as error:
            if not it.fail(error):
                raise
        else:
            it.subscription = found if hasattr(found, "dispose") else Disposable(found)
    trampoline = CurrentThreadScheduler.singleton()
    if trampoline.schedule_required():
        trampoline.schedule(begin)
    else:
        begin()
    return Disposable(it.dispose)


def connected_for_all(connect):
    """A connection is nobody's own."""
    def connects(self, scheduler=None):
        if Asked.asking is not None and Asked.asking.is_past:
            return Disposable()
        return asked(self.asker if isinstance(self, Hub) else Connection(), connect)(self, scheduler)
    return connects


class Connection:
    """For whom the source of a connectable is subscribed to: for no observer."""

    is_stopped = is_past = outlives = has_ended = exchanges = is_node = is_around = is_linked = is_composition = False
    by, inner, goes_on = None, None, "connection"


def scheduled(init):
    """An action is done for whoever had it put off, unless that has ended."""
    def make(self, scheduler, state, action, duetime):
        by = Asked.asking

        def done(*given, **more):
            return None if by is not None and by.is_past else asked(by, action)(*given, **more)
        init(self, scheduler, state, done, duetime)
    return make


def scheduled_at_once(invoke):
    """What is done at once is not done for who has ended."""
    return lambda self, *given, **more: Disposable() if Asked.asking is not None and Asked.asking.is_past else asked(Asked.asking, invoke)(self, *given, **more)


def done_for_nobody(do):
    """What a callback does is its own."""
    return lambda self, *of: asked(None, do)(self, *of)


def marked(name, value=True):
    """A function of observables, which bear this mark."""
    def mark(make):
        def makes(*given, **more):
            found = make(*given, **more)
            if isinstance(found, Observable):
                setattr(found, name, value)
                return found
            return marked(name, value)(found)
        return makes
    return mark


#: Operators that tell windows, which outlive those with which they were told.
PARTED = "window._window window._window_when window._window_toggle windowwithcount._window_with_count windowwithtime._window_with_time " \
         "windowwithtimeorcount._window_with_time_or_count groupby._group_by groupbyuntil._group_by_until"
NOTHING_BEHIND_THE_END = [
    (Observable, "subscribe_", lambda _: subscribe_asked), (ScheduledItem, "__init__", scheduled), (ImmediateScheduler, "schedule", scheduled_at_once),
    (World, "do", done_for_nobody), (ConnectableObservable, "connect", connected_for_all), (Hub, "connect", connected_for_all),
    ("core.operators.amb", "_amb", other_of_amb),
    *[(f"core.operators.{it.split('.')[0]}", it.split(".")[1], marked("outlives")) for it in PARTED.split()]]
