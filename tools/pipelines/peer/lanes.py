"""In which order it is told: in RxPY as put right a composition, an operator that has subscriptions of its own, hears one thing at a time, and tells
behind what stands in the lane of who hears it."""
import collections

import rx
from rx.core import Observable
from rx.disposable import Disposable, SingleAssignmentDisposable
from rx.scheduler import CurrentThreadScheduler
from rx.scheduler.scheduleditem import ScheduledItem
from rx.subject import Subject

from .ended import NOTHING_BEHIND_THE_END, PARTED, Asked, Connection, asked, marked
from .sharing import counted, published


class Lane:
    """What is to be told to one composition, or to one that subscribes: one thing at a time, and in order."""

    now = None  # the lane that is served
    told = None  # where a subject tells all of its observers: the lanes of these
    depth, later = 0, collections.deque()  # how many subjects are at it, and what comes behind all that is under way

    def __init__(self, of_composition=False):
        self.waiting, self.is_at_work, self.of_composition = collections.deque(), False, of_composition

    def tell(self, call):
        """Whether it was told, or waits."""
        self.waiting.append(call)
        if Lane.told is not None:
            Lane.told.append(self)
        else:
            self.serve()
        return not self.is_at_work and Lane.told is None

    def serve(self):
        """What this thread's scheduler puts off meanwhile comes behind what a composition is told."""
        if not self.is_at_work:
            trampoline = CurrentThreadScheduler.singleton()
            if self.of_composition and trampoline.schedule_required():
                trampoline.schedule(self.work)
            else:
                self.work()

    def work(self, *_):
        self.is_at_work = True
        try:
            while self.waiting:
                served(self, self.waiting.popleft())
        finally:
            self.is_at_work = False


def served(lane, call):
    before, Lane.now, Lane.told = (Lane.now, Lane.told), lane, None
    try:
        call()
    finally:
        Lane.now, Lane.told = before


class InLane(Asked):
    """A subscription whose notes stand in the lane of the composition, or of the subscriber, that it was made for. A composition ends
    behind what the source that ends releases."""

    ending = None  # the one whose end is told

    def __init__(self, *calls):
        super().__init__(*calls)
        if isinstance(self.by, Connection) and self.by.inner is None:
            self.by.inner = Lane()
        self.lane = self.inner = Lane() if self.by is None else self.by.inner
        self.is_composition = self.is_node = self.is_around = self.is_linked = self.exchanges = False
        self.goes_on, self.behind = None, []
        self.is_noted = self.stands_below_a_node()

    def takes_marks(self, source):
        super().takes_marks(source)
        for it in "is_composition", "is_node", "is_around", "is_linked", "goes_on", "exchanges":
            setattr(self, it, getattr(source, it, getattr(self, it)))
        if self.is_noted and isinstance(source, Subject) and self.tells_a_linked_one():
            self.is_noted, self.lane = False, Lane()
        if self.is_composition or getattr(source, "is_create", False):
            self.inner = Lane(True)

    def stands_below_a_node(self):
        """Whether it tells a function on items that stands below a node, perhaps through one that adds nothing: that is called as the item is noted,
        before anybody is told."""
        it = self.by
        while it is not None and it.is_around:
            it = it.by
        if it is None or it.by is None or it.is_node or it.is_composition:
            return False
        while it.by is not None and not it.by.is_composition:
            it = it.by
            if it.is_node:
                return True
        return False

    def tells_a_linked_one(self):
        """Whether a function with a state, or that hears of ends, is among those that it tells: these have a lane of their own."""
        it = self.by
        while it is not None and (it.is_around or not it.is_node) and not it.is_composition:
            if it.is_linked:
                return True
            it = it.by
        return False

    def told(self, call):
        """Calls it in the lane; whether that has been."""
        if self.lane is None or self.is_noted and Lane.now is not self.lane:  # a hub's, which tells its own at once
            call()
            return True
        if Lane.now is self.lane:
            served(self.lane, call)
            return True
        return self.lane.tell(call)

    def on_next(self, value):
        is_open = not self.is_stopped
        self.told(lambda: self.tells_left(value) if is_open and self.is_stopped else super(InLane, self).on_next(value))

    def tells_left(self, value):
        """Tells what stood in the lane before the inner observable that it came of was exchanged."""
        left = [self]
        while left[-1].by is not None and left[-1].is_stopped and not left[-1].by.exchanges:
            left.append(left[-1].by)
        last = left[-1]
        if last.by is None or not last.is_stopped or last.by.is_past:
            return
        before, last._on_next = last._on_next, last.by.on_next
        for it in left:
            it.is_stopped = False
        try:
            super().on_next(value)
        finally:
            last._on_next = before
            for it in left:
                it.is_stopped = True

    def on_error(self, error):
        goes_on = self.by is not None and self.by.goes_on in ("fails", "ends", "connection")
        self.ends((lambda: self.makes_way(self._on_error, error)) if goes_on else lambda: super(InLane, self).on_error(error))

    def on_completed(self):
        goes_on = self.by is not None and self.by.goes_on in ("completes", "ends", "connection")
        self.ends((lambda: self.makes_way(self._on_completed)) if goes_on else super().on_completed)

    def makes_way(self, call, *error):
        """What takes its place comes behind its release, and behind what is under way; what a connectable tells at its end, behind the first."""
        if not self.is_stopped:
            self.dispose()
            if Lane.depth and self.by.goes_on != "connection":
                Lane.later.append(lambda: call(*error))
            else:
                call(*error)

    def ends(self, tell):
        of = InLane.ending
        if self.is_composition and of is not None and of.by is self:
            of.behind.append(lambda: self.told(tell))
        elif not self.told(lambda: self.end(tell)):
            self._subscription.dispose()  # no release waits for who is at work

    def end(self, tell):
        before, InLane.ending = InLane.ending, self
        try:
            tell()
        finally:
            InLane.ending = before
        for it in self.behind:
            it()


class Part(Subject):
    """A window, or a group, which keeps what it is told till it is subscribed to."""

    def __init__(self):
        super().__init__()
        self.kept = []

    def keeps(self, tell, *note):
        if self.kept is None:
            tell(*note)
        else:
            self.kept.append((tell, *note))

    def on_next(self, value):
        self.keeps(super().on_next, value)

    def on_error(self, error):
        self.keeps(super().on_error, error)

    def on_completed(self):
        self.keeps(super().on_completed)

    def _subscribe_core(self, observer, scheduler=None):
        found = super()._subscribe_core(observer, scheduler)
        kept, self.kept = self.kept, None
        for tell, *note in kept or ():
            tell(*note)
        return found


def told_to_all(tell):
    """A subject puts a note into the lane of each observer, and then they are served."""
    def tells(self, *note):
        before, Lane.told = Lane.told, []
        Lane.depth += 1
        try:
            tell(self, *note)
        finally:
            lanes, Lane.told = Lane.told, before
            try:
                for it in lanes:
                    it.serve()
                while Lane.depth == 1 and Lane.later:
                    Lane.later.popleft()()
            finally:
                Lane.depth -= 1
    return tells


def scheduled_in_lane(init):
    """What a composition puts off is done in its lane."""
    def make(self, scheduler, state, action, duetime):
        by = Asked.asking

        def in_lane(*given, **more):
            found = []
            by.inner.tell(lambda: found.append(asked(by, action)(*given, **more)))
            return Disposable(lambda: [it.dispose() for it in found if it is not None])
        init(self, scheduler, state, in_lane if getattr(by, "is_composition", False) else action, duetime)
    return make


def behind_all(make):
    """An operator whose other observable is opened behind what is under way."""
    def makes(*given, **more):
        others = [Observable(lambda it, scheduler=None, other=other: opened_behind(other, it, scheduler)) if isinstance(other, Observable) and at else other
                  for at, other in enumerate(given)]
        return make(*others, **more)
    return makes


def opened_behind(source, observer, scheduler):
    found, by = SingleAssignmentDisposable(), Asked.asking

    def begin():
        found.disposable = source.subscribe_(observer.on_next, observer.on_error, observer.on_completed, scheduler)
    if Lane.depth:
        Lane.later.append(asked(by, begin))
    else:
        begin()
    return found


def projected(make):
    """An operator of which the function that makes inner observables is called as its item is told."""
    def makes(*given, **more):
        if composed.is_within:
            return make(*given, **more)
        if given and isinstance(given[0], Observable):
            return make(node(given[0]), *given[1:], **more)
        found = make(*given, **more)
        return lambda source: found(node(source))
    return makes


def node(source):
    found = Observable(lambda it, scheduler=None: source.subscribe_(it.on_next, it.on_error, it.on_completed, scheduler))
    found.is_node = True
    return found


def composed(make):
    """An operator that has subscriptions of its own; those that RxPY makes it of have none."""
    def makes(*given, **more):
        if composed.is_within:
            return make(*given, **more)
        composed.is_within = True
        try:
            found = make(*given, **more)
        finally:
            composed.is_within = False
        if isinstance(found, Observable):
            found.is_composition = True
            return found
        return composed(found)
    return makes


composed.is_within = False


#: Where operators stand that have subscriptions of their own.
COMPOSED = {
    "core.observable": "amb._amb zip._zip combinelatest._combine_latest withlatestfrom._with_latest_from forkjoin._fork_join catch._catch_with_iterable "
                       "onerrorresumenext._on_error_resume_next",
    "core.operators": f"amb._amb {PARTED} buffer._buffer buffer._buffer_when buffer._buffer_toggle buffer._buffer_with_count "
                      "bufferwithtime._buffer_with_time bufferwithtimeorcount._buffer_with_time_or_count "
                      "catch._catch retry._retry debounce._debounce debounce._throttle_with_mapper throttlefirst._throttle_first delay._delay "
                      "delaysubscription._delay_subscription delaywithmapper._delay_with_mapper timeout._timeout timeoutwithmapper._timeout_with_mapper "
                      "observeon._observe_on subscribeon._subscribe_on takewithtime._take_with_time skipwithtime._skip_with_time "
                      "takeuntilwithtime._take_until_with_time skipuntilwithtime._skip_until_with_time zip._zip_with_iterable exclusive._exclusive expand._expand "
                      "skipuntil._skip_until sample._sample sequenceequal._sequence_equal"}


def of_the_engine(make, *more):
    """An operator that is a node, unless a composition is made of it."""
    whole = marked("is_node")(make)
    for it in more:
        whole = marked(it)(whole)
    return lambda *given, **more: (make if composed.is_within else whole)(*given, **more)


def bounded(make):
    """merge() has subscriptions of its own where it has a bound, and goes on with the next."""
    whole = composed(marked("goes_on", "completes")(make))
    return lambda *sources, max_concurrent=None: (make if max_concurrent is None else whole)(*sources, max_concurrent=max_concurrent)


#: Functions with a state, or that hear of ends.
LINKED = "scan._scan take._take takewhile._take_while takewhile._take_while_indexed skip._skip skipwhile._skip_while skiplast._skip_last pairwise._pairwise " \
         "distinct._distinct distinctuntilchanged._distinct_until_changed materialize._materialize dematerialize._dematerialize " \
         "defaultifempty._default_if_empty toset._to_set todict._to_dict elementatordefault._element_at_or_default find._find_value " \
         "firstordefault._first_or_default_async lastordefault._last_or_default singleordefault._single_or_default_async takelast._take_last " \
         "takelastbuffer._take_last_buffer takelastwithtime._take_last_with_time skiplastwithtime._skip_last_with_time some._some do._do_action minby._min_by " \
         "maxby._max_by toiterable._to_iterable filter._filter_indexed map._map_indexed timestamp._timestamp timeinterval._time_interval"


IN_LANES = [
    *NOTHING_BEHIND_THE_END, ("core.operators.publish", "_publish", published), ("core.operators.connectable.refcount", "_ref_count", counted), (Asked, "of", lambda _: InLane),
    *[(f"core.operators.{it}", "Subject", lambda _: Part) for it in ("window", "windowwithcount", "windowwithtime", "windowwithtimeorcount", "groupbyuntil", "groupjoin")],
    *[(Subject, f"on_{it}", told_to_all) for it in ("next", "error", "completed")], ("core.operators.merge", "_merge", bounded),
    *[(f"core.{it}", name, of_the_engine) for it, name in (
        ("operators.merge", "_merge_all"), ("operators.switchlatest", "_switch_latest"), ("observable.concat", "_concat_with_iterable"),
        ("operators.takeuntil", "_take_until"))],
    *[(f"core.{it}", name, lambda make: of_the_engine(make, "is_around")) for it, name in (
        ("observable.using", "_using"), ("observable.defer", "_defer"), ("operators.finallyaction", "_finally_action"))],
    ("core.operators.flatmap", "_flat_map_internal", projected), ("core.operators.flatmap", "_flat_map_latest", projected),
    ("core.operators.switchlatest", "_switch_latest", marked("exchanges")), (rx, "create", marked("is_create")), ("core.observable.concat", "_concat_with_iterable", marked("goes_on", "completes")),
    ("core.observable.catch", "_catch_with_iterable", marked("goes_on", "fails")), ("core.operators.catch", "_catch", marked("goes_on", "fails")),
    ("core.observable.onerrorresumenext", "_on_error_resume_next", marked("goes_on", "ends")),
    *[(f"core.operators.timeout{it}", f"_timeout{under}", behind_all) for it, under in (("", ""), ("withmapper", "_with_mapper"))], (ScheduledItem, "__init__", scheduled_in_lane),
    *[(f"{place}.{it.split('.')[0]}", it.split(".")[1], composed) for place, those in COMPOSED.items() for it in those.split()],
    *[(f"core.operators.{it.split('.')[0]}", it.split(".")[1], marked("is_linked")) for it in LINKED.split()]]
