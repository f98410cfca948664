"""RxPY as the page of differences has it: of each row, what has to be put into RxPY for it to tell what the package tells.

So a row excuses nothing by itself. A program of which the two differ is run again over RxPY with what its rows put in, and then has to
tell the same, note for note: an item that is lost, doubled or told to another is seen as it is anywhere else.
"""
import contextlib
import importlib

from rx.core import ConnectableObservable
from rx.scheduler import ImmediateScheduler

from .. import programs
from .ended import NOTHING_BEHIND_THE_END
from .lanes import IN_LANES
from .operators import at_once, by_order, delay_subscription, delayed, hands_on, sampled, skip_until, zipped
from .sharing import connected, counted, published


@contextlib.contextmanager
def put_in(changes):
    """RxPY with these: each is a place, and a function that makes of what stands there what is to."""
    before = []
    for owner, name, change in changes:
        owner = importlib.import_module(f"rx.{owner}") if isinstance(owner, str) else owner
        before.append((owner, name, getattr(owner, name)))
        setattr(owner, name, change(before[-1][2]))
    try:
        yield
    finally:
        for owner, name, it in reversed(before):
            setattr(owner, name, it)


#: Each row: its name, the words of which a program has one, or None where any may have it, and what is put into RxPY.
ROWS = [
    ("nothing is opened after the end", None, NOTHING_BEHIND_THE_END),
    ("the least and the greatest by their order", "min max min_by max_by", [
        (f"core.operators.{it}", "default_sub_comparer", by_order) for it in ("minby", "maxby")]),
    ("delay_with_mapper tells an item once", "delay_with_mapper", [("core.operators.delaywithmapper", "_delay_with_mapper", delayed)]),
    ("delay_subscription tells at once", "delay_subscription", [("core.operators.delaysubscription", "_delay_subscription", delay_subscription)]),
    ("a replay tells at once", "replay replay_counted replay_of ReplaySubject", [
        ("subject.replaysubject", "CurrentThreadScheduler", lambda _: ImmediateScheduler), ("core.operators.replay", "ReplaySubject", at_once)]),
    ("time_interval hands the subscription's scheduler on", "time_interval", [("core.operators.timeinterval", "_time_interval", hands_on)]),
    ("take_until and pairwise do too", "take_until take_until_never pairwise", [(f"core.operators.{it}", f"_{name}", hands_on) for it, name in (("takeuntil", "take_until"), ("pairwise", "pairwise"))]),
    ("skip_until ends with its source", "skip_until", [("core.operators.skipuntil", "_skip_until", lambda _: skip_until)]),
    ("zip pairs what waits", "zip zip_of publish_value", [("core.observable.zip", "_zip", lambda _: zipped)]),
    ("sample ends with its source", "sample sample_time", [("core.operators.sample", "sample_observable", sampled)]),
    ("a share, or what is published, has no end that it remembers", "share share_of publish_of publish_counted partition", [
        ("core.operators.publish", "_publish", published), ("core.operators.connectable.refcount", "_ref_count", counted)]),
    ("what has ended is connected for nobody", "replay_counted multicast_counted publish_value_counted", [(ConnectableObservable, "connect", connected)]),
    ("subscribe_on disposes at once", "subscribe_on", [("core.operators.subscribeon", "ScheduledDisposable", lambda _: lambda _, it: it)]),
    ("a composition tells behind what stands in its lane, and its end behind a release", None, IN_LANES),
]


def rows_of(program):
    """The rows that a program may differ by, which its words say."""
    words = {*programs.forms(program), *program["subjects"]}
    return [name for name, of, _ in ROWS if of is None or words & set(of.split())]


#: What tells as it is subscribed to, whatever is at work, and operators that subscribe to another as they are at work.
AT_ONCE = set("expand expand_none timeout timeout_with_mapper replay replay_counted replay_of publish_value publish_value_counted publish_value_of BehaviorSubject ReplaySubject".split())


def telling_at_once(program):
    """The pipelines with something that tells as it is subscribed to."""
    return {i for i, it in enumerate(program["pipelines"]) if AT_ONCE & set(programs.words_of(program, it))}


@contextlib.contextmanager
def with_rows(names):
    """RxPY with what these rows put in."""
    with put_in(dict.fromkeys(change for name, _, changes in ROWS if name in names for change in changes)):
        yield
