"""Operators, with the names and the signatures of RxPY 3: each answers a function from an observable to an observable.

| What it is | Operators |
|---|---|
| nodes of the engine | finally_action; flat_map, flat_map_indexed, merge, merge_all; flat_map_latest, switch_latest; take_until; publish, ref_count, share |
| functions on items | those of `items` and `sums`, and take_last_with_time, skip_last_with_time |
| compositions, each one leaf with subscriptions of its own | all others: `joined`, `faults`, `times`, `windows`, and merge with a bound |
| by a subject | multicast, publish_value, replay |
"""
from __future__ import annotations

from typing import TYPE_CHECKING, Any

from ..._nearest import keyed, lacking
from .._observable import Observable, pipe
from ..sharing import ConnectableObservable
from .faults import catch, do_while, repeat, retry, while_do
from .items import (as_observable, default_if_empty, dematerialize, distinct, distinct_until_changed, do, do_action, filter, filter_indexed,
                    ignore_elements, map, map_indexed, materialize, pairwise, pluck, pluck_attr, scan, skip, skip_last, skip_while,
                    skip_while_indexed, slice, starmap, starmap_indexed, take, take_while, take_while_indexed)
from .joined import (amb, combine_latest, concat, concat_map, exclusive, expand, fork_join, on_error_resume_next, sequence_equal, skip_until,
                     start_with, with_latest_from, zip, zip_with_iterable, zip_with_list)
from .others import partition, partition_indexed, to_future
from .shared import connect, multicast, publish, publish_value, ref_count, replay, share
from .sums import (all, average, contains, count, element_at, element_at_or_default, find, find_index, first, first_or_default, is_empty, last,
                   last_or_default, max, max_by, min, min_by, reduce, single, single_or_default, single_or_default_async, some, sum, take_last,
                   take_last_buffer, to_dict, to_iterable, to_list, to_set)
from .times import (debounce, delay, delay_subscription, delay_with_mapper, observe_on, sample, skip_last_with_time, skip_until_with_time,
                    skip_with_time, subscribe_on, take_last_with_time, take_until_with_time, take_with_time, throttle_first,
                    throttle_with_mapper, throttle_with_timeout, time_interval, timeout, timeout_with_mapper, timestamp)
from .trees import finally_action, flat_map, flat_map_indexed, flat_map_latest, merge, merge_all, switch_latest, take_until
from .windows import (buffer, buffer_toggle, buffer_when, buffer_with_count, buffer_with_time, buffer_with_time_or_count, group_by,
                      group_by_until, window, window_toggle, window_when, window_with_count, window_with_time, window_with_time_or_count)

__all__ = ["ConnectableObservable", "Observable", "pipe", "all", "amb", "as_observable", "average", "buffer", "buffer_toggle",
           "buffer_when", "buffer_with_count", "buffer_with_time", "buffer_with_time_or_count", "catch", "combine_latest", "concat",
           "concat_map", "connect", "contains", "count", "debounce", "default_if_empty", "delay", "delay_subscription",
           "delay_with_mapper", "dematerialize", "distinct", "distinct_until_changed", "do", "do_action", "do_while", "element_at",
           "element_at_or_default", "exclusive", "expand", "filter", "filter_indexed", "finally_action", "find", "find_index",
           "first", "first_or_default", "flat_map", "flat_map_indexed", "flat_map_latest", "fork_join", "group_by", "group_by_until",
           "ignore_elements", "is_empty", "last", "last_or_default", "map", "map_indexed", "materialize", "max", "max_by", "merge",
           "merge_all", "min", "min_by", "multicast", "observe_on", "on_error_resume_next", "pairwise", "partition",
           "partition_indexed", "pluck", "pluck_attr", "publish", "publish_value", "reduce", "ref_count", "repeat", "replay", "retry",
           "sample", "scan", "sequence_equal", "share", "single", "single_or_default", "single_or_default_async", "skip", "skip_last",
           "skip_last_with_time", "skip_until", "skip_until_with_time", "skip_while", "skip_while_indexed", "skip_with_time", "slice",
           "some", "starmap", "starmap_indexed", "start_with", "subscribe_on", "sum", "switch_latest", "take", "take_last",
           "take_last_buffer", "take_last_with_time", "take_until", "take_until_with_time", "take_while", "take_while_indexed",
           "take_with_time", "throttle_first", "throttle_with_mapper", "throttle_with_timeout", "time_interval", "timeout",
           "timeout_with_mapper", "timestamp", "to_dict", "to_future", "to_iterable", "to_list", "to_set", "while_do", "window",
           "window_toggle", "window_when", "window_with_count", "window_with_time", "window_with_time_or_count", "with_latest_from",
           "zip", "zip_with_iterable", "zip_with_list"]

#: What RxPY's module has besides.
_ELSEWHERE = ("group_join", "join", "to_marbles")

if not TYPE_CHECKING:
    from ..internal import Missing

    def __getattr__(name: str) -> Any:
        if name in _ELSEWHERE:
            raise Missing(f"cellarcliff.rx.operators has no {name}(): RxPY's own takes an observable of this package as its source, so pipe "
                          f"it into rx.operators.{name}(..)")
        raise lacking(__name__, name)


keyed(__name__)
