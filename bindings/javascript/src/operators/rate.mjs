// Which items pass in time: debounce, throttle, audit, sample.
import { Link } from '../core/link.mjs';
import { operate } from '../core/operator.mjs';
import { noop } from '../core/util.mjs';
import { innerFrom } from '../sources/from.mjs';
import { interval, timer } from '../sources/timer.mjs';
import { asyncScheduler } from '../schedulers/async.mjs';

// One waits at a time. Its selector may itself emit, end or leave; then what it answers is not subscribed to.
export const debounce = (durationSelector) => operate((source, to) => {
  let has = false, latest, waits = null, turn = 0;
  const leaves = () => {
    waits?.unsubscribe();
    waits = null;
  };
  const emit = () => {
    leaves();
    if (!has) return;
    has = false;
    const value = latest;
    latest = undefined;
    to.next(value);
  };
  source.subscribe(new Link(to, (value) => {
    leaves();
    has = true;
    latest = value;
    const mine = ++turn, duration = innerFrom(durationSelector(value));
    if (mine !== turn || to.closed || to.isStopped) return;
    waits = new Link(to, emit, noop);
    duration.subscribe(waits);
  }, () => {
    turn++;
    emit();
    to.complete();
  }, undefined, () => {
    turn++;
    latest = waits = null;
  }));
});

export const debounceTime = (dueTime, scheduler = asyncScheduler) => operate((source, to) => {
  let task = null, last, at = 0;
  const emit = () => {
    if (!task) return;
    task.unsubscribe();
    task = null;
    const value = last;
    last = undefined;
    to.next(value);
  };
  function waits() {
    const until = at + dueTime, now = scheduler.now();
    if (now < until) {
      task = this.schedule(undefined, until - now);
      to.add(task);
      return;
    }
    emit();
  }
  source.subscribe(new Link(to, (value) => {
    last = value;
    at = scheduler.now();
    if (task) return;
    task = scheduler.schedule(waits, dueTime);
    to.add(task);
  }, () => {
    emit();
    to.complete();
  }, undefined, () => { last = task = null; }));
});

export const throttle = (durationSelector, config) => operate((source, to) => {
  const { leading = true, trailing = false } = config ?? {};
  let has = false, held = null, waits = null, is_over = false;
  const ends = () => {
    waits?.unsubscribe();
    waits = null;
    if (!trailing) return;
    send();
    if (is_over) to.complete();
  };
  const cleans = () => {
    waits = null;
    if (is_over) to.complete();
  };
  // a duration that tells as it is subscribed to is heard on, as in RxJS
  const starts = (value) => { waits = innerFrom(durationSelector(value)).subscribe(new Link(to, ends, cleans)); };
  const send = () => {
    if (!has) return;
    has = false;
    const value = held;
    held = null;
    to.next(value);
    if (!is_over) starts(value);
  };
  source.subscribe(new Link(to, (value) => {
    has = true;
    held = value;
    if (waits && !waits.closed) return;
    if (leading) send(); else starts(value);
  }, () => {
    is_over = true;
    if (!(trailing && has && waits && !waits.closed)) to.complete();
  }));
});
export function throttleTime(duration, scheduler = asyncScheduler, config) {
  return throttle(() => timer(duration, scheduler), config);
}

export const audit = (durationSelector) => operate((source, to) => {
  let has = false, last = null, waits = null, is_over = false;
  const ends = () => {
    waits?.unsubscribe();
    waits = null;
    if (has) {
      has = false;
      const value = last;
      last = null;
      to.next(value);
    }
    if (is_over) to.complete();
  };
  const cleans = () => {
    waits = null;
    if (is_over) to.complete();
  };
  source.subscribe(new Link(to, (value) => {
    has = true;
    last = value;
    if (waits) return;
    waits = new Link(to, ends, cleans);
    innerFrom(durationSelector(value)).subscribe(waits);
  }, () => {
    is_over = true;
    if (!has || !waits || waits.closed) to.complete();
  }));
});
export const auditTime = (duration, scheduler = asyncScheduler) => audit(() => timer(duration, scheduler));

export const sample = (notifier) => operate((source, to) => {
  let has = false, last = null;
  source.subscribe(new Link(to, (value) => {
    has = true;
    last = value;
  }));
  innerFrom(notifier).subscribe(new Link(to, () => {
    if (!has) return;
    has = false;
    const value = last;
    last = null;
    to.next(value);
  }, noop));
});
export const sampleTime = (period, scheduler = asyncScheduler) => sample(interval(period, scheduler));
