// The same again, or another one in its place: at an error, at the end, or when an observable says so.
import { Link } from '../core/link.mjs';
import { operate } from '../core/operator.mjs';
import { Subject } from '../core/subject.mjs';
import { noop } from '../core/util.mjs';
import { MOST } from '../engine/crossing.mjs';
import { innerFrom } from '../sources/from.mjs';
import { EMPTY } from '../sources/simple.mjs';
import { timer } from '../sources/timer.mjs';

/** Subscribes again and again without depth: `start` is called while somebody asked for it meanwhile. What never ends by itself, and goes on at once each
 *  time, is an error behind so many. */
function looping(to, is_endless, start) {
  let is_busy = false, is_asked = false;
  return () => {
    is_asked = true;
    if (is_busy) return;
    is_busy = true;
    try {
      for (let many = 0; is_asked; many++) {
        is_asked = false;
        if (is_endless && many === MOST) to.error(new RangeError(`cellarcliff: what was repeated came ${MOST} times at once`));
        else start();
      }
    } finally { is_busy = false; }
  };
}

export const catchError = (selector) => operate((source, to) => {
  const caught = catchError(selector)(source);
  let is_subscribing = true, other = null;
  const inner = new Link(to, undefined, undefined, (error) => {
    other = innerFrom(selector(error, caught));
    if (!is_subscribing) goesOn();
  });
  const goesOn = () => {
    inner.unsubscribe();
    other.subscribe(to);
  };
  source.subscribe(inner);
  is_subscribing = false;
  if (other !== null) goesOn(); // a source that fails at once is torn down first
});

export function repeat(countOrConfig) {
  let count = Infinity, delay;
  if (countOrConfig != null) {
    if (typeof countOrConfig === 'object') ({ count = Infinity, delay } = countOrConfig);
    else count = countOrConfig;
  }
  if (count <= 0) return () => EMPTY;
  return operate((source, to) => {
    let so_far = 0;
    const again = looping(to, count === Infinity, () => {
      let is_subscribing = true, is_over = false;
      const goesOn = () => {
        inner.unsubscribe();
        waits(delay, so_far, to, again);
      };
      const inner = new Link(to, undefined, () => {
        if (++so_far >= count) to.complete();
        else if (is_subscribing) is_over = true;
        else goesOn();
      });
      source.subscribe(inner);
      is_subscribing = false;
      if (is_over) goesOn();
    });
    again();
  });
}

export function retry(configOrCount = Infinity) {
  const { count = Infinity, delay, resetOnSuccess = false } = configOrCount && typeof configOrCount === 'object' ? configOrCount : { count: configOrCount };
  if (count <= 0) return (source) => source;
  return operate((source, to) => {
    let so_far = 0;
    const again = looping(to, count === Infinity || resetOnSuccess, () => {
      const inner = new Link(to, (value) => {
        if (resetOnSuccess) so_far = 0;
        to.next(value);
      }, undefined, (error) => {
        if (so_far++ >= count) to.error(error);
        else waits(typeof delay === 'function' ? (many) => delay(error, many) : delay, so_far, to, next);
      });
      const next = () => {
        inner.unsubscribe();
        again();
      };
      source.subscribe(inner);
    });
    again();
  });
}

/** Goes on at once, after so many milliseconds, or when an observable tells; its end without an item is the end. */
function waits(delay, many, to, goOn) {
  if (delay == null) return goOn();
  const notifier = typeof delay === 'number' ? timer(delay) : innerFrom(delay(many));
  const link = new Link(to, () => {
    link.unsubscribe();
    goOn();
  }, () => to.complete());
  notifier.subscribe(link);
}

/** An observable of ends says when to go on. */
const when = (of_error) => (notifier) => operate((source, to) => {
  let inner = null, ends = null, is_source_over = false, is_notifier_over = false;
  const done = () => is_notifier_over && is_source_over && (to.complete(), true);
  const told = () => {
    if (ends) return ends;
    ends = new Subject();
    innerFrom(notifier(ends)).subscribe(new Link(to, () => (inner ? again() : (is_asked = true)), of_error ? undefined : () => {
      is_notifier_over = true;
      done();
    }));
    return ends;
  };
  let is_asked = false;
  const again = looping(to, true, () => {
    is_source_over = is_asked = false;
    inner?.unsubscribe();
    inner = new Link(to, undefined, of_error ? undefined : () => {
      is_source_over = true;
      if (!done()) told().next(undefined);
    }, of_error ? (error) => told().next(error) : undefined);
    source.subscribe(inner);
    if (is_asked) again();
  });
  again();
});
export const repeatWhen = when(false);
export const retryWhen = when(true);

export function onErrorResumeNextWith(source, others) {
  const all = [source, ...others];
  return operate((_, to) => {
    const again = looping(to, false, () => {
      if (to.closed || to.isStopped) return;
      if (all_left.length === 0) return to.complete();
      let next;
      try { next = innerFrom(all_left.shift()); } catch { return again(); }
      next.subscribe(new Link(to, undefined, noop, noop, () => again()));
    });
    const all_left = [...all];
    again();
  })(source);
}
