import { Link } from '../core/link.mjs';
import { operate } from '../core/operator.mjs';
import { concat } from '../sources/combining.mjs';
import { innerFrom } from '../sources/from.mjs';
import { timer } from '../sources/timer.mjs';
import { asyncScheduler } from '../schedulers/async.mjs';
import { scheduleFor } from '../schedulers/schedule.mjs';
import { ignoreElements, map } from './items.mjs';
import { take } from './ends.mjs';
import { mergeMap } from './flat.mjs';
import { TimeoutError } from '../core/errors.mjs';

const isValidDate = (value) => value instanceof Date && !Number.isNaN(+value);

export function delayWhen(durationSelector, subscriptionDelay) {
  if (subscriptionDelay) {
    return (source) => concat(subscriptionDelay.pipe(take(1), ignoreElements()), source.pipe(delayWhen(durationSelector)));
  }
  return mergeMap((value, index) => innerFrom(durationSelector(value, index)).pipe(take(1), map(() => value)));
}
export function delay(due, scheduler = asyncScheduler) {
  const duration = timer(due, scheduler);
  return delayWhen(() => duration);
}

export function timeout(config, schedulerArg) {
  const { first, each, with: make = () => { throw new TimeoutError(info_now); }, scheduler = schedulerArg ?? asyncScheduler, meta = null } =
    isValidDate(config) ? { first: config } : typeof config === 'number' ? { each: config } : config;
  let info_now = null;
  if (first == null && each == null) throw new TypeError('No timeout provided.');
  return operate((source, to) => {
    let timer_of = null, last = null, seen = 0;
    const starts = (wait) => {
      timer_of = scheduleFor(to, scheduler, () => {
        try {
          link.unsubscribe();
          info_now = { meta, lastValue: last, seen };
          innerFrom(make({ meta, lastValue: last, seen })).subscribe(to);
        } catch (error) { to.error(error); }
      }, wait);
    };
    const link = new Link(to, (value) => {
      timer_of?.unsubscribe();
      seen++;
      to.next(last = value);
      if (each > 0) starts(each);
    }, undefined, undefined, () => {
      if (!timer_of?.closed) timer_of?.unsubscribe();
      last = null;
    });
    source.subscribe(link);
    if (!seen && !link.closed) starts(first != null ? (typeof first === 'number' ? first : +first - scheduler.now()) : each);
  });
}
export function timeoutWith(due, withObservable, scheduler = asyncScheduler) {
  if (!withObservable) throw new TypeError('No observable provided to switch to');
  const time = isValidDate(due) ? { first: due } : typeof due === 'number' ? { each: due } : null;
  if (!time) throw new TypeError('No timeout provided.');
  return timeout({ ...time, scheduler, with: () => withObservable });
}
