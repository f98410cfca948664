import { Link } from '../core/link.mjs';
import { operate } from '../core/operator.mjs';
import { asyncScheduler } from '../schedulers/async.mjs';
import { TimeInterval } from './items.mjs';

export const timeInterval = (scheduler = asyncScheduler) => operate((source, to) => {
  let last = scheduler.now();
  source.subscribe(new Link(to, (value) => {
    const now = scheduler.now(), since = now - last;
    last = now;
    to.next(new TimeInterval(value, since));
  }));
});
