import { Observable } from '../core/observable.mjs';
import { isScheduler } from '../core/util.mjs';
import { asyncScheduler } from '../schedulers/async.mjs';

export function timer(dueTime = 0, intervalOrScheduler, scheduler = asyncScheduler) {
  let period = -1;
  if (intervalOrScheduler != null) {
    if (isScheduler(intervalOrScheduler)) scheduler = intervalOrScheduler;
    else period = intervalOrScheduler;
  }
  return new Observable((subscriber) => {
    const due = dueTime instanceof Date ? +dueTime - scheduler.now() : dueTime;
    let n = 0;
    return scheduler.schedule(function again() {
      if (subscriber.closed) return;
      subscriber.next(n++);
      if (period >= 0) this.schedule(undefined, period);
      else subscriber.complete();
    }, Math.max(due, 0));
  });
}
export const interval = (period = 0, scheduler = asyncScheduler) => timer(Math.max(period, 0), Math.max(period, 0), scheduler);
