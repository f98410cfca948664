// Which scheduler tells, and which one subscribes.
import { operate } from '../core/operator.mjs';
import { Link } from '../core/link.mjs';
import { scheduleFor } from '../schedulers/schedule.mjs';

export const observeOn = (scheduler, delay = 0) => operate((source, to) => {
  source.subscribe(new Link(to,
    (value) => scheduleFor(to, scheduler, () => to.next(value), delay),
    () => scheduleFor(to, scheduler, () => to.complete(), delay),
    (error) => scheduleFor(to, scheduler, () => to.error(error), delay)));
});

export const subscribeOn = (scheduler, delay = 0) => operate((source, to) => {
  to.add(scheduler.schedule(() => source.subscribe(to), delay));
});
