import { dates } from './providers.mjs';

/** When work is done: each piece is an action of this scheduler's class. */
export class Scheduler {
  static now = () => dates.now();
  constructor(actionClass, now = Scheduler.now) {
    this.schedulerActionCtor = actionClass;
    this.now = now;
  }
  schedule(work, delay = 0, state) { return new this.schedulerActionCtor(this, work).schedule(state, delay); }
}
