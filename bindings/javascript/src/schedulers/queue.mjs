import { AsyncAction } from './action.mjs';
import { AsyncScheduler } from './async.mjs';

class QueueAction extends AsyncAction {
  schedule(state, delay = 0) {
    if (delay > 0) return super.schedule(state, delay);
    this.delay = delay;
    this.state = state;
    this.scheduler.flush(this);
    return this;
  }
  execute(state, delay) { return delay > 0 || this.closed ? super.execute(state, delay) : this._execute(state, delay); }
  requestAsyncId(scheduler, id, delay = 0) {
    if (delay != null ? delay > 0 : this.delay > 0) return super.requestAsyncId(scheduler, id, delay);
    scheduler.flush(this);
    return 0;
  }
}

/** Work at once, behind what is at work. */
export class QueueScheduler extends AsyncScheduler {}
export const queueScheduler = new QueueScheduler(QueueAction);
export { queueScheduler as queue };
