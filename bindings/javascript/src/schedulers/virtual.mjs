import { Subscription } from '../core/subscription.mjs';
import { AsyncAction } from './action.mjs';
import { AsyncScheduler } from './async.mjs';

/** Work in virtual time: `flush` does all of it, in the order of time. */
export class VirtualTimeScheduler extends AsyncScheduler {
  static frameTimeFactor = 10;
  frame = 0;
  index = -1;

  constructor(actionClass = VirtualAction, maxFrames = Infinity) {
    super(actionClass, () => this.frame);
    this.maxFrames = maxFrames;
  }

  flush() {
    const { actions, maxFrames } = this;
    let error, action;
    while ((action = actions[0]) && action.delay <= maxFrames) {
      actions.shift();
      this.frame = action.delay;
      if ((error = action.execute(action.state, action.delay))) break;
    }
    if (!error) return;
    while ((action = actions.shift())) action.unsubscribe();
    throw error;
  }
}

export class VirtualAction extends AsyncAction {
  active = true;

  constructor(scheduler, work, index = (scheduler.index += 1)) {
    super(scheduler, work);
    this.index = scheduler.index = index;
  }

  // An action that is put off again is another one, so that the order is kept.
  schedule(state, delay = 0) {
    if (!Number.isFinite(delay)) return Subscription.EMPTY;
    if (!this.id) return super.schedule(state, delay);
    this.active = false;
    const again = new VirtualAction(this.scheduler, this.work);
    this.add(again);
    return again.schedule(state, delay);
  }
  requestAsyncId(scheduler, _, delay = 0) {
    this.delay = scheduler.frame + delay;
    const { actions } = scheduler;
    let at = actions.length;
    while (at > 0 && (actions[at - 1].delay > this.delay || (actions[at - 1].delay === this.delay && actions[at - 1].index > this.index))) at--;
    actions.splice(at, 0, this);
    return 1;
  }
  recycleAsyncId() { return undefined; }
  _execute(state, delay) { return this.active ? super._execute(state, delay) : undefined; }
}
