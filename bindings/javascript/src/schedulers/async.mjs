import { AsyncAction } from './action.mjs';
import { Scheduler } from './scheduler.mjs';

/** Work by timers. */
export class AsyncScheduler extends Scheduler {
  actions = [];
  _active = false;
  _scheduled = undefined;

  flush(action) {
    const { actions } = this;
    if (this._active) return void actions.push(action);
    this._active = true;
    let error;
    do { error = action.execute(action.state, action.delay); } while (!error && (action = actions.shift()));
    this._active = false;
    if (!error) return;
    while ((action = actions.shift())) action.unsubscribe();
    throw error;
  }
}
export const asyncScheduler = new AsyncScheduler(AsyncAction);
export { asyncScheduler as async };
