// Work in the next turn of the platform: before timers (asap), or before it paints (animation frames).
import { AsyncAction } from './action.mjs';
import { AsyncScheduler } from './async.mjs';
import { frames, immediates } from './providers.mjs';

const turnAction = (turns) => class extends AsyncAction {
  requestAsyncId(scheduler, id, delay = 0) {
    if (delay !== null && delay > 0) return super.requestAsyncId(scheduler, id, delay);
    scheduler.actions.push(this);
    return scheduler._scheduled ??= turns.set(() => scheduler.flush(undefined));
  }
  recycleAsyncId(scheduler, id, delay = 0) {
    if (delay != null ? delay > 0 : this.delay > 0) return super.recycleAsyncId(scheduler, id, delay);
    if (id != null && !scheduler.actions.some((it) => it.id === id)) {
      turns.clear(id);
      if (scheduler._scheduled === id) scheduler._scheduled = undefined;
    }
    return undefined;
  }
};

/** All actions of one turn are done in it; what they schedule is for the next. */
class TurnScheduler extends AsyncScheduler {
  flush(action) {
    this._active = true;
    const { actions } = this, turn = action ? action.id : this._scheduled;
    if (!action) this._scheduled = undefined;
    action = action || actions.shift();
    let error;
    do {
      if (action && (error = action.execute(action.state, action.delay))) break;
    } while ((action = actions[0]) && action.id === turn && actions.shift());
    this._active = false;
    if (!error) return;
    while ((action = actions[0]) && action.id === turn && actions.shift()) action.unsubscribe();
    throw error;
  }
}
export class AsapScheduler extends TurnScheduler {}
export class AnimationFrameScheduler extends TurnScheduler {}
export const AsapAction = turnAction(immediates), AnimationFrameAction = turnAction(frames);
export const asapScheduler = new AsapScheduler(AsapAction);
export const animationFrameScheduler = new AnimationFrameScheduler(AnimationFrameAction);
export { asapScheduler as asap, animationFrameScheduler as animationFrame };
