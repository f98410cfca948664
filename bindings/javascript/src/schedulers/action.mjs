import { realm } from '../engine/realm.mjs';
import { Subscription } from '../core/subscription.mjs';
import { intervals } from './providers.mjs';

/** A piece of work that waits for its time; it may put itself off again from within. */
export class AsyncAction extends Subscription {
  pending = false;
  id = undefined;
  delay = undefined;
  state = undefined;

  constructor(scheduler, work) {
    super();
    this.scheduler = scheduler;
    this.work = work;
  }

  schedule(state, delay = 0) {
    if (this.closed) return this;
    this.state = state;
    const { scheduler, id } = this;
    if (id != null) this.id = this.recycleAsyncId(scheduler, id, delay);
    this.pending = true;
    this.delay = delay;
    this.id = this.id ?? this.requestAsyncId(scheduler, this.id, delay);
    return this;
  }

  requestAsyncId(scheduler, _, delay = 0) { return intervals.set(scheduler.flush.bind(scheduler, this), delay); }

  // The same timer goes on where the delay is the same.
  recycleAsyncId(_, id, delay = 0) {
    if (delay != null && this.delay === delay && this.pending === false) return id;
    if (id != null) intervals.clear(id);
    return undefined;
  }

  /** Does the work: what it threw, if anything. */
  execute(state, delay) {
    if (this.closed) return new Error('executing a cancelled action');
    this.pending = false;
    const error = this._execute(state, delay);
    if (error) return error;
    if (this.pending === false && this.id != null) this.id = this.recycleAsyncId(this.scheduler, this.id, null);
    return undefined;
  }

  _execute(state) {
    try { this.work(state); } catch (error) {
      this.unsubscribe();
      return error || new Error('Scheduled action threw falsy error');
    }
    return undefined;
  }

  _leave() {
    realm.engine.room();
    const { id, scheduler } = this, { actions } = scheduler, at = actions.indexOf(this);
    this.work = this.state = this.scheduler = null;
    this.pending = false;
    if (at >= 0) actions.splice(at, 1);
    if (id != null) this.id = this.recycleAsyncId(scheduler, id, null);
    this.delay = null;
    this._ends(); // without a second look for room, which might find less
  }
}
