// Who hears what a root is told, and what the source of a leaf tells.
import { realm } from '../engine/realm.mjs';
import { Tag } from '../engine/thing.mjs';
import { traced } from '../engine/tracing.mjs';
import { reportUnhandledError, stopped, unheard } from './config.mjs';
import { UnsubscriptionError } from './errors.mjs';
import { enters, isLone, loneLeft } from './lone.mjs';
import { Own, Subscription, finalizeOne, isSubscription } from './subscription.mjs';
import { isFunction, noop } from './util.mjs';

const SILENT = { closed: true, next: noop, error(error) { throw error; }, complete: noop };
const nextOf = (value) => ({ kind: 'N', value, error: undefined });
export const errorOf = (error) => ({ kind: 'E', value: undefined, error });
export const COMPLETION = { kind: 'C', value: undefined, error: undefined };
let is_collected = false, collected = null; // what finalizers throw while somebody unsubscribes

/** What finalizers threw goes to who unsubscribes, or else is reported: each of them. */
export function thrown(errors) {
  if (!is_collected) errors.forEach(reportUnhandledError);
  else if (collected === null) collected = errors;
  else collected.push(...errors);
}

/** Does it; answers what finalizers threw meanwhile, null if nothing. */
export function collecting(act) {
  const outer = collected, was = is_collected;
  let mine;
  collected = null;
  is_collected = true;
  try { act(); } finally {
    mine = collected;
    collected = outer;
    is_collected = was;
  }
  return mine;
}
/** What a program releases something by: what that throws goes to who unsubscribes, or else is reported. */
export class Resource extends Tag {
  constructor(finalizer) {
    super();
    this.finalizer = finalizer;
  }
  release() {
    const { finalizer } = this, errors = finalizer ? finalizeOne(finalizer, null) : null;
    if (errors !== null) thrown(errors);
  }
}
/** A subscriber's finalizers, as one resource of its node. */
class Finalizers extends Tag {
  constructor(of) {
    super();
    this.of = of;
  }
  isForgettable() { return this.of._finalizers === null || this.of._finalizers.every(holdsNothing); }
  release() {
    const { of } = this;
    of._tag = null;
    if (!of.closed && !of.isStopped) return; // it has not heard its end, which was told from within: they come with that
    const errors = of._finalized(null);
    if (errors !== null) thrown(errors);
  }
}

/** Whether it holds nothing itself: what a subscriber holds is held by the tree that it hears. */
const holdsNothing = (it) => it instanceof Own || (it instanceof Subscriber && it.initialTeardown === undefined);

const isLoneOrNone = (it) => it === null || isLone(it);
const needsNone = (it) => !it || (it._needsNone !== undefined && it._needsNone());

/** A subscription that hears: what it is told goes to `destination`, and nothing behind the end. */
export class Subscriber extends Subscription {
  constructor(destination) {
    super();
    this.isStopped = false;
    this._thing = null; // the root that it hears
    this._tag = null; // what its finalizers are held by
    this._used = false;
    this._hearing = 0; // how deep the call is in which it hears its end
    this.destination = destination ?? SILENT;
    if (destination && isSubscription(destination)) destination.add(this);
  }

  static create(next, error, complete) { return new SafeSubscriber(next, error, complete); }

  next(value) {
    if (this.isStopped) stopped(nextOf(value), this);
    else this._next(value);
  }
  error(error) {
    if (this.isStopped) return stopped(errorOf(error), this);
    this.isStopped = true;
    this._error(error);
  }
  complete() {
    if (this.isStopped) return stopped(COMPLETION, this);
    this.isStopped = true;
    this._complete();
  }

  _next(value) { this.destination.next(value); }
  _error(error) { try { this.destination.error(error); } finally { this._over(); } }
  _complete() { try { this.destination.complete(); } finally { this._over(); } }
  /** Leaves behind its end: what it held is released once that has been told. */
  _over() {
    this._hearing = 0;
    this.unsubscribe();
  }

  // What the engine tells of the root. It is left behind its end, whatever a class of a program makes of that.
  hear(value) { if (!this.isStopped) this.next(value); }
  heardError(error, depth) {
    this._thing = null;
    this._hearing = depth;
    try { if (!this.isStopped) this.error(error); } finally { this._over(); }
  }
  heardEnd(depth) {
    this._thing = null;
    this._hearing = depth;
    try { if (!this.isStopped) this.complete(); } finally { this._over(); }
  }
  heardGone() {
    this._thing = null;
    this.unsubscribe();
  }

  /** It is a root's from now on. */
  _roots(thing) {
    this._thing = thing;
    if (this._finalizers !== null) this._hold();
  }

  add(teardown) {
    super.add(teardown);
    if (this._tag !== null) realm.engine.changes(this._tag);
    else if (this._finalizers !== null && !(isLoneOrNone(this._thing) && needsNone(teardown))) {
      if (this._thing !== null) this._hold(); else this._entersAbove();
    }
  }
  remove(teardown) {
    super.remove(teardown);
    if (this._tag !== null) realm.engine.changes(this._tag);
  }

  /** Whether it holds nothing, but what hears roots that are leaves alone and hold nothing. */
  _holdsNone() { return this._finalizers === null || this._finalizers.every(needsNone); }
  _needsNone() {
    return this.initialTeardown === undefined && isLoneOrNone(this._thing) && this.unsubscribe === Subscription.prototype.unsubscribe
      && this._leave === Subscriber.prototype._leave && this._holdsNone();
  }
  /** What is left with it is opened in the engine first. */
  _entersAbove() {
    const parents = this._parents;
    if (parents === null) return;
    for (const it of Array.isArray(parents) ? parents : [parents]) {
      if (!(it instanceof Subscriber)) continue;
      if (isLone(it._thing)) it._hold(); else if (it._thing === null) it._entersAbove();
    }
  }

  // Its finalizers are one resource of its node, released with that.
  _hold() {
    const thing = this._thing, tag = traced(new Finalizers(this), 'teardown', thing);
    if (enters(thing) && realm.engine.hold(thing, tag) === 0) this._tag = tag;
    else if (this.closed) { // as what had been put off was done
      const errors = this._finalized(null);
      if (errors !== null) thrown(errors);
    }
  }

  _leave() {
    const { engine } = realm, thing = this._thing, hearing = this._hearing;
    let goes_on = false; // where any of these throws nothing has been changed
    if (isLone(thing)) engine.room(); else if (thing !== null) goes_on = engine.dispose(thing);
    this.closed = this.isStopped = true;
    this._thing = null;
    this._hearing = 0;
    if (isLone(thing)) loneLeft(thing);
    let errors = goes_on ? collecting(() => engine.goOn()) : null;
    // left while it hears its end: what stands behind that is released now
    if (hearing !== 0) errors = collecting(() => engine.releases(hearing));
    if (this._tag === null) errors = this._finalized(errors);
    if (errors === null) return;
    if (is_collected) thrown(errors);
    else throw new UnsubscriptionError(errors);
  }
}

/** A function, or an observer's functions; what they throw is reported, in a turn of its own. */
class ItemConsumer {
  constructor(call) { this.call = call; }
  next(value) {
    const { call } = this;
    if (call) try { call(value); } catch (error) { unheard(error); }
  }
  error(error) { unheard(error); }
  complete() {}
}
class Consumer {
  constructor(observer) { this.observer = observer; }
  next(value) {
    const { observer } = this;
    if (observer.next) try { observer.next(value); } catch (error) { unheard(error); }
  }
  error(error) {
    const { observer } = this;
    if (!observer.error) return unheard(error);
    try { observer.error(error); } catch (why) { unheard(why); }
  }
  complete() {
    const { observer } = this;
    if (observer.complete) try { observer.complete(); } catch (error) { unheard(error); }
  }
}

/** What `subscribe` answers. */
export class SafeSubscriber extends Subscriber {
  constructor(observer, error, complete) {
    super();
    const is_call = isFunction(observer);
    if ((is_call || !observer) && !error && !complete) this.destination = new ItemConsumer(observer);
    else this.destination = new Consumer(is_call || !observer ? { next: observer ?? undefined, error: error ?? undefined, complete: complete ?? undefined } : observer);
  }
}

export const isSubscriber = (value) => value instanceof Subscriber
  || (!!value && isFunction(value.next) && isFunction(value.error) && isFunction(value.complete) && isSubscription(value));

// What the package's own functions throw in the midst of telling is reported too.
realm.report ??= (error) => (error instanceof UnsubscriptionError ? error.errors : [error]).forEach((it) => reportUnhandledError(it));
