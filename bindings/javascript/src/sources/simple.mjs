// Sources that tell at once, or nothing, or what a function answers.
import { Observable } from '../core/observable.mjs';
import { Resource } from '../core/subscriber.mjs';
import { ROOT } from '../engine/codes.mjs';
import { realm } from '../engine/realm.mjs';
import { LEFT, failAt, holdAt, openAt, openPass, openUsing, roomToMake } from '../core/place.mjs';
import { traced } from '../engine/tracing.mjs';
import { isFunction, isScheduler, noop, popScheduler } from '../core/util.mjs';
import { fromArray, inOneGo, innerFrom } from './from.mjs';
import { scheduled } from '../schedulers/scheduled.mjs';

export const EMPTY = new Observable((subscriber) => subscriber.complete());
export const NEVER = new Observable(noop);
export const never = () => NEVER;
export const empty = (scheduler) => (scheduler
  ? new Observable((subscriber) => scheduler.schedule(() => subscriber.complete())) : EMPTY);

export function of(...items) {
  const scheduler = popScheduler(items);
  return scheduler ? scheduled(items, scheduler) : fromArray(items);
}

export function throwError(errorOrFactory, scheduler) {
  const make = isFunction(errorOrFactory) ? errorOrFactory : () => errorOrFactory;
  const tell = (subscriber) => subscriber.error(make());
  return new Observable(scheduler ? (subscriber) => scheduler.schedule(tell, 0, subscriber) : tell);
}

/** An observable by what it opens at a place. */
export function opened(opens) {
  const made = new Observable();
  made._open = opens;
  return made;
}

/** What a function answers, anew for each that subscribes. */
export const defer = (factory) => opened((at) => {
  roomToMake(); // what the function takes hold of is released by what is opened
  let source;
  try { source = innerFrom(factory()); } catch (error) { return failAt(at, error); }
  source._open(at);
});

export const iif = (condition, trueResult, falseResult) => defer(() => (condition() ? trueResult : falseResult));

/** A resource for each that subscribes, which is released once, whatever the function that makes the source does. */
export const using = (resourceFactory, observableFactory) => opened((at) => {
  const tag = traced(new Resource(null), 'resource'), below = (at._place === ROOT ? openedWith : openedBefore)(at, resourceFactory, tag);
  if (below === null) return;
  let source = null;
  try {
    const made = observableFactory(tag.finalizer);
    source = made ? innerFrom(made) : EMPTY;
  } catch (error) { failAt(below, error); }
  if (source !== null) openAt(source, below);
  if (below._above === LEFT) tag.release();
});
// The node of a root is opened with the resource: the place below it, or null.
function openedWith(at, resourceFactory, tag) {
  roomToMake();
  try { tag.finalizer = resourceFactory(); } catch (error) { return failAt(at, error), null; }
  let below = null;
  try { below = openUsing(at, tag); } finally { if (below === null) realm.engine.surely(() => tag.release()); }
  return below;
}
// Elsewhere it is open before the resource is made: so what an exchange releases is released before.
function openedBefore(at, resourceFactory, tag) {
  const below = openPass(at);
  if (below === null) return null;
  try { tag.finalizer = resourceFactory(); } catch (error) { return failAt(below, error), null; }
  if (below._above !== LEFT) holdAt(below, tag);
  return below;
}

export function range(start, count, scheduler) {
  if (count === undefined) [start, count] = [0, start];
  if (count <= 0) return EMPTY;
  const end = start + count;
  return new Observable(scheduler ? (subscriber) => {
    let n = start;
    return scheduler.schedule(function again() {
      if (n >= end) return subscriber.complete();
      subscriber.next(n++);
      this.schedule();
    });
  } : (subscriber) => {
    inOneGo(subscriber, () => { for (let n = start; n < end && !subscriber.closed && !subscriber.isStopped; n++) subscriber.next(n); });
    subscriber.complete();
  });
}

export function generate(initialOrOptions, condition, iterate, resultOrScheduler, scheduler) {
  let initial = initialOrOptions, result = resultOrScheduler;
  if (arguments.length === 1) ({ initialState: initial, condition, iterate, resultSelector: result, scheduler } = initialOrOptions);
  else if (!result || isScheduler(result)) [result, scheduler] = [undefined, result];
  function* items() {
    for (let state = initial; !condition || condition(state); state = iterate(state)) yield result ? result(state) : state;
  }
  return defer(() => (scheduler ? scheduled(items(), scheduler) : items()));
}

export const pairs = (object, scheduler) => (scheduler ? scheduled(Object.entries(object), scheduler) : fromArray(Object.entries(object)));
