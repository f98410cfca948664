import { Observable, isOurs } from '../core/observable.mjs';
import { innerFrom, isArrayLike, isAsyncIterable, isInterop, isIterable, isPromise, isStream, streamItems, unknownInput } from '../sources/from.mjs';
import { observeOn, subscribeOn } from '../operators/on.mjs';
import { scheduleFor } from './schedule.mjs';
import { isFunction } from '../core/util.mjs';

/** An observable of anything that tells items, each of them told by a scheduler. */
export function scheduled(input, scheduler) {
  if (input != null) {
    if (isOurs(input) || isInterop(input) || isPromise(input)) return innerFrom(input).pipe(subscribeOn(scheduler), observeOn(scheduler));
    if (isArrayLike(input)) return arrayOn(input, scheduler);
    if (isAsyncIterable(input)) return asyncOn(input, scheduler);
    if (isIterable(input)) return iterableOn(input, scheduler);
    if (isStream(input)) return asyncOn({ [Symbol.asyncIterator]: () => streamItems(input) }, scheduler);
  }
  throw unknownInput(input);
}

const arrayOn = (list, scheduler) => new Observable((subscriber) => {
  let at = 0;
  return scheduler.schedule(function again() {
    if (at === list.length) return subscriber.complete();
    subscriber.next(list[at++]);
    if (!subscriber.closed) this.schedule();
  });
});

const iterableOn = (iterable, scheduler) => new Observable((subscriber) => {
  let items;
  scheduleFor(subscriber, scheduler, () => {
    items = iterable[Symbol.iterator]();
    scheduleFor(subscriber, scheduler, () => {
      let it;
      try { it = items.next(); } catch (error) { return subscriber.error(error); }
      if (it.done) subscriber.complete();
      else subscriber.next(it.value);
    }, 0, true);
  });
  return () => isFunction(items?.return) && items.return();
});

const asyncOn = (iterable, scheduler) => new Observable((subscriber) => {
  scheduleFor(subscriber, scheduler, () => {
    const items = iterable[Symbol.asyncIterator]();
    subscriber.add(() => { Promise.resolve(items.return?.()).catch(() => {}); });
    scheduleFor(subscriber, scheduler, () => {
      items.next().then(({ value, done }) => {
        if (done) subscriber.complete();
        else subscriber.next(value);
      }, (error) => subscriber.error(error));
    }, 0, true);
  });
});
