import { Leaf } from '../core/leaf.mjs';
import { Observable, isOurs } from '../core/observable.mjs';
import { isFunction, observable } from '../core/util.mjs';
import { reportUnhandledError } from '../core/config.mjs';
import { scheduled } from '../schedulers/scheduled.mjs';

const iterator = Symbol.iterator ?? '@@iterator';
export const isPromise = (value) => isFunction(value?.then);
export const isArrayLike = (value) => !!value && typeof value.length === 'number' && typeof value !== 'function';
export const isStream = (value) => isFunction(value?.getReader);
export const isAsyncIterable = (value) => !!Symbol.asyncIterator && isFunction(value?.[Symbol.asyncIterator]);
export const isIterable = (value) => isFunction(value?.[iterator]);
export const isInterop = (value) => isFunction(value?.[observable]);

/** An observable of what tells items in another way. */
export function innerFrom(input) {
  if (input instanceof Observable || isOurs(input)) return input;
  if (input != null) {
    if (isInterop(input)) return fromInterop(input);
    if (isArrayLike(input)) return fromArray(input);
    if (isPromise(input)) return fromPromise(input);
    if (isStream(input)) return fromStream(input);
    if (isAsyncIterable(input)) return fromAsyncIterable(input);
    if (isIterable(input)) return fromIterable(input);
  }
  throw unknownInput(input);
}
export const unknownInput = (input) => new TypeError(
  `You provided ${input !== null && typeof input === 'object' ? 'an invalid object' : `'${String(input)}'`} where a stream was expected. `
  + 'You can provide an Observable, Promise, ReadableStream, Array, AsyncIterable, or Iterable.');

export const from = (input, scheduler) => (scheduler ? scheduled(input, scheduler) : innerFrom(input));

function fromInterop(input) {
  return new Observable((subscriber) => {
    const other = input[observable]();
    if (!isFunction(other.subscribe)) throw new TypeError('Provided object does not correctly implement Symbol.observable');
    return other.subscribe(subscriber);
  });
}
/** Does it, within which items are told in one go. */
export const inOneGo = (subscriber, act) => (subscriber instanceof Leaf ? subscriber.many(act) : act());
function tellsAll(list, subscriber) {
  for (let i = 0; i < list.length && !subscriber.closed && !subscriber.isStopped; i++) subscriber.next(list[i]);
}
export function fromArray(list) {
  return new Observable((subscriber) => {
    if (list.length > 1 && subscriber instanceof Leaf) subscriber.all(list); else tellsAll(list, subscriber);
    subscriber.complete();
  });
}
const fromPromise = (promise) => new Observable((subscriber) => {
  promise.then((value) => {
    if (subscriber.closed) return;
    subscriber.next(value);
    subscriber.complete();
  }, (error) => subscriber.error(error)).then(null, reportUnhandledError);
});
const fromIterable = (iterable) => new Observable((subscriber) => {
  let is_left = false;
  inOneGo(subscriber, () => {
    for (const value of iterable) {
      subscriber.next(value);
      if ((is_left = subscriber.closed || subscriber.isStopped)) return;
    }
  });
  if (!is_left) subscriber.complete();
});

// Whoever leaves while it waits lets the iterator go at once.
function fromAsyncIterable(iterable) {
  return new Observable((subscriber) => {
    if (subscriber.closed) return;
    const items = iterable[Symbol.asyncIterator]();
    let is_over = false;
    const go = async () => {
      for (;;) {
        const { value, done } = await items.next();
        if (done) {
          is_over = true;
          return subscriber.complete();
        }
        if (subscriber.closed) return;
        subscriber.next(value);
      }
    };
    subscriber.add(() => {
      if (is_over) return;
      is_over = true;
      Promise.resolve(items.return?.()).catch(reportUnhandledError);
    });
    go().catch((error) => {
      is_over = true;
      subscriber.error(error);
    });
  });
}

/** The items of a stream, which is let go and cancelled when they are not wanted any more. */
export function streamItems(stream) {
  const reader = stream.getReader();
  return {
    next: () => reader.read().then(({ value, done }) => {
      if (done) reader.releaseLock();
      return { value, done: !!done };
    }),
    return: () => reader.cancel().then(() => reader.releaseLock()),
    [Symbol.asyncIterator]() { return this; },
  };
}
const fromStream = (stream) => fromAsyncIterable({ [Symbol.asyncIterator]: () => streamItems(stream) });
