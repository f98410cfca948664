// What calls functions: events, and callbacks.
import { Observable } from '../core/observable.mjs';
import { AsyncSubject } from '../core/subject.mjs';
import { isFunction, isScheduler, spreading } from '../core/util.mjs';
import { isArrayLike, innerFrom } from './from.mjs';
import { mergeMap } from '../operators/flat.mjs';
import { map } from '../operators/items.mjs';
import { observeOn, subscribeOn } from '../operators/on.mjs';

const PAIRS = [['addEventListener', 'removeEventListener', true], ['addListener', 'removeListener', false], ['on', 'off', false]];

export function fromEvent(target, eventName, options, resultSelector) {
  if (isFunction(options)) {
    resultSelector = options;
    options = undefined;
  }
  if (resultSelector) return fromEvent(target, eventName, options).pipe(map(spreading(resultSelector)));
  const pair = PAIRS.find(([adds, removes]) => isFunction(target?.[adds]) && isFunction(target?.[removes]));
  if (!pair) {
    if (isArrayLike(target)) return mergeMap((it) => fromEvent(it, eventName, options))(innerFrom(target));
    throw new TypeError('Invalid event target');
  }
  const [adds, removes, has_options] = pair, rest = has_options ? [options] : [];
  return new Observable((subscriber) => {
    const handler = (...words) => subscriber.next(words.length > 1 ? words : words[0]);
    target[adds](eventName, handler, ...rest);
    return () => target[removes](eventName, handler, ...rest);
  });
}

export function fromEventPattern(addHandler, removeHandler, resultSelector) {
  if (resultSelector) return fromEventPattern(addHandler, removeHandler).pipe(map(spreading(resultSelector)));
  return new Observable((subscriber) => {
    const handler = (...words) => subscriber.next(words.length === 1 ? words[0] : words), token = addHandler(handler);
    return isFunction(removeHandler) ? () => removeHandler(handler, token) : undefined;
  });
}

// Called once, as the first one subscribes; each hears the result.
function binding(is_node, call, resultSelector, scheduler) {
  if (resultSelector) {
    if (isScheduler(resultSelector)) scheduler = resultSelector;
    else return function bound(...words) { return binding(is_node, call, undefined, scheduler).apply(this, words).pipe(map(spreading(resultSelector))); };
  }
  if (scheduler) {
    return function bound(...words) { return binding(is_node, call).apply(this, words).pipe(subscribeOn(scheduler), observeOn(scheduler)); };
  }
  return function bound(...words) {
    const subject = new AsyncSubject();
    let is_called = false;
    return new Observable((subscriber) => {
      const subscription = subject.subscribe(subscriber);
      if (is_called) return subscription;
      is_called = true;
      let is_async = false, is_complete = false;
      call.apply(this, [...words, (...results) => {
        if (is_node) {
          const error = results.shift();
          if (error != null) return subject.error(error);
        }
        subject.next(results.length > 1 ? results : results[0]);
        is_complete = true;
        if (is_async) subject.complete();
      }]);
      if (is_complete) subject.complete();
      is_async = true;
      return subscription;
    });
  };
}
export const bindCallback = (call, resultSelector, scheduler) => binding(false, call, resultSelector, scheduler);
export const bindNodeCallback = (call, resultSelector, scheduler) => binding(true, call, resultSelector, scheduler);
