import { Stage } from '../core/leaf.mjs';
import { Link } from '../core/link.mjs';
import { operate, staged } from '../core/operator.mjs';
import { identity, isFunction } from '../core/util.mjs';

class TapItems extends Stage {
  #next;
  constructor(up, next) {
    super(up);
    this.#next = next;
  }
  next(value, leaf) {
    try { this.#next(value); } catch (error) { return this.up.error(error, leaf); }
    if (!leaf.closed) this.up.next(value, leaf);
  }
}

/** Looks at what passes. A function for items alone stands before the book; one that hears of ends is a link. */
export function tap(observerOrNext, error, complete) {
  const observer = isFunction(observerOrNext) || error || complete ? { next: observerOrNext, error, complete } : observerOrNext;
  if (!observer) return identity;
  if (isFunction(observerOrNext) && !error && !complete) return staged((up) => new TapItems(up, observerOrNext));
  return operate((source, to) => {
    observer.subscribe?.();
    let is_left = true;
    source.subscribe(new Link(to, (value) => {
      observer.next?.(value);
      to.next(value);
    }, () => {
      is_left = false;
      observer.complete?.();
      to.complete();
    }, (why) => {
      is_left = false;
      observer.error?.(why);
      to.error(why);
    }, () => {
      if (is_left) observer.unsubscribe?.();
      observer.finalize?.();
    }));
  });
}
