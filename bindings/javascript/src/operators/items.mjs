// Functions on items, which stand before the book: a chain of them costs a call. One that has left its own subscription passes nothing on.
import { Stage } from '../core/leaf.mjs';
import { staged } from '../core/operator.mjs';
import { identity } from '../core/util.mjs';
import { dates } from '../schedulers/providers.mjs';

/** Calls a function with each item and its number. */
class Calls extends Stage {
  #call; #self; #at = 0;
  constructor(up, call, self) {
    super(up);
    this.#call = call;
    this.#self = self;
  }
  called(value) { return this.#call.call(this.#self, value, this.#at++); }
}

class MapItems extends Calls {
  next(value, leaf) {
    let it;
    try { it = this.called(value); } catch (error) { return this.up.error(error, leaf); }
    if (!leaf.closed) this.up.next(it, leaf);
  }
}
export const map = (project, thisArg) => staged((up) => new MapItems(up, project, thisArg));
export const mapTo = (value) => map(() => value);
export function pluck(...names) {
  if (names.length === 0) throw new Error('list of properties cannot be empty.');
  return map((value) => names.reduce((it, name) => it?.[name], value));
}

class Filter extends Calls {
  next(value, leaf) {
    let is_wanted;
    try { is_wanted = this.called(value); } catch (error) { return this.up.error(error, leaf); }
    if (is_wanted && !leaf.closed) this.up.next(value, leaf);
  }
}
export const filter = (predicate, thisArg) => staged((up) => new Filter(up, predicate, thisArg));
export const ignoreElements = () => filter(() => false);
export const skip = (count) => filter((_, index) => count <= index);

/** A filter whose function has a state of its own for each subscription. */
const filterWith = (make) => staged((up) => new Filter(up, make()));

export const skipWhile = (predicate) => filterWith(() => {
  let is_taking = false;
  return (value, index) => is_taking || (is_taking = !predicate(value, index));
});

export function distinctUntilChanged(comparator, keySelector = identity) {
  const isSame = comparator ?? ((a, b) => a === b);
  return filterWith(() => {
    let previous, is_first = true;
    return (value) => {
      const key = keySelector(value);
      if (!is_first && isSame(previous, key)) return false;
      is_first = false;
      previous = key;
      return true;
    };
  });
}
export const distinctUntilKeyChanged = (key, compare) =>
  distinctUntilChanged((a, b) => (compare ? compare(a[key], b[key]) : a[key] === b[key]));

class Scan extends Stage {
  #call; #state; #has; #at = 0;
  constructor(up, call, seed, has_seed) {
    super(up);
    this.#call = call;
    this.#state = seed;
    this.#has = has_seed;
  }
  next(value, leaf) {
    const at = this.#at++;
    let state;
    if (this.#has) {
      try { state = this.#call(this.#state, value, at); } catch (error) { return this.up.error(error, leaf); }
    } else state = value;
    this.#has = true;
    this.#state = state;
    if (!leaf.closed) this.up.next(state, leaf);
  }
}
export function scan(accumulator, seed) {
  const has_seed = arguments.length >= 2;
  return staged((up) => new Scan(up, accumulator, seed, has_seed));
}

class Pairwise extends Stage {
  #previous; #has = false;
  next(value, leaf) {
    const previous = this.#previous, has = this.#has;
    this.#previous = value;
    this.#has = true;
    if (has) this.up.next([previous, value], leaf);
  }
}
export const pairwise = () => staged((up) => new Pairwise(up));

class SkipLast extends Stage {
  #ring; #count; #seen = 0;
  constructor(up, count) {
    super(up);
    this.#ring = new Array(count);
    this.#count = count;
  }
  next(value, leaf) {
    const at = this.#seen++, ring = this.#ring, count = this.#count;
    if (at < count) {
      ring[at] = value;
      return;
    }
    const oldest = ring[at % count];
    ring[at % count] = value;
    this.up.next(oldest, leaf);
  }
}
export const skipLast = (count) => (count <= 0 ? identity : staged((up) => new SkipLast(up, count)));

export const timestamp = (clock = dates) => map((value) => ({ value, timestamp: clock.now() }));

export class TimeInterval {
  constructor(value, interval) {
    this.value = value;
    this.interval = interval;
  }
}
