// What ends by itself, or tells something at the end: stages with hooks.
import { ArgumentOutOfRangeError, EmptyError, NotFoundError, SequenceError } from '../core/errors.mjs';
import { Stage } from '../core/leaf.mjs';
import { staged } from '../core/operator.mjs';
import { identity, pipe } from '../core/util.mjs';
import { EMPTY } from '../sources/simple.mjs';
import { filter } from './items.mjs';

/** A stage with hooks: its functions get the item, how to tell on (`up`), and the leaf. What it told may have ended all that stands before the book:
 *  then the leaf is closed, and nothing more is told on. */
class Hooked extends Stage {
  #is_stopped = false; // whether it has been told an end: then nothing more is told to it, as from within what it tells of that
  constructor(up) { super(up, true); }
  next(value, leaf) { if (!this.#is_stopped) this.onNext(value, leaf); }
  error(error, leaf) { if (this.#stops()) this.onError(error, leaf); }
  complete(leaf) { if (this.#stops()) this.onComplete(leaf); }
  #stops() { return !this.#is_stopped && (this.#is_stopped = true); }
  onError(error, leaf) { this.up.error(error, leaf); }
  onComplete(leaf) { this.up.complete(leaf); }
  /** One item, and the end. */
  answers(value, leaf) {
    this.up.next(value, leaf);
    if (!leaf.closed) this.up.complete(leaf);
  }
}

class Take extends Hooked {
  #count; #seen = 0;
  constructor(up, count) {
    super(up);
    this.#count = count;
  }
  onNext(value, leaf) {
    if (++this.#seen > this.#count) return;
    this.up.next(value, leaf);
    if (this.#count <= this.#seen && !leaf.closed) this.up.complete(leaf);
  }
}
export const take = (count) => (count <= 0 ? () => EMPTY : staged((up) => new Take(up, count)));

class TakeWhile extends Hooked {
  #call; #inclusive; #at = 0; #over = false;
  constructor(up, call, inclusive) {
    super(up);
    this.#call = call;
    this.#inclusive = inclusive;
  }
  onNext(value, leaf) {
    if (this.#over) return;
    let goes_on;
    try { goes_on = this.#call(value, this.#at++); } catch (error) { return this.up.error(error, leaf); }
    if (leaf.closed) return;
    if (goes_on) return this.up.next(value, leaf);
    this.#over = true;
    if (this.#inclusive) this.up.next(value, leaf);
    if (!leaf.closed) this.up.complete(leaf);
  }
}
export const takeWhile = (predicate, inclusive = false) => staged((up) => new TakeWhile(up, predicate, inclusive));

class TakeLast extends Hooked {
  #count; #items = [];
  constructor(up, count) {
    super(up);
    this.#count = count;
  }
  onNext(value) {
    this.#items.push(value);
    if (this.#items.length > this.#count) this.#items.shift();
  }
  onComplete(leaf) {
    for (const value of this.#items.splice(0)) {
      if (leaf.closed) return;
      this.up.next(value, leaf);
    }
    if (!leaf.closed) this.up.complete(leaf);
  }
}
export const takeLast = (count) => (count <= 0 ? () => EMPTY : staged((up) => new TakeLast(up, count)));

/** Keeps a state, and tells it at the end. */
class Fold extends Hooked {
  #call; #state; #has; #at = 0;
  constructor(up, call, state, has) {
    super(up);
    this.#call = call;
    this.#state = state;
    this.#has = has;
  }
  onNext(value, leaf) {
    const at = this.#at++;
    if (!this.#has) {
      this.#has = true;
      this.#state = value;
      return;
    }
    try { this.#state = this.#call(this.#state, value, at); } catch (error) { this.up.error(error, leaf); }
  }
  onComplete(leaf) {
    if (this.#has) this.up.next(this.#state, leaf);
    if (!leaf.closed) this.up.complete(leaf);
  }
}
export function reduce(accumulator, seed) {
  const has_seed = arguments.length >= 2;
  return staged((up) => new Fold(up, accumulator, seed, has_seed));
}
export const toArray = () => staged((up) => new Fold(up, (list, value) => (list.push(value), list), [], true));
export const count = (predicate) => staged((up) =>
  new Fold(up, (total, value, i) => (!predicate || predicate(value, i) ? total + 1 : total), 0, true));
export const max = (compare = (a, b) => (a < b ? -1 : 1)) => reduce((a, b) => (compare(a, b) > 0 ? a : b));
export const min = (compare = (a, b) => (a < b ? -1 : 1)) => reduce((a, b) => (compare(a, b) < 0 ? a : b));

/** Answers with one item as soon as it is known, or at the end. */
class Asks extends Hooked {
  #ask; #otherwise; #at = 0; #over = false;
  constructor(up, ask, otherwise) {
    super(up);
    this.#ask = ask;
    this.#otherwise = otherwise;
  }
  onNext(value, leaf) {
    if (this.#over) return;
    let answer;
    try { answer = this.#ask(value, this.#at++); } catch (error) { return this.up.error(error, leaf); }
    if (answer === null || leaf.closed) return;
    this.#over = true;
    this.answers(answer.is, leaf);
  }
  onComplete(leaf) { this.answers(this.#otherwise, leaf); }
}
const asks = (make, otherwise) => (source) => staged((up) => new Asks(up, make(source), otherwise))(source);
export const every = (predicate, thisArg) =>
  asks((source) => (value, i) => (predicate.call(thisArg, value, i, source) ? null : { is: false }), true);
export const find = (predicate, thisArg) =>
  asks((source) => (value, i) => (predicate.call(thisArg, value, i, source) ? { is: value } : null), undefined);
export const findIndex = (predicate, thisArg) =>
  asks((source) => (value, i) => (predicate.call(thisArg, value, i, source) ? { is: i } : null), -1);
export const isEmpty = () => asks(() => () => ({ is: false }), true);

class IfEmpty extends Hooked {
  #has = false; #does;
  constructor(up, does) {
    super(up);
    this.#does = does;
  }
  onNext(value, leaf) {
    this.#has = true;
    this.up.next(value, leaf);
  }
  onComplete(leaf) {
    if (!this.#has) this.#does(this.up, leaf);
    else this.up.complete(leaf);
  }
}
export const defaultIfEmpty = (value) => staged((up) => new IfEmpty(up, (to, leaf) => {
  to.next(value, leaf);
  if (!leaf.closed) to.complete(leaf);
}));
export const throwIfEmpty = (make = () => new EmptyError()) => staged((up) => new IfEmpty(up, (to, leaf) => {
  let error;
  try { error = make(); } catch (why) { error = why; }
  to.error(error, leaf);
}));

const wanted = (predicate, source) => (predicate ? filter((value, i) => predicate(value, i, source)) : identity);
export function first(predicate, defaultValue) {
  const ending = arguments.length >= 2 ? defaultIfEmpty(defaultValue) : throwIfEmpty();
  return (source) => pipe(wanted(predicate, source), take(1), ending)(source);
}
export function last(predicate, defaultValue) {
  const ending = arguments.length >= 2 ? defaultIfEmpty(defaultValue) : throwIfEmpty();
  return (source) => pipe(wanted(predicate, source), takeLast(1), ending)(source);
}
export function elementAt(index, defaultValue) {
  if (index < 0) throw new ArgumentOutOfRangeError();
  const ending = arguments.length >= 2 ? defaultIfEmpty(defaultValue) : throwIfEmpty(() => new ArgumentOutOfRangeError());
  return pipe(filter((_, i) => i === index), take(1), ending);
}

class Single extends Hooked {
  #call; #has = false; #seen = false; #value; #at = 0;
  constructor(up, call) {
    super(up);
    this.#call = call;
  }
  onNext(value, leaf) {
    this.#seen = true;
    let is_it;
    try { is_it = !this.#call || this.#call(value, this.#at++); } catch (error) { return this.up.error(error, leaf); }
    if (!is_it) return;
    if (this.#has) return this.up.error(new SequenceError('Too many matching values'), leaf);
    this.#has = true;
    this.#value = value;
  }
  onComplete(leaf) {
    if (this.#has) this.answers(this.#value, leaf);
    else this.up.error(this.#seen ? new NotFoundError('No matching values') : new EmptyError(), leaf);
  }
}
export const single = (predicate) => (source) =>
  staged((up) => new Single(up, predicate && ((value, i) => predicate(value, i, source))))(source);
export { Hooked };
