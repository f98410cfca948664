import { realm } from '../engine/realm.mjs';
import { ROOT } from '../engine/codes.mjs';
import { config, inContext } from './config.mjs';
import { ObjectUnsubscribedError } from './errors.mjs';
import { Leaf, TERMINAL } from './leaf.mjs';
import { IN_ENGINE, loneNextOfMany } from './lone.mjs';
import { Observable } from './observable.mjs';
import { failAt, openLeaf } from './place.mjs';
import { Subscription } from './subscription.mjs';

/** A subscriber of another make on a subject's list. */
class Guest {
  constructor(subscriber) {
    this.subscriber = subscriber;
    this._subject = this._before = this._after = null;
  }
  next(value) { this.subscriber.next(value); }
  error(error) { this.subscriber.error(error); }
  complete() { this.subscriber.complete(); }
}

/** Tells it its end, or later where there is no room for that. */
function ending(leaf, act) {
  try { act(); } catch (error) {
    if (!(leaf instanceof Leaf) || leaf.isStopped) throw error;
    realm.engine.surely(act);
  }
}

/** What it is told it tells to each that subscribed, each in order. */
export class Subject extends Observable {
  constructor() {
    super();
    this.closed = this.isStopped = this.hasError = false;
    this.thrownError = null;
    this._first = this._last = null; // its leaves, in a ring of their own
    this._size = 0;
    this._list = null; // all of them, until one comes or goes
    this._telling = null; // an item that some of several have not heard yet, and behind it those that were told from within
  }

  static create(destination, source) { return new AnonymousSubject(destination, source); }

  lift(operator) {
    const made = new AnonymousSubject(this, this);
    made.operator = operator;
    return made;
  }

  get observed() { return this._size > 0; }
  get observers() { return this.closed ? null : this._all().map((it) => (it instanceof Guest ? it.subscriber : it)); }
  _all() {
    if (this._list !== null) return this._list;
    const list = [];
    for (let it = this._first; it !== null; it = it._after) list.push(it);
    return (this._list = list);
  }

  _throwIfClosed() { if (this.closed) throw new ObjectUnsubscribedError(); }

  /** Whether it may tell something; first all hear what it told before. */
  _tells() {
    if (this._telling !== null) this._goOn();
    return !this.isStopped;
  }
  next(value) {
    this._throwIfClosed();
    if (config.useDeprecatedSynchronousErrorHandling) inContext(() => this._tellsItem(value)); else this._tellsItem(value);
  }
  _tellsItem(value) {
    if (this.isStopped) return;
    if (this._size > 1 || this._telling !== null) this._tellsAll({ value, leaves: this._all(), at: 0, has_begun: false, behind: null });
    else if (this._first !== null) this._first.next(value);
  }
  /** Tells an item to all who hear it, behind those that were told before. */
  _tellsAll(item) {
    if (this._telling === null) this._telling = item;
    else {
      let last = this._telling;
      while (last.behind !== null) last = last.behind;
      last.behind = item;
    }
    try { this._goOn(); } finally { if (!item.has_begun) this._takesBack(item); }
  }
  // For want of stack.
  _takesBack(item) {
    let before = this._telling;
    if (before === item) this._telling = item.behind;
    else while (before !== null && before.behind !== item) before = before.behind;
    if (before !== null && before !== item) before.behind = item.behind;
  }
  /** Tells items to those that have not heard them. What is told from within comes behind those that were told before it: for each of them, who so hears
   *  all in order. */
  _goOn() {
    realm.engine.looks(); // for those that are told without the engine
    for (let telling; (telling = this._telling) !== null;) {
      const { value, leaves } = telling;
      telling.has_begun = true;
      try {
        while (telling.at < leaves.length) {
          const leaf = leaves[telling.at++];
          if (leaf._lone > IN_ENGINE && leaf._way === TERMINAL && !leaf.isStopped) loneNextOfMany(leaf, value); else leaf.next(value);
        }
      } finally { if (this._telling === telling) this._telling = telling.behind; }
    }
  }
  error(error) {
    this._throwIfClosed();
    inContext(() => this._tellsError(error));
  }
  _tellsError(error) {
    if (!this._tells()) return;
    this.hasError = this.isStopped = true;
    this.thrownError = error;
    for (const leaf of this._emptied()) ending(leaf, () => leaf.error(error));
  }
  complete() {
    this._throwIfClosed();
    inContext(() => this._tellsEnd());
  }
  _tellsEnd() {
    if (!this._tells()) return;
    this.isStopped = true;
    for (const leaf of this._emptied()) ending(leaf, () => leaf.complete());
  }
  unsubscribe() {
    this.isStopped = this.closed = true;
    this._emptied();
  }
  _emptied() {
    const leaves = this._all();
    for (const it of leaves) it._subject = null;
    this._first = this._last = this._list = null;
    this._size = 0;
    return leaves;
  }
  _left(leaf) {
    if (leaf._subject !== this) return;
    leaf._subject = null;
    const before = leaf._before, after = leaf._after;
    if (before === null) this._first = after; else before._after = after;
    if (after === null) this._last = before; else after._before = before;
    this._size--;
    this._list = null;
  }

  _open(at) {
    if (this.operator || this.source) return super._open(at);
    if (this.closed) {
      if (at._place === ROOT && at._way === TERMINAL) throw new ObjectUnsubscribedError();
      return failAt(at, new ObjectUnsubscribedError());
    }
    const leaf = openLeaf(at);
    if (leaf === null) return;
    const teardown = super._trySubscribe(leaf);
    if (teardown) leaf.add(teardown);
  }
  _trySubscribe(subscriber) {
    this._throwIfClosed();
    return this._subscribe(subscriber);
  }
  _subscribe(subscriber) {
    this._ended(subscriber);
    return this._joined(subscriber);
  }
  /** Tells an end that has been. */
  _ended(subscriber) {
    if (this.hasError) subscriber.error(this.thrownError);
    else if (this.isStopped) subscriber.complete();
  }
  /** On the list from now on: behind the others, or in the place of what stands there for it. */
  _joined(subscriber, place = null) {
    if (this.hasError || this.isStopped || subscriber.closed) return Subscription.EMPTY;
    const is_leaf = subscriber instanceof Leaf, leaf = is_leaf ? subscriber : new Guest(subscriber);
    if (place === null) this._append(leaf); else this._exchange(place, leaf);
    return is_leaf ? undefined : new Subscription(() => this._left(leaf));
  }
  _exchange(place, leaf) {
    const before = leaf._before = place._before, after = leaf._after = place._after;
    leaf._subject = this;
    place._subject = null;
    if (before === null) this._first = leaf; else before._after = leaf;
    if (after === null) this._last = leaf; else after._before = leaf;
    this._list = null;
  }
  _append(leaf) {
    const last = this._last;
    leaf._subject = this;
    leaf._before = last;
    leaf._after = null;
    if (last === null) this._first = leaf; else last._after = leaf;
    this._last = leaf;
    this._size++;
    this._list = null;
  }

  asObservable() {
    const made = new Observable();
    made.source = this;
    made._open = (at) => this._open(at);
    return made;
  }
}

const isSubject = (it) => !it.operator && !it.source && it._open === Subject.prototype._open && it._subscribe === Subject.prototype._subscribe;
/** Whether nothing is told as it is subscribed to. */
export const isSilent = (it) => isSubject(it) && !it.isStopped && !it.closed;
/** Whether it opens a leaf, and nothing else. */
export function isLeaf(it) {
  while (it.operator?.is_stage && it.source) it = it.source;
  return !it.operator && !it.source && (it._open === Observable.prototype._open || it._open === Subject.prototype._open);
}
/** A subject that tells one observer and is told by an observable. */
export class AnonymousSubject extends Subject {
  constructor(destination, source) {
    super();
    this.destination = destination;
    this.source = source;
  }
  next(value) { this.destination?.next?.(value); }
  error(error) { this.destination?.error?.(error); }
  complete() { this.destination?.complete?.(); }
  _subscribe(subscriber) { return this.source?.subscribe(subscriber) ?? Subscription.EMPTY; }
}

export class BehaviorSubject extends Subject {
  constructor(value) {
    super();
    this._value = value;
  }
  get value() { return this.getValue(); }
  getValue() {
    if (this.hasError) throw this.thrownError;
    this._throwIfClosed();
    return this._value;
  }
  next(value) { super.next(this._value = value); }
  _subscribe(subscriber) {
    const subscription = super._subscribe(subscriber);
    if (!this.hasError && !this.isStopped && !subscriber.closed) subscriber.next(this._value);
    return subscription;
  }
}

/** Tells only the last item, with the end. */
export class AsyncSubject extends Subject {
  _value = null;
  _hasValue = false;
  _isComplete = false;

  _ended(subscriber) {
    if (this.hasError) return subscriber.error(this.thrownError);
    if (!this.isStopped && !this._isComplete) return;
    if (this._hasValue) subscriber.next(this._value);
    subscriber.complete();
  }
  next(value) {
    if (this.isStopped) return;
    this._value = value;
    this._hasValue = true;
  }
  complete() {
    if (this._isComplete) return;
    this._isComplete = true;
    if (this._hasValue) super.next(this._value);
    super.complete();
  }
}
