import { dates } from '../schedulers/providers.mjs';
import { Subject } from './subject.mjs';

/** Tells the last items to each that subscribes later: so many, of so many milliseconds. */
export class ReplaySubject extends Subject {
  #size; #span; #clock; #items = [];

  constructor(size = Infinity, span = Infinity, clock = dates) {
    super();
    this.#size = Math.max(1, size);
    this.#span = Math.max(1, span);
    this.#clock = clock;
  }

  next(value) {
    if (!this.isStopped) {
      this.#items.push({ value, until: this.#span === Infinity ? Infinity : this.#clock.now() + this.#span });
      this.#trim();
    }
    super.next(value);
  }

  #trim() {
    const items = this.#items;
    if (this.#size < Infinity && items.length > this.#size) items.splice(0, items.length - this.#size);
    if (this.#span === Infinity) return;
    const now = this.#clock.now();
    let many = 0;
    while (many < items.length && items[many].until <= now) many++;
    if (many) items.splice(0, many);
  }

  _subscribe(subscriber) {
    this._throwIfClosed();
    this.#trim();
    const is_over = this.hasError || this.isStopped || subscriber.closed, late = new Late(subscriber, this.#items.map(({ value }) => value));
    if (!is_over) this._append(late);
    let subscription;
    try {
      late.hear();
      subscription = is_over ? undefined : this._joined(subscriber, late);
    } finally { this._left(late); }
    this._ended(subscriber);
    return subscription;
  }
}

/** Stands on the list for a subscriber that has not heard all of what was before it: what is told meanwhile comes behind that. */
class Late {
  _subject = null; _before = null; _after = null; // as of a leaf
  #subscriber; #items;
  constructor(subscriber, items) {
    this.#subscriber = subscriber;
    this.#items = items;
  }
  hear() {
    const it = this.#subscriber, items = this.#items;
    for (let i = 0; i < items.length && !it.closed && !it.isStopped; i++) it.next(items[i]);
    this.#items = null;
  }
  next(value) {
    if (this.#items !== null) this.#items.push(value);
    else this.#subscriber.next(value);
  }
  // an end meanwhile is told by the subject itself, behind the items
  error(error) { if (this.#items === null) this.#subscriber.error(error); }
  complete() { if (this.#items === null) this.#subscriber.complete(); }
}
