// A leaf of the engine: what a source tells goes in here, through the functions on items that stand before the book.
import { LEAF } from '../engine/codes.mjs';
import { realm } from '../engine/realm.mjs';
import { IN_ENGINE, isLone, loneEnd, loneError, loneNext, loneNextOfMany } from './lone.mjs';
import { COMPLETION, Subscriber, collecting, errorOf } from './subscriber.mjs';
import { stopped } from './config.mjs';
import { UnsubscriptionError } from './errors.mjs';

/** The end of a chain of functions on items: the engine, or who hears a root that needs none. */
export const TERMINAL = {
  hooked: false,
  next(value, leaf) {
    leaf._inHand = false;
    if (leaf._lone !== IN_ENGINE) loneNext(leaf, value);
    else if (leaf._many) realm.engine.nextOfMany(leaf, value);
    else realm.engine.next(leaf, value);
  },
  error(error, leaf) {
    leaf.isStopped = true;
    if (leaf._lone !== IN_ENGINE) loneError(leaf, error);
    else realm.engine.error(leaf, error);
  },
  complete(leaf) {
    leaf.isStopped = true;
    if (leaf._inner !== null) releases(leaf);
    if (leaf._lone !== IN_ENGINE) loneEnd(leaf);
    else realm.engine.complete(leaf);
  },
};

/** What is released, innermost first, before the end of an inner observable is counted: the resources from its end up to where it is merged, where
 *  there is nothing above. A node that another observable ends has no tag. */
export class Inner {
  constructor(tag, above) {
    this.tag = tag;
    this.above = above;
    this.leaf = null; // the end below
    this.beside = null; // of a node that another observable ends: that one's leaf
  }
  releases() {
    const { leaf } = this;
    if (leaf !== null && !leaf.isStopped) releases(leaf);
  }
}
/** Releases what it holds itself, before it tells its last. */
export function stops(leaf) {
  leaf.isStopped = true;
  if (leaf._tag !== null) realm.engine.remove(leaf._tag);
}
function releases(leaf) {
  stops(leaf);
  for (let it = leaf._inner; it.above !== null; it = it.above) {
    if (it.tag !== null) realm.engine.remove(it.tag);
    if (it.beside !== null) it.beside.releases();
  }
}

/** A function on items, or several ends: it passes on to the one above it. `hooked` if it ends by itself or does something at an end. */
export class Stage {
  constructor(up, hooked = false) {
    this.up = up;
    this.hooked = hooked || up.hooked;
  }
  next(value, leaf) { this.up.next(value, leaf); }
  error(error, leaf) { this.up.error(error, leaf); }
  complete(leaf) { this.up.complete(leaf); }
}

/** An error for it, as soon as there is room to tell it; a leaf tells nothing until then. */
export function failing(to, error) {
  let waits = false;
  realm.engine.surely(() => {
    if (waits) to.isStopped = isLone(to) ? to.closed : to.owed === 0; // the engine has closed it
    to.error(error);
  }, () => { if (to instanceof Leaf && !to.isStopped) to.isStopped = waits = true; });
}

/** What the function of a source is given, and what the engine has for its node (a Thing). */
export class Leaf extends Subscriber {
  constructor(way, hears, leaves, inner) {
    super();
    this._way = way;
    this._used = true;
    this.slot = this.top = this.lo = this.hi = -1;
    this.owed = 0;
    this.engine = null;
    this.above = null;
    this.loose = null;
    this.to = null; // as of a Thing
    this.leaves = leaves;
    this._inner = inner;
    this.hears = hears; // where this leaf is the whole tree, else null
    this._subject = this._before = this._after = null; // whose list it is on, and between which
    this._inHand = false; // whether functions pass an item on that it has not told yet, of what is merged; and what end comes behind that
    this._late = null;
    this._many = false; // whether its source tells items in one go
    this._lone = IN_ENGINE; // or how it stands with a root that needs no engine, its place among those, and what waits there
    this._at = 0;
    this._later = null;
    if (inner !== null) for (let it = inner; it.above !== null; it = it.above) it.leaf = this;
  }

  // An end that there is no room for is refused before anything is changed; before the book an item may be told at it.
  error(error) {
    if (this.isStopped) return stopped(errorOf(error), this);
    realm.engine.room(this._way.hooked);
    this.isStopped = true;
    if (this._inHand) this._late = () => this._error(error); else this._error(error);
  }
  complete() {
    if (this.isStopped) return stopped(COMPLETION, this);
    realm.engine.room(this._way.hooked);
    this.isStopped = true;
    if (this._inHand) this._late = () => this._complete(); else this._complete();
  }

  _next(value) { if (this._inner === null || this._way === TERMINAL) this._way.next(value, this); else this._passes(value); }
  // An end that comes from within a function on an item is told behind that item: others may go on where this leaf is merged.
  _passes(value) {
    const outer = this._inHand;
    this._inHand = true;
    try { this._way.next(value, this); } finally {
      this._inHand = outer;
      if (!outer && this._late !== null) this._endsLate();
    }
  }
  _endsLate() {
    const late = this._late;
    this._late = null;
    if (!this.closed) realm.engine.surely(late);
  }
  _error(error) { this._way.error(error, this); }
  _complete() { this._way.complete(this); }

  /** What it is told within this is told in one go: as one item, where nothing happens between. */
  many(act) {
    if (this._lone !== IN_ENGINE) realm.engine.looks();
    this._many = true;
    try { act(); } finally {
      this._many = false;
      if (this._lone === IN_ENGINE) realm.engine.begins();
    }
  }

  /** All of a list, in one go. */
  all(list) {
    if (this._lone === IN_ENGINE || this._way !== TERMINAL) return this.many(() => { for (let i = 0; i < list.length && !this.isStopped; i++) this.next(list[i]); });
    realm.engine.looks();
    for (let i = 0; i < list.length && !this.isStopped; i++) if (this._lone !== IN_ENGINE) loneNextOfMany(this, list[i]); else this.next(list[i]);
  }

  /** Its source tells it nothing more, and what it holds is released. */
  hushes() {
    if (this._subject !== null) this._subject._left(this);
    stops(this);
  }

  isForgettable() { return true; }
  /** The engine has closed it. */
  shut() {
    this.closed = this.isStopped = true;
    if (this._subject !== null) this._subject._left(this);
  }

  add(teardown) {
    if (this.hears !== null) this.hears.add(teardown);
    else super.add(teardown);
  }
  remove(teardown) {
    if (this.hears !== null) this.hears.remove(teardown);
    else super.remove(teardown);
  }
  /** Leaves quietly: its resources are released, and nothing comes of it any more. */
  unsubscribe() { if (this.hears !== null) this.hears.unsubscribe(); else super.unsubscribe(); }
  _leave() {
    realm.engine.room();
    this.shut();
    const errors = this._tag ? collecting(() => realm.engine.remove(this._tag)) : this._finalized(null);
    if (errors !== null) throw new UnsubscriptionError(errors);
  }
}
// What few leaves have otherwise: as of a Thing, and how many items came each of the one before.
Object.assign(Leaf.prototype, { kind: LEAF, at: -1, is_shared: false, is_told: false, _level: 0 });
