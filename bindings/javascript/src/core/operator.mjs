// How operators are made: of functions on items, of nodes, and of links.
import { innerFrom } from '../sources/from.mjs';
import { Observable, isOurs } from './observable.mjs';
import { failing } from './leaf.mjs';
import { openLeaf } from './place.mjs';
import { isFunction } from './util.mjs';

/** An operator by what it opens at a place. */
export class Operator {
  constructor(opens, is_share = false, is_stage = false) {
    this.opens = opens;
    this.is_share = is_share;
    this.is_stage = is_stage;
  }

  /** As another library calls it. */
  call(subscriber, source) {
    const made = new Observable();
    made.source = innerFrom(source);
    made.operator = this;
    return made.subscribe(subscriber);
  }
}

export const operator = (opens, is_share, is_stage) => {
  const made = new Operator(opens, is_share, is_stage);
  return (source) => {
    if (isOurs(source)) return source.lift(made);
    if (!source || !isFunction(source.lift)) throw new TypeError('Unable to lift unknown Observable type');
    return innerFrom(source).lift(made);
  };
};

/** A function on items, or what does something at an end: a stage before the book. `make(up)` is called for each subscription. */
export const staged = (make) => operator((at, source) => source._open(at._through(make(at._way))), false, true);

/** What listens by links, and tells a leaf: `init(source, leaf)`. */
export const operate = (init) => operator((at, source) => {
  const leaf = openLeaf(at);
  if (leaf === null) return;
  try { leaf.add(init(source, leaf)); } catch (error) { failing(leaf, error); }
});
