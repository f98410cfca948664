// TakeUntil of the engine, and what leaves out items until another observable tells.
import { NOTIFIER, ROOT, SOURCE, UNTIL } from '../engine/codes.mjs';
import { Inner, Stage, TERMINAL, failing, stops } from '../core/leaf.mjs';
import { realm } from '../engine/realm.mjs';
import { Link } from '../core/link.mjs';
import { LEFT, MERGED, Place, openAt, openLeaf, openNode, settled, unopenedAt } from '../core/place.mjs';
import { operate, operator } from '../core/operator.mjs';
import { isLeaf } from '../core/subject.mjs';
import { noop } from '../core/util.mjs';
import { innerFrom } from '../sources/from.mjs';

/** An item of a notifier is the end; within what is merged what that releases is released before it is counted. The end of a notifier says nothing: it
 *  only leaves. */
class Notifies extends Stage {
  has_told = false;
  constructor(up, ends) {
    super(up, true);
    this.ends = ends;
  }
  next(value, leaf) {
    this.has_told = true;
    if (this.ends !== null) {
      realm.engine.room(true);
      stops(leaf);
      this.ends.releases();
    }
    this.up.next(value, leaf);
  }
  error(error, leaf) {
    this.has_told = true;
    this.up.error(error, leaf);
  }
  complete(leaf) { leaf.unsubscribe(); }
}
/** Knows whether a node has closed. */
class Closes {
  is_over = false;
  shut() { this.is_over = true; }
}

// What a notifier holds besides its leaf is a tree of its own, which is left at its end.
function notifies(other, place) {
  if (!other.operator && isLeaf(other)) return openAt(other, place);
  const leaf = openLeaf(place);
  if (leaf === null) return;
  try { other.subscribe(new Link(leaf, undefined, noop)); } catch (error) { failing(leaf, error); }
}

export function takeUntil(notifier) {
  return operator((at, source) => {
    const other = innerFrom(notifier), place = settled(at);
    if (place === null) return;
    // of a root the observer knows that it is over, or the notifier does
    const body = place._place === ROOT ? null : new Closes(), thing = openNode(place, UNTIL, body);
    if (thing === null) return;
    const ends = place._inner && new Inner(null, place._inner), below = new Place(SOURCE, thing, null, place._way, null, ends), way = new Notifies(TERMINAL, ends);
    if (ends !== null) ends.beside = new Inner(null, MERGED);
    try { notifies(other, new Place(NOTIFIER, thing, null, way, null, ends && ends.beside)); } catch (error) { return unopenedAt(below, error); }
    const is_over = body === null ? way.has_told || place._hears.closed : body.is_over;
    if (thing !== LEFT && !is_over) openAt(source, below);
  });
}

export const skipUntil = (notifier) => operate((source, to) => {
  let is_taking = false;
  const until = new Link(to, () => {
    until.unsubscribe();
    is_taking = true;
  }, noop);
  innerFrom(notifier).subscribe(until);
  source.subscribe(new Link(to, (value) => is_taking && to.next(value)));
});
