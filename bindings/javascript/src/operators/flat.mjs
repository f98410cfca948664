// FlatMap and Switch of the engine: an observable for each item, so many at a time, or the latest alone.
import { FLAT, INNER, SOURCE, SWITCH } from '../engine/codes.mjs';
import { realm } from '../engine/realm.mjs';
import { TERMINAL } from '../core/leaf.mjs';
import { MERGED, Place, failAt, linked, openAt, openNode, openPass, settled } from '../core/place.mjs';
import { operator } from '../core/operator.mjs';
import { isLeaf, isSilent } from '../core/subject.mjs';
import { identity, isFunction } from '../core/util.mjs';
import { innerFrom } from '../sources/from.mjs';
import { map } from './items.mjs';

/** What a node that projects is for: it opens an observable for each item. */
class Projects {
  index = 0;
  is_over = false; // it has closed: then it is asked for no projection more
  constructor(call, way) {
    this.call = call;
    this.way = way;
  }
  opened(thing, inner) { this.place = new Place(INNER, thing, null, this.way, null, this.innerOf(inner)); }
  /** What is released before an end within it is counted: all up to here. */
  innerOf() { return MERGED; }

  // Others go on before the inner observable is opened, so that what that tells from within comes at once.
  start(thing, value) {
    let inner;
    try { inner = innerFrom(this.call(value, this.index++)); } catch (error) { return realm.engine.fail(thing, error); }
    if (isSilent(inner)) openAt(inner, this.place); else realm.engine.lettingGo(openAt, inner, this.place);
  }
  project(thing, value) { this.start(thing, value); }
  shut() { this.is_over = true; }
}

/** The latest alone. The one before is released before the function is called: by a node that takes its place, in which the next one is opened. Where
 *  that is one leaf its source tells it nothing more, what it holds is released, and it is closed as the next one is opened. */
class Switches extends Projects {
  is_leaf = true; // whether the latest is a leaf alone, if there is one
  latest = null; // the leaf then
  innerOf(inner) { return inner; }
  start(thing, value) {
    let at = this.place, inner;
    if (this.is_leaf && this.latest !== null) this.latest.hushes();
    this.latest = null;
    try {
      if (!this.is_leaf) at = openPass(at);
      if (at === null) return;
      at._above.switches = this;
      inner = innerFrom(this.call(value, this.index++));
    } catch (error) {
      if (at === this.place) realm.engine.fail(thing, error); else failAt(at, error);
      return;
    }
    this.is_leaf = isLeaf(inner);
    if (isSilent(inner)) openAt(inner, at); else realm.engine.lettingGo(openAt, inner, at);
  }
}
/** So many at a time; items that wait are owed to the engine, which so keeps the node open. */
class Bounded extends Projects {
  active = 0;
  waiting = [];
  constructor(call, way, bound) {
    super(call, way);
    this.bound = bound;
  }
  opened(thing, inner) {
    this.place = new Place(INNER, thing, null, this.way, () => {
      this.active--;
      if (this.waiting.length && !this.is_over) realm.engine.surely(() => realm.engine.put(thing, () => this.goOn(thing)));
    }, this.innerOf(inner));
  }
  project(thing, value) {
    if (this.active < this.bound) this.start(thing, value);
    else this.waiting.push(value);
  }
  start(thing, value) {
    this.active++;
    super.start(thing, value);
  }
  goOn(thing) {
    realm.engine.letGo();
    while (this.waiting.length && this.active < this.bound && !this.is_over) this.start(thing, this.waiting.shift());
  }
  shut() {
    this.is_over = true;
    this.waiting = [];
  }
}

/** One at a time; what comes meanwhile is left out. */
class Exhausts extends Bounded {
  innerOf(inner) { return inner; }
  project(thing, value) {
    if (this.active === 0) this.start(thing, value);
    else realm.engine.decline(thing);
  }
}

/** Where it merges. Within what is merged, where something stands around it that is to be released before its end is counted, it has a tree of its own,
 *  whose end is one above. */
const merging = (at) => (at._inner !== null && at._inner.above !== null ? linked(at) : settled(at));
const projecting = (kind, make) => operator((at, source) => {
  const place = merging(at);
  if (place === null) return;
  const body = make(place._way), thing = openNode(place, kind, body);
  if (thing === null) return;
  const inner = place._inner && MERGED; // an end here need not be one above
  body.opened(thing, inner);
  openAt(source, new Place(SOURCE, thing, null, TERMINAL, null, inner));
});

const selecting = (project, resultSelector) => (a, i) => map((b, ii) => resultSelector(a, b, i, ii))(innerFrom(project(a, i)));

export function mergeMap(project, resultSelector, concurrent = Infinity) {
  if (isFunction(resultSelector)) return mergeMap(selecting(project, resultSelector), concurrent);
  if (typeof resultSelector === 'number') concurrent = resultSelector;
  return projecting(FLAT, (way) => (concurrent === Infinity ? new Projects(project, way) : new Bounded(project, way, concurrent)));
}
export const flatMap = mergeMap;
export const mergeMapTo = (inner, resultSelector, concurrent = Infinity) =>
  (isFunction(resultSelector) ? mergeMap(() => inner, resultSelector, concurrent)
    : mergeMap(() => inner, typeof resultSelector === 'number' ? resultSelector : concurrent));
export const concatMap = (project, resultSelector) =>
  (isFunction(resultSelector) ? mergeMap(project, resultSelector, 1) : mergeMap(project, 1));
export const concatMapTo = (inner, resultSelector) =>
  (isFunction(resultSelector) ? concatMap(() => inner, resultSelector) : concatMap(() => inner));
export const mergeAll = (concurrent = Infinity) => mergeMap(identity, concurrent);
export const concatAll = () => mergeAll(1);

export const switchMap = (project, resultSelector) =>
  projecting(SWITCH, (way) => new Switches(isFunction(resultSelector) ? selecting(project, resultSelector) : project, way));
export const switchMapTo = (inner, resultSelector) =>
  (isFunction(resultSelector) ? switchMap(() => inner, resultSelector) : switchMap(() => inner));
export const switchAll = () => switchMap(identity);

export const exhaustMap = (project, resultSelector) =>
  projecting(FLAT, (way) => new Exhausts(isFunction(resultSelector) ? selecting(project, resultSelector) : project, way, 1));
export const exhaustAll = () => exhaustMap(identity);
export { exhaustAll as exhaust, projecting, Projects, Bounded, Switches };
