// Where something is to be opened, and how: nodes of the engine, and links, which lead from a tree to another one below it.
import { GONE, INNER, LEAF, PASS, ROOT, SOURCE, WISHES } from '../engine/codes.mjs';
import { NOWHERE } from '../engine/crossing.mjs';
import { realm } from '../engine/realm.mjs';
import { Thing } from '../engine/thing.mjs';
import { traced } from '../engine/tracing.mjs';
import { Inner, Leaf, TERMINAL, failing } from './leaf.mjs';
import { Link } from './link.mjs';
import { IN_ENGINE, mayBeLone, opensLone } from './lone.mjs';
import { Subscriber } from './subscriber.mjs';

/** A place in a tree: below which node, who hears (of a root), and the functions that items go through. */
export class Place {
  constructor(place, above, hears = null, way = TERMINAL, leaves = null, inner = null) {
    this._place = place;
    this._above = above;
    this._hears = hears;
    this._way = way;
    this._leaves = leaves; // what is called once the node there has closed
    this._inner = inner; // of what is merged: the resources from here up to where that is
  }
  _through(way) { return new Place(this._place, this._above, this._hears, way, this._leaves, this._inner); }
}
/** Where an observable is merged. */
export const MERGED = new Inner(null, null);
// Who hears a root stands for the place of that.
Object.assign(Subscriber.prototype, { _place: ROOT, _above: NOWHERE, _way: TERMINAL, _leaves: null, _inner: null, _through(way) { return new Place(ROOT, NOWHERE, this, way, null); } });
Object.defineProperty(Subscriber.prototype, '_hears', { get() { return this; } });

/** Whether a line of the program asks for it, and not an operator: what it is called then, if it is no subscription, is `asked`. */
export const isAsked = (hears) => !(hears instanceof Link) || hears.asked !== undefined;

const unopened = new WeakSet(); // errors for which nothing was opened
/** What stands for a node whose subscriber had left before it was opened, or whose projection ended the whole: what is to be opened below it is called, as
 *  in RxJS, and left at once. */
export const LEFT = new Thing(null, null);

const OPENED = 0, BEHIND = 1, CLOSED = 2;

// Opens a node there, of which this thing is told: whether it is open, stands for what is LEFT, or the place has closed.
function opens(at, kind, thing, flags, tag, share) {
  const { hears } = thing, { engine } = realm;
  let status = GONE;
  if (at._above !== LEFT) try {
    if (hears !== null) hears._entersAbove();
    engine.begins();
    if (hears === null || !hears.closed) {
      if (engine.tracing && hears !== null && isAsked(hears)) traced(thing, hears.asked ?? 'subscription');
      if (at._place !== ROOT) thing.above = at._above;
      status = engine.open(at._place, kind, flags, at._above, thing, tag, share);
    }
  } catch (error) {
    if (share !== null) share.status = GONE;
    if (hears !== null && hears.is_linked) { // what it leads to stands at the place
      failing(hears.destination, error);
      return CLOSED;
    }
    unopened.add(error);
    throw error;
  }
  if (share !== null) share.status = status;
  if (status === 0 && at._above !== LEFT) {
    if (hears !== null && !hears.closed) hears._roots(thing);
    return OPENED;
  }
  return at._above === LEFT || (hears !== null && hears.closed) || (status === GONE && at._place === INNER) ? BEHIND : CLOSED;
}

/** Opens a node there: the thing, LEFT, or null where the place has closed; in both of these a tag was not taken. */
export function openNode(at, kind, body = null, tag = null, share = null) {
  const thing = new Thing(at._place === ROOT ? at._hears : null, body), flags = (body !== null && body.wishes !== false) || at._leaves !== null ? WISHES : 0;
  thing.leaves = at._leaves;
  const how = opens(at, kind, thing, flags, tag, share);
  return how === OPENED ? thing : how === BEHIND ? LEFT : null;
}

/** Opens a leaf there: what tells it, or null. */
export function openLeaf(at) {
  const hears = at._place === ROOT ? at._hears : null, leaf = new Leaf(at._way, hears, at._leaves, at._inner);
  if (hears !== null && mayBeLone(hears)) {
    opensLone(leaf);
    return leaf;
  }
  const how = opens(at, LEAF, leaf, WISHES, null, null);
  if (how === CLOSED) return null;
  if (how === BEHIND) leaf.closed = leaf.isStopped = true;
  else if (leaf.hears === null) leaf._thing = leaf;
  if (how === OPENED && at._above.switches && (at._place === INNER || at._above.kind === PASS)) at._above.switches.latest = leaf;
  return leaf;
}
/** Of a leaf that is closed: whether it stands for what is LEFT, and was never opened. */
export const isLeft = (leaf) => leaf.slot === -1 && leaf._lone === IN_ENGINE;

/** Opens a node that passes everything, with a resource; the place below it, or null. Below LEFT the resource is to be released behind what is opened. */
export function openUsing(at, tag) {
  const thing = openNode(at, PASS, null, tag);
  return thing && new Place(SOURCE, thing, null, at._way, null, at._inner && new Inner(tag, at._inner));
}

/** Opens a node that passes everything: the place below it, or null. */
export function openPass(at) {
  const thing = openNode(at, PASS);
  return thing && new Place(SOURCE, thing, null, at._way, null, at._inner);
}
/** A resource for the node above a place; released at once where that has closed. */
export function holdAt(below, tag) {
  let status = 1;
  try { status = realm.engine.hold(below._above, tag); } finally { if (status) tag.release(); }
  if (below._inner !== null) below._inner = new Inner(tag, below._inner);
}

/** A tree of its own that tells a leaf at this place: the place of its root, or null. Where there is no room for the root, that is an error of the leaf. */
export function linked(at) {
  const leaf = openLeaf(at), link = leaf && new Link(leaf);
  if (link !== null) link.is_linked = true;
  return link;
}

/** The place itself, or that of a link where functions before the book do something at an end that a node would come to. */
export const settled = (at) => (at._way.hooked ? linked(at) : at);

/** Looks for room for a function of the program that makes what is opened next: without it nothing is opened, and the function is not called. */
export function roomToMake() {
  try { realm.engine.room(true); } catch (error) {
    unopened.add(error);
    throw error;
  }
}

/** Fails there. */
export function failAt(at, error) { openLeaf(at)?.error(error); }

/** Of what was thrown for want of room, with nothing opened: that is an error of the leaf, or at the place, once there is. What else was thrown goes on. */
export function unopenedAt(at, error) {
  if (!unopened.has(error)) throw error;
  if (at instanceof Leaf) failing(at, error); else realm.engine.surely(() => failAt(at, error));
}
/** Opens an observable below what is open. */
export function openAt(source, at) {
  try { source._open(at); } catch (error) { unopenedAt(at, error); }
}

