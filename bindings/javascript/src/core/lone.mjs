// A root that is a leaf alone and holds nothing: nothing above can close it, nothing is released with it, and of its items nothing comes but that they
// are heard. So it is told without the engine: by a flag, while its observer is told, and a list for what comes from within. It is opened in the engine
// as soon as it holds something, or somebody asks where subscriptions are made: then all that it does is in the history.
import { LEAF, ROOT, WISHES } from '../engine/codes.mjs';
import { MOST, NOWHERE } from '../engine/crossing.mjs';
import { realm } from '../engine/realm.mjs';
import { LATELY } from '../engine/things.mjs';

export const IN_ENGINE = 0, IDLE = 1, BUSY = 2, ENTERS = 3; // the last: busy, and goes into the engine behind that

/** Those that are open: the latest, and the rest as long as the program keeps them. */
class Lones {
  #lately = new Array(LATELY).fill(null); #now = 0; #loose = []; #most = LATELY;
  take(leaf) {
    const at = this.#now = (this.#now + 1) & (LATELY - 1), old = this.#lately[at];
    this.#lately[at] = leaf;
    leaf._at = at;
    if (old === null) return;
    this.#loose.push(new WeakRef(old));
    if (this.#loose.length > this.#most) {
      this.#loose = this.#loose.filter((it) => isOpenLone(it.deref()));
      this.#most = 2 * this.#loose.length + LATELY;
    }
  }
  left(leaf) { if (this.#lately[leaf._at] === leaf) this.#lately[leaf._at] = null; }
  /** In the order in which they came. */
  all() {
    const next = this.#now + 1;
    return [...this.#loose.map((it) => it.deref()), ...this.#lately.slice(next), ...this.#lately.slice(0, next)].filter(isOpenLone);
  }
  /** Leaves those of a list that are open. */
  leave(list) {
    for (const it of list) {
      if (!isOpenLone(it)) continue;
      loneLeft(it);
      it.hears.heardGone();
    }
  }
}
const isOpenLone = (it) => !!it && it._lone !== IN_ENGINE && !it.closed;
/** One list for a realm, as there is one engine. */
export const lones = realm.lones ??= new Lones();

/** Whether a root there may be alone: with room for a command that opens it later. */
export const mayBeLone = (hears) => !hears.closed && hears._holdsNone() && realm.engine.isRoomy();
export function opensLone(leaf) {
  leaf._lone = IDLE;
  lones.take(leaf);
  leaf.hears._thing = leaf;
}

/** Of what a subscriber hears, if anything: whether it is such a root. */
export const isLone = (it) => it !== null && it._lone !== undefined && it._lone !== IN_ENGINE;
/** Opens it in the engine, behind what its observer is being told, if that is so. Whether it is there, as every other node is. */
export function enters(leaf) {
  if (!isLone(leaf)) return true;
  if (leaf._lone !== IDLE) {
    leaf._lone = ENTERS;
    return false;
  }
  const { engine } = realm;
  leaf.hears._entersAbove();
  engine.begins();
  if (leaf.closed) return false;
  leaf._lone = IN_ENGINE;
  let is_open = false;
  try { is_open = engine.open(ROOT, LEAF, WISHES, NOWHERE, leaf) === 0; } finally { if (!is_open) leaf._lone = IDLE; }
  lones.left(leaf);
  return is_open;
}

/** What comes from within: each item with how many came each of the one before. */
function waitsLone(leaf, tell, value) {
  const level = leaf._level + 1;
  if (level > MOST) throw new RangeError(`cellarcliff: ${MOST} items came each from within the one before`);
  (leaf._later ??= []).push({ tell, value, level });
}
const anItem = (hears, value) => hears.hear(value), anError = (hears, error) => hears.heardError(error, 0), anEnd = (hears) => hears.heardEnd(0);

function tellsLone(leaf, tell, value) {
  if (leaf._lone !== IDLE) return waitsLone(leaf, tell, value);
  leaf._lone = BUSY;
  try { tell(leaf.hears, value); } catch (error) { realm.engine.report(error); }
  if (leaf._later === null && leaf._lone === BUSY) leaf._lone = IDLE;
  else tellsWaiting(leaf);
}
function tellsWaiting(leaf) {
  const { hears } = leaf;
  for (let at = 0, waiting; (waiting = leaf._later) !== null && at < waiting.length; at++) {
    if (at === 1024) waiting.splice(0, at), at = 0;
    const { tell, value, level } = waiting[at];
    leaf._level = level;
    try { tell(hears, value); } catch (error) { realm.engine.report(error); }
  }
  leaf._later = null;
  leaf._level = 0;
  const wants = leaf._lone === ENTERS && !leaf.closed;
  leaf._lone = IDLE;
  if (wants) try { hears._hold(); } catch { /* for want of room: it is asked again */ }
}

/** An item. Of those that its source tells in one go the first has looked at the stack. */
export function loneNext(leaf, value) {
  if (!leaf._many) realm.engine.looks();
  loneNextOfMany(leaf, value);
}
export function loneNextOfMany(leaf, value) {
  if (leaf._lone !== IDLE) return waitsLone(leaf, anItem, value);
  leaf._lone = BUSY;
  try { leaf.hears.hear(value); } catch (error) { realm.engine.report(error); }
  if (leaf._later === null && leaf._lone === BUSY) leaf._lone = IDLE;
  else tellsWaiting(leaf);
}
export function loneError(leaf, error) {
  leavesLone(leaf);
  tellsLone(leaf, anError, error);
}
export function loneEnd(leaf) {
  leavesLone(leaf);
  tellsLone(leaf, anEnd, undefined);
}
function leavesLone(leaf) {
  leaf.shut();
  lones.left(leaf);
}
/** Left: what waits is not told. */
export function loneLeft(leaf) {
  leavesLone(leaf);
  leaf._later = null;
}
