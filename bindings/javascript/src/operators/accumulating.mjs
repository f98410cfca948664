// An observable for each item and what has come of the others before it.
import { FLAT, SWITCH } from '../engine/codes.mjs';
import { MOST } from '../engine/crossing.mjs';
import { Stage } from '../core/leaf.mjs';
import { Link } from '../core/link.mjs';
import { operate } from '../core/operator.mjs';
import { innerFrom } from '../sources/from.mjs';
import { scheduleFor } from '../schedulers/schedule.mjs';
import { Bounded, Projects, Switches, projecting } from './flat.mjs';

/** Sees each item of the inner observables as it passes. */
class Sees extends Stage {
  constructor(up, see) {
    super(up);
    this.see = see;
  }
  next(value, leaf) {
    this.see(value);
    this.up.next(value, leaf);
  }
}

const scanning = (kind, make) => (accumulator, seed, concurrent = Infinity) => projecting(kind, (way) => {
  let state = seed;
  return make((value, index) => accumulator(state, value, index), new Sees(way, (value) => { state = value; }), concurrent);
});
export const mergeScan = scanning(FLAT, (call, way, bound) => (bound === Infinity ? new Projects(call, way) : new Bounded(call, way, bound)));
export const switchScan = (accumulator, seed) => scanning(SWITCH, (call, way) => new Switches(call, way))(accumulator, seed);

const DEEP = 32; // so many expansions, each within another one, are made by calls; those within these come from lists, in the same order

/** An observable for each item, those of these observables too: each expansion comes before the next item of the observable that it is of. */
export function expand(project, concurrent = Infinity, scheduler) {
  if (!(concurrent >= 1)) concurrent = Infinity;
  return operate((source, to) => {
    const waiting = []; // for the bound
    let active = 0, index = 0, is_over = false, is_busy = false, depth = 0, told = null; // what the expansion at work tells, where they are deep
    const ends = () => { if (is_over && active === 0 && waiting.length === 0 && told === null) to.complete(); };
    const start = (value) => {
      to.next(value);
      active++;
      let is_complete = false;
      innerFrom(project(value, index++)).subscribe(new Link(to, take, () => { is_complete = true; }, undefined, () => {
        if (!is_complete) return;
        active--;
        try { goOn(); } catch (error) { to.error(error); }
        ends();
      }));
    };
    const goOn = () => {
      if (is_busy) return;
      is_busy = true;
      try {
        while (waiting.length && active < concurrent && !to.closed) {
          const value = waiting.shift();
          if (scheduler && concurrent !== Infinity) scheduleFor(to, scheduler, () => start(value));
          else start(value);
        }
      } finally { is_busy = false; }
    };
    const take = (value) => {
      if (told !== null) told.push(value);
      else if (active >= concurrent) waiting.push(value);
      else if (depth === DEEP) deeper(value);
      else {
        depth++;
        try { start(value); } finally { depth--; }
      }
    };
    const deeper = (first) => {
      const lists = [[first]];
      try {
        while (lists.length && !to.closed) {
          if (lists.length > MOST) throw new RangeError(`cellarcliff: ${MOST} expansions came each at once within the one before`);
          const list = lists[lists.length - 1];
          if (list.length === 0) lists.pop();
          else if (active >= concurrent) waiting.push(list.shift());
          else {
            lists.push(told = []);
            start(list.shift());
          }
        }
      } finally { told = null; }
      ends();
    };
    return source.subscribe(new Link(to, take, () => {
      is_over = true;
      ends();
    }));
  });
}
