// What a random program is: lists of words and numbers alone, drawn from a seed, so that one run is like another.
//
// Half the programs are of one operator over a subject, each operator in its turn, those that take observables three times, sometimes with a
// resource before it, and over lists or subjects that tell at once. The others are pipelines of any shape. Of sources a quarter are subjects, three
// eighths make a resource for each subscription (a sixth of these tell all at once), an eighth are lists, a quarter are the creation functions. All
// creation functions have equal weight, and within a pipeline all operators. Each function of a program's own fails, for one of its items, in one of
// twelve. In one program of ten some callbacks do something from within: an observer, a function on items, a function that makes something, a release,
// an action of a scheduler. Half of these feed the source, two or three times; in the others each of one to three callbacks tells a subject, ends it,
// subscribes, leaves, or throws. Of what is told to subjects seven in eight are told to one that the pipeline is of.
//
// The mix was settled over seeds below 4,000: what a page says is of other seeds.
import { OPERATORS, SOURCES } from './mix.mjs';

export const HOTS = 8; // subjects that a pipeline may be of: four plain ones, one of each other kind, one that has ended
export const WHERE = ['item', 'end', 'call', 'make', 'release', 'action'];
const FAILS = 1 / 12, WITHIN = 1 / 10, STEPS = 24;

export function drawing(seed) {
  let state = seed * 2654435761 >>> 0 || 1;
  const next = () => {
    state ^= state << 13; state >>>= 0; state ^= state >>> 17; state ^= state << 5; state >>>= 0;
    return state / 4294967296;
  };
  const below = (n) => Math.floor(next() * n);
  return { below, one: (list) => list[below(list.length)], chance: (p) => next() < p, made: 0, hots: new Set() };
}

const items = (d) => Array.from({ length: d.below(4) }, () => d.below(5));
const leaf = Object.keys(SOURCES).filter((it) => !/[oiO]/.test(SOURCES[it][0])), inner = Object.keys(SOURCES);

function hot(d) {
  const n = d.below(HOTS);
  d.hots.add(n);
  return n;
}
function source(d, depth) {
  if (d.is_simple && d.chance(0.5)) return d.chance(0.5) ? ['of', d.below(4), d.below(4), d.below(4)] : ['hot', 4 + d.below(2)];
  const kind = d.below(16);
  if (kind < 4) return ['hot', hot(d)];
  if (kind < 9) return ['cold', d.made++, items(d), d.below(3)];
  if (kind === 9) return ['at once', d.made++, items(d), d.below(3)];
  if (kind < 12) return ['of', d.below(4), d.below(4), d.below(4)];
  const name = d.one(depth > 0 ? inner : leaf);
  return [name, ...words(d, SOURCES[name][0], depth)];
}

/** What each kind of argument is drawn as. */
const DRAWS = {
  n: (d) => d.below(4),
  h: hot, // the number of a subject
  b: (d) => d.chance(0.5),
  l: (d) => d.made++, // the name of what is made, or done, there
  f: (d) => d.chance(FAILS),
  o: (d, depth) => (depth > 0 ? pipeline(d, depth - 1) : { source: source(d, 0), operators: [] }),
  O: (d, depth) => Array.from({ length: 2 + d.below(2) }, () => DRAWS.o(d, depth)),
  i: (d, depth) => [d.chance(FAILS), DRAWS.o(d, depth), DRAWS.o(d, 0)],
};
const words = (d, kinds, depth) => [...kinds].map((it) => DRAWS[it](d, depth));

function operator(d, depth) {
  const name = d.one(Object.keys(OPERATORS));
  return [name, ...words(d, OPERATORS[name][0], depth)];
}
function pipeline(d, depth) {
  return { source: source(d, depth), operators: Array.from({ length: depth === 2 ? 1 + d.below(4) : d.below(depth + 2) }, () => operator(d, depth)) };
}

const subject = (d) => (d.hots.size && d.chance(7 / 8) ? d.one([...d.hots]) : d.below(HOTS));
const emission = (d) => ['next', subject(d), d.below(6)], ending = (d) => [d.one(['complete', 'error']), subject(d)];

function step(d) {
  const kind = d.below(16);
  if (kind < 10) return emission(d);
  if (kind < 13) return ['time', 1 + d.below(20)];
  if (kind === 13) return ending(d);
  if (kind === 14) return d.chance(0.8) ? ['subscribe', d.one(['x', 'y', 'z'])] : ['connect'];
  return ['unsubscribe', d.one(['x', 'y', 'z'])];
}

const ACTS = [emission, emission, ending, (d) => ['subscribe', d.one(['x', 'y', 'z'])], (d) => ['unsubscribe', d.one(['x', 'y', 'z'])], () => ['throw']];
const one_of = (d) => ({ where: d.one(WHERE), at: d.below(3), act: d.one(ACTS)(d) });
const feeding = (d) => ({ where: d.one(['item', 'item', 'item', 'call', 'call', 'release']), at: d.below(2), act: d.chance(0.8) ? ['next', d.first, d.below(6)] : ['complete', d.first] });
const acts = (d) => (d.chance(0.5) ? Array.from({ length: 2 + d.below(2) }, () => feeding(d)) : Array.from({ length: 1 + d.below(3) }, () => one_of(d)));

const fed = (d) => Array.from({ length: 2 + d.below(3) }, () => feeding(d));
/** An operator over a subject, often with a resource before it; the observables that it takes are simple ones as often as not. */
function around(d, name) {
  const source = ['hot', hot(d)], before = d.chance(0.2) ? [['finalize of a resource', d.made++]] : [];
  d.is_simple = true;
  const it = [name, ...words(d, OPERATORS[name][0], 1)];
  d.is_simple = false;
  return { source, operators: [...before, it, ...(d.chance(0.5) ? [operator(d, 0)] : [])] };
}
const NAMES = Object.keys(OPERATORS).flatMap((name) => (/[oi]/.test(OPERATORS[name][0]) ? [name, name, name] : [name]));
const FED = NAMES.filter((name) => /[oi]/.test(OPERATORS[name][0]));
/** The program of a seed: its pipeline, what is done, and what callbacks do from within. If it is busy it is of one operator, and some callback always does
 *  something; if it is 'fed' that operator takes observables, and callbacks feed its source. */
export function drawn(seed, busy = false) {
  const d = drawing(seed), names = busy === 'fed' ? FED : NAMES, name = names[(busy ? seed : seed >> 1) % names.length];
  const whole = seed % 2 && !busy ? pipeline(d, 2) : around(d, name);
  const steps = [['subscribe', 'x'], ...Array.from({ length: STEPS }, () => step(d))];
  d.first = [...d.hots][0] ?? 0;
  return { whole, steps, within: busy === 'fed' ? fed(d) : busy || d.chance(WITHIN) ? acts(d) : [] };
}
