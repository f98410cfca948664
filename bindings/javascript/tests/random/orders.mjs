// Where releases may stand elsewhere: predicates over the program, and an order of all else.
import { hasWord, isOfSeveral, wordsOf } from './asked.mjs';
import { inOrder, inOrderButReleases, isMark, isRelease, isReleasedEarlier } from './running.mjs';

const AT_ONCE = ['at once', 'of', 'from', 'range', 'generate', 'EMPTY', 'throwError', 'pairs', 'bindCallback', 'bindNodeCallback', 'hot', 'using', 'defer', 'iif', 'empty'];
const LABELLED = ['cold', 'at once', 'using', 'finalize of a resource'];
export const isSharing = (name) => name === 'share with words';
/** The names of the resources that are made within arguments of such operators. */
function resourcesWithin(it, isOne, is_within = false, found = new Set()) {
  if (Array.isArray(it)) {
    if (is_within && LABELLED.includes(it[0])) found.add(`${it[1]}`);
    it.forEach((one) => resourcesWithin(one, isOne, is_within || (typeof it[0] === 'string' && isOne(it[0])), found));
  } else if (it !== null && typeof it === 'object') Object.values(it).forEach((one) => resourcesWithin(one, isOne, is_within, found));
  return found;
}
/** In the order in which they stand, but each run of releases with what is made for notifiers: these in their order, behind the others in any. */
function inOrderButNotifiers({ whole }, lines) {
  const names = resourcesWithin(whole, isSharing), told = [];
  const isNotifiers = (line) => { const [, what, name] = wordsOf(line); return (what === 'made' || what === 'released') && names.has(name); };
  let run = [], behind = [];
  for (const it of [...lines.filter((one) => !isMark(one)), null]) {
    if (it !== null && isNotifiers(it)) behind.push(it);
    else if (it !== null && isRelease(it)) run.push(it);
    else {
      told.push(...run.sort(), ...behind, it);
      run = []; behind = [];
    }
  }
  return told.join(', ');
}
export const FOLLOWED = /^(endWith|startWith|repeat|retry|bufferTime)/;
const isAsButReleases = (a, b) => inOrderButReleases(a) === inOrderButReleases(b);
/** Where releases, or what is made as something is released, may stand elsewhere. */
export const ORDERS = {
  'one end releases several observables in the order of the tree': ({ whole }, a, b) => hasWord(whole, (name) => isOfSeveral(name) || /^(subscribeOn|groupBy|window)/.test(name)) && isAsButReleases(a, b),
  'a source that ends, or is left, as it is subscribed to is torn down behind the tree': ({ whole, within }, a, b) =>
    (hasWord(whole, (name) => AT_ONCE.includes(name)) || within.some(({ where }) => where === 'make')) && isAsButReleases(a, b),
  'a notifier for a reset is subscribed to as who had subscribed is released': (it, a, b) =>
    hasWord(it.whole, isSharing) && inOrderButNotifiers(it, a) === inOrderButNotifiers(it, b),
};
/** Where releases stand earlier in the second, and nothing else differs. */
export const EARLIER = {
  'what ends, or is followed by something, is released earlier': ({ whole, within }, a, b) =>
    (hasWord(whole, (name) => isOfSeveral(name) || AT_ONCE.includes(name) || FOLLOWED.test(name)) || within.some(({ act }) => act[0] !== 'throw')) && isReleasedEarlier(a, b),
};
/** Which order differs, if nothing else does: '' where none does, null where something else does. */
export function orderOf(it, a, b, orders = ORDERS) {
  if (inOrder(a) === inOrder(b)) return '';
  return Object.keys(orders).find((name) => orders[name](it, a, b)) ?? null;
}
