// Why two runs of one program differ. A reason is a predicate over the program, and says what the package is to come to then: what RxJS comes to where
// the program mends what RxJS does wrong, or where callbacks act in the package's manner. All else is as there, in its order; which releases may stand
// elsewhere is said in orders.mjs. `node random.mjs --plant` plants faults in what the package came to, and counts those that a reason lets pass.
import { acts, hasWord, isOfSeveral } from './asked.mjs';
import { LEFT } from './left.mjs';
import { EARLIER, FOLLOWED, ORDERS, isSharing, orderOf } from './orders.mjs';
import { ENDS, SHARING } from './mix.mjs';
import { TELLS, compared, isHeard } from './running.mjs';
import { PUT_OFF, isPutOff } from './within.mjs';

export const isHeardSame = (a, b) => compared(a.lines, isHeard) === compared(b.lines, isHeard);

/** What RxJS 7.5.7 does wrong and a program can mend. */
export const MENDED = {
  'RxJS goes on with what was before, beside what is repeated': [({ whole }) => hasWord(whole, (name) => /^(repeat|retry)/.test(name)), { mends: ['again'] }],
  'RxJS keeps a source for nobody': [({ whole }) => hasWord(whole, (name) => isSharing(name) || name === 'connect'), { mends: ['reset', 'connect'] }],
  'RxJS resets a share by a notifier of the one before': [({ whole }) => hasWord(whole, isSharing), { mends: ['stale'] }],
  'RxJS goes on with one that has lost a race': [({ whole }) => hasWord(whole, (name) => /^race/.test(name)), { mends: ['race'] }],
  'RxJS asks about items behind the one that it ended with': [({ whole }) => hasWord(whole, (name) => /^(every|find|findIndex|takeWhile)$/.test(name)), { mends: ['asked'] }],
  'RxJS leaves a resource open': [({ whole }) => hasWord(whole, (name) => name === 'using'), { mends: ['using'] }],
};
/** What the package does in its own manner. */
export const MANNERS = {
  'what comes next comes behind the release of what was before': [({ whole }) => hasWord(whole, (name) => isOfSeveral(name) || FOLLOWED.test(name)), { releases: true, mends: ['using'] }],
  'what ends by itself has left its source as its end is told': [(it) => acts(it, ...TELLS) && hasWord(it.whole, (name) => name in ENDS), { quits: true }],
  'what a callback tells from within comes as soon as it has returned': [(it) => acts(it, ...TELLS), { puts_off: TELLS }],
  'what is told from within to one who is being told comes behind that': [(it) => acts(it, ...TELLS), { leaves: 'subjects' }],
  'what is told from within to an observer that is being told comes behind that': [(it) => acts(it, ...TELLS), { leaves: 'roots' }],
  'what is told from within to an observer, a share, or an operator that ends by itself, that is being told comes behind that': [(it) => acts(it, ...TELLS) && hasWord(it.whole, (name) => name in ENDS || name in SHARING), { leaves: 'ends' }],
  'what is told from within to an observer, or by an observable within another, that is being told comes behind that': [(it) => acts(it, ...TELLS), { leaves: 'inners' }],
  'what is told from within to an observer, or a function, that is being told comes behind that': [(it) => acts(it, ...TELLS), { leaves: 'places' }],
  'what comes of a subscription from within comes as soon as the callback has returned': [(it) => acts(it, 'subscribe'), { puts_off: ['subscribe'] }],
  'what is repeated comes as soon as what told of it has returned': [({ whole }) => hasWord(whole, (name) => /^(repeat|retry) with/.test(name)), { mends: ['behind'] }],
  'what a release throws at an end is reported': [({ within }) => within.some(({ where, act }) => where === 'release' && act[0] === 'throw'), { hushes: true }],
};
/** All ways in which some of these hold, those of few first: each with its names. */
function mannersOf(it) {
  let all = [[]];
  for (const [name, [holds]] of Object.entries({ ...MANNERS, ...MENDED })) if (holds(it)) all = [...all, ...all.map((some) => [...some, name])];
  return all.sort((one, other) => one.length - other.length);
}
function mannerOf(names) {
  const all = names.map((name) => (MANNERS[name] ?? MENDED[name])[1]);
  return {
    puts_off: all.flatMap((one) => one.puts_off ?? []), hushes: all.some((one) => one.hushes), leaves: all.find((one) => one.leaves)?.leaves ?? '',
    releases: all.some((one) => one.releases), quits: all.some((one) => one.quits), mends: new Set(all.flatMap((one) => one.mends ?? [])),
  };
}
/** Whether both come to the same where all that callbacks do is done behind the step. */
function isSameBehind(it, over, ours) {
  const behind = { puts_off: [...TELLS, 'subscribe', 'unsubscribe'], hushes: true, leaves: '', mends: new Set() };
  const b = ours(behind), mends = Object.entries(MENDED).filter(([, [holds]]) => holds(it)).flatMap(([, [, manner]]) => manner.mends);
  return [new Set(), new Set(mends)].some((some) => orderOf(it, over({ ...behind, mends: some }).lines, b.lines) !== null);
}

/** The name of the reason why they differ, or null. `over(manner)` is what RxJS comes to in that manner, `ours(manner)` what the package does. */
export function nameOf(it, a, b, over, ours) {
  for (const orders of [ORDERS, EARLIER]) {
    for (const names of mannersOf(it)) {
      const manner = mannerOf(names), said = (run) => (manner.hushes ? run.lines.filter((line) => !line.includes(' raised within release')) : run.lines);
      const order = orderOf(it, said(names.length ? over(manner) : a), said(b), orders);
      if (order !== null) return names[0] ?? order;
    }
  }
  for (const [name, without] of Object.entries(LEFT)) {
    const lines = without(it, a, b);
    if (lines && orderOf(it, lines, b.lines) !== null) return name;
  }
  return isPutOff(it, a, b) && isSameBehind(it, over, ours) ? PUT_OFF : null;
}
export const isOfRxJS = (name) => name in MENDED || name in LEFT;
