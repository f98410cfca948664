// Where two runs of a program first differ in what a callback tells from within, and no other manner of RxJS says what the package comes to.
import { acts, isEnd, saidForNobody, stepOf, wordsOf } from './asked.mjs';
import { TELLS, isHeard, isMark, isRelease } from './running.mjs';

export const PUT_OFF = 'what is told from within to one who is busy waits for that, and all that comes of it';
const isTell = (line) => TELLS.includes(wordsOf(line)[2]);
/** Where what is under way there begins, the innermost last. */
function underWay(lines, at) {
  const all = [];
  for (let i = 0; i < at; i++) {
    const [step, what, whole] = wordsOf(lines[i]);
    if (all.length && stepOf(lines[all[0]]) !== Number(step)) all.length = 0;
    if (what === 'begins' && !whole.endsWith('subscribe')) all.push(i); else if (what === 'ends') all.pop();
  }
  return all;
}
/** Where the first thing stands in which they differ, in each. */
function firstUnlike(a, b) {
  for (let i = 0, k = 0; ; i++, k++) {
    while (i < a.length && isMark(a[i])) i++;
    while (k < b.length && isMark(b[k])) k++;
    if (a[i] !== b[k] || i >= a.length) return [i, k];
  }
}
/** Whether they first differ where a callback tells something, and either that waits, or an item that is being told is first told to the others who hear it. */
export function isPutOff(it, { lines: a }, { lines: b }) {
  if (!acts(it, ...TELLS, 'subscribe') || isCalledForNobody(a, b)) return false;
  const [from, to] = firstUnlike(a, b), theirs = a[from], ours = b[to];
  if (theirs === undefined) return false;
  const busy = underWay(a, from), tell = a[busy.at(-1)], isWithin = (line) => wordsOf(line)[2] === 'within', same = (line) => line?.split(' of ')[0] === tell.split(' of ')[0];
  if (tell === undefined || !isTell(tell) || !busy.some((i) => isWithin(a[i]))) return false;
  const isNothing = from - 1 === busy.at(-1), isToldLater = manyFrom(b, to, theirs) >= manyFrom(a, from, theirs), [step, , what, whom] = wordsOf(tell);
  if (same(b[underWay(b, to)[busy.length - 1]])) { // it is told at once, but behind something else
    if (what === 'next') return !isRelease(theirs) && isToldLater && manyFrom(a, from, ours) >= manyFrom(b, to, ours);
    return (isNothing || !isRelease(theirs)) && (isToldLater || (isNothing && !isEnd(theirs) && !isEnd(ours)));
  }
  const last = b.slice(0, to).findLastIndex((line) => !isMark(line));
  if (!b.slice(last + 1, to).includes(`${step} ends ${what} ${whom}`)) return false;
  const who = wordsOf(theirs)[1];
  if (!isHeard(who)) return isToldLater || (isNothing && !isRelease(theirs));
  // whoever waits is being told something, or a function is being called for somebody
  const isOf = (i) => [who, 'called', 'tapped', 'made'].includes(wordsOf(a[i - 1])[1]) || isRelease(a[i - 1]);
  return busy.some((i) => isWithin(a[i]) && isOf(i)) && (isToldLater || b.slice(to).some((line) => isEnd(line) && wordsOf(line)[1] === who && stepOf(line) === stepOf(theirs)));
}
/** How often that is said from there on, in whatever step. */
const manyFrom = (lines, at, line) => lines.slice(at).filter((one) => wordsOf(one).slice(1).join() === wordsOf(line).slice(1).join()).length;
/** Whether in the second a function is called once nobody hears, and in the first not as often. */
const isCalledForNobody = (a, b) => callsOf(saidForNobody(b)) > callsOf(saidForNobody(a));
const callsOf = (lines) => lines.filter((line) => wordsOf(line)[1] === 'called').length;
