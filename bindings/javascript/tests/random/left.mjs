// What RxJS does for nobody, or leaves, where no program can mend it: told by what happened in both runs.
import { acts, hasWord, wordsOf } from './asked.mjs';
import { TELLS, isMark } from './running.mjs';

/** What RxJS would have said without that, or null. */
export const LEFT = {
  'RxJS subscribes to something for nobody': (it, a, b) => withoutPairs(a.lines, b.lines),
  'RxJS never leaves an observable that is made as another one takes its place': ({ within }, a, b) => (within.length > 0 && a.left > b.left ? withoutLeft(a.lines, b.lines) : null),
  'RxJS leaves an observable at the end that another one has taken the place of': (it, a, b) =>
    (acts(it, ...TELLS) && hasWord(it.whole, (name) => name.startsWith('switch')) && a.left === b.left ? releasedEarlier(a.lines, b.lines) : null),
};
/** Without as many of what is made and released in one step, of each name, as the second has fewer of both. */
function withoutPairs(a, b) {
  const is = (line, what, made) => { const [step, who, name] = wordsOf(made); return line === `${step} ${what} ${name}`; };
  const left = [...a], lacks = (made) => ['made', 'released'].every((what) => left.filter((one) => is(one, what, made)).length > b.filter((one) => is(one, what, made)).length);
  let many = 0;
  for (let i = left.length - 1; i >= 0; i--) {
    if (wordsOf(left[i])[1] !== 'made' || !lacks(left[i])) continue;
    const to = left.findIndex((one, k) => k > i && is(one, 'released', left[i]));
    if (to < 0) continue;
    left.splice(to, 1);
    left.splice(i, 1);
    many++;
  }
  return many > 0 ? left : null;
}
const openOf = (lines, name) => lines.filter((it) => wordsOf(it)[1] === 'made' && wordsOf(it)[2] === name).length - lines.filter((it) => /^(released|unmade)$/.test(wordsOf(it)[1]) && wordsOf(it)[2] === name).length;
/** Without the last ones made of each name that stay open, as many as the second has fewer. */
function withoutLeft(a, b) {
  const names = new Set(a.filter((it) => wordsOf(it)[1] === 'made').map((it) => wordsOf(it)[2])), left = [...a].filter((it) => !it.startsWith('100 '));
  for (const name of names) {
    for (let more = openOf(left, name) - openOf(b.filter((it) => !it.startsWith('100 ')), name); more > 0; more--) left.splice(left.findLastIndex((it) => wordsOf(it)[1] === 'made' && wordsOf(it)[2] === name), 1);
  }
  return left;
}
/** With the releases of the last step where the second has more of them earlier. */
function releasedEarlier(a, b) {
  const lines = [...a];
  for (let i = 0, k = 0; k < b.length && i < lines.length; i++, k++) {
    while (k < b.length && isMark(b[k])) k++;
    while (i < lines.length && isMark(lines[i])) i++;
    if (lines[i] === b[k] || k >= b.length || wordsOf(b[k])[1] !== 'released') continue;
    const last = lines.lastIndexOf(['99', ...wordsOf(b[k]).slice(1)].join(' '));
    if (last < i) return null;
    lines.splice(last, 1);
    lines.splice(i, 0, b[k]);
  }
  return lines;
}
