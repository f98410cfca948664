// What is asked of a program, and of a line of what happened.
import { OPERATORS, SOURCES } from './mix.mjs';

export const wordsOf = (line) => line.split(' '), stepOf = (line) => Number(wordsOf(line)[0]);
export const isEnd = (line) => ['x', 'y', 'z'].includes(wordsOf(line)[1]) && ['error', 'completed'].includes(wordsOf(line)[2]);
/** Whether it holds of a word of the program. */
export const hasWord = (it, holds) => (Array.isArray(it) ? (typeof it[0] === 'string' && holds(it[0])) || it.some((one) => hasWord(one, holds))
  : it !== null && typeof it === 'object' && hasWord(Object.values(it), holds));
export const isOfSeveral = (name) => /[oiO]/.test((OPERATORS[name] ?? SOURCES[name] ?? [''])[0]);
/** Whether callbacks do something of these kinds. */
export const acts = ({ within }, ...kinds) => within.some(({ act }) => kinds.includes(act[0]));
/** Those lines that are said once nobody hears. */
export function saidForNobody(lines) {
  const hearing = new Set();
  return lines.filter((line) => {
    const [, who, what, whom] = wordsOf(line);
    if (who === 'begins' && what === 'subscribe') hearing.add(whom);
    if (who === 'begins' && what === 'unsubscribe') hearing.delete(whom);
    if (isEnd(line)) hearing.delete(who);
    return hearing.size === 0;
  });
}
