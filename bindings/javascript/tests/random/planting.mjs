// Faults that are planted in what the package came to: what the reasons of differences.mjs say of a package that has one.
import { isMark, isRelease } from './running.mjs';

const words = (line) => line.split(' ');
const stepOf = (line) => words(line)[0], isOf = (line, ...whats) => whats.includes(words(line)[2]), isMade = (line) => words(line)[1] === 'made';
const isHeard = (line) => ['x', 'y', 'z'].includes(words(line)[1]), isItem = (line) => isHeard(line) && isOf(line, 'next'), isEnd = (line) => isHeard(line) && isOf(line, 'error', 'completed');
const spliced = (lines, i, many, ...by) => [...lines.slice(0, i), ...by, ...lines.slice(i + many)];
const without = (lines, i) => spliced(lines, i, 1), again = (lines, i) => spliced(lines, i, 0, lines[i]);
/** The line behind that of another place, which this holds of, with all that stands between; as if it were of that step. */
function behind(lines, i, to) {
  if (to < 0) return null;
  const it = [stepOf(lines[to]), ...words(lines[i]).slice(1)].join(' ');
  return [...lines.slice(0, i), ...lines.slice(i + 1, to + 1), it, ...lines.slice(to + 1)];
}
const nextOf = (lines, i, holds) => lines.findIndex((it, k) => k > i && holds(it));
const isOther = (it) => !isMark(it) && !isRelease(it);
const another = (line) => { const [step, who, ...rest] = words(line); return [step, { x: 'y', y: 'z', z: 'x' }[who], ...rest].join(' '); };
/** Behind the last line of its step, where something else than a release stands between. */
function atTheEnd(lines, i) {
  const last = lines.findLastIndex((it) => stepOf(it) === stepOf(lines[i]) && isOther(it));
  return last > i ? behind(lines, i, last) : null;
}
function exchanged(lines, i) {
  const to = nextOf(lines, i, (it) => isItem(it) && words(it)[1] === words(lines[i])[1]);
  if (to < 0 || stepOf(lines[to]) !== stepOf(lines[i]) || lines[to] === lines[i]) return null;
  return spliced(spliced(lines, to, 1, lines[i]), i, 1, lines[to]);
}

/** Each fault: of which lines, and what comes of it there, if anything. */
const FAULTS = {
  'an item lost': [isItem, without], 'an item doubled': [isItem, again], 'an item told to another': [isItem, (lines, i) => spliced(lines, i, 1, another(lines[i]))],
  'items out of order': [isItem, exchanged], 'an end lost': [isEnd, without], 'an end told twice': [isEnd, again],
  'released late': [isRelease, (lines, i) => behind(lines, i, nextOf(lines, i, isOther))], 'released at the end of the step': [isRelease, atTheEnd],
  'released a step late': [isRelease, (lines, i) => behind(lines, i, nextOf(lines, i, (it) => isOther(it) && stepOf(it) !== stepOf(lines[i])))],
  'released never': [isRelease, without], 'released twice': [isRelease, again],
  'a bound exceeded': [isRelease, (lines, i) => behind(lines, i, nextOf(lines, i, (it) => isMade(it) && stepOf(it) === stepOf(lines[i])))],
  'a function called twice': [(it) => words(it)[1] === 'called', again], 'a function not called': [(it) => words(it)[1] === 'called', without],
};

/** Runs like this one with one fault in it: each with the fault's name, and what makes the same of another run of the program. */
export function* planted(run, seed) {
  for (const [name, [isOne, made]] of Object.entries(FAULTS)) {
    const faulty = (lines, n) => {
      const i = lines.map((it, k) => (isOne(it) && !isMark(it) ? k : -1)).filter((k) => k >= 0)[n];
      return i === undefined ? null : made(lines, i);
    };
    const many = run.lines.filter((it) => isOne(it) && !isMark(it)).length;
    if (many === 0) continue;
    const n = seed % many, lines = faulty(run.lines, n);
    if (lines) yield [name, { ...run, lines }, (other) => ({ ...other, lines: faulty(other.lines, n) ?? other.lines })];
  }
}
