// What is left out of the engine's history, roots that need no engine and items that are only heard, changes nothing else: random programs with all of it
// left out, and again with all of it given to the engine. All that happens, in its order, and what is open and held, is the same.
//
// Usage: node left-out.mjs [MANY] [SEED] [--busy]
import * as rx from '../index.mjs';
import * as ops from '../operators.mjs';
import { drawn, drawing } from './random/drawing.mjs';
import { Run } from './random/running.mjs';

const words = process.argv.slice(2), is_busy = words.includes('--busy'), [many = 10000, first = 1] = words.filter((it) => it !== '--busy').map(Number);
const { engine } = globalThis[Symbol.for('cellarcliff.realm.1')], { isRoomy, isCalm } = engine, told = { roots: 0, items: 0 };
const counted = (call, name) => (...of) => {
  const is = call.apply(engine, of);
  told[name] += is;
  return is;
};

/** The program of a seed; in three of four it is shared, or has a resource, or both, and in half three observers hear it. */
function program(seed) {
  const it = drawn(seed, is_busy), d = drawing(seed ^ 0x5a5a5a), kind = d.below(4), { operators } = it.whole;
  if (kind === 1 || kind === 3) operators.splice(d.below(operators.length + 1), 0, ['finalize of a resource', 99]);
  if (kind >= 2) operators.splice(d.below(operators.length + 1), 0, ['share']);
  if (d.chance(0.5)) it.steps.splice(1, 0, ['subscribe', 'y'], ['subscribe', 'z']);
  return it;
}
function all(seed, leaves_out) {
  engine.isRoomy = leaves_out ? counted(isRoomy, 'roots') : () => false;
  engine.isCalm = leaves_out ? counted(isCalm, 'items') : () => false;
  const before = rx.counts(), run = new Run(rx, ops, program(seed), false, false).all(), open = rx.counts();
  rx.close();
  if (run.lines.some((line) => line.startsWith('100 begins subscribe'))) rx.close(); // what a release subscribes to, as all is closed, is open
  const after = rx.counts();
  return [...run.lines, `twice ${run.twice}`, `kept ${run.kept()}`, ...['nodes', 'held', 'effects'].map((name) => `${name} ${open[name] - before[name]} ${after[name] - before[name]}`)];
}

let wrong = 0;
for (let seed = first; seed < first + many; seed++) {
  const [a, b] = [all(seed, true), all(seed, false)];
  const at = a.findIndex((it, i) => it !== b[i]);
  if ((at >= 0 || a.length !== b.length) && ++wrong < 9) console.log(`seed ${seed}, from its line ${at}:\n left out  ${a.slice(at, at + 6).join(', ')}\n by engine ${b.slice(at, at + 6).join(', ')}`);
}
console.log(`${many} programs twice; ${told.roots} roots and ${told.items} items left out; ${wrong} differ`);
process.exit(wrong ? 1 : 0);
