// Random programs over the package, with roots that need no engine told without it, and again with all of them told by the engine: nothing differs.
import { drawn } from './drawing.mjs';
import { Run } from './running.mjs';

/** Runs so many; the status. */
export function alone([rx, ops], many, first, is_busy) {
  const { engine } = globalThis[Symbol.for('cellarcliff.realm.1')], { isRoomy } = engine;
  let lone = 0, wrong = 0;
  const all = (it, is_alone) => {
    engine.isRoomy = is_alone ? () => { const is = isRoomy.call(engine); lone += is; return is; } : () => false;
    const before = rx.counts(), run = new Run(rx, ops, it).all(), open = rx.counts();
    rx.close();
    if (run.lines.some((line) => line.startsWith('100 begins subscribe'))) rx.close(); // what a release subscribes to, as all is closed, is open
    const after = rx.counts();
    return JSON.stringify([run.lines, run.twice, run.kept(), ...['nodes', 'held', 'effects'].flatMap((name) => [open[name] - before[name], after[name] - before[name]])]);
  };
  for (let seed = first; seed < first + many; seed++) {
    const it = drawn(seed, is_busy), a = all(it, true), b = all(it, false);
    if (a !== b && ++wrong < 6) console.log(`seed ${seed}\n alone     ${a}\n by engine ${b}`);
  }
  console.log(`${many} programs twice; ${lone} roots told without the engine; ${wrong} differ`);
  return wrong ? 1 : 0;
}
