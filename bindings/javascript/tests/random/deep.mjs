// Random pipelines where the stack is almost full: whatever is thrown, each resource is released once.
import { drawing, drawn } from './drawing.mjs';
import { Run } from './running.mjs';

const down = (n, act) => (n === 0 ? act() : down(n - 1, act) || undefined);
function deepest() {
  let low = 0, high = 1 << 20;
  while (low + 1 < high) {
    const n = (low + high) >> 1;
    try { down(n, () => 0); low = n; } catch { high = n; }
  }
  return low;
}

/** Runs so many over the package; the status. */
export async function deeply([rx, ops], many, first) {
  const d = drawing(first), total = { wrong: 0, thrown: 0, resources: 0 };
  let most = 0;
  rx.config.onUnhandledError = () => {};
  for (let seed = first; seed < first + many; seed++) {
    if (seed % 10 === first % 10) most = deepest(); // frames become smaller as it runs
    const run = new Run(rx, ops, drawn(seed)), before = rx.counts();
    run.pipe = run.build(run.it.whole);
    for (const it of run.it.steps) {
      run.step++;
      try { down(most - d.below(1600), () => { run.act(it); }); } catch { total.thrown++; }
    }
    await new Promise((resolve) => { setTimeout(resolve); });
    for (const it of [...Object.values(run.subscriptions), ...run.connections ?? []]) run.does(() => it.unsubscribe()); // a release may throw
    rx.close();
    const after = rx.counts(), left = run.kept();
    total.resources += run.resources;
    if (left > 0 || run.twice > 0 || after.nodes !== before.nodes || after.held !== before.held) {
      if (++total.wrong < 6) console.log(`seed ${seed}: ${left} of ${run.resources} left, ${run.twice} twice, ${after.nodes - before.nodes} nodes and ${after.held - before.held} held stay`);
    }
  }
  console.log(`${many} pipelines where the stack is almost full; ${total.thrown} steps thrown; ${total.resources} resources; ${total.wrong} leave something open or release it twice`);
  return total.wrong ? 1 : 0;
}
