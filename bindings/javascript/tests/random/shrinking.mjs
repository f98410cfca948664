// The smallest program that still goes wrong in the same way: one thing after another is left out of it, as long as that is so.
const isPipeline = (it) => it !== null && typeof it === 'object' && 'operators' in it;

/** Each pipeline within this one, itself first. */
function* pipelines(it) {
  if (isPipeline(it)) {
    yield it;
    for (const inner of [it.source, ...it.operators]) yield* pipelines(inner);
  } else if (Array.isArray(it)) for (const inner of it) yield* pipelines(inner);
}
const PLAIN = [['NEVER'], ['EMPTY'], ['of', 0, 1, 2]];

/** What can be left out: functions that change a copy of the program, the largest parts first. */
function* cuts(program) {
  for (let i = program.steps.length - 1; i > 0; i--) yield (it) => it.steps.splice(i, 1);
  for (let i = program.within.length - 1; i >= 0; i--) yield (it) => it.within.splice(i, 1);
  const all = [...pipelines(program.whole)];
  for (let n = 0; n < all.length; n++) {
    const nth = (it) => [...pipelines(it.whole)][n];
    for (let i = 0; i < all[n].operators.length; i++) yield (it) => nth(it).operators.splice(i, 1);
    if (n > 0 && all[n].operators.length === 0 && PLAIN.some((one) => one[0] === all[n].source[0])) continue;
    for (const one of n > 0 ? PLAIN : []) yield (it) => Object.assign(nth(it), { source: one, operators: [] });
    const inner = [...pipelines(all[n].source)];
    for (let i = 0; i < inner.length; i++) yield (it) => { const [at, one] = [nth(it), [...pipelines(nth(it).source)][i]]; Object.assign(at, { source: one.source, operators: [...one.operators, ...at.operators] }); };
  }
}

/** The smallest that is found; `isWrong(program)` says whether it still is what is looked for. */
export function shrunk(program, isWrong) {
  for (let is_less = true; is_less;) {
    is_less = false;
    for (const cut of cuts(program)) {
      const it = structuredClone(program);
      cut(it);
      if (!isWrong(it)) continue;
      program = it;
      is_less = true;
      break;
    }
  }
  return program;
}
