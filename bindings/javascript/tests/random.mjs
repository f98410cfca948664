// Random programs over RxJS and over the package. What they are made of stands in random/drawing.mjs and random/mix.mjs; what is compared, all that happens in
// each step in its order, in random/running.mjs; why two runs may differ, in random/differences.mjs.
//
// Usage: node random.mjs [MANY] [SEED] [OPTION ..]
//    --seeds N,N     these alone
//    --busy          each program is of one operator, and some callback does something from within; then more than two in a hundred may differ by the manner
//    --fed           the same, of operators that take observables, whose source callbacks feed
//    --over FOLDER   over another copy of the package
//    --show NAME     prints the programs of a difference; --shrink: prints the smallest program that goes wrong, or differs, in the same way
//    --to FILE       writes the seeds of each difference there
//    --plant         plants faults, one of each kind, in what the package came to: which of them would be seen
//    --chains        chains of functions on items in their place
//    --lone          over the package alone, with roots that need no engine told by it too: nothing differs
//    --deep          each step where the stack is almost full, over the package alone: then only what stays open is looked at
// It fails where the engine dies, a resource is not released once (what a share or a connection was told to keep is closed at the end), a difference has
// no name, or more than two in a hundred differ by the manner of the package.
import { createRequire } from 'node:module';
import { resolve } from 'node:path';
import { pathToFileURL } from 'node:url';
import { chains } from './random/chains.mjs';
import { deeply } from './random/deep.mjs';
import { isHeardSame, isOfRxJS, nameOf } from './random/differences.mjs';
import { drawn } from './random/drawing.mjs';
import { alone } from './random/lone.mjs';
import { OPERATORS, SOURCES } from './random/mix.mjs';
import { planted } from './random/planting.mjs';
import { Run, inOrder, isReleasedEarlier } from './random/running.mjs';
import { shrunk } from './random/shrinking.mjs';

const words = process.argv.slice(2), take = (name, many) => (words.includes(name) ? words.splice(words.indexOf(name), many) : null);
const given = take('--seeds', 2)?.[1].split(',').map(Number) ?? null;
const show = take('--show', 2)?.[1], to = take('--to', 2)?.[1], [is_chains, is_deep, is_lone, is_fed, is_busy_too, is_shrunk, plants] = ['--chains', '--deep', '--lone', '--fed', '--busy', '--shrink', '--plant'].map((it) => take(it, 1) !== null);
const is_busy = is_fed ? 'fed' : is_busy_too;
const folder = resolve(take('--over', 2)?.[1] ?? `${import.meta.dirname ?? new URL('.', import.meta.url).pathname}/..`), [many = 10000, first = 1] = words.map(Number);
const require = createRequire(import.meta.url), home = '/usr/share/nodejs/rxjs/dist/cjs', load = (name) => import(pathToFileURL(`${folder}/${name}.mjs`).href);
const peer = [require(home), require(`${home}/operators`)], ours = [await load('index'), await load('operators')];
const over = ([rx, ops], it, manner) => new Run(rx, ops, it, manner).all();
/** What a library comes to in another manner, each once. */
function overAgain(library, it) {
  const known = new Map();
  return (manner) => {
    const key = JSON.stringify({ ...manner, mends: [...manner.mends] });
    if (!known.has(key)) {
      known.set(key, over(library, it, manner));
      if (library === ours) ours[0].close();
    }
    return known.get(key);
  };
}

// A dead engine is put out of the way, so that the next program has one of its own.
const { glue } = await load('src/engine/glue'), module = new WebAssembly.Module(require('node:fs').readFileSync(process.env.CELLARCLIFF_WASM ?? `${folder}/engine.wasm`));
function renew() {
  const realm = globalThis[Symbol.for('cellarcliff.realm.1')];
  realm.engine = null;
  realm.start(module, new WebAssembly.Module(glue()));
}

const words_of = (it) => (Array.isArray(it) ? [...(typeof it[0] === 'string' ? [it[0]] : []), ...it.flatMap(words_of)] : it && typeof it === 'object' ? Object.values(it).flatMap(words_of) : []);
/** Whether a release, or a share that is left by all, subscribes to something as all is closed. */
const isOpenedByClosing = (it, { lines }) => words_of(it.whole).includes('share with words') || lines.some((line) => line.startsWith('100 begins subscribe'));
/** Runs it over the package; what is wrong with its engine, or its resources, if anything. */
function kept(it) {
  const [rx] = ours;
  try {
    const before = rx.counts(), run = over(ours, it);
    const is_dead = run.lines.some((line) => /the engine stopped within a call/.test(line));
    rx.close();
    for (let i = 0; i < 4 && rx.counts().nodes > before.nodes && isOpenedByClosing(it, run); i++) rx.close();
    const after = rx.counts(), left = run.kept(), count = `${run.resources} resources`;
    if (is_dead) return { run, wrong: 'the engine dies' };
    if (run.twice > 0) return { run, wrong: 'a resource is released twice', count };
    if (left > 0) return { run, wrong: 'a resource is never released', count };
    if (after.effects !== before.effects) return { run, wrong: 'something is never told' };
    return { run, wrong: after.nodes !== before.nodes || after.held !== before.held ? 'something stays open' : null };
  } catch (error) {
    if (!/the engine stopped within a call/.test(error.message)) throw error;
    renew();
    return { run: { lines: [], left: 0, resources: 0, reached: [] }, wrong: 'the engine dies' };
  }
}
/** Runs it over both: what is wrong, if anything; and the name of what differs. */
function tried(it) {
  const a = over(peer, it);
  if (a.raised?.message === 'runs on' || a.lines.some((line) => line.includes('Maximum call stack'))) return { a, is_on: true };
  const { run: b, wrong } = kept(it);
  if (wrong !== null) return { a, b, wrong };
  if (inOrder(a.lines) === inOrder(b.lines)) return { a, b, wrong };
  const name = nameOf(it, a, b, overAgain(peer, it), overAgain(ours, it)) ?? 'NO NAME';
  return { a, b, name, wrong: name === 'NO NAME' ? 'it differs, and no row says why' : null };
}

if (is_chains) process.exit(chains(peer, ours, many, first));
if (is_lone) process.exit(alone(ours, many, first, is_busy));
if (is_deep) process.exit(await deeply(ours, many, first));

const sown = { agree: 0, named: 0, as_late: 0 }, passed = new Map();
/** Plants faults in what the package came to, and counts those that a reason lets pass; but those that release no later than RxJS does. */
function plant(seed, it, a, b, name) {
  const theirs = overAgain(peer, it), mine = overAgain(ours, it);
  for (const [fault, faulty, alike] of planted(b, seed)) {
    if (inOrder(a.lines) === inOrder(faulty.lines)) continue;
    sown[name ? 'named' : 'agree']++;
    const by = nameOf(it, a, faulty, theirs, (manner) => alike(mine(manner)));
    if (by === null) continue;
    if (isReleasedEarlier(a.lines, faulty.lines)) {
      sown.as_late++;
      continue;
    }
    const key = `${name ? 'named' : 'agree'}: ${fault}: ${by}`;
    passed.set(key, [...passed.get(key) ?? [], seed]);
  }
}

const total = { programs: 0, on: 0, within: 0, items: 0, resources: 0, heard: 0, of_rxjs: 0, rows: 0, wrong: 0 }, by = new Map(), reached = new Map(), used = new Set();
const shown = (seed, it, { a, b }) => console.log(`seed ${seed}\n ${JSON.stringify(it)}\n RxJS ${a.lines.join(', ')}\n ours ${b.lines.join(', ')}`);
const seeds = given ?? Array.from({ length: many }, (_, i) => first + i);
for (const seed of seeds) {
  const it = drawn(seed, is_busy), found = tried(it), { a, b, name, wrong, is_on } = found;
  if (is_on) {
    total.on++;
    continue;
  }
  total.programs++;
  if (plants && !wrong) plant(seed, it, a, b, name);
  total.resources += b.resources;
  total.items += a.lines.filter((line) => / [xyz] next /.test(line)).length;
  for (const one of words_of(it.whole)) used.add(one);
  if (it.within.length) total.within++;
  for (const one of b.reached) reached.set(one, (reached.get(one) ?? 0) + 1);
  if (!wrong && !name) continue;
  const what = wrong ?? name;
  by.set(what, [...by.get(what) ?? [], seed]);
  if (name && !isHeardSame(a, b)) total.heard++;
  if (wrong) total.wrong++; else if (isOfRxJS(name)) total.of_rxjs++; else total.rows++;
  if (!(show ? what.includes(show) : wrong && is_shrunk)) continue;
  const least = is_shrunk ? shrunk(it, (one) => (({ name: is, wrong: goes }) => goes === wrong && is === name)(tried(one))) : it;
  console.log(what);
  shown(seed, least, tried(least));
}
const percent = (it) => `${it} (${(100 * it / total.programs).toFixed(2)} %)`, known = [...Object.keys(SOURCES), ...Object.keys(OPERATORS)];
console.log(`${total.programs} programs (${total.within} do something from within; ${total.on} more run on), ${total.items} items heard, ${total.resources} resources`);
console.log(`reached: ${known.filter((one) => used.has(one)).length} of ${known.length} operators and sources; ${reached.size} kinds of acts from within, the rarest ${Math.min(...reached.values())} times`);
console.log(`${total.wrong} go wrong; ${percent(total.of_rxjs)} differ by a fault of RxJS, ${percent(total.rows)} by the manner of the package; ${percent(total.heard)} in what an observer hears`);
if (to) require('node:fs').writeFileSync(to, JSON.stringify([...by]));
for (const [name, seeds] of by) console.log(`- ${name}: ${seeds.length} (${seeds.slice(0, 8).join(', ')})`);
if (plants) {
  console.log(`planted: ${sown.agree} where both agree, ${sown.named} where a reason says why they do not; ${sown.as_late} release no later than RxJS, and pass`);
  for (const [key, seeds] of [...passed].sort()) console.log(`- let pass: ${key}: ${seeds.length} of ${new Set(seeds).size} programs (${[...new Set(seeds)].slice(0, 5).join(', ')})`);
}
process.exit(total.wrong || (!is_busy && total.rows > total.programs / 50) ? 1 : 0);
