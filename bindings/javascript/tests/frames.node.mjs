// A stack that is almost full, with frames of other sizes: a compiler makes of two functions one, or keeps more numbers, so where one look at the stack finds
// room the next one at the same depth may find none. Here each function of the package has a frame of a size drawn by a seed, and a look passes where
// so much is left behind all frames. A program is run with as much as each of its looks wants, and with a byte less: it has ended, or has thrown, and
// nothing stays.
import { programs } from './stack.test.mjs';

const turn = () => new Promise((resolve) => { setImmediate(resolve); });
const STEP = 24576, LARGEST = 300, SEEDS = 2;
const sizes = new Map(), wanted = new Set(); // bytes
let seed = 1, left = null; // how many bytes there are, while one is run

/** The size of the frame of this function, for this seed. */
function sizeOf(name) {
  if (!sizes.has(name)) {
    let hash = Math.imul(seed, 0x9E3779B1);
    for (const c of name) hash = Math.imul(hash ^ c.charCodeAt(0), 0x85EBCA6B) ^ hash >>> 13;
    sizes.set(name, (hash >>> 3) % LARGEST);
  }
  return sizes.get(name);
}
/** What the frames of the package take, of those that are under way. */
function taken() {
  const { stackTraceLimit, prepareStackTrace } = Error;
  Error.stackTraceLimit = Infinity;
  Error.prepareStackTrace = (_, frames) => frames.filter((it) => it.getFileName()?.includes('/src/'))
    .reduce((sum, it) => sum + sizeOf(`${it.getTypeName()} ${it.getFunctionName()} ${it.getFileName()}`), 0);
  const { stack } = new Error();
  Object.assign(Error, { stackTraceLimit, prepareStackTrace });
  return stack;
}
function look(steps) {
  if (left === null) return;
  const wants = taken() + steps * STEP;
  wanted.add(wants).add(wants - 1);
  if (left < wants) throw new RangeError('no stack is left, as a test has it');
}

/** Does it with an engine that looks at that stack. */
async function overFrames(act) {
  const realm = globalThis[Symbol.for('cellarcliff.realm.1')], { engine } = realm, { Instance } = WebAssembly;
  WebAssembly.Instance = function (...words) {
    const { exports } = new Instance(...words);
    if (!exports.goOn) return { exports };
    const looking = Object.entries({ all: 3, step: 3, end: 3, next: 3, go: 3, open: 2, make: 1, pass: 1 }).map(([name, steps]) => [name, (...them) => (look(steps), exports[name](...them))]);
    return { exports: { ...exports, ...Object.fromEntries(looking), room: (n) => look(n + 1) } };
  };
  try { realm.engine = realm.make(); } finally { WebAssembly.Instance = Instance; }
  const { setTimeout } = globalThis;
  globalThis.setTimeout = (it) => setImmediate(it);
  try { return await act(); } finally {
    globalThis.setTimeout = setTimeout;
    realm.engine = engine;
  }
}

/** What is wrong with one run of it. */
async function ran(rx, make, room) {
  const before = rx.counts();
  let made = 0, released = 0, ends = 0, why = null, sub = null;
  const using = (source) => rx.using(() => (made++, { unsubscribe: () => { released++; } }), () => source);
  const final = (source) => rx.defer(() => (made++, source.pipe(rx.finalize(() => { released++; }))));
  const observer = { error: () => { ends++; }, complete: () => { ends++; } }, run = make(rx, { using, final, observer, keep: (it) => { sub = it; } });
  left = room;
  try { run.act(); } catch (error) { why = error; } finally { left = null; }
  await turn();
  const is_lost = ends === 0 && why === null && run.ends !== false;
  sub?.unsubscribe();
  const { nodes, held } = rx.counts();
  if (is_lost) return 'neither ended nor thrown';
  if (made !== released) return `${made} made, ${released} released`;
  return nodes !== before.nodes || held !== before.held ? `${nodes - before.nodes} nodes and ${held - before.held} resources stay` : null;
}
const withFrames = (make) => ({
  is: [],
  of: (rx) => overFrames(async () => {
    const wrong = [];
    rx.config.onUnhandledError = () => {};
    for (seed = 1; seed <= SEEDS; seed++) {
      sizes.clear();
      wanted.clear();
      wanted.add(Infinity);
      for (const room of wanted) { // and what is wanted on the way
        const what = await ran(rx, make, room);
        if (what !== null) wrong.push(`seed ${seed}, with ${room} bytes: ${what}`);
        if (wrong.length > 3) break;
      }
    }
    rx.config.onUnhandledError = null;
    return wrong;
  }),
});

const more = {
  'a notifier that holds something': (rx, { using, observer, keep }) => ({
    act: () => keep(rx.of(1, 2).pipe(rx.mergeMap((x) => using(rx.of(x)).pipe(rx.takeUntil(rx.NEVER.pipe(rx.finalize(() => {}), rx.skip(1)))))).subscribe(observer)),
  }),
  'an inner subject that tells at once': (rx, { using, observer, keep }) => ({
    act: () => keep(rx.of(1).pipe(rx.mergeMap(() => using(new rx.BehaviorSubject(1))), rx.take(1)).subscribe(observer)),
  }),
  'functions at ends, one below another': (rx, { using, observer, keep }) => ({
    act: () => keep(using(rx.of(1, 2)).pipe(rx.takeUntil(rx.NEVER), rx.toArray(), rx.takeUntil(rx.NEVER), rx.count()).subscribe(observer)),
  }),
  'merged within what is merged': (rx, { using, observer, keep }) => ({
    act: () => keep(rx.of(1).pipe(rx.mergeMap(() => using(rx.of(1, 2)).pipe(rx.mergeMap((x) => using(rx.of(x))), rx.tap({ complete() {} }), rx.take(3))), rx.toArray())
      .subscribe(observer)),
  }),
  'subjects made of two': (rx, { using, observer, keep }) => {
    const both = rx.Subject.create(new rx.Subject(), using(rx.of(1)));
    return { act: () => keep(rx.of(1).pipe(rx.mergeMap(() => both)).subscribe(observer)) };
  },
  'a connection that is counted': (rx, { using, observer, keep }) => {
    const shared = using(rx.of(1)).pipe(rx.publish(), rx.refCount());
    return { act: () => keep(rx.of(1, 2).pipe(rx.mergeMap(() => shared)).subscribe(observer)) };
  },
  'the end of a subject for three': (rx, { using, observer, keep }) => {
    const source = new rx.Subject(), all = new rx.Subscription();
    let ends = 0;
    for (let i = 0; i < 3; i++) all.add(using(source).subscribe({ complete: () => { if (++ends === 3) observer.complete(); } }));
    keep(all);
    return { act: () => source.complete() };
  },
};
export const only_ours = Object.fromEntries(Object.entries({ ...programs, ...more }).map(([name, make]) => [`${name}, over frames of other sizes`, withFrames(make)]));
