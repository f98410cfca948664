// Programs in a process of their own: the end of a process, an engine that has died. In Node alone.
import { spawnSync } from 'node:child_process';
import { ABI } from '../src/engine/codes.mjs';
import { Crossing } from '../src/engine/crossing.mjs';
import { LAYOUT, glue } from '../src/engine/glue.mjs';
import { Thing } from '../src/engine/thing.mjs';

const INDEX = new URL('../index.mjs', import.meta.url).href;
/** What a program prints, line by line. */
const program = (text) => {
  const { stdout, stderr } = spawnSync(process.execPath, ['--input-type=module', '-e', `const rx = await import(${JSON.stringify(INDEX)});\n${text}`], { encoding: 'utf8' });
  return [...stdout.trim().split('\n'), ...stderr.split('\n').filter((it) => /^\w*Error/.test(it))];
};

const url = (file) => JSON.stringify(new URL(file, import.meta.url).href);
/** For a program: makes the realm an engine that stops where `stops` says so before a call of this name. */
const STOPPING = `
    const { readFileSync } = await import('node:fs'), { Crossing } = await import(${url('../src/engine/crossing.mjs')}), { glue } = await import(${url('../src/engine/glue.mjs')});
    const realm = globalThis[Symbol.for('cellarcliff.realm.1')], module = new WebAssembly.Module(readFileSync(process.env.CELLARCLIFF_WASM || new URL(${url('../engine.wasm')})));
    function renews(name, stops) {
      const { exports } = new WebAssembly.Instance(module), call = exports[name];
      const stopping = (...words) => { if (stops()) throw new WebAssembly.RuntimeError('unreachable'); return call(...words); };
      return realm.engine = new Crossing({ ...exports, [name]: stopping }, new WebAssembly.Module(glue()), realm);
    }`;

export const only_ours = {
  'what is open at the end of a process is closed': { of: () => program(`
    rx.using(() => ({ unsubscribe: () => console.log('released') }), () => rx.NEVER).pipe(rx.finalize(() => console.log('final'))).subscribe();
    console.log('end');`), is: ['end', 'released', 'final'] },
  'and when it exits by itself': { of: () => program(`
    rx.NEVER.pipe(rx.finalize(() => console.log('final'))).subscribe();
    process.exit(0);`), is: ['final'] },
  'an engine that stops within a call is dead: what it held is released, who heard is told, and what comes has another one': { of: () => program(`${STOPPING}
    let stops = false;
    renews('cellar_step', () => stops);
    const source = new rx.Subject(), held = (name, it) => rx.using(() => ({ unsubscribe: () => console.log('released', name) }), () => it);
    held('a', source).pipe(rx.finalize(() => { console.log('final'); throw new Error('no'); })).subscribe({ error: (e) => console.log('heard', e.message.split(':')[1].trim()) });
    held('b', source).pipe(rx.switchMap(() => rx.NEVER)).subscribe({ error: () => console.log('heard') });
    rx.config.onUnhandledError = (e) => {
      console.log('reported', e.message);
      console.log(source.observed, rx.counts().nodes, realm.engine.dead);
      source.next(2);
    };
    stops = true;
    try { source.next(1); console.log('nothing'); } catch (error) { console.log(error.message); }
    held('c', rx.of(1)).subscribe((it) => console.log('told', it));
  `), is: [
    'cellarcliff: the engine stopped within a call (unreachable): what it held is released, and what is subscribed to from now on has a new one', 'told 1', 'released c',
    'final', 'released a', 'released b', 'heard the engine stopped within a call (unreachable)', 'heard', 'reported no', 'false 0 null',
  ] },
  'wherever it stops, each resource is released once': { of: () => program(`${STOPPING}
    rx.config.onUnhandledError = () => {};
    let deaths = 0;
    for (const name of ['cellar_step', 'cellar_next', 'cellar_pass']) for (let n = 0; n < 40; n++) {
      let left = n;
      const engine = renews(name, () => left-- === 0), counts = [], [a, b] = [new rx.Subject(), new rx.Subject()];
      const held = (it) => rx.using(() => {
        const at = counts.push(0) - 1;
        return () => { counts[at]++; };
      }, () => it);
      const lone = () => {
        const at = counts.push(0) - 1;
        return () => { counts[at]++; };
      };
      try {
        a.pipe(rx.finalize(lone())).subscribe({ error: () => {} });
        new rx.Observable(() => lone()).subscribe({ error: () => {} });
        rx.NEVER.subscribe({ error: () => {} }).add(lone());
        held(a).pipe(rx.concatMap((x) => held(rx.of(x, x + 1)).pipe(rx.catchError(() => rx.EMPTY))), rx.share()).subscribe({ next: (x) => { if (x === 1) b.next(7); }, error: () => {} });
        held(b).pipe(rx.switchMap((x) => held(rx.of(x))), rx.tap({ complete: () => {} })).subscribe({ error: () => {} });
        [1, 5].forEach((x) => a.next(x));
        b.next(2);
        [a, b].forEach((it) => it.complete());
      } catch (error) { if (error !== engine.dead) console.log(error.stack); }
      await new Promise((done) => setTimeout(done));
      try { rx.close(); } catch (error) { if (error !== engine.dead) console.log(error.stack); }
      await new Promise((done) => setTimeout(done));
      if (engine.dead) deaths++;
      if (counts.some((it) => it !== 1)) console.log(name, n, counts.join());
    }
    console.log(deaths > 50);`), is: ['true'] },
  'what a step hands out is told, whatever its command came to, and then what comes next': { of: () => {
    const said = [], memory = new WebAssembly.Memory({ initial: 1 }), words = (at, many) => new Int32Array(memory.buffer, 1024 + at, many), due = [];
    let user = 0, ticket = 0;
    const hands = (it) => {
      const stepped = words(LAYOUT.stepped, 48), [, , depth, , begun] = words(LAYOUT.stack, 6);
      said.push(`${depth} ${begun}`);
      stepped.fill(0);
      if (it) for (const [at, is] of [[12, it.copies], [32, 1], [34, it.own], [36, ++ticket], [40, user], [42, it.word], [47, it.word ? 1 : 0]]) stepped[at] = is;
      return 0;
    };
    const late = { copies: 0, own: 0, word: 0 };
    const step = () => {
      const [what, , , , , , , , name, , word] = words(LAYOUT.command, 16);
      if ((what & 255) !== 3) user = name;
      else if (due.length === 0) return hands({ copies: 1, own: 1, word });
      else if (due.length === 1) return hands(due.shift()) || 17;
      else due[1] = { copies: 0, own: 0, word };
      hands(due.shift());
      if (due.length) words(LAYOUT.stepped, 48)[12] = 1;
      return 0;
    };
    const module = { memory, place: () => 1024n, cellar_abi: () => ABI, cellar_new: () => 0, cellar_step: step, cellar_next: () => hands(due.shift()), cellar_pass: () => 0 };
    const engine = new Crossing(module, new WebAssembly.Module(glue()), {}), thing = new Thing({ hear: (it) => said.push(it ?? 'late') }, null);
    engine.open(0, 0, 0, { slot: 0, top: 0, lo: 0, hi: 0 }, thing);
    engine.isCalm = () => false; // so that each item is given at once
    engine.next(thing, 'a');
    due.push(late);
    said.push(engine.next(thing, 'b'));
    due.push(late, null);
    engine.next(thing, 'c');
    return said;
  }, is: ['1 0', '1 0', 'a', '1 1', '1 1', 'late', '1 2', 17, '1 2', 'late', '1 3', 'c', '1 4'] },
  'a worker has an engine of its own, and closes what is open as it ends': { of: () => program(`
    const { Worker } = await import('node:worker_threads'), released = new Int32Array(new SharedArrayBuffer(4));
    const text = \`Promise.all([import('node:worker_threads'), import(${JSON.stringify(INDEX)})]).then(([{ parentPort, workerData }, rx]) => {
      rx.NEVER.pipe(rx.finalize(() => Atomics.add(workerData, 0, 1))).subscribe();
      parentPort.postMessage(rx.counts().nodes);
    });\`;
    rx.NEVER.subscribe();
    const worker = new Worker(text, { eval: true, workerData: released });
    worker.on('message', (nodes) => console.log('there', nodes, 'here', rx.counts().nodes));
    worker.on('exit', () => console.log('released', released[0]));`), is: ['there 2 here 1', 'released 1'] },
  'for want of stack it is alive': { of: () => {
    let made = 0;
    const module = { memory: new WebAssembly.Memory({ initial: 1 }), place: () => 1024n, cellar_abi: () => ABI, cellar_new: () => 0, cellar_step: () => { made++; return 17; },
      cellar_next: () => 0, cellar_pass: () => 0 };
    const engine = new Crossing(module, new WebAssembly.Module(glue()), {}), thing = new Thing(null, null);
    const deep = () => { engine.next(thing, 1); deep(); };
    let why = null;
    try { deep(); } catch (error) { why = error; }
    const before = made;
    return [why instanceof RangeError, engine.dead, engine.next(thing, 1), made === before + 1];
  }, is: [true, null, 17, true] },
};
