// Replays stored courses on the engine as WebAssembly: node replay.mjs MODULE FILE.. ; README.md tells what a step says.
import { readFileSync } from 'node:fs';

const [path, ...files] = process.argv.slice(2);
const { exports: wasm } = (await WebAssembly.instantiate(readFileSync(path), {})).instance;
const at = Number(wasm.place(2048n)), spot = (offset) => BigInt(at + offset);
const ENGINE = spot(0), COMMAND = spot(64), STACK = spot(128), STEP = spot(192), COUNT = spot(384), WORDS = spot(448);
const NONE = (1n << 64n) - 1n;
let view = new DataView(wasm.memory.buffer);
const see = () => view.buffer.byteLength ? view : (view = new DataView(wasm.memory.buffer)); // a call that takes memory may detach it
const get = (place) => see().getBigUint64(Number(place), true), put = (place, it) => see().setBigUint64(Number(place), BigInt(it), true);
const all = (place, words) => words.forEach((it, i) => put(place + 8n * BigInt(i), it));
const effectAt = (place) => [BigInt(see().getUint32(Number(place) + 24, true)), get(place), get(place + 8n), get(place + 16n),
  BigInt(see().getUint32(Number(place) + 28, true))];

// All closings: eight stand in the answer.
function closings(count) {
  const found = [];
  for (let i = 0n; i < count && i < 8n; i++) found.push(get(STEP + 64n + 8n * i));
  while (found.length < count) {
    const status = wasm.cellar_closings(ENGINE, BigInt(found.length), WORDS, 5n, COUNT);
    if (status !== 0 || get(COUNT) === 0n) throw new Error(`the closings are answered ${status}`);
    for (let i = 0n; i < get(COUNT); i++) found.push(get(WORDS + 8n * i));
  }
  return found;
}
function putStack(tickets, [by, depth, begun]) {
  all(STACK, [by, depth, tickets[begun]]);
}
// What stands in the answer of a step, or of the next.
function answer(tickets, members) {
  if (get(STEP + 128n)) {
    const ticket = get(STEP + 144n);
    if (!tickets.includes(ticket)) tickets.push(ticket);
    members.handed = [BigInt(tickets.indexOf(ticket)), ...effectAt(STEP + 160n)];
    members.own = get(STEP + 136n);
  }
  return Object.fromEntries(Object.entries(members).filter(([, it]) => it !== 0n && it.length !== 0));
}

const does = {
  step({ tickets, keys }, number, stack, [what, place, kind, flags, level, hub, node, user, value, by, spare]) {
    const [slot, of] = node === null ? [NONE, NONE] : node.length === 3 ? node : keys.get(`${node}`);
    putStack(tickets, stack);
    [what, place, kind, flags].forEach((it, i) => see().setUint8(Number(COMMAND) + i, Number(it)));
    see().setUint32(Number(COMMAND) + 4, Number(level), true);
    all(COMMAND + 8n, [hub, slot, of, user, value, by, spare]);
    const status = BigInt(wasm.cellar_step(ENGINE, STACK, COMMAND, STEP));
    if (status) return answer(tickets, { status });
    const [connected, its, copies, closed] = [0n, 1n, 2n, 3n].map((i) => get(STEP + 32n + 8n * i));
    const opens = what === 0n || what === 1n, shares = what === 9n || what === 0n && kind >= 5n, key = (i) => [get(STEP + i), get(STEP + i + 8n)];
    const other = [1n, 2n, 9n, 16n].includes(what) || connected === 1n;
    if (opens) keys.set(`${number},0`, key(0n));
    if (other) keys.set(`${number},1`, key(16n));
    return answer(tickets, { node: BigInt(opens), other: BigInt(other), connected, hub: shares ? its : 0n, copies, closings: closings(closed) });
  },
  next({ tickets }, _, stack) {
    putStack(tickets, stack);
    wasm.cellar_next(ENGINE, STACK, STEP);
    return answer(tickets, {});
  },
  pass({ tickets }, _, stack, from, now) {
    putStack(tickets, stack);
    wasm.cellar_pass(ENGINE, STACK, from, Number(now));
  },
  stop({ tickets }, _, stack) {
    putStack(tickets, stack);
    wasm.cellar_stop(ENGINE, STACK);
  },
  totals: () => wasm.cellar_totals(ENGINE, WORDS) || [0n, 1n, 2n, 3n, 4n, 5n, 6n, 7n].map((i) => get(WORDS + 8n * i)),
  finish: () => BigInt(wasm.cellar_finish(ENGINE)),
};
const GIVEN = { step: 2, next: 1, pass: 3, stop: 1, totals: 0, finish: 0 }; // how many words a step passes

const whole = (_, it) => typeof it === 'number' || typeof it === 'string' && /^\d+$/.test(it) ? BigInt(it) : it;
const told = (it) => JSON.stringify(it, (_, one) => typeof one === 'bigint' ? `${one}` : one);

let courses = 0, steps = 0, differ = 0;
put(ENGINE, 0);
for (const line of files.flatMap((name) => readFileSync(name, 'utf8').trim().split('\n'))) {
  const course = JSON.parse(line, whole), self = { tickets: [0n], keys: new Map() };
  wasm.cellar_new(ENGINE, Number(course.events));
  courses++;
  for (const [number, [what, ...words]] of course.steps.entries()) {
    const said = does[what](self, number, ...words.slice(0, GIVEN[what])), wanted = words[GIVEN[what]];
    steps++;
    if (told(said) !== told(wanted)) {
      differ++;
      console.log(`DIFFERS course ${courses}, step ${number}: ${told(said)}, and it is ${told(wanted)}`);
      break;
    }
  }
  wasm.cellar_drop(ENGINE);
}
console.log(`${courses} courses, ${steps} steps, ${differ} differ; ${wasm.memory.buffer.byteLength} bytes of memory`);
process.exit(differ ? 1 : 0);
