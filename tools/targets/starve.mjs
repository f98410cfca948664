// Want of memory: node starve.mjs MODULE, whose memory ends. A command that is refused memory changed nothing, the engine closes all the same, and each
// resource comes back exactly once.
import { readFileSync } from 'node:fs';

const wasm = new WebAssembly.Instance(new WebAssembly.Module(readFileSync(process.argv[2]))).exports;
const at = Number(wasm.place(1024n)), spot = (offset) => BigInt(at + offset);
const ENGINE = spot(0), COMMAND = spot(64), STACK = spot(128), STEP = spot(192), TOTALS = spot(448);
const [OPEN, USING, NEXT, SHUT] = [0, 1, 3, 12], [ROOT, SOURCE] = [0, 1], NO_MEMORY = 4, GONE = 17, RELEASE = 5, NONE = [0n, 0n];
const must = (holds, what) => { if (!holds) throw new Error(what); };
const words = (place, length) => new BigUint64Array(wasm.memory.buffer, Number(place), length);

/** A command, and all that is handed out then. The tags of the resources that come back go into `back`. */
function make(back, what, place = 0, node = NONE, value = 0) {
  new Uint8Array(wasm.memory.buffer, Number(COMMAND), 64).fill(0);
  new Uint8Array(wasm.memory.buffer, Number(COMMAND), 2).set([what, place]);
  words(COMMAND + 16n, 2).set(node);
  words(COMMAND + 40n, 1)[0] = BigInt(value);
  const stack = (begun) => words(STACK, 3).set([0n, 1n, begun]);
  stack(0n);
  const status = wasm.cellar_step(ENGINE, STACK, COMMAND, STEP), node = [...words(STEP, 2)];
  while (words(STEP + 128n, 1)[0]) {
    const [tag, , , kind] = words(STEP + 160n, 4);
    if ((kind & 0xffffffffn) === BigInt(RELEASE)) back.push(tag);
    stack(words(STEP + 144n, 1)[0]);
    must(wasm.cellar_next(ENGINE, STACK, STEP) === 0, 'next');
  }
  return [status, node];
}

/** Nodes, held, waiting, leases, accepted, taken, events, effects. */
function totals() {
  must(wasm.cellar_totals(ENGINE, TOTALS) === 0, 'totals');
  return [...words(TOTALS, 8)];
}

/** Subscriptions with a resource each are opened until a hundred commands are refused; then all is closed, and another engine begins. */
for (let round = 0; round < 3; round++) {
  const back = [];
  let given = 0;
  words(ENGINE, 1)[0] = 0n;
  must(wasm.cellar_new(ENGINE, 0) === 0, 'no engine');
  const refusing = (...command) => {
    const before = totals(), [status, node] = make(back, ...command);
    must(status === 0 || status === NO_MEMORY, `status ${status}`);
    must(status === 0 || `${before.slice(0, 6)}` === `${totals().slice(0, 6)}`, 'a refused command changed something');
    return status ? null : node;
  };
  for (let refused = 0; refused < 100; refused++) {
    for (;;) {
      const used = refusing(USING, ROOT, NONE, given);
      if (!used) break;
      given++;
      const leaf = refusing(OPEN, SOURCE, used);
      if (!leaf || !refusing(NEXT, 0, leaf, given)) break;
    }
  }
  must(totals()[1] === BigInt(given) && totals()[4] === BigInt(given), 'a resource is lost');
  let status;
  do [status] = make(back, SHUT); while (status === 0);
  must(status === GONE, `the end: status ${status}`);
  must(back.length === given && new Set(back).size === given, `${back.length} of ${given} resources are back`);
  must(`${totals().slice(0, 6)}` === `0,0,0,0,${given},${given}` && wasm.cellar_finish(ENGINE) === 0, 'something is left');
  console.log(`round ${round}: ${given} resources in ${wasm.memory.buffer.byteLength} bytes, 100 commands refused memory, each resource back once`);
}
