// Runs tests: each is a function of a library's names that says what was told; `is` is what it says here, `rxjs` what over RxJS if that differs. Over
// another module than the package's own `elsewhere` is asked besides: the header leaves some orders open, and only that module is known to keep them.
// For Node and for a page.

const told = async (of, library) => {
  try { return JSON.stringify(await of(library)); } catch (error) { return `raised ${error?.stack ?? error}`; }
};

const is_elsewhere = typeof process === 'object' && !!process.env?.CELLARCLIFF_WASM;
const isToldElsewhere = (it, elsewhere) => is_elsewhere && elsewhere !== undefined && !it.startsWith('raised ') && elsewhere(JSON.parse(it));
/** For `elsewhere`: the same, in whatever order. */
export const inAnyOrder = (is) => (it) => JSON.stringify([...it].sort()) === JSON.stringify([...is].sort());

/** Runs the tests of these modules over a library, and over RxJS first if that is there; answers counts, and prints what is wrong. */
export async function runAll(modules, ours, peer, print) {
  const counts = { passed: 0, failed: 0, peers: 0, unlike: 0 };
  for (const { tests = {}, only_ours = {} } of modules) {
    for (const [name, { of, is, rxjs = is, elsewhere }] of [...Object.entries(tests), ...Object.entries(only_ours)]) {
      if (peer && name in tests) {
        const it = await told(of, peer);
        if (it === JSON.stringify(rxjs)) counts.peers++;
        else {
          counts.unlike++;
          print(`RxJS differs: ${name}: ${it}, and the test says ${JSON.stringify(rxjs)}`);
        }
      }
      const it = await told(of, ours);
      if (it === JSON.stringify(is) || isToldElsewhere(it, elsewhere)) counts.passed++;
      else {
        counts.failed++;
        print(`FAILS ${name}: ${it}, and it is ${JSON.stringify(is)}`);
      }
    }
  }
  print(`${counts.passed} passed, ${counts.failed} failed${peer ? `; ${counts.peers} over RxJS as said, ${counts.unlike} not` : ''}`);
  return counts;
}
