// Want of memory of an engine: node --import ./refused.mjs ../../bindings/courses/replay.mjs MODULE FILE.. replays courses on try.wasm, and for
// each call that may take memory has its requests refused in turn. A call that is refused memory answers 4, also where a full history wants a
// checkpoint, and changed nothing: made again it is answered as the course has it, which replay.mjs looks at.
const MAY_ASK = ['cellar_new', 'cellar_step'], NO_MEMORY = 4;
const instantiate = WebAssembly.instantiate;
let calls = 0, refused = 0, most = 0;

const asked = (e, call) => (...words) => {
  calls++;
  for (let n = 0; ; n++) {
    e.refuse(BigInt(n));
    const status = call(...words), was_refused = e.refuse(-1n) < 0n;
    if (status !== NO_MEMORY) return status;
    if (!was_refused) throw new Error('no memory, and nothing was refused');
    refused++;
    most = Math.max(most, n + 1);
  }
};

WebAssembly.instantiate = async (...words) => {
  const e = (await instantiate(...words)).instance.exports;
  return { instance: { exports: { ...e, ...Object.fromEntries(MAY_ASK.map(name => [name, asked(e, e[name])])) } } };
};
process.on('exit', () => console.log(`${calls} calls that may take memory; ${refused} requests refused, at most ${most} of one call`));
