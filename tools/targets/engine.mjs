// The calls of cellarcliff.h that take a text in a module, for tools/try-wasm: `begin` takes its exports, and `answer` a request, which is JSON, and
// gives one. Bytes are base64. It is tools/model/engines.py once more, and runs in Node and in a browser.
let e, told, buffer, room;
const DONE = 0, TOO_SMALL = 1;

const place = size => {
  const at = Number(e.place(BigInt(size)));
  if (!at) throw new Error('no memory for the engine');
  return at;
};
const words = (at, length) => new BigUint64Array(e.memory.buffer, at, length);
const bytes = (at, length) => new Uint8Array(e.memory.buffer, at, length);
const decoder = new TextDecoder();
const text_of = bytes => decoder.decode(bytes.slice());
// Of a text of more than 16 MB its front: some history that is no lawful one has a picture that is larger.
const packed = bytes => {
  const parts = [];
  for (let at = 0; at < Math.min(bytes.length, bytes.length > 1 << 24 ? 3000 : Infinity); at += 3000) parts.push(btoa(String.fromCharCode(...bytes.subarray(at, at + 3000))));
  return parts.join('');
};
const unpacked = text => Uint8Array.from(atob(text), it => it.charCodeAt(0));

export function begin(exports) {
  [e, room] = [exports, 1 << 16];
  [told, buffer] = [place(8), place(room)];
}

function ask(call, input) {
  const at = place(input.length || 1);
  bytes(at, input.length).set(input);
  for (;;) {
    const status = e[call](BigInt(at), BigInt(input.length), BigInt(buffer), BigInt(room), BigInt(told));
    if (status !== TOO_SMALL) {
      e.unplace(BigInt(at));
      return [status, packed(bytes(buffer, Number(words(told, 1)[0])))];
    }
    grow();
  }
}
function grow() {
  e.unplace(BigInt(buffer));
  room = Number(words(told, 1)[0]);
  buffer = place(room);
}

function live(lines, limit) {
  const book = place(8), answers = [];
  words(book, 1)[0] = 0n;
  const answer = status => {
    if (status === TOO_SMALL) {
      grow();
      status = e.cellar_live_read(BigInt(book), BigInt(buffer), BigInt(room), BigInt(told));
    }
    answers.push(status === DONE ? text_of(bytes(buffer, Number(words(told, 1)[0]))) : `status ${status}`);
  };
  if (e.cellar_live_new(BigInt(book), limit) !== DONE) return ['no book'];
  for (const line of lines) {
    const at = place(line.length || 1);
    bytes(at, line.length).set(line);
    answer(e.cellar_live_send(BigInt(book), BigInt(at), BigInt(line.length), BigInt(buffer), BigInt(room), BigInt(told)));
    e.unplace(BigInt(at));
  }
  answer(e.cellar_live_end(BigInt(book), BigInt(buffer), BigInt(room), BigInt(told)));
  e.unplace(BigInt(book));
  return answers;
}

// For each n the n-th request for memory of a call that takes a text is refused. The call answers 4 and has written nothing, or it did without that
// memory and answers as ever; made again it answers as ever. How many requests there were, and how many of them were missed.
function starve(call, input) {
  const wanted = JSON.stringify(ask(call, input));
  for (let n = 0, missed = 0; ; n++) {
    bytes(buffer, room).fill(0xAA);
    const at = place(input.length || 1);
    bytes(at, input.length).set(input);
    e.refuse(BigInt(n));
    const status = e[call](BigInt(at), BigInt(input.length), BigInt(buffer), BigInt(room), BigInt(told)), left = e.refuse(-1n);
    e.unplace(BigInt(at));
    if (left >= 0n) return [n, missed];
    const length = Number(words(told, 1)[0]), is_bare = length === 0 && bytes(buffer, room).every(it => it === 0xAA);
    missed += status === 4;
    if (status === 4 ? !is_bare : JSON.stringify([status, packed(bytes(buffer, length))]) !== wanted) throw new Error(`${call}, request ${n}: status ${status}, length ${length}`);
    if (JSON.stringify(ask(call, input)) !== wanted) throw new Error(`${call}, request ${n}: another answer afterwards`);
  }
}

export function answer(request) {
  const { call, text, lines, limit, exports, starved } = JSON.parse(request);
  return JSON.stringify(exports ? Object.keys(e) : starved ? starve(starved, unpacked(text)) : lines ? live(lines.map(unpacked), limit) : ask(call, unpacked(text)));
}
