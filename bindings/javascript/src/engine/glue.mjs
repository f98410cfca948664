// A small module of WebAssembly between the package and the engine, written here byte by byte: it takes numbers of 32 bits, which cost
// nothing to pass, where the engine's calls have 64, and looks at the stack before each call.
//
// `room(n)` looks for n + 1 times STEP bytes of stack, and `all` for as much as `room(2)`: their frames are so large, since the branch that is
// never taken keeps so many numbers over a call, and a platform compares with its limit as a function of that size is entered. Where there is
// less, that is a RangeError and the engine was not called. `entered` is 1 within a call of the engine: a trap has then left it in the midst of
// one. The engine's own calls were seen to need less than 2,000 bytes; the rest of a step is for what the package does around them.
import { NEXT } from './codes.mjs';

const STEP = 24576;

const unsigned = (n) => (n < 128 ? [n] : [n % 128 | 128, ...unsigned(Math.floor(n / 128))]);
const signed = (n) => (n >= -64 && n < 64 ? [n & 127] : [n & 127 | 128, ...signed(n >> 7)]);
const text = (it) => [...unsigned(it.length), ...[...it].map((c) => c.charCodeAt(0))];
const list = (items) => [...unsigned(items.length), ...items.flat()];
const sized = (body) => [...unsigned(body.length), ...body];
const section = (number, items) => [number, ...sized(list(items))];

const I32 = 0x7f, I64 = 0x7e, FUNCTION = 0, MEMORY = 2, GLOBAL = 3, IF = [0x04, 0x40], END = [0x0b], DROP = [0x1a];
const LOAD_WIDE = [0xfd, 0, 4], STORE_WIDE = [0xfd, 11, 4, 0], ADD_WIDE = [0xfd, 0xce, 1];
const ELSE = [0x05], MORE = [0x4a], LESS_ONE = [0x41, 1, 0x6b], LONG = [0xad];
const type = (from, to) => [0x60, ...list(from.map((it) => [it])), ...list(to.map((it) => [it]))];
const get = (n) => [0x20, ...unsigned(n)], call = (n) => [0x10, ...unsigned(n)];
const constant = (n) => [0x41, ...signed(n)];
const global = (n) => [0x23, ...unsigned(n)], setGlobal = (n) => [0x24, ...unsigned(n)];
const load64 = (at) => [0x29, 3, ...unsigned(at)], store64 = (at) => [0x37, 3, ...unsigned(at)];
const load32 = (at) => [0x28, 2, ...unsigned(at)], store32 = (at) => [0x36, 2, ...unsigned(at)];
const code = (locals, ...body) => sized([...list(locals), ...body.flat(), ...END]);

// Numbers of functions and of globals, and of a command's fields.
const STEP_CALL = 0, NEXT_CALL = 1, PASS_CALL = 2, ROOM = 3, GIVES = 4, GOES_ON = 5, ALL = 15;
const BASE = 0, ENGINE = 1, STACK = 2, COMMAND = 3, STEPPED = 4, ENTERED = 5;
/** Bytes behind the base at which the engine's handle, a command, what a step answers, the stack of calls, a count and words stand. */
export const LAYOUT = { engine: 0, command: 64, stepped: 128, stack: 320, count: 352, words: 448, room: 64 };
const field = (at, value) => [...global(BASE), ...value, ...store32(LAYOUT.command + at)];
/** The fields that a command reads: the four parts of its node's key, its user and its value, from this local on. The others are not looked at. */
const fields = (from, many = 6) => [16, 20, 24, 28, 32, 40].slice(0, many).map((at, i) => field(at, get(from + i))).flat();
const entering = (...it) => [...constant(1), ...setGlobal(ENTERED), ...it.flat(), ...constant(0), ...setGlobal(ENTERED)];
const handed = [...global(BASE), ...load32(LAYOUT.stepped + 128)];
// What was handed out is begun.
const begun = [...handed, ...IF, ...global(BASE), ...global(BASE), ...load64(LAYOUT.stepped + 144), ...store64(LAYOUT.stack + 16), ...END];
const isSoDeep = [...global(BASE), ...get(0), ...store32(LAYOUT.stack + 8)];
const roomy = (n) => [...constant(n), ...call(n === 2 ? ALL : ROOM)];

/** A function with a frame of so many bytes, which does what is `next` with a number that is not too large. */
function large(frame, next) {
  // numbers of 128 bits, since a compiler takes longer the more there are
  const many = frame / 16, before = [0, ...get(0), ...constant(1000), ...MORE, ...IF, ...get(0)], behind = [...STORE_WIDE, ...ELSE, ...next, ...END, ...END];
  const middle = [...constant(0), ...call(ROOM)], length = before.length + 8 * many + middle.length + 3 * (many - 1) + behind.length;
  const head = unsigned(length), bytes = new Uint8Array(head.length + length);
  let at = head.length;
  const put = (some) => {
    bytes.set(some, at);
    at += some.length;
  };
  bytes.set(head);
  put(before);
  for (let i = 1; i <= many; i++) put([0x20, 0, ...LOAD_WIDE, 16 * i & 127 | 128, i >> 3 & 127 | 128, i >> 10]); // each from a place of its own
  put(middle);
  for (let i = 1; i < many; i++) put(ADD_WIDE); // all are kept over the call, since the sum is made behind it
  put(behind);
  return bytes;
}

const EXPORTS = { room: ROOM, make: 6, open: 7, step: 8, end: 9, next: 10, give: 11, goOn: GOES_ON, go: 12, pass: 13, share: 14, all: ALL };
const header = () => [0, 0x61, 0x73, 0x6d, 1, 0, 0, 0,
  ...section(1, [type([I64, I64, I64, I64], [I32]), type([I64, I64, I64], [I32]), type([I64, I64, I64, I32], [I32]), type([I32], []), type([I32], [I32]),
    type(Array(8).fill(I32), [I32]), type(Array(6).fill(I32), [I32]), type([I32, I32, I32], [])]),
  ...section(2, [
    ...['cellar_step', 'cellar_next', 'cellar_pass'].map((it, i) => [...text('e'), ...text(it), FUNCTION, i]), [...text('e'), ...text('memory'), MEMORY, 0, 0],
    ...['base', 'engine', 'stack', 'command', 'stepped'].map((it) => [...text('e'), ...text(it), GLOBAL, it === 'base' ? I32 : I64, 0])]),
  ...section(3, [[3], [4], [4], [5], [5], [5], [6], [6], [6], [4], [7], [7], [3]]),
  ...section(6, [[I32, 1, ...constant(0), ...END]]),
  ...section(7, [...Object.entries(EXPORTS).map(([name, n]) => [...text(name), FUNCTION, n]), [...text('entered'), GLOBAL, ENTERED]]),
];
const command = [...field(0, get(1)), ...fields(2)], item = [field(0, constant(NEXT)), fields(1, 4), field(40, get(5))];
// Each has first how many calls are under way, this one included, but for the last.
const small = () => [
    code([], isSoDeep, entering(global(ENGINE), global(STACK), global(COMMAND), global(STEPPED), call(STEP_CALL))),
    code([], isSoDeep, entering(global(ENGINE), global(STACK), global(STEPPED), call(NEXT_CALL), DROP), begun, handed), // what comes next, where the depth has been looked at
    // A command: what, flags and the like, and its fields; one that wants more, and one with all that it leads to.
    code([], roomy(0), command, get(0), call(GIVES)),
    code([], roomy(1), command, get(0), call(GIVES)),
    code([], roomy(2), command, get(0), call(GIVES), begun),
    code([], roomy(2), field(0, get(1)), fields(2, 4), get(0), call(GIVES), begun), // the same of one of a node alone
    code([], roomy(2), ...item, get(0), call(GIVES), begun), // an item: the node's key, the value's word
    code([], roomy(0), ...item, get(0), call(GIVES), begun), // an item that is being told
    code([], roomy(2), get(0), call(GOES_ON)),
    code([], roomy(0), isSoDeep, entering(global(ENGINE), global(STACK), get(1), LONG, get(2), call(PASS_CALL), DROP)), // of the call so deep, and whether now
    code([], field(4, get(0)), field(8, get(1)), field(12, get(2))), // of a share: how many stand below it, and its hub
];
/** The bytes of the module. */
export function glue() {
  const others = small(), room = large(STEP, [...get(0), ...IF, ...get(0), ...LESS_ONE, ...call(ROOM), ...END]), all = large(3 * STEP, []);
  const length = 1 + room.length + others.flat().length + all.length;
  const parts = [header(), [10, ...unsigned(length), others.length + 2], room, others.flat(), all], bytes = new Uint8Array(parts.reduce((sum, it) => sum + it.length, 0));
  let at = 0;
  for (const it of parts) {
    bytes.set(it, at);
    at += it.length;
  }
  return bytes;
}
