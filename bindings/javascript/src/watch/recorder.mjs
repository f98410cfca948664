// An engine of its own that only writes down: commands, and whose effects are told to nobody.
import { compiled } from '../engine/load.mjs';

const OPEN = 0, HOLD = 2, NEXT = 3, COMPLETE = 4, ERROR = 5, FAIL = 6, DECLINE = 7, DISPOSE = 8, CONNECT = 9, DISCONNECT = 10, REMOVE = 15, LEASE = 16, GIVE_BACK = 17;
const WISHES = 1, NO_LEASE = 30, SMALL = 7, WHOLE = 0xFFFFFFFF;
// Bytes behind the base; and fields of 64 bits of a command, of what it comes to, and of the stack of calls.
const COMMAND = 64, STEPPED = 128, STACK = 320, COUNT = 352, WORDS = 448, ROOM = 64, SIZE = 1024;
const HUB = 1, NODE = 2, USER = 4, VALUE = 5, OTHER = 2, IS_CONNECTED = 4, TOLD_HUB = 5, CLOSED = 7, CLOSINGS = 8, SHOWN = 8, HANDED = 16, TICKET = 18;
const DEPTH = 1, BEGUN = 2;
const NOWHERE = { slot: 0n, number: 0n }, UNKNOWN = 2n ** 64n - 1n;
const module = await compiled();

export class Recorder {
  #wasm = new WebAssembly.Instance(module).exports;
  #base = this.#wasm.place(BigInt(SIZE));
  #things = new Map(); #words = 0n; #hears;

  /** `hears` is called with each thing that has closed. */
  constructor(hears) {
    this.#hears = hears;
    new Uint8Array(this.#wasm.memory.buffer, Number(this.#base), SIZE).fill(0);
    const status = this.#wasm.cellar_new(this.#base, WHOLE);
    if (status) throw new Error(`cellarcliff: no engine was made (${status})`);
    this.#long(STACK, 3)[DEPTH] = 1n;
  }

  open(place, kind, above, thing, hub = null) {
    const user = this.#named(thing);
    const status = this.#make(OPEN | place << 8 | kind << 16 | WISHES << 24, above, { user, ...(hub && { value: hub.word, hub: hub.at }) }, (answer) => {
      thing.key = keyOf(answer, 0);
      if (hub === null) return;
      hub.at = answer[TOLD_HUB];
      if (answer[IS_CONNECTED]) hub.connection = { what: 'connection', where: thing.where, above: null, key: keyOf(answer, OTHER), toString: () => 'the connection' };
    });
    if (status) this.#things.delete(user);
    return status;
  }
  hold(node, thing) {
    const status = this.#make(HOLD, node, {}, (answer) => { thing.key = keyOf(answer, OTHER); });
    return status || this.#make(LEASE, thing.key, {}, (answer) => { thing.lease = keyOf(answer, OTHER); });
  }
  /** Released by the program: no longer lent out, and no longer held by what it was held by, if that is open. */
  release(thing) {
    if (!thing.isOpen) return NO_LEASE;
    const status = this.#make(GIVE_BACK, thing.lease);
    return status || (thing.above.isOpen ? this.#make(REMOVE, thing.key) : 0);
  }

  hub() { return { word: ++this.#words, at: UNKNOWN, connection: null }; }
  connect(hub, thing) {
    const user = this.#named(thing);
    const status = this.#make(CONNECT | WISHES << 24, undefined, { user, value: hub.word, hub: hub.at }, (answer) => {
      thing.key = keyOf(answer, OTHER);
      hub.at = answer[TOLD_HUB];
    });
    if (status) this.#things.delete(user);
    return status;
  }
  disconnect(hub) { return this.#make(DISCONNECT, undefined, { value: hub.word, hub: hub.at }); }

  next(node) { return this.#make(NEXT, node); }
  complete(node) { return this.#make(COMPLETE, node); }
  error(node) { return this.#make(ERROR, node); }
  fail(node) { return this.#make(FAIL, node); }
  decline(node) { return this.#make(DECLINE, node); }
  dispose(node) { return this.#make(DISPOSE, node); }

  /** The history as a text. */
  dump() {
    const count = this.#base + BigInt(COUNT);
    for (let size = 65536; ;) {
      const at = this.#wasm.place(BigInt(size)), status = this.#wasm.cellar_dump(this.#base, at, BigInt(size), count);
      const told = Number(this.#long(COUNT, 1)[0]), text = new TextDecoder().decode(new Uint8Array(this.#wasm.memory.buffer, Number(at), Math.min(told, size)));
      this.#wasm.unplace(at);
      if (status !== SMALL) return text;
      size = Math.max(told, 2 * size);
    }
  }

  #named(thing) {
    this.#things.set(++this.#words, thing);
    return this.#words;
  }
  #long(at, many) { return new BigUint64Array(this.#wasm.memory.buffer, Number(this.#base) + at, many); }

  #make(what, node = NOWHERE, { user = 0n, value = 0n, hub = 0n } = {}, read = () => {}) {
    const command = this.#long(COMMAND, 8);
    command.fill(0n);
    command[0] = BigInt(what), command[HUB] = hub, command[NODE] = node.slot, command[NODE + 1] = node.number, command[USER] = user, command[VALUE] = value;
    const [stack, stepped] = [STACK, STEPPED].map((at) => this.#base + BigInt(at));
    const status = this.#wasm.cellar_step(this.#base, stack, this.#base + BigInt(COMMAND), stepped);
    if (status !== 0) return status;
    const answer = this.#long(STEPPED, 24);
    read(answer);
    const closed = this.#closings(Number(answer[CLOSED]));
    for (const word of closed) {
      this.#hears(this.#things.get(word));
      this.#things.delete(word);
    }
    for (let it; (it = this.#long(STEPPED, 24))[HANDED] !== 0n;) {
      this.#long(STACK, 3)[BEGUN] = it[TICKET];
      this.#wasm.cellar_next(this.#base, stack, stepped);
    }
    return 0;
  }

  // The words of what the command closed: the first of them stand in the answer.
  #closings(many) {
    const found = [...this.#long(STEPPED + 8 * CLOSINGS, Math.min(many, SHOWN))];
    while (found.length < many) {
      this.#wasm.cellar_closings(this.#base, BigInt(found.length), this.#base + BigInt(WORDS), BigInt(ROOM), this.#base + BigInt(COUNT));
      found.push(...this.#long(WORDS, Number(this.#long(COUNT, 1)[0])));
    }
    return found;
  }
}

const keyOf = (answer, at) => ({ slot: answer[at], number: answer[at + 1], place: Number(answer[at + 1]) });
