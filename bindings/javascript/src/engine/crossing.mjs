// The crossing: commands go in as numbers of 32 bits in the engine's memory, and what they come to is told to the things that words name.
//
// Each command is a step of the engine: that hands out what is to be done, one thing at a time, and is asked for the next until it has none. A command
// from within is one deeper. A word is a place in a table. A word is free behind the last effect that has it; a value, behind the last that carries it.
// All of an answer is read before anything is called, since what is called may give commands.
//
// An item that is only heard, where no lane has anything, is told before it is given: `#ahead`. It is given as soon as anything else is asked of the
// engine within it, which then has what it would have had; if nothing is, it is left out of the history, by the law `omitting_changes_nothing_else`.
//
// The stack has three marks. An item is given, and anything told, where there is room to tell it and for what that leads to; an end is told and
// a node opened where two thirds of that are left; any other command where a third is. What a command hands out is told later
// where there is no room for that. So what an effect leads to always finds room, and RangeError means that nothing was done.
import {
  ABI, COMPLETE, DECLINE, DISPOSE, DONE, ERROR, FAIL, FLAT, GONE, HOLD, INNER, NEXT, NOTIFIER, OPEN, PUT, REMOVE, ROOT, SHUT, SWITCH, USING, WISHES,
} from './codes.mjs';
import { LAYOUT } from './glue.mjs';
import { Table } from './table.mjs';
import { Connection, Tag } from './thing.mjs';
import { Things } from './things.mjs';

const STOPPED = 'cellarcliff: the engine stopped within a call';
export const MOST = 100000; // items from within one command, each because of the one before: what goes on behind that never ends
const REFUSED = { 4: 'no memory is left', 16: 'too much is open', 29: 'a node holds too many resources' };
// Where the numbers of an answer stand.
const OTHER_AT = 4, CONNECTED_AT = 8, HUB_AT = 10, COPIES_AT = 12, CLOSED_AT = 14, CLOSINGS_AT = 16, HANDED_AT = 32, OWN_AT = 34, USER_AT = 40, VALUE_AT = 42, KIND_AT = 46, CARRIES_AT = 47, SHOWN = 8;

export class Crossing {
  #realm; #wasm; #glue; #base; #places; #a; #words;
  #things = new Things(this); #values = new Table();
  #depth = 0; #made = 0; // how many calls are under way, and how many commands were given
  #is_begun = false; // whether what the last command hands out can be told now
  #postponed = null;
  #level = 0; #ofLevel = 0; #queued = 0; // how many items so far came each of the one before; what is left of the last of them; what waits behind that
  #ahead = []; #many = 0; #given = 0; // items that are told ahead, outermost first; how many there are, and how many of them were given
  #more = false; // whether behind a root that has gone something else was handed out
  #letsGo = 0; // of the call whose projection others are to overtake, how deep it is, until a command asks for that
  #isCalm = true; // while calls are under way: whether no lane has anything but what they tell
  #lingering = null; #lastHears = null; // what told the last item, to which observer, where its source may have more of the same go
  dead = null; // why no command can be made any more
  tracing = false;
  line = null; // where the program's own line subscribes, until a command is given

  constructor(wasm, glue, realm) {
    this.#realm = realm;
    this.#wasm = wasm;
    this.#base = Number(wasm.place(BigInt(1024)));
    this.#places = Object.fromEntries(Object.entries(LAYOUT).map(([name, at]) => [name, BigInt(this.#base + at)]));
    new Uint8Array(wasm.memory.buffer, this.#base, 1024).fill(0);
    const abi = wasm.cellar_abi(), said = (it) => `${it >>> 16}.${it & 0xffff}`;
    if (abi >>> 16 !== ABI >>> 16 || abi < ABI) throw new Error(`cellarcliff: the module has another interface: ${said(abi)}, not ${said(ABI)} or what only adds to it`);
    const status = wasm.cellar_new(this.#places.engine, 0);
    if (status) throw new Error(`cellarcliff: no engine was made (${status})`);
    const globals = ['engine', 'stack', 'command', 'stepped'].map((it) => [it, new WebAssembly.Global({ value: 'i64' }, this.#places[it])]);
    const base = new WebAssembly.Global({ value: 'i32' }, this.#base);
    this.#glue = new WebAssembly.Instance(glue, { e: { ...wasm, base, ...Object.fromEntries(globals) } }).exports;
    this.#look();
  }

  // Memory that has grown detaches each view of it: then all are made anew.
  #look() {
    const { buffer } = this.#wasm.memory, at = (place) => this.#base + LAYOUT[place];
    this.#a = new Int32Array(buffer, at('stepped'), 48);
    this.#words = new Int32Array(buffer, at('words'), 2 * LAYOUT.room);
  }

  // What a call threw: for want of stack nothing was done; a trap has left the engine in the midst of a call, so it is never called again.
  #failed(error) {
    if (this.dead !== null || this.#glue.entered.value === 0) return error;
    this.dead = new Error(`${STOPPED} (${error?.message ?? error}): what it held is released, and what is subscribed to from now on has a new one`, { cause: error });
    const dies = () => {
      this.#renews();
      throw this.dead;
    };
    this.#glue = { room: dies, make: dies, open: dies, step: dies, end: dies, next: dies, give: dies, goOn: dies, go: dies, pass: dies, share: dies, all: dies, entered: { value: 1 } };
    this.#wasm = { ...this.#wasm, cellar_totals: dies, cellar_dump: dies, cellar_closings: dies };
    for (const it of this.#things.all()) it.slot = it.top = it.lo = it.hi = -1; // a key that names nothing, in any engine
    this.#renews();
    queueMicrotask(() => this.#endsAll(this.#things.all())); // by then a call that failed has taken back what it was to open or to hold
    return this.dead;
  }

  // Where no other engine can be made, for want of stack or memory, one is made later.
  #renews() { try { this.#realm.renews(this); } catch { /* each call says that this one is dead */ } }

  // What a dead engine held is known by its tags, and who heard by the roots: each is released once, and each is told, in a turn of its own.
  #endsAll(things) {
    const surely = (act) => { try { act(); } catch (error) { this.report(error); } };
    for (const it of things) if (!(it instanceof Tag)) surely(() => it.shut?.());
    for (const it of things) if (it instanceof Tag) surely(() => it.release());
    for (const it of things) if (it.hears) surely(() => it.hears.heardError(this.dead, 0));
  }

  /** Throws RangeError where the stack has no room for a command and for what leads to it; with `is_item`, for an item first. */
  room(is_item = false) {
    // to look for more at once takes less time
    if (!is_item) try { return this.#glue.all(0); } catch { /* less will do */ }
    this.#glue.room(is_item ? 3 : 1);
  }

  /** Whether there is room for any command, and for what leads to it, where no history is wanted. */
  isRoomy() {
    if (this.tracing) return false;
    if (this.#many === 0) this.begins();
    try { this.#glue.all(0); } catch { return false; }
    return true;
  }
  /** Throws RangeError where there is no room for an item. */
  looks() { this.#glue.all(0); }

  // Commands. Each answers its status, and first does what was put off for want of stack.

  /** Does what was put off, before somebody looks whether a place is open; and no item comes in the same go as the one before. */
  begins() {
    if (this.#given !== this.#many) this.#gives();
    if (this.#lingering !== null) this.#goesOn();
    if (this.#postponed !== null && this.#depth === 0) this.#resume();
  }

  // Gives a command, with room for all that comes of it if there is so much.
  #make(what, slot, top, lo, hi, user, value, opens = false) {
    if (this.#given !== this.#many) this.#gives();
    else if (this.#letsGo !== 0 && !opens) this.#goes();
    const depth = this.#depth + 1;
    let status;
    this.#is_begun = true;
    try { status = this.#glue.step(depth, what, slot, top, lo, hi, user, value); } catch (error) { status = this.#makesAlone(error, opens, depth, what, slot, top, lo, hi, user, value); }
    this.#made++;
    if (this.#a.length === 0) this.#look();
    return status;
  }
  /** The same of one that reads its node alone. */
  #makeOf(what, { slot, top, lo, hi }, opens = false) {
    if (this.#given !== this.#many) this.#gives();
    else if (this.#letsGo !== 0 && what !== COMPLETE) this.#goes();
    const depth = this.#depth + 1;
    let status;
    this.#is_begun = true;
    try { status = this.#glue.end(depth, what, slot, top, lo, hi); } catch (error) { status = this.#makesAlone(error, opens, depth, what, slot, top, lo, hi, 0, 0); }
    this.#made++;
    if (this.#a.length === 0) this.#look();
    return status;
  }
  // Without room for what comes of it. An opening wants more room than others, so that a resource can be held behind it.
  #makesAlone(error, opens, ...command) {
    const why = this.#failed(error);
    if (this.dead !== null) throw why;
    this.#is_begun = false;
    try { return opens ? this.#glue.open(...command) : this.#glue.make(...command); } catch (it) { throw this.#failed(it); }
  }

  /** Opens a node of this kind at a place, of which a thing is told; behind `begins`. A tag is held by it from the start; a share has its word and hub. */
  open(place, kind, flags, above, thing, tag = null, share = null) {
    if (place !== ROOT && above.engine !== this) return GONE;
    const owed = (place === ROOT ? 1 : 0) + (kind === FLAT || kind === SWITCH ? 1 : 0) + (flags & WISHES);
    const user = owed ? this.#things.take(thing) : 0, tagWord = tag === null ? 0 : this.#things.take(tag);
    let status = -1;
    try {
      if (share !== null) this.#glue.share(share.level, share.hub, share.hubHigh);
      status = this.#make((tag === null ? OPEN : USING) | place << 8 | kind << 16 | flags << 24, above.slot, above.top, above.lo, above.hi, user,
        tag !== null ? tagWord : share !== null ? share.word : 0, true);
    } finally {
      if (status !== DONE) {
        if (tag !== null) this.#things.free(tagWord);
        if (owed) this.#things.free(user);
      }
    }
    if (status !== DONE) return this.#refused(status);
    if (place === INNER && above.kind !== FLAT) this.#isCalm = false; // what is exchanged is released
    const a = this.#a;
    thing.engine = this;
    thing.owed = owed;
    if (kind !== thing.kind) thing.kind = kind;
    thing.to = place === ROOT ? thing : place === NOTIFIER || (place !== INNER && (above.kind === FLAT || above.kind === SWITCH)) ? null : above.to;
    thing.slot = a[0], thing.top = a[1], thing.lo = a[2], thing.hi = a[3];
    if (tag !== null) {
      this.#named(tag);
      tag.above = thing;
    }
    if (share !== null) {
      share.hub = a[HUB_AT], share.hubHigh = a[HUB_AT + 1];
      share.isNew = a[CONNECTED_AT] !== 0;
      if (share.isNew) share.connection = this.#named(new Connection(this));
      share.connection.joins(thing);
    }
    this.#does(undefined);
    return DONE;
  }
  #named(thing) {
    const a = this.#a;
    thing.slot = a[OTHER_AT], thing.top = a[OTHER_AT + 1], thing.lo = a[OTHER_AT + 2], thing.hi = a[OTHER_AT + 3];
    return thing;
  }
  #refused(status) {
    this.#does(undefined);
    if (REFUSED[status]) throw new Error(`cellarcliff: ${REFUSED[status]}`);
    return status;
  }

  /** A resource for a node: its tag gets the resource's key. */
  hold(node, tag) {
    this.begins();
    const word = this.#things.take(tag);
    let status = -1;
    try { status = this.#make(HOLD, node.slot, node.top, node.lo, node.hi, 0, word); } finally { if (status !== DONE) this.#things.free(word); }
    if (status !== DONE) return this.#refused(status);
    this.#named(tag);
    tag.above = node;
    this.#does(undefined);
    return DONE;
  }

  /** Lets a resource go before its node closes. */
  remove(tag) { return this.#ends(REMOVE, tag); }

  /** Whether an item for that alone is told ahead: no lane has anything, but what is told further out, which is not for it. */
  isCalm(to) {
    return !to.is_told && (this.#depth === 0 || this.#isCalm) && this.#lingering === null && this.#postponed === null && !this.tracing;
  }
  /** An item. */
  next(node, value) {
    const { to } = node;
    if (to === null || node.engine !== this || !this.isCalm(to)) return this.#next(node, value);
    if (!node._many) this.looks();
    const it = this.#tells(node, value, to);
    if (to.is_shared) this.#tellsAll(to.things, it); else try { to.hears.hear(value); } catch (error) { this.report(error); }
    this.#told(it);
    return DONE;
  }
  // Of an item told ahead the observers are told in the order in which the engine hands it out, until it is given: then that hands out the rest.
  #tells(node, value, to) {
    const at = this.#many++, it = this.#ahead[at] ??= new Ahead(at);
    it.node = node;
    it.value = value;
    to.is_told = true;
    return it;
  }
  #tellsAll(things, it) {
    for (let i = 0; i < things.length; i++) {
      if (things[i] === null) continue;
      try { things[i].hears.hear(it.value); } catch (error) { this.report(error); }
      if (it.is_given) return;
      it.told++;
    }
  }
  #told(it) {
    const { is_given, node: { to } } = it;
    this.#many = it.at;
    it.node = it.value = null;
    it.told = 0;
    if (is_given) {
      it.is_given = false;
      this.#given = it.at;
      this.#goesOn();
    }
    to.is_told = false;
    if (this.#postponed !== null && this.#depth === 0 && this.#many === 0) this.#resume();
  }
  // Gives what is told ahead, outermost first: what comes next is within that.
  #gives() {
    if (this.#letsGo !== 0) this.#goes();
    while (this.#given < this.#many) {
      const it = this.#ahead[this.#given], { node: { slot, top, lo, hi } } = it, depth = this.#depth + 1;
      let status;
      try { status = this.#glue.give(depth, slot, top, lo, hi, this.#values.next()); } catch (error) { throw this.#failed(error); }
      if (status !== DONE) throw new Error(`cellarcliff: ${REFUSED[status] ?? `an item was refused (${status})`}`);
      if (this.#a.length === 0) this.#look();
      const is_own = this.#a[OWN_AT] !== 0;
      this.#made++;
      this.#given++;
      this.#is_begun = it.is_given = true;
      this.#isCalm = is_own && (this.#depth === 0 || this.#isCalm);
      this.#depth = depth;
      if (!is_own) this.#skips(it);
    }
  }
  // Takes what has been told ahead.
  #skips(it) {
    const copies = this.#a[COPIES_AT];
    this.#values.keep(it.value, copies);
    this.#queued += copies;
    for (let i = 0; i <= it.told; i++) {
      if (i > 0) try { this.#glue.goOn(this.#depth); } catch (error) { throw this.#failed(error); }
      this.#toldOne();
      this.#values.give(this.#a[VALUE_AT]);
    }
  }
  #next(node, value) {
    if (this.#level > MOST) throw new RangeError(`cellarcliff: ${MOST} items came each from within the one before`);
    this.line = null;
    this.begins();
    if (this.#letsGo !== 0) this.#goes();
    const word = this.#values.next(), depth = this.#depth + 1;
    let status;
    try { status = this.#glue.next(depth, node.slot, node.top, node.lo, node.hi, word); } catch (error) { throw this.#failed(error); }
    const made = ++this.#made;
    if (this.#a.length === 0) this.#look();
    const a = this.#a;
    this.#is_begun = true;
    if (a[OWN_AT] === 0 || a[KIND_AT] !== 0) {
      this.#does(value);
      return status;
    }
    // one observer, who is told now
    const { hears } = this.#things.get(a[USER_AT]), { to } = node;
    if (this.#depth === 0) this.#isCalm = true;
    this.#depth = depth;
    if (to !== null) to.is_told = true;
    try { hears.hear(value); } catch (error) { this.report(error); }
    if (to !== null) to.is_told = false;
    if (node._many && this.#made === made) {
      this.#lingering = node;
      this.#lastHears = hears;
    } else this.#goesOn();
    return DONE;
  }

  /** An item behind another one that its source told in the same go. Where no command was given since, the engine is as it was: so this one goes to the
   *  same observer, within what it was handed for the one before, and is no command. */
  nextOfMany(node, value) {
    if (this.#lingering !== node) return this.next(node, value);
    const made = this.#made;
    this.#lingering = null;
    try { this.#lastHears.hear(value); } catch (error) { this.report(error); }
    if (this.#made === made) this.#lingering = node; else this.#goesOn();
    return DONE;
  }

  complete(node) { return this.#ends(COMPLETE, node); }
  error(node, error) { return this.#fails(ERROR, node, error); }
  fail(node, error) { return this.#fails(FAIL, node, error); }
  decline(node) { return this.#ends(DECLINE, node); }
  #ends(what, node) {
    this.line = null;
    this.begins();
    const status = this.#makeOf(what, node);
    this.#isCalm = false;
    this.#does(undefined);
    return status;
  }
  #fails(what, node, error) {
    this.line = null;
    this.begins();
    const status = this.#make(what, node.slot, node.top, node.lo, node.hi, 0, this.#values.next());
    this.#isCalm = false;
    this.#does(error);
    return status;
  }
  /** Disposes of a root, and has called nobody yet: whether `goOn` is to do that. */
  dispose(node) {
    this.line = null;
    if (this.#given !== this.#many) this.#gives();
    if (this.#lingering !== null) this.#goesOn();
    this.#makeOf(DISPOSE, node, true);
    this.#isCalm = false;
    this.#things.leaves(node);
    const a = this.#a;
    if (a[HANDED_AT] === 0) return a[CLOSED_AT] !== 0;
    if (a[CLOSED_AT] > SHOWN || a[KIND_AT] !== 4 || !this.#is_begun || this.#postponed !== null) return true;
    for (let i = 0; i < a[CLOSED_AT]; i++) if (this.#things.get(a[CLOSINGS_AT + 2 * i]).leaves !== null) return true;
    const user = a[USER_AT], thing = this.#things.get(user);
    if (thing.lo !== node.lo || thing.hi !== node.hi) return true;
    if (a[CLOSED_AT] !== 0) this.#close(a[CLOSED_AT]);
    return this.#isMoreThanGone(user, thing);
  }
  // Of a root that held nothing: it need not hear that it is gone. Whether there is anything else.
  #isMoreThanGone(user, thing) {
    this.#drop(user, thing);
    this.#depth++;
    try { this.#more = this.#glue.goOn(this.#depth) !== 0; } catch (error) { throw this.#failed(error); }
    this.#depth--;
    if (!this.#more && this.#depth === 0) this.#level = this.#ofLevel = this.#queued = 0;
    return this.#more;
  }
  goOn() {
    if (!this.#more) return this.#does(undefined);
    this.#more = false;
    this.#depth++;
    this.#tellsNext();
    this.#goesOn();
  }
  /** Closes all that is open: each command one root, connection or lease. What is opened meanwhile stays. */
  shut() {
    for (let many = this.totals().nodes; many > 0 && this.#ends(SHUT, NOWHERE) === DONE; many--) if (this.totals().nodes === 0) break;
  }

  /** Something of the package's own that is done behind whatever the node's lane has. */
  put(node, act) {
    this.begins();
    this.#isCalm = false;
    const word = this.#things.take(new Errand(act));
    let status = -1;
    try { status = this.#make(PUT, node.slot, node.top, node.lo, node.hi, word, this.#values.next()); } finally { if (status !== DONE) this.#things.free(word); }
    this.#does(undefined);
    return status;
  }

  // What a command came to: values are kept, closings acted on, and then what was handed out is told, and what comes behind that.

  #does(value) {
    const a = this.#a, copies = a[COPIES_AT], closed = a[CLOSED_AT], is_handed = a[HANDED_AT] !== 0;
    if (copies === 0 && closed === 0 && !is_handed) return;
    const is_own = is_handed && a[OWN_AT] !== 0, is_told = is_handed && this.#is_begun, user = a[USER_AT], kind = a[KIND_AT];
    this.#isCalm = is_own && kind === 1 && (this.#depth === 0 || this.#isCalm); // a projection has a lane of its own
    if (copies !== 0 && !is_own) {
      this.#values.keep(value, copies);
      this.#queued += copies;
    }
    const it = is_own ? value : is_told && a[CARRIES_AT] !== 0 ? this.#values.give(a[VALUE_AT]) : undefined;
    if (kind === 0 && is_told && !is_own) this.#toldOne();
    this.#depth++;
    if (closed !== 0) this.#close(closed);
    if (is_told) {
      this.#tell(user, kind, it);
      return this.#goesOn();
    }
    if (is_handed) this.#postpone();
    this.#over();
  }

  // Tells what else there is for this call, which is over then.
  #goesOn() {
    this.#lingering = null;
    this.#tellsRest();
    this.#over();
  }
  #tellsRest() {
    for (;;) {
      let is_handed;
      try { is_handed = this.#glue.goOn(this.#depth); } catch (error) { throw this.#failed(error); }
      if (is_handed === 0) return;
      this.#tellsNext();
    }
  }
  #tellsNext() {
    if (this.#a.length === 0) this.#look();
    const a = this.#a, kind = a[KIND_AT];
    if (kind === 0) this.#toldOne();
    this.#tell(a[USER_AT], kind, a[CARRIES_AT] !== 0 ? this.#values.give(a[VALUE_AT]) : undefined);
  }
  #over() {
    if (--this.#depth > 0) return;
    this.#level = this.#ofLevel = this.#queued = 0;
    if (this.#postponed !== null) this.#resume();
  }
  // An item that had to wait: those that wait behind the last of its level came of that level.
  #toldOne() {
    if (this.#ofLevel <= 0) {
      this.#level++;
      this.#ofLevel = this.#queued;
      this.#queued = 0;
    }
    this.#ofLevel--;
  }

  // Nothing is called that gives commands, until each of them is closed.
  #close(count) {
    const words = count <= SHOWN ? null : this.#closings(count);
    let behind = null;
    for (let i = 0; i < count; i++) {
      const word = words === null ? this.#a[CLOSINGS_AT + 2 * i] : words[i], thing = this.#things.get(word), { leaves } = thing;
      thing.shut();
      this.#drop(word, thing);
      if (leaves !== null) (behind ??= []).push(leaves, thing);
    }
    if (behind !== null) for (let i = 0; i < behind.length; i += 2) behind[i](behind[i + 1]);
  }
  // The words of all that the command closed: the first stand in the answer. First of all that is read of it.
  #closings(count) {
    const found = [];
    for (let i = 0; i < count && i < SHOWN; i++) found.push(this.#a[CLOSINGS_AT + 2 * i]);
    while (found.length < count) {
      const { engine, words, count: told } = this.#places, many = Math.min(count - found.length, LAYOUT.room);
      this.#wasm.cellar_closings(engine, BigInt(found.length), words, BigInt(many), told);
      for (let i = 0; i < many; i++) found.push(this.#words[2 * i]);
    }
    return found;
  }

  #drop(word, thing) {
    if (--thing.owed !== 0) return;
    this.#things.free(word);
    this.#things.leaves(thing);
  }

  /** A tree that nobody can hear, and that holds nothing of the program's, is left. */
  forgets(root) {
    if (this.dead === null) try { this.#ends(DISPOSE, root); } catch (error) { this.report(error); }
  }
  /** A tag holds something else than it did. */
  changes(tag) { this.#things.anew(tag); }

  /** What cannot be done for want of stack is done once there is more: with the next command, or in a turn of its own. */
  #postpone(act) {
    if (this.#postponed === null) {
      this.#postponed = [];
      queueMicrotask(() => {
        if (this.#depth === 0 && this.#postponed !== null) try { this.#resume(true); } catch (error) { this.report(error); }
      });
    }
    if (act !== undefined) this.#postponed.push(act);
  }
  /** Does it, or later where there is no room for it: then something is done about that now. */
  surely(act, waits = null) {
    try {
      this.#glue.room(4); // more than `room` asks for an end
    } catch (error) {
      if (this.dead !== null) throw error;
      if (waits !== null) waits();
      return this.#postpone(act);
    }
    return act();
  }

  // The stack may still be as full: then all of it, or what wants more, stays for a turn of its own.
  #resume(is_own_turn = false) {
    let is_handed;
    try { is_handed = this.#glue.go(1); } catch (error) { return void this.#failed(error); }
    const acts = this.#postponed;
    this.#postponed = null;
    this.#depth = 1;
    this.#isCalm = false;
    if (is_handed !== 0) this.#tellsNext();
    this.#tellsRest();
    for (const act of acts) try { if (is_own_turn) act(); else this.surely(act); } catch (error) { this.report(error); }
    this.#tellsRest();
    this.#depth = 0;
  }

  // No effect is lost by what another one throws: each catches what it calls, and what is left is reported.
  #tell(user, kind, value) {
    const thing = this.#things.get(user);
    try {
      switch (kind) {
        case 0: return thing.hears.hear(value);
        case 1: return thing.body.is_over ? undefined : thing.body.project(thing, value);
        case 2: return this.#last(user, thing).heardEnd(this.#depth);
        case 3: return this.#last(user, thing).heardError(value, this.#depth);
        case 4: return this.#last(user, thing).heardGone();
        case 5: return this.#drop(user, thing), thing.release();
        case 6: return this.#drop(user, thing), thing.act();
        case 7: return this.#drop(user, thing);
      }
    } catch (error) { this.report(error); }
  }

  #last(user, thing) {
    const { hears } = thing;
    this.#drop(user, thing);
    return hears;
  }

  report(error) {
    try { (this.#realm.report ?? later)(error); } catch { this.#postpone(() => (this.#realm.report ?? later)(error)); }
  }

  /** Lets others go on behind what is being told, so that what is told from within comes at once. */
  letGo() { this.#pass(this.#depth, 0); }
  /** Does it, within which others go on behind the projection that is being told: the engine is told so before a command that may lead to one. */
  lettingGo(act, inner, at) {
    if (this.#letsGo !== 0) this.#goes();
    this.#letsGo = this.#depth;
    try { act(inner, at); } finally { this.#letsGo = 0; }
  }
  #goes() {
    const depth = this.#letsGo;
    this.#letsGo = 0;
    try { this.#glue.pass(this.#depth + 1, depth, 0); } catch (error) { throw this.#failed(error); }
  }
  #pass(depth, now) {
    if (this.#given !== this.#many) this.#gives();
    try { this.#glue.pass(this.#depth + 1, depth, now); } catch (error) { throw this.#failed(error); }
  }
  /** Tells what stands behind the end that is being told by the call of this depth: what was held is released now. Where there is no room it is once the
   *  end has been told. */
  releases(depth) {
    this.begins();
    try {
      this.#glue.all(0);
      this.#pass(depth, 1);
    } catch (error) {
      if (this.dead !== null) throw error;
      return;
    }
    this.#depth++;
    this.#goesOn();
  }

  // What the engine can say of itself.

  totals() {
    if (this.#given !== this.#many) this.#gives();
    this.#wasm.cellar_totals(this.#places.engine, this.#places.words);
    if (this.#a.length === 0) this.#look();
    const words = new BigUint64Array(this.#wasm.memory.buffer, Number(this.#places.words), 8);
    const [nodes, held, waiting, leases, accepted, taken, events, effects] = Array.from(words, Number);
    return { nodes, held, waiting, leases, accepted, taken, events, effects };
  }

  /** All things that are open. */
  things() { return this.#things.all(); }

  /** The history, as a dump; null where it has been cut. */
  dump() {
    this.begins();
    this.room();
    const { engine, count } = this.#places;
    let size = 65536;
    for (;;) {
      const at = this.#wasm.place(BigInt(size));
      if (!at) throw new Error('cellarcliff: no memory is left');
      const status = this.#wasm.cellar_dump(engine, at, BigInt(size), count);
      this.#look();
      const told = Number(new BigUint64Array(this.#wasm.memory.buffer, Number(count), 1)[0]);
      const bytes = new Uint8Array(this.#wasm.memory.buffer, Number(at), Math.min(told, size)).slice();
      this.#wasm.unplace(at);
      if (status !== 7) return status ? null : bytes;
      size = Math.max(told, 2 * size);
    }
  }
}

/** An item that is told ahead: how many have heard it whole, and whether it was given meanwhile. */
class Ahead {
  node = null; value = null; told = 0; is_given = false;
  constructor(at) { this.at = at; }
}
/** What is done once, when its turn comes. */
class Errand {
  owed = 1; at = -1;
  loose = null;
  constructor(act) { this.act = act; }
  isForgettable() { return false; }
}
/** A key that names nothing. */
export const NOWHERE = { slot: -1, top: -1, lo: -1, hi: -1 };
const later = (error) => { setTimeout(() => { throw error; }); };
