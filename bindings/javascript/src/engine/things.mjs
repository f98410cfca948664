// What the words of an engine stand for. What a program has forgotten is forgotten here too: the table keeps what was taken in lately, and the rest only
// as long as the program does. That keeps a leaf by its source, the nodes above by the leaf (`above`), who hears by the root, and the root by the
// subscription. A resource of the program is kept until it is released, and with it what holds it and all above that.
import { Table } from './table.mjs';
import { Member, NOBODY } from './thing.mjs';

export const LATELY = 256; // a power of two
/** How many are taken in until what was not kept, and was spoken of, is looked at again: by how often that was so. So what is told much costs little. */
const WAITS = [1024, 4096, 16384];

/** In the table for what that does not keep: it is kept again as soon as the engine speaks of it. */
class Loose {
  constructor(it, word, things) {
    this.it = new WeakRef(it);
    this.word = word;
    this.things = things;
    this.rest = it.owed;
    this.times = 0; // how often it was kept again
    this.slot = it.slot, this.top = it.top, this.lo = it.lo, this.hi = it.hi;
  }
  is() {
    const it = this.it.deref();
    if (it !== undefined) this.things.again(this.word, this, it);
    return it ?? NOBODY;
  }
  get loose() { return this; }
  get at() { return -1; }
  get hears() { return this.is().hears; }
  get body() { return this.is().body; }
  get leaves() { return this.is().leaves; }
  get owed() { return this.it.deref()?.owed ?? this.rest; }
  set owed(many) {
    const it = this.it.deref();
    if (it === undefined) this.rest = many; else it.owed = many;
  }
  shut() { this.is().shut(); }
  release() { this.is().release(); }
}

export class Things extends Table {
  #engine; #forgotten; #shares; #taken = 0; #lately = new Int32Array(LATELY);
  #when = [0]; // by word, when it was taken in, or less than 0 and when it is due: a word that is taken in just then is another
  #again = WAITS.map(() => []); #due = Infinity; // words that are kept again, and when each is due

  constructor(engine) {
    super();
    this.#engine = engine;
    this.#forgotten = new FinalizationRegistry((it) => { if (this.get(it.word) === it) engine.forgets(it); });
    this.#shares = new FinalizationRegistry(({ list }) => { for (const it of list) if (it && this.get(it.word) === it) engine.forgets(it); });
  }

  /** Behind the last effect that has its word, or as soon as it is left. */
  leaves(it) { if (it.at >= 0) it.left(); }

  take(item) {
    const word = super.take(item);
    this.#enters(word);
    return word;
  }
  #enters(word) {
    const now = ++this.#taken, at = now & (LATELY - 1), old = this.#lately[at];
    this.#when[word] = now;
    this.#lately[at] = word;
    if (old !== 0 && this.#when[old] === now - LATELY) this.#loosens(old);
    if (now >= this.#due) this.#looksAgain(now);
  }
  #looksAgain(now) {
    this.#due = Infinity;
    for (const list of this.#again) {
      let at = 0;
      for (; at < list.length && list[at + 1] <= now; at += 2) if (this.#when[list[at]] === -list[at + 1]) this.#loosens(list[at]);
      list.splice(0, at);
      if (list.length) this.#due = Math.min(this.#due, list[1]);
    }
  }

  // Whatever is under watch is kept, so that it can be told.
  #loosens(word) {
    const it = this.get(word);
    if (it === null || it instanceof Loose || it instanceof Member) return;
    it.word = word;
    if (this.#engine.tracing || !it.isForgettable()) return;
    if (it.at >= 0) return this.#isKeptByShare(it, word);
    if (it.loose === null) {
      it.loose = new Loose(it, word, this);
      if (it.hears) this.#forgotten.register(it, it.loose); // a root: without it nobody hears the tree
    }
    this.put(word, it.loose);
  }
  #isKeptByShare(it, word) {
    const { above } = it, is_first = above.members === null;
    this.put(word, above.loosens(it, word));
    if (is_first) this.#shares.register(above, above.members);
  }
  /** It is kept, for a while. */
  again(word, loose, it) {
    if (this.get(word) !== loose) return;
    this.put(word, it);
    const at = Math.min(loose.times++, WAITS.length - 1), due = this.#taken + WAITS[at];
    this.#when[word] = -due;
    this.#again[at].push(word, due);
    this.#due = Math.min(this.#due, due);
  }
  /** What a tag holds is another: whether it may be forgotten is looked at anew. */
  anew(tag) {
    if (tag.word === 0) return;
    const { word } = tag, there = this.get(word);
    if (there !== tag && (there === null || there !== tag.loose)) return;
    tag.word = 0;
    this.put(word, tag);
    this.#enters(word);
  }
  all() { return super.all().flatMap((it) => (it instanceof Loose ? it.it.deref() ?? [] : it instanceof Member ? it.thing() ?? [] : it)); }
}
