// What the package has for a word of the engine: a node, or what a resource is released by.

/** A node: its key, who hears what a root is told, and what it is for (`body`), which hears of projections and closings. A leaf has the same
 *  fields. Where it was made is added only if somebody asks for that. */
export class Thing {
  constructor(hears, body) {
    this.slot = this.top = this.lo = this.hi = -1; // a key that names nothing, until it is open
    this.owed = 0; // how many last effects its word is owed
    this.engine = null; // in which it is open
    this.above = null; // the node above it; of a subscriber of a share its connection
    this.kind = 0; // once it is open, and what hears an item of a leaf below it, where nothing else comes of that: a root or a connection
    this.to = null;
    this.is_told = false; // whether an item is told ahead to that
    this.switches = null; // what its latest inner observable is of
    this.at = -1; // of a subscriber of a share: its place there
    this.loose = null; // what stands for it in the table, once that does not keep it
    this.leaves = null; // what is called once it has closed, behind its body
    this.hears = hears;
    this.body = body;
  }
  isForgettable() { return true; }
  /** The engine has closed it. */
  shut() { if (this.body !== null) this.body.shut(this); }
  /** A share's subscriber is on the list of its connection no more. */
  left() { this.above.loses(this); }
}

Thing.prototype.is_shared = false;

/** A connection of a share: its subscribers, in the order in which they came, which it alone need keep. Of those that left some places are empty. */
export class Connection extends Thing {
  things = []; members = null; #many = 0;
  constructor(engine) {
    super(null, null);
    this.engine = engine;
    this.to = this;
  }
  joins(thing) {
    thing.above = this;
    thing.at = this.things.length;
    this.things.push(thing);
    this.#many++;
  }
  loses(thing) {
    const { at } = thing;
    thing.at = -1;
    this.things[at] = null;
    if (this.members !== null) this.members.list[at] = null;
    this.#many--;
    if (at === this.things.length - 1) this.#shortens();
    else if (this.#many < this.things.length >> 1 && this.things.length >= 32) this.#closesUp();
  }
  #shortens() {
    const { things, members } = this;
    while (things.length > 0 && things[things.length - 1] === null) things.pop();
    if (members !== null && members.list.length > things.length) members.list.length = things.length;
  }
  #closesUp() {
    const list = [];
    this.things = this.things.filter((it) => it !== null);
    this.things.forEach((it, at) => {
      const member = this.members?.list[it.at] ?? null;
      if (member !== null) (list[at] = member).at = at;
      it.at = at;
    });
    if (this.members !== null) this.members.list = list;
  }
  /** What stands for one of them in the table from now on. */
  loosens(thing, word) {
    this.members ??= new Members(this);
    return (this.members.list[thing.at] = new Member(this.members, thing, word));
  }
}
Connection.prototype.is_shared = true;

/** What the table has of a connection's subscribers, so that it keeps none of them. */
class Members {
  list = [];
  constructor(connection) { this.connection = new WeakRef(connection); }
}
/** One of them. */
export class Member {
  constructor(of, thing, word) {
    this.of = of;
    this.at = thing.at;
    this.word = word;
    this.owed = thing.owed;
    this.slot = thing.slot, this.top = thing.top, this.lo = thing.lo, this.hi = thing.hi;
  }
  /** The thing, if it is there. */
  thing() { return this.of.list[this.at] === this ? this.of.connection.deref()?.things[this.at] ?? null : null; }
  get hears() { return (this.thing() ?? NOBODY).hears; }
  get leaves() { return null; }
  left() { this.thing()?.left(); }
  shut() {}
}

/** In the place of what was forgotten. */
export const NOBODY = {
  hears: { hear() {}, heardEnd() {}, heardError() {}, heardGone() {} }, body: { project() {} }, leaves: null, shut() {}, release() {},
};

/** What is to be done for a resource as it is released. */
export class Tag {
  constructor(release) {
    this.owed = 1;
    this.at = -1;
    this.slot = this.top = this.lo = this.hi = 0;
    this.above = null; // the node that holds it
    this.loose = null;
    this.word = 0; // once it is old
    if (release !== undefined) this.release = release;
  }
  /** Whether all of it is the package's own, and nothing of it is to be done where nobody can hear any more. */
  isForgettable() { return false; }
}
