// Writes down by hand what a program that is not changed over does, and refuses a wrong order at once.
//
// Each call is an event of docs/reference/history.md, made of an engine of its own that keeps the rules: what may not come there is a WrongOrder,
// which has the rule, the line, and the line that made what it is about; nothing was written down then. What an event brings about, such as the
// end of what mirrors a source, the engine writes down by itself. A resource that is held is lent out until `released`, so that the history
// says it is held for as long as the program has not released it. An item has the value 0, an error the code 0.
import { relative } from 'node:path';
import { withoutUnusedHubs } from './hubs.mjs';
import { Recorder } from './recorder.mjs';
import { placeOf } from '../engine/tracing.mjs';

const PLACES = { root: 0, source: 1, inner: 2, notifier: 3 }, KINDS = { leaf: 0, pass: 1, flat: 2, switch: 3, until: 4 }, MODES = { auto: 5, manual: 6 };
/** What each rule says of what may not come, by the engine's status. */
const RULES = {
  17: ['Gone', 'it is closed, or what it stands below is'],
  18: ['WrongKind', 'what is of that kind does not do that'],
  19: ['PlaceTaken', 'something is open at that place already'],
  20: ['NothingOwed', 'no item of its source asks for an inner one'],
  21: ['NotRoot', 'what it stands below closes it'],
  22: ['NoHub', 'too many hubs are shared at once'],
  23: ['HubOrder', 'the source of a hub subscribes only to hubs below it'],
  24: ['Connected', 'it is connected already'],
  25: ['NotConnected', 'it is not connected'],
  27: ['NotHeld', 'it is released already'],
  28: ['HasChild', 'something below it is open'],
  29: ['TooMany', 'it holds too many resources'],
  30: ['NoLease', 'it is released already'],
};

const near = (file) => {
  const found = relative(process.cwd(), file);
  return found.startsWith('..') ? file : found;
};
const shown = (where) => {
  const place = placeOf(where);
  return place === null ? 'a place that no stack tells' : `${near(place.file)}:${place.line}${place.function ? ` in ${place.function}` : ''}`;
};

/** An event that may not come there: `rule` is the name of the rule, `place` the line of the program. */
export class WrongOrder extends Error {
  constructor(event, status, where, about) {
    const [rule, says] = RULES[status] ?? [`status ${status}`, 'the engine refuses it'];
    const of = about === null ? '' : `; ${about} was written down at ${shown(about.where)}${about.ended === null ? '' : `, and its end at ${shown(about.ended)}`}`;
    super(`${event} at ${shown(where)} may not come there (${rule}): ${says}${of}`);
    this.name = 'WrongOrder';
    this.rule = rule;
    this.place = placeOf(where);
  }
}

/** What was opened, held or connected, and by which line. */
class Written {
  constructor(what, name, where, above) {
    this.what = what;
    this.name = name;
    this.where = where;
    this.above = above;
    this.key = this.lease = this.ended = null;
    this.isOpen = true;
  }
  toString() { return this.name === undefined ? `the ${this.what}` : `${this.what} ${this.name}`; }
}

/** A history that is written down by hand. */
export class History {
  #recorder = new Recorder((written) => { written.isOpen = false; });
  #written = [];

  /** A subscription of this kind (leaf, pass, flat, switch, until, or ['sub', hub]) at the place root, or source, inner or notifier of what it stands
   *  below. */
  opened(kind = 'pass', place = 'root', below = null, name = undefined) {
    const is_sub = Array.isArray(kind), hub = is_sub ? kind[1] : null;
    if (!Object.hasOwn(PLACES, place) || (is_sub ? kind[0] !== 'sub' || hub?.what !== 'hub' : !Object.hasOwn(KINDS, kind)) || (below === null) !== (place === 'root')) {
      throw new TypeError(`no such opening: ${kind} at ${place}`);
    }
    const made = new Written(is_sub ? 'sub' : kind, name, new Error(), below);
    this.#checked(`a ${made.what} that is opened`, made.where, below, () => this.#recorder.open(PLACES[place], is_sub ? MODES[hub.mode] : KINDS[kind], below?.key, made, hub));
    return this.#kept(made);
  }

  /** A resource that it holds. */
  held(by, name = undefined) {
    const made = new Written('resource', name, new Error(), by);
    this.#checked('a resource that is held', made.where, by, () => this.#recorder.hold(by.key, made));
    return this.#kept(made);
  }

  /** What subscribers share: `auto` is connected while it has one, `manual` by `connected`. What is shared is opened below `hub.connection`. */
  hub(mode = 'auto', name = undefined) {
    if (!Object.hasOwn(MODES, mode)) throw new TypeError(`no such hub: ${mode}`);
    return Object.assign(new Written('hub', name, new Error(), null), { mode, ...this.#recorder.hub() });
  }
  /** A hub is connected: the connection. */
  connected(hub) {
    const made = new Written('connection', hub.name, new Error(), hub);
    this.#checked('a connection', made.where, hub, () => (hub.mode === 'auto' ? 18 : this.#recorder.connect(hub, made)));
    return this.#kept(hub.connection = made);
  }

  /** A source of the program's own emits. */
  item(leaf) { this.#checked('an item', new Error(), leaf, () => this.#recorder.next(leaf.key)); }
  /** A source has completed. */
  completed(leaf) { this.#ends('an end', leaf, () => this.#recorder.complete(leaf.key)); }
  /** A source has failed, or the mapper of a flat or switch. */
  failed(node) { this.#ends('an error', node, () => (node.what === 'flat' || node.what === 'switch' ? this.#recorder.fail(node.key) : this.#recorder.error(node.key))); }
  /** The mapper of a flat or switch answers nothing to subscribe to. */
  declined(merging) { this.#checked('a declined projection', new Error(), merging, () => this.#recorder.decline(merging.key)); }
  /** Unsubscribed from outside; of a connection: closed. */
  closed(root) { this.#ends('a closing', root, () => (root.what === 'connection' ? this.#recorder.disconnect(root.above) : this.#recorder.dispose(root.key))); }
  /** The program has released it. */
  released(resource) {
    this.#ends('a release', resource, () => this.#recorder.release(resource));
    resource.isOpen = false;
  }

  /** What is open, held or connected, the oldest first. */
  openNow() { return (this.#written = this.#written.filter((it) => it.isOpen)).slice(); }
  /** What is still open, by the lines that wrote it down. */
  report() {
    const left = this.openNow(), rows = left.map((it) => `  ${it}, written down at ${shown(it.where)}${it.above === null ? '' : `, for ${it.above} of ${shown(it.above.where)}`}`);
    return `${[`history: ${left.length || 'nothing'} of what was written down is open`, ...rows].join('\n')}\n`;
  }
  /** The history, for `rxbook audit`. */
  dump() { return this.#recorder.dump(); }
  /** The same with names, for `rxbook picture`: those given, and the lines of what is open without one. */
  dumpNamed() {
    const names = { ...this.#names };
    for (const it of this.openNow()) {
      const place = placeOf(it.where);
      if (it.name === undefined && place !== null) names[it.key.place] = `${it.what} ${place.file.split('/').pop()}:${place.line}`;
    }
    return withoutUnusedHubs(this.dump(), names);
  }
  #names = {};

  #checked(event, where, about, call) {
    const status = call();
    if (status !== 0) throw new WrongOrder(event, status, where, about);
  }
  #ends(event, about, call) {
    const where = new Error();
    this.#checked(event, where, about, call);
    about.ended = where;
  }
  #kept(made) {
    this.#written.push(made);
    if (made.name !== undefined) this.#names[made.key.place] = made.name;
    return made;
  }
}
