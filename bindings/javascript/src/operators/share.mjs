// One subscription for many: a share of the engine, or a subject that a program chose.
import { DONE, HUB_ORDER, NO_HUB, ROOT, SHARED, SOURCE } from '../engine/codes.mjs';
import { Tag } from '../engine/thing.mjs';
import { TERMINAL } from '../core/leaf.mjs';
import { Place, linked, openAt, openNode, openUsing } from '../core/place.mjs';
import { operate, operator } from '../core/operator.mjs';
import { SafeSubscriber } from '../core/subscriber.mjs';
import { Own } from '../core/subscription.mjs';
import { ReplaySubject } from '../core/replay-subject.mjs';
import { Subject } from '../core/subject.mjs';
import { innerFrom } from '../sources/from.mjs';

let words = 0;

/** What the commands of one share have: its word, its hub, and how many shares stand below it. */
class Share {
  word = (words = words % 0xfffffffe + 1);
  hub = -1; hubHigh = -1;
  connection = null; // the last one
  isNew = false; // whether the last command made it
  status = DONE; // of the last command
  constructor(level) { this.level = level; }
}

/** Counts who leaves. */
class Leaves extends Tag {
  isForgettable() { return true; }
}

/** How many shares stand one below another in an observable, as far as can be seen. */
export function levelOf(it) {
  let level = 0;
  for (let i = 0; it && i < 64; i++, it = it.source) if (it.operator?.is_share) level++;
  return level;
}

/** By the engine: connected while it has a subscriber. Where each hub of the engine serves another share it is by a subject, until that is left. */
function shared() {
  return (source) => {
    const share = new Share(levelOf(source));
    let other = null, many = 0; // by a subject, and how many subscribers that has
    return operator((at, it) => {
      const place = at._place === ROOT && at._way === TERMINAL ? at : linked(at);
      if (place === null || place._hears.closed) return;
      if (many === 0) {
        if (openNode(place, SHARED, null, null, share) !== null) {
          const { connection, isNew } = share;
          share.isNew = false;
          if (isNew) openAt(it, new Place(SOURCE, connection));
          return;
        }
        if (share.status !== NO_HUB && share.status !== HUB_ORDER) return;
        other = bySubject({})(it);
      }
      const below = openUsing(place, new Leaves(() => { many--; }));
      if (below === null) return;
      many++;
      openAt(other, below);
    }, true)(source);
  };
}

export function share(options = {}) {
  const { connector = null, resetOnError = true, resetOnComplete = true, resetOnRefCountZero = true } = options;
  return !connector && resetOnError === true && resetOnComplete === true && resetOnRefCountZero === true ? shared() : bySubject(options);
}

/** By a subject: whatever is to happen at an end, or when nobody is left. */
class BySubject {
  connection = null; subject = null; reset = null;
  many = 0; has_ended = false; has_failed = false;
  constructor({ connector = null, resetOnError = true, resetOnComplete = true, resetOnRefCountZero = true }) {
    this.connector = connector ?? (() => new Subject());
    this.on = { error: resetOnError, complete: resetOnComplete, nobody: resetOnRefCountZero };
  }

  cancels() {
    this.reset?.unsubscribe();
    this.reset = null;
  }
  resets() {
    this.cancels();
    this.connection = this.subject = null;
    this.has_ended = this.has_failed = false;
  }
  resetsAndLeaves() {
    const { connection } = this;
    this.resets();
    connection?.unsubscribe();
  }
  isOver() { return this.has_failed || this.has_ended; }

  joins(to, source) {
    this.many++;
    if (!this.isOver()) this.cancels();
    const mine = (this.subject ??= this.connector());
    to.add(new Own(() => {
      if (--this.many === 0 && !this.isOver()) this.reset = resetBy(() => this.resetsAndLeaves(), this.on.nobody);
    }));
    mine.subscribe(to);
    if (this.connection || this.many === 0) return;
    this.connection = this.connects(mine);
    innerFrom(source).subscribe(this.connection);
  }
  connects(mine) {
    return new SafeSubscriber({
      next: (value) => mine.next(value),
      error: (error) => {
        this.has_failed = true;
        this.ends(this.on.error, error);
        mine.error(error);
      },
      complete: () => {
        this.has_ended = true;
        this.ends(this.on.complete);
        mine.complete();
      },
    });
  }
  ends(on, ...words) {
    this.cancels();
    this.reset = resetBy(() => this.resets(), on, ...words);
  }
}
const bySubject = (options) => (whole) => {
  const share = new BySubject(options);
  return operate((source, to) => share.joins(to, source))(whole);
};

// A function or a notifier that fails resets too: the source is not kept for nobody.
function resetBy(act, on, ...words) {
  if (on === true) {
    act();
    return null;
  }
  if (on === false) return null;
  const once = new SafeSubscriber({
    next: () => {
      once.unsubscribe();
      act();
    },
    error: (error) => {
      act();
      throw error;
    },
  });
  try { return innerFrom(on(...words)).subscribe(once); } catch (error) {
    act();
    throw error;
  }
}

export function shareReplay(configOrSize, windowTime, scheduler) {
  let size = configOrSize ?? Infinity, refCount = false;
  if (configOrSize && typeof configOrSize === 'object') {
    ({ bufferSize: size = Infinity, windowTime = Infinity, refCount = false, scheduler } = configOrSize);
  }
  return share({
    connector: () => new ReplaySubject(size, windowTime, scheduler), resetOnError: true, resetOnComplete: false, resetOnRefCountZero: refCount,
  });
}
