// What comes of a pipeline over a library: all that happens, in its order, each line with the step in which it happened.
import { HOTS, WHERE } from './drawing.mjs';
import { finalizing, inLeaves, releasing, waiting } from './leaves.mjs';
import { ENDS, OPERATORS, SHARING, SOURCES } from './mix.mjs';

const MOST = 400; // lines; beyond it a pipeline runs on, and is left out

const number = (it) => (Array.isArray(it) ? it.length : typeof it === 'number' ? it : it ? 1 : 0);
function shown(it) {
  if (Array.isArray(it)) return `[${it.map(shown)}]`;
  if (it instanceof Error) return it.message;
  if (it && typeof it === 'object') return 'kind' in it ? `${it.kind} ${shown(it.value ?? it.error)}` : 'subscribe' in it ? 'observable' : `{${Object.values(it).map(shown)}}`;
  return it;
}

/** Whether something comes behind the end of its source. */
const isFollowed = (name) => /^(concatWith|endWith|startWith|onErrorResumeNext|catchError|repeat|retry|defaultIfEmpty|timeoutWith)/.test(name);
/** Whether it calls a function that makes what it subscribes to. */
const hasPlace = (name) => OPERATORS[name][0].includes('i') || name === 'expand';
export const TELLS = ['next', 'complete', 'error'];

export class Run {
  /** In another manner than a library's own: callbacks do these kinds of acts as soon as the step has returned (`puts_off`); what a release throws
   *  is lost (`hushes`); who is being told something hears the rest behind that, by each subscription to a subject, each observer, each share or operator
   *  that ends by itself, each inner observable besides, or each function (`leaves`); what is followed by something is released first (`releases`),
   *  or what ends by itself (`quits`); the program mends what RxJS does wrong (`mends`: mix.mjs). */
  constructor(rx, ops, it, { puts_off = [], hushes = false, leaves = '', releases = false, quits = false, mends = new Set() } = {}) {
    Object.assign(this, { rx, ops, it, puts_off, hushes, leaves, releases, quits, mends });
    Object.assign(this, { put_off: [], place: null, turned: 0, lines: [], step: 0, resources: 0, functions: 0, open: new Map(), twice: 0, is_on: false, subscriptions: {}, connectables: [], frame: 0 });
    this.counted = Object.fromEntries(WHERE.map((where) => [where, 0]));
    this.reached = new Set();
    this.hots = Array.from({ length: HOTS }, (_, i) => this.hot(i));
    this.clock = new rx.VirtualTimeScheduler(undefined, Infinity);
    this.handlers = new Map();
    this.at = {
      rx, ops, mends, clock: this.clock,
      finalized: releases ? finalizing(rx) : rx.finalize, subject: leaves ? (it) => inLeaves(rx, it, leaves === 'subjects') : undefined,
      resource: (l) => this.resource(l), emitter: (n) => this.emitter(n), connects: (it) => (this.connectables.push(it), it),
      turns: () => { if (++this.turned > MOST) this.runsOn(); },
      say: (...of) => {
        this.say(...of);
        this.within(/finalized|left/.test(of.join(' ')) ? 'release' : 'call');
      },
    };
  }
  hot(i) {
    const { rx } = this, made = i === 4 ? new rx.BehaviorSubject(1) : i === 5 ? new rx.ReplaySubject(2) : i === 6 ? new rx.AsyncSubject() : new rx.Subject();
    if (i === 7) made.complete();
    return this.leaves ? inLeaves(rx, made, this.leaves === 'subjects') : made;
  }
  say(...of) {
    if (this.lines.length > MOST) this.runsOn();
    this.lines.push(`${this.step} ${of.join(' ')}`);
  }
  runsOn() {
    this.is_on = true;
    for (const it of Object.values(this.subscriptions)) it.unsubscribe(); // since an observer's error is reported, and stops nobody
    throw new Error('runs on');
  }
  /** What a callback does from within, where its turn has come. */
  within(where) {
    const at = this.counted[where]++;
    for (const it of this.it.within) {
      if (it.where !== where || it.at !== at) continue;
      this.reached.add(`${it.act[0]} within ${where}`);
      if (this.puts_off.includes(it.act[0])) {
        this.put_off.push(it.act);
        continue;
      }
      if (this.hushes && where === 'release' && it.act[0] === 'throw') return;
      this.say('begins', 'within', where);
      if (it.act[0] === 'throw') throw new Error(`within ${where}`);
      this.act(it.act);
      this.say('ends', 'within', where);
    }
  }
  resource(label) {
    const n = this.resources++;
    const resource = { unsubscribe: () => {
      if (this.open.get(n) !== 1) this.twice++;
      this.open.set(n, 0);
      this.say('released', label);
      this.within('release');
    } };
    this.say('made', label);
    this.open.set(n, 1); // behind what may be thrown for want of stack
    try { this.within('make'); } catch (error) { // as whoever makes a resource and fails
      this.open.set(n, 0);
      this.say('unmade', label);
      throw error;
    }
    return resource;
  }
  emitter(n) {
    return {
      addListener: (_, handler) => { this.handlers.set(handler, this.hots[n].subscribe(handler)); },
      removeListener: (_, handler) => { this.handlers.get(handler)?.unsubscribe(); },
    };
  }
  build({ source, operators }) {
    const from = this.source(source), all = operators.map((it) => this.operator(it));
    return all.reduce((it, one) => it.pipe(one), from);
  }
  inner(it) {
    const made = this.build(it);
    return this.releases ? releasing(this.rx)(made) : this.leaves === 'inners' ? waiting(this.rx)(made) : made;
  }
  source([name, ...words]) {
    if (name === 'hot') return this.hots[words[0]];
    if (name === 'cold') return this.cold(...words);
    return name === 'at once' ? this.atOnce(...words) : this.made(SOURCES[name], words);
  }
  operator([name, ...words]) {
    if (this.releases && isFollowed(name)) return this.rx.pipe(releasing(this.rx), this.made(OPERATORS[name], words));
    if (name in ENDS || name in SHARING) {
      const made = this.made(OPERATORS[name], words), waits = this.leaves === 'ends' ? [waiting(this.rx)] : [], quits = this.quits && name in ENDS ? [releasing(this.rx)] : [];
      return this.rx.pipe(...waits, made, ...quits);
    }
    if (this.leaves !== 'places' || !hasPlace(name)) return this.made(OPERATORS[name], words);
    const outer = this.place, place = this.place = [];
    try { return this.rx.pipe(waiting(this.rx, place), this.made(OPERATORS[name], words)); } finally { this.place = outer; }
  }
  made([kinds, make], words) { return make(this.at, ...this.words(kinds, words)); }
  words(kinds, words) {
    return words.map((it, i) => {
      switch (kinds[i]) {
        case 'f': return (act) => this.function(it, act);
        case 'o': return this.inner(it);
        case 'O': return it.map((one) => this.inner(one));
        case 'i': {
          const { place } = this, [fails, a, b] = it;
          this.place = null;
          const [odd, even] = [this.inner(a), this.inner(b)];
          this.place = place;
          return this.function(fails, (n) => (n % 2 ? odd : even));
        }
        default: return it;
      }
    });
  }
  function(fails, act) {
    const label = this.functions++, { place } = this;
    return (it) => {
      this.say('called', label);
      this.within('call');
      if (fails && number(it) === 3) throw new Error('called');
      const made = act(number(it));
      if (place?.length) place.at(-1).is_busy = false;
      return made;
    };
  }
  /** Tells these items, each three moments behind the one before, and an end, or none. */
  cold(label, items, end) {
    const { rx, clock } = this;
    return new rx.Observable((to) => {
      const resource = this.resource(label), whole = new rx.Subscription(() => resource.unsubscribe());
      items.forEach((value, i) => whole.add(clock.schedule(() => this.tells(to, value), 3 * (i + 1))));
      if (end) whole.add(clock.schedule(() => (end === 1 ? to.complete() : to.error(new Error('cold'))), 3 * (items.length + 1)));
      return whole;
    });
  }
  /** Tells these items, and an end, or none, as it is subscribed to. */
  atOnce(label, items, end) {
    return new this.rx.Observable((to) => {
      const resource = this.resource(label);
      try {
        for (const it of items) to.next(it);
        if (end) if (end === 1) to.complete(); else to.error(new Error('at once'));
      } catch (error) { // where the stack is almost full
        resource.unsubscribe();
        throw error;
      }
      return resource;
    });
  }
  tells(to, value) {
    this.within('action');
    to.next(value);
  }
  observer(who) {
    return {
      next: (it) => {
        this.say(who, 'next', shown(it));
        this.within('item');
      },
      error: (error) => {
        this.say(who, 'error', shown(error));
        this.within('end');
      },
      complete: () => {
        this.say(who, 'completed');
        this.within('end');
      },
    };
  }
  act([what, ...of]) {
    const [who, value] = of;
    if (what === 'subscribe' && this.subscriptions[who]) this.act(['unsubscribe', who]);
    if (what.endsWith('subscribe')) this.say('begins', what, who);
    if (what === 'subscribe') {
      // known before it tells anything, so that it can be left from within
      const { next, error, complete } = this.observer(who), whole = this.subscriptions[who] = this.rx.Subscriber.create(next, error, complete);
      (['roots', 'ends', 'inners', 'places'].includes(this.leaves) ? waiting(this.rx)(this.pipe) : this.pipe).subscribe(whole);
    } else if (what === 'unsubscribe') this.subscriptions[who]?.unsubscribe();
    else if (what === 'connect') this.connections = this.connectables.map((it) => it.connect());
    else if (what === 'time') {
      this.clock.maxFrames = this.frame += who;
      this.clock.flush();
      this.clock.frame = this.frame;
    } else this.emits(what, who, value);
  }
  emits(what, who, value) {
    const hot = this.hots[who];
    this.say('begins', what, who, value ?? '', 'of', hot.observers?.length ?? 0);
    hot[what](what === 'error' ? new Error(`hot ${who}`) : value);
    this.say('ends', what, who);
  }
  /** How many resources are not released. */
  kept() { return [...this.open.values()].filter((it) => it === 1).length; }
  /** Does a step; what it throws is said, and the next step is done. */
  does(act) {
    try { act(); } catch (error) {
      if (error.message === 'runs on') throw error;
      this.say('raised', error.errors ? error.errors.map((it) => it.message).join(' and ') : error.message);
    }
  }
  all() {
    this.rx.config.onUnhandledError = () => {};
    try {
      this.pipe = this.build(this.it.whole);
      for (const it of this.it.steps) {
        if (this.is_on) throw new Error('runs on');
        this.step++;
        this.does(() => this.act(it));
        for (let late; (late = this.put_off.shift());) this.does(() => this.act(late));
      }
      this.step = 99;
      for (const it of [...Object.values(this.subscriptions), ...this.connections ?? []]) this.does(() => it.unsubscribe());
      this.step = 100;
      if (this.is_on) throw new Error('runs on');
    } catch (error) {
      this.raised = error;
      this.lines.push(`${this.step} raised ${error.message}`);
    }
    this.left = this.kept();
    return this;
  }
}

/** Whether it is said of what is under way, or once all is left. */
export const isMark = (line) => {
  const at = line.indexOf(' ') + 1;
  return line.startsWith('begins ', at) || line.startsWith('ends ', at) || line.startsWith('100 ');
};
/** All that happens, in its order: what is compared. */
export const inOrder = (lines) => lines.filter((it) => !isMark(it)).join(', ');
export const isRelease = (line) => /^\d+ (released|finalized|tapped \d+ (left|finalized))/.test(line);
/** The same, where releases that stand behind each other have no order. */
export function inOrderButReleases(lines) {
  const told = [];
  let run = [];
  for (const it of [...lines.filter((one) => !isMark(one)), null]) {
    if (it !== null && isRelease(it)) run.push(it);
    else {
      told.push(...run.sort(), it);
      run = [];
    }
  }
  return told.join(', ');
}
/** Whether nothing but releases stand elsewhere, and in the second none stands later. */
export function isReleasedEarlier(lines, others) {
  const [theirs, ours] = [lines, others].map((all) => {
    const rest = [], at = {};
    for (const it of all) if (!isMark(it)) if (isRelease(it)) (at[it] ??= []).push(rest.length); else rest.push(it);
    return { rest: rest.join(), at };
  });
  return theirs.rest === ours.rest && Object.keys({ ...theirs.at, ...ours.at })
    .every((it) => theirs.at[it]?.length === ours.at[it]?.length && theirs.at[it].every((place, k) => ours.at[it][k] <= place));
}
/** In each step what each observer hears in its order, and how often everything else happens. */
export function compared(lines, of = () => true) {
  const by = new Map();
  for (const it of lines) {
    const [step, who, ...rest] = it.split(' ');
    if (isMark(it) || !of(who)) continue;
    const key = `${step.padStart(2, '0')} ${who}`;
    by.set(key, [...by.get(key) ?? [], rest.join(' ')]);
  }
  for (const [key, list] of by) if (!/ [xyz]$/.test(key)) list.sort();
  return JSON.stringify([...by].sort(([a], [b]) => (a < b ? -1 : 1)));
}
export const isHeard = (who) => ['x', 'y', 'z', 'raised'].includes(who);
