// Several observables at once. What stands behind an input that has failed is subscribed to, and left at once, as by RxJS; not so of `zip` and `race`.
import { Link } from '../core/link.mjs';
import { Observable } from '../core/observable.mjs';
import { Own } from '../core/subscription.mjs';
import { flatList, identity, inputsOf, objectOf, popFunction, popNumber, popScheduler, spreading } from '../core/util.mjs';
import { mergeAll } from '../operators/flat.mjs';
import { map } from '../operators/items.mjs';
import { scheduleFor } from '../schedulers/schedule.mjs';
import { from, innerFrom } from './from.mjs';
import { EMPTY } from './simple.mjs';

export function merge(...words) {
  const scheduler = popScheduler(words), concurrent = popNumber(words, Infinity);
  if (words.length === 0) return EMPTY;
  return words.length === 1 ? innerFrom(words[0]) : mergeAll(concurrent)(from(words, scheduler));
}
export function concat(...words) {
  const scheduler = popScheduler(words);
  return mergeAll(1)(from(words, scheduler));
}

const result = (made, call) => (call ? map(spreading(call))(made) : made);
const done = (to) => to.closed || to.isStopped;
export function combineLatest(...words) {
  const scheduler = popScheduler(words), call = popFunction(words), { inputs, keys } = inputsOf(words);
  if (inputs.length === 0) return from([], scheduler);
  return result(new Observable(latest(inputs, scheduler, keys ? (values) => objectOf(keys, values) : identity)), call);
}
const on = (scheduler, act, to) => (scheduler ? scheduleFor(to, scheduler, act) : act());

/** The latest items of all inputs, with each item of one of them. */
export const latest = (inputs, scheduler, valueOf = identity) => (to) => {
  on(scheduler, () => {
    const { length } = inputs, values = new Array(length);
    let active = length, waiting = length;
    for (let i = 0; i < length; i++) {
      on(scheduler, () => {
        let has = false;
        from(inputs[i], scheduler).subscribe(new Link(to, (value) => {
          values[i] = value;
          if (!has) {
            has = true;
            waiting--;
          }
          if (waiting === 0) to.next(valueOf([...values]));
        }, () => {
          if (--active === 0) to.complete();
        }));
      }, to);
    }
  }, to);
};

export function forkJoin(...words) {
  const call = popFunction(words), { inputs, keys } = inputsOf(words);
  return result(new Observable((to) => {
    const { length } = inputs;
    if (length === 0) return to.complete();
    const values = new Array(length);
    let active = length, with_none = length;
    for (let i = 0; i < length; i++) {
      let has = false;
      innerFrom(inputs[i]).subscribe(new Link(to, (value) => {
        if (!has) {
          has = true;
          with_none--;
        }
        values[i] = value;
      }, () => { active--; }, undefined, () => {
        if (active && has) return;
        if (with_none === 0) to.next(keys ? objectOf(keys, values) : values);
        to.complete();
      }));
    }
  }), call);
}

export function zip(...words) {
  const call = popFunction(words), inputs = flatList(words);
  if (inputs.length === 0) return EMPTY;
  return new Observable((to) => {
    let buffers = inputs.map(() => []);
    const completed = inputs.map(() => false);
    to.add(new Own(() => { buffers = null; }));
    for (let i = 0; i < inputs.length && !done(to); i++) {
      innerFrom(inputs[i]).subscribe(new Link(to, (value) => {
        buffers[i].push(value);
        if (!buffers.every((it) => it.length)) return;
        const values = buffers.map((it) => it.shift());
        to.next(call ? call(...values) : values);
        if (buffers?.some((it, at) => !it.length && completed[at])) to.complete();
      }, () => {
        completed[i] = true;
        if (buffers && !buffers[i].length) to.complete();
      }));
    }
  });
}

/** The first input that tells an item goes on, and the others are left; an end before that is the end. */
export const raceInit = (inputs) => (to) => {
  const links = [];
  let winner = null;
  for (let i = 0; i < inputs.length && winner === null && !done(to); i++) {
    const wins = () => {
      if (winner !== null) return;
      winner = link;
      for (const it of links) if (it !== link) it.unsubscribe();
    };
    const isLosing = () => winner !== null && winner !== link, link = new Link(to, (value) => {
      wins();
      if (!isLosing()) to.next(value);
    }, () => { if (!isLosing()) to.complete(); }, (error) => { if (!isLosing()) to.error(error); });
    links.push(link);
    innerFrom(inputs[i]).subscribe(link);
  }
};
export function race(...words) {
  const inputs = flatList(words);
  return inputs.length === 1 ? innerFrom(inputs[0]) : new Observable(raceInit(inputs));
}

export const partition = (source, predicate, thisArg) => {
  const wanted = (is) => new Observable((to) => {
    let at = 0;
    innerFrom(source).subscribe(new Link(to, (value) => !predicate.call(thisArg, value, at++) === !is && to.next(value)));
  });
  return [wanted(true), wanted(false)];
};
