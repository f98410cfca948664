// Operators that join other observables to their source.
import { Link } from '../core/link.mjs';
import { operate } from '../core/operator.mjs';
import { flatList, identity, noop, pipe, popFunction, popNumber, popScheduler, spreading } from '../core/util.mjs';
import { combineLatest, concat, latest, raceInit, zip } from '../sources/combining.mjs';
import { from, innerFrom } from '../sources/from.mjs';
import { concatAll, mergeAll, mergeMap } from './flat.mjs';
import { map } from './items.mjs';
import { onErrorResumeNextWith } from './again.mjs';
import { toArray } from './ends.mjs';
import { lazily } from './lazily.mjs';

const called = (call) => (call ? map(spreading(call)) : identity);

export const combineLatestWith = (...others) => combineLatestOp(...others);
function combineLatestOp(...words) {
  const call = popFunction(words);
  return (source) => pipe(operate((it, to) => latest([it, ...flatList(words)])(to)), called(call))(source);
}
export { combineLatestOp };
export function combineLatestAll(project) { return joinAll(combineLatest, project); }
export function zipAll(project) { return joinAll(zip, project); }
const joinAll = (join, project) => pipe(toArray(), mergeMap((sources) => join(sources)), called(project));

export function mergeOp(...words) {
  const scheduler = popScheduler(words), concurrent = popNumber(words, Infinity), others = flatList(words);
  return (source) => lazily(source, (it) => mergeAll(concurrent)(from([it, ...others], scheduler)));
}
export const mergeWith = (...others) => mergeOp(...others);
export function concatOp(...words) {
  const scheduler = popScheduler(words);
  return (source) => lazily(source, (it) => concatAll()(from([it, ...words], scheduler)));
}
export const concatWith = (...others) => concatOp(...others);
export const zipOp = (...words) => (source) => lazily(source, (it) => zip(it, ...words));
export const zipWith = (...others) => zipOp(...others);
export const raceWith = (...others) => (others.length ? operate((source, to) => raceInit([source, ...others])(to)) : identity);
export const raceOp = (...words) => raceWith(...flatList(words));
export const onErrorResumeNextOp = (...words) => (source) => onErrorResumeNextWith(source, flatList(words));

export function startWith(...values) {
  const scheduler = popScheduler(values);
  return (source) => lazily(source, (it) => (scheduler ? concat(values, it, scheduler) : concat(values, it)));
}
export function endWith(...values) {
  const scheduler = popScheduler(values);
  return (source) => lazily(source, (it) => (scheduler ? concat(it, from(values, scheduler)) : concat(it, from(values))));
}

export function withLatestFrom(...words) {
  const call = popFunction(words);
  return operate((source, to) => {
    const { length } = words, values = new Array(length), has = words.map(() => false);
    let ready = length === 0;
    for (let i = 0; i < length; i++) {
      innerFrom(words[i]).subscribe(new Link(to, (value) => {
        values[i] = value;
        if (has[i]) return;
        has[i] = true;
        ready = has.every(identity);
      }, noop));
    }
    source.subscribe(new Link(to, (value) => {
      if (!ready) return;
      const all = [value, ...values];
      to.next(call ? call(...all) : all);
    }));
  });
}

export function sequenceEqual(compareTo, comparator = (a, b) => a === b) {
  return operate((source, to) => {
    const mine = { items: [], is_over: false }, others = { items: [], is_over: false };
    const answer = (is) => {
      to.next(is);
      to.complete();
    };
    const hears = (self, other) => {
      const link = new Link(to, (value) => {
        if (other.items.length === 0) {
          if (other.is_over) answer(false);
          else self.items.push(value);
        } else if (!comparator(value, other.items.shift())) answer(false);
      }, () => {
        self.is_over = true;
        if (other.is_over) answer(other.items.length === 0); // whatever waits of this one, as in RxJS
        link.unsubscribe();
      });
      return link;
    };
    source.subscribe(hears(mine, others));
    innerFrom(compareTo).subscribe(hears(others, mine));
  });
}
