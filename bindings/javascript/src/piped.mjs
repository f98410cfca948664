// The operators that rxjs and rxjs/operators both have.
export {
  distinctUntilChanged, distinctUntilKeyChanged, filter, ignoreElements, map, mapTo, pairwise, pluck, scan, skip, skipLast, skipWhile, timestamp,
} from './operators/items.mjs';
export {
  count, defaultIfEmpty, elementAt, every, find, findIndex, first, isEmpty, last, max, min, reduce, single, take, takeLast, takeWhile,
  throwIfEmpty, toArray,
} from './operators/ends.mjs';
export {
  concatAll, concatMap, concatMapTo, exhaust, exhaustAll, exhaustMap, flatMap, mergeAll, mergeMap, mergeMapTo, switchAll, switchMap, switchMapTo,
} from './operators/flat.mjs';
export { expand, mergeScan, switchScan } from './operators/accumulating.mjs';
export { catchError, repeat, repeatWhen, retry, retryWhen } from './operators/again.mjs';
export {
  combineLatestAll, combineLatestAll as combineAll, combineLatestWith, concatWith, endWith, mergeWith, raceWith, sequenceEqual, startWith,
  withLatestFrom, zipAll, zipWith,
} from './operators/with-others.mjs';
export { audit, auditTime, debounce, debounceTime, sample, sampleTime, throttle, throttleTime } from './operators/rate.mjs';
export { delay, delayWhen, timeout, timeoutWith } from './operators/delay.mjs';
export { buffer, bufferCount, bufferTime, bufferToggle, bufferWhen } from './operators/buffers.mjs';
export { groupBy, window, windowCount, windowTime, windowToggle, windowWhen } from './operators/windows.mjs';
export { share, shareReplay } from './operators/share.mjs';
export { connect, multicast, publish, publishBehavior, publishLast, publishReplay, refCount } from './operators/connecting.mjs';
export { dematerialize, materialize } from './operators/materialize.mjs';
export { distinct } from './operators/distinct.mjs';
export { finalize } from './operators/finalize.mjs';
export { observeOn, subscribeOn } from './operators/on.mjs';
export { skipUntil, takeUntil } from './operators/until.mjs';
export { tap } from './operators/tap.mjs';
export { timeInterval } from './operators/time-interval.mjs';
