// The examples of the page of the package. Run as: node first.mjs
import { NEVER, Observable, Subject, counts, finalize, from, leaks, map, share, switchMap, trace, using } from '../index.mjs';

// A resource for as long as it is subscribed to.
const ticks = new Subject();
const prices = using(() => ({ unsubscribe: () => console.log('closed') }), () => ticks);
const subscription = prices.pipe(map((price) => price * 2)).subscribe(console.log);
ticks.next(10);
subscription.unsubscribe();

// A request for each word, of which only the latest counts.
const request = (word) => new Observable(() => {
  console.log('open', word);
  return () => console.log('close', word);
});
const words = new Subject();
const latest = words.pipe(switchMap(request)).subscribe();
words.next('a');
words.next('ab');
latest.unsubscribe();

// An item from within: each observer hears its items in order.
const items = new Subject();
items.subscribe((it) => { if (it === 1) items.next(2); });
items.subscribe((it) => console.log('hears', it));
items.next(1);

// What is open, and where it was subscribed to.
trace();
const forgotten = NEVER.pipe(share(), finalize(() => console.log('released'))).subscribe();
console.log(counts().held > 0, leaks().some(({ at }) => at?.includes('first.mjs')));
forgotten.unsubscribe();
console.log(counts().held);

// Both ways: anything with Symbol.observable comes in, and goes out.
from({ [Symbol.observable ?? '@@observable']: () => from([7]) }).subscribe((it) => console.log('from elsewhere', it));
