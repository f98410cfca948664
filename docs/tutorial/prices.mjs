// Keeps the subscriptions of a price view: the program of the tutorial, in JavaScript. It prints what stands in prices.out.
import { EMPTY, NEVER, Subject, close, share, mergeMap, switchMap, using } from 'cellarcliff';

/** A stand-in for an open file: a real program closes it where this one prints. */
const file = (number) => ({ unsubscribe: () => console.log('release file', number) });
/** An observer. */
const tell = (name) => ({
  next: (item) => console.log(name, 'receives', item),
  complete: () => console.log(name, 'receives the end'),
});

/** One observer with a file, and the source that it mirrors. */
function watch() {
  const ticks = new Subject();
  const prices = using(() => file(7), () => ticks);
  prices.subscribe(tell('prices'));
  ticks.next(101);
  ticks.complete();
}

/** Two observers of one source: its file is opened with the first, and comes back with the last. */
function shared() {
  const ticks = new Subject();
  const feed = using(() => file(9), () => ticks).pipe(share());
  const first = feed.subscribe(tell('first'));
  const second = feed.subscribe(tell('second'));
  ticks.next(102);
  first.unsubscribe();
  second.unsubscribe();
}

/** A file for the first item that comes, none for the second (FlatMap). */
function merge() {
  const names = new Subject(), lines = new Subject();
  const fileOf = (name) => (name === 11 ? EMPTY : using(() => file(name), () => lines));
  names.pipe(mergeMap(fileOf)).subscribe(tell('merged'));
  names.next(10);
  names.next(11);
  lines.next(103);
  lines.complete();
  names.complete();
}

/** A file for each item; the new one takes the place of the old one (Switch). */
function latest() {
  const names = new Subject(), lines = new Subject();
  const files = names.pipe(switchMap((name) => using(() => file(name), () => lines)));
  const subscription = files.subscribe(tell('latest'));
  names.next(12);
  names.next(13);
  lines.next(104);
  subscription.unsubscribe();
}

/** A request shares the file of a subscription, and outlives it. */
function lend() {
  const opened = using(() => file(15), () => NEVER).pipe(share());
  const page = opened.subscribe();
  const request = opened.subscribe();
  page.unsubscribe();
  console.log('the page is gone, the request goes on');
  request.unsubscribe();
}

/** A subscription that nobody ends. */
function forget() {
  using(() => file(8), () => NEVER).subscribe();
}

for (const [name, part] of Object.entries({ watch, share: shared, merge, latest, lend, forget })) {
  console.log('--', name);
  part();
}
console.log('-- close');
close();
