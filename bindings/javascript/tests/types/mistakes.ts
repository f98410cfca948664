// Mistakes that the types must refuse: `tsc` says so where one of these lines compiles.
import * as rx from 'cellarcliff';
import * as ops from 'cellarcliff/operators';
import { TestScheduler } from 'cellarcliff/testing';

declare const numbers: rx.Observable<number>, words: rx.Observable<string>, maybe: rx.Observable<number | undefined>;
const text: rx.OperatorFunction<string, number> = rx.map((it) => it.length);

// @ts-expect-error an operator on text behind numbers
numbers.pipe(text);
// @ts-expect-error the second of two does not fit the first
numbers.pipe(rx.map((x) => x > 1), rx.map((x) => x.toFixed()));
// @ts-expect-error the item has no such name
numbers.pipe(rx.map((x) => x.length));
// @ts-expect-error the item may be missing
maybe.pipe(rx.map((x) => x.toFixed()));
// @ts-expect-error filter without a guard keeps the type
const a: rx.Observable<number> = maybe.pipe(rx.filter((x) => x !== undefined));
// @ts-expect-error a predicate answers true or false
numbers.pipe(rx.filter((x) => x.toFixed()));
// @ts-expect-error a function that makes no observable
numbers.pipe(rx.mergeMap((x) => x));
// @ts-expect-error the same
numbers.pipe(rx.switchMap(() => undefined));
// @ts-expect-error what comes of it is text
const b: rx.Observable<number> = numbers.pipe(rx.switchMap(() => words));
// @ts-expect-error the other one adds its type
const c: rx.Observable<number> = numbers.pipe(rx.catchError(() => words));
// @ts-expect-error the same
const d: rx.Observable<number> = numbers.pipe(rx.mergeWith(words));
// @ts-expect-error the same
const e: rx.Observable<number> = numbers.pipe(rx.startWith('a'));
// @ts-expect-error two, not one
const f: rx.Observable<[number]> = rx.combineLatest([numbers, words]);
// @ts-expect-error the names are those of the object
rx.forkJoin({ a: numbers }).pipe(rx.map((it) => it.b));
// @ts-expect-error the order is that of the list
rx.zip(numbers, words).pipe(rx.map(([x]) => x.length));
// @ts-expect-error a number is no observable
rx.merge(numbers, 'a', 7, {});
// @ts-expect-error nothing that tells items
rx.from(7);
// @ts-expect-error the same
rx.defer(() => 7);
// @ts-expect-error a subject of numbers
new rx.Subject<number>().next('a');
// @ts-expect-error an item is wanted
new rx.Subject<number>().next();
// @ts-expect-error a first item is wanted
new rx.BehaviorSubject<number>();
// @ts-expect-error the value is only to be read
new rx.BehaviorSubject(1).value = 2;
// @ts-expect-error the observer hears numbers
numbers.subscribe((it: string) => it);
// @ts-expect-error the same
numbers.subscribe({ next: (it: string) => it });
// @ts-expect-error an observer has no such function
numbers.subscribe({ done: () => {} });
// @ts-expect-error a subscription is no observable
numbers.subscribe().pipe(rx.map((x) => x));
// @ts-expect-error a teardown is a function or has unsubscribe
new rx.Observable(() => 7);
// @ts-expect-error the source tells text
new rx.Observable<string>((to) => to.next(7));
// @ts-expect-error scan with a seed of another type answers that
const g: rx.Observable<number> = numbers.pipe(rx.scan((all, x) => [...all, x], [] as number[]));
// @ts-expect-error a comparison is of two
numbers.pipe(rx.distinctUntilChanged((x: string, y: string) => x === y));
// @ts-expect-error no such key
rx.of({ a: 1 }).pipe(rx.distinctUntilKeyChanged('b'));
// @ts-expect-error a time is a number
numbers.pipe(rx.debounceTime('10'));
// @ts-expect-error a scheduler is wanted
numbers.pipe(rx.observeOn(10));
// @ts-expect-error no such option
numbers.pipe(rx.retry({ times: 3 }));
// @ts-expect-error no such option
numbers.pipe(rx.share({ refCount: true }));
// @ts-expect-error refCount has to be said
numbers.pipe(rx.shareReplay({ bufferSize: 1 }));
// @ts-expect-error the notifier is an observable
numbers.pipe(rx.takeUntil(10));
// @ts-expect-error a promise of a number
const h: Promise<string> = rx.firstValueFrom(numbers);
// @ts-expect-error a default has its own name
rx.lastValueFrom(numbers, { default: 1 });
// @ts-expect-error the group's key is text
numbers.pipe(rx.groupBy((x) => `${x}`), rx.map((it) => it.key.toFixed()));
// @ts-expect-error toArray answers a list
numbers.pipe(rx.toArray(), rx.map((x) => x.toFixed()));
// @ts-expect-error nothing comes of it
numbers.pipe(rx.ignoreElements(), rx.map((x) => x.toFixed()));
// @ts-expect-error a notification is wanted
numbers.pipe(rx.dematerialize());
// @ts-expect-error pairs are of numbers
numbers.pipe(rx.pairwise(), rx.map(([x, y]) => x.length));
// @ts-expect-error no such name in the package
rx.mapp;
// @ts-expect-error `partition` of operators is not a name of the first entry
ops.partition(numbers, (x: number) => x > 1);
// @ts-expect-error the window is an observable
numbers.pipe(rx.windowCount(2), rx.map((x) => x + 1));
// @ts-expect-error a comparison of what is equal is wanted
new TestScheduler();
// @ts-expect-error a subscription cannot be connected
rx.connectable(numbers).subscribe().connect();
// @ts-expect-error counts are numbers
const i: string = rx.counts().nodes;
