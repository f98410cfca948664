// Uses whose types a program relies on: `is` compiles where what was inferred is exactly what stands there.
import * as rx from 'cellarcliff';
import * as ops from 'cellarcliff/operators';
import { TestScheduler } from 'cellarcliff/testing';

type Same<A, B> = (<T>() => T extends A ? 1 : 2) extends (<T>() => T extends B ? 1 : 2) ? true : false;
declare function is<A>(): <B>(it: B) => Same<A, B> extends true ? void : { wanted: A; got: B };
const must = (_: void) => {};
declare const numbers: rx.Observable<number>, words: rx.Observable<string>, maybe: rx.Observable<number | undefined | null>;
declare const promise: Promise<boolean>, stream: AsyncIterable<Date>;
interface Dog { kind: 'dog'; barks: boolean }
interface Cat { kind: 'cat'; meows: number }
declare const pets: rx.Observable<Dog | Cat>;

// sources
must(is<rx.Observable<number>>()(rx.of(1, 2, 3).pipe(rx.map((x) => x + 1))));
must(is<rx.Observable<string | number>>()(rx.of('a' as string, 1 as number)));
must(is<rx.Observable<boolean>>()(rx.from(promise)));
must(is<rx.Observable<Date>>()(rx.from(stream)));
must(is<rx.Observable<number>>()(rx.from([1, 2])));
must(is<rx.Observable<number>>()(rx.from(new Set([1]))));
must(is<rx.Observable<string>>()(rx.from('text')));
must(is<rx.Observable<number>>()(rx.interval(10)));
must(is<rx.Observable<0>>()(rx.timer(10)));
must(is<rx.Observable<number>>()(rx.timer(10, 10)));
must(is<rx.Observable<number>>()(rx.range(1, 3)));
must(is<rx.Observable<never>>()(rx.throwError(() => new Error('no'))));
must(is<rx.Observable<never>>()(rx.EMPTY));
must(is<rx.Observable<string>>()(rx.defer(() => words)));
must(is<rx.Observable<string | number>>()(rx.iif(() => true, words, numbers)));
must(is<rx.Observable<number>>()(rx.using(() => ({ unsubscribe() {} }), () => numbers)));
must(is<rx.Observable<MouseEvent>>()(rx.fromEvent<MouseEvent>(document, 'click')));
must(is<rx.Observable<[string, number]>>()(rx.pairs({ a: 1 })));
must(is<rx.Observable<number>>()(rx.generate(0, (x) => x < 3, (x) => x + 1)));
must(is<rx.Observable<string>>()(rx.generate({ initialState: 0, iterate: (x) => x + 1, resultSelector: (x) => `${x}` })));
must(is<(path: string) => rx.Observable<string>>()(rx.bindNodeCallback((path: string, done: (error: Error | null, text: string) => void) => done(null, path))));

// several
must(is<rx.Observable<[number, string]>>()(rx.combineLatest([numbers, words])));
must(is<rx.Observable<{ a: number; b: string }>>()(rx.combineLatest({ a: numbers, b: words })));
must(is<rx.Observable<[number, boolean]>>()(rx.forkJoin([numbers, promise])));
must(is<rx.Observable<{ a: number; b: boolean }>>()(rx.forkJoin({ a: numbers, b: promise })));
must(is<rx.Observable<[number, string]>>()(rx.zip(numbers, words)));
must(is<rx.Observable<number | string>>()(rx.merge(numbers, words)));
must(is<rx.Observable<number | string>>()(rx.merge(numbers, words, 2)));
must(is<rx.Observable<number | string>>()(rx.concat(numbers, words)));
must(is<rx.Observable<number | string>>()(rx.race(numbers, words)));
must(is<[rx.Observable<Dog>, rx.Observable<Cat>]>()(rx.partition(pets, (it): it is Dog => it.kind === 'dog')));
must(is<Promise<number>>()(rx.firstValueFrom(numbers)));
must(is<Promise<number | null>>()(rx.lastValueFrom(numbers, { defaultValue: null })));
must(is<rx.Connectable<number>>()(rx.connectable(numbers)));

// operators
must(is<rx.Observable<number>>()(maybe.pipe(rx.filter(Boolean))));
must(is<rx.Observable<Dog>>()(pets.pipe(rx.filter((it): it is Dog => it.kind === 'dog'))));
must(is<rx.Observable<Dog>>()(pets.pipe(rx.first((it): it is Dog => it.kind === 'dog'))));
must(is<rx.Observable<number | string>>()(numbers.pipe(rx.first(null, 'none' as string))));
must(is<rx.Observable<number>>()(numbers.pipe(rx.scan((sum, x) => sum + x, 0))));
must(is<rx.Observable<string[]>>()(words.pipe(rx.reduce((all, it) => [...all, it], [] as string[]))));
must(is<rx.Observable<[number, number]>>()(numbers.pipe(rx.pairwise())));
must(is<rx.Observable<number | null>>()(numbers.pipe(rx.startWith(null))));
must(is<rx.Observable<number | string>>()(numbers.pipe(rx.endWith('end' as string))));
must(is<rx.Observable<string>>()(numbers.pipe(rx.mergeMap(() => words))));
must(is<rx.Observable<boolean>>()(numbers.pipe(rx.switchMap(() => promise))));
must(is<rx.Observable<number>>()(numbers.pipe(rx.concatMap((x) => [x, x]))));
must(is<rx.Observable<string>>()(numbers.pipe(rx.exhaustMap((x) => rx.of(`${x}`)))));
must(is<rx.Observable<number>>()(rx.of(numbers).pipe(rx.mergeAll())));
must(is<rx.Observable<number>>()(rx.of(numbers).pipe(rx.switchAll())));
must(is<rx.Observable<number | string>>()(numbers.pipe(rx.catchError(() => words))));
must(is<rx.Observable<[number, string]>>()(numbers.pipe(rx.withLatestFrom(words))));
must(is<rx.Observable<[number, string, boolean]>>()(numbers.pipe(rx.combineLatestWith(words, promise))));
must(is<rx.Observable<number | string>>()(numbers.pipe(rx.mergeWith(words))));
must(is<rx.Observable<[number, string]>>()(numbers.pipe(rx.zipWith(words))));
must(is<rx.Observable<number[]>>()(numbers.pipe(rx.toArray())));
must(is<rx.Observable<number[]>>()(numbers.pipe(rx.bufferTime(10))));
must(is<rx.Observable<rx.Observable<number>>>()(numbers.pipe(rx.windowCount(2))));
must(is<rx.Observable<rx.GroupedObservable<string, number>>>()(numbers.pipe(rx.groupBy((x) => `${x}`))));
must(is<rx.Observable<rx.GroupedObservable<boolean, string>>>()(numbers.pipe(rx.groupBy((x) => x > 1, { element: (x) => `${x}` }))));
must(is<rx.Observable<boolean>>()(numbers.pipe(rx.every((x) => x > 0))));
must(is<rx.Observable<number | undefined>>()(numbers.pipe(rx.find((x) => x > 0))));
must(is<rx.Observable<rx.Timestamp<number>>>()(numbers.pipe(rx.timestamp())));
must(is<rx.Observable<never>>()(numbers.pipe(rx.ignoreElements())));
must(is<rx.Observable<number>>()(numbers.pipe(rx.materialize(), rx.dematerialize())));
must(is<rx.Observable<number | string>>()(numbers.pipe(rx.timeout({ each: 10, with: () => words }))));
must(is<rx.Observable<number>>()(numbers.pipe(rx.retry({ count: 2, delay: 10 }), rx.repeat(2), rx.share(), rx.shareReplay(1), rx.debounceTime(1),
  rx.throttleTime(1), rx.delay(1), rx.finalize(() => {}))));
must(is<rx.Observable<string>>()(numbers.pipe(rx.tap((x) => x.toFixed()), rx.filter((x) => x > 1), rx.map((x) => `${x}`), rx.distinctUntilChanged(), rx.take(3),
  rx.skip(1), rx.takeUntil(words), rx.map((it) => it.length), rx.map(String))));
must(is<rx.Observable<string>>()(numbers.pipe(rx.pipe(rx.map((x: number) => x > 1), rx.map((x) => `${x}`)))));
must(is<rx.Observable<[number, string]>>()(numbers.pipe(ops.combineLatest(words))));
must(is<rx.Observable<number>>()(numbers.pipe(ops.publishReplay(1), ops.refCount())));
must(is<rx.ConnectableObservable<number>>()(numbers.pipe(ops.publish()) as rx.ConnectableObservable<number>));

// subjects, subscriptions, observables of one's own
const subject = new rx.BehaviorSubject<number | null>(null);
must(is<number | null>()(subject.value));
must(is<rx.Observable<number | null>>()(subject.asObservable()));
new rx.ReplaySubject<string>(1, 100).next('a');
new rx.Subject<void>().next();
const made = new rx.Observable<string>((to) => { to.next('a'); to.complete(); return () => {}; });
must(is<rx.Subscription>()(made.subscribe({ next: (it) => it.length, error: (why: Error) => why.message, complete() {} })));
const whole = new rx.Subscription();
whole.add(made.subscribe());
whole.add(() => {});
const own: rx.MonoTypeOperatorFunction<number> = (source) => new rx.Observable((to) => source.subscribe({ next: (x) => to.next(x * 2) }));
must(is<rx.Observable<number>>()(numbers.pipe(own)));
const toText = <T>(): rx.OperatorFunction<T, string> => rx.map((it) => `${it}`);
must(is<rx.Observable<string>>()(numbers.pipe(toText())));
rx.asyncScheduler.schedule(function (n) { if (n! < 3) this.schedule(n! + 1, 10); }, 10, 0);
rx.config.onUnhandledError = (why) => console.log(why);
new TestScheduler((a, b) => a === b).run(({ cold, hot, expectObservable, expectSubscriptions }) => {
  const a = cold('-a|', { a: 1 }), b = hot('--b|');
  expectObservable(rx.merge(a, b)).toBe('-ab|', { a: 1, b: 'b' });
  expectSubscriptions(a.subscriptions).toBe('^-!');
});
must(is<number>()(rx.counts().nodes));

interface User { id: number; name: string }
export const of_a_type: [rx.Observable<User[]>, rx.Observable<string>, rx.Observable<User | null>, rx.Observable<number | string>, rx.Observable<[number, string]>, rx.Observable<never>, rx.Observable<User>] =
  [rx.of<User[]>([]), rx.of<string>('x'), rx.of<User | null>(null), rx.of<number | string>(1), rx.of<[number, string]>([1, 'a']), rx.of(), rx.of<User>()];
export const of_literals: rx.Observable<'a' | 'b'> = rx.of('a' as const, 'b' as const);
