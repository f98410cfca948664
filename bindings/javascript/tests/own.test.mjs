// What is JavaScript's own: promises and turns, iterables and their ends, events, timers, classes, values, errors that nobody hears. What each says
// was recorded over RxJS 7.5.7 (own.said.mjs, by record.mjs); where the package says another thing it stands in UNLIKE with its reason.
import { SAID } from './own.said.mjs';
import { inAnyOrder } from './runner.mjs';

const turn = (ms = 0) => new Promise((resolve) => { setTimeout(resolve, ms); });
const PROGRAMS = {};
const t = (name, of) => {
  if (name in PROGRAMS) throw new Error(`two tests are called ${name}`);
  PROGRAMS[name] = of;
};
const all = (say, name = '') => ({ next: (it) => say(`${name}${String(it)}`), error: (it) => say(`${name}error ${it?.message ?? it}`), complete: () => say(`${name}end`) });
const caught = (say, act) => { try { return act(); } catch (error) { say(`thrown ${error.name}: ${error.message}`); return undefined; } };

// Promises and turns
t('a promise tells its value and ends', async (rx, say) => { rx.from(Promise.resolve(1)).subscribe(all(say)); say('subscribed'); await turn(); });
t('a promise that is rejected is an error', async (rx, say) => { rx.from(Promise.reject(new Error('no'))).subscribe(all(say)); await turn(); });
t('a promise is left before it is settled', async (rx, say) => { rx.from(Promise.resolve(1)).subscribe(all(say)).unsubscribe(); await turn(); say('later'); });
t('a thenable will do', async (rx, say) => { rx.from({ then: (done) => done(7) }).subscribe(all(say)); await turn(); });
t('a thenable is asked once for each', async (rx, say) => {
  const it = rx.from({ then: (done) => { say('asked'); done(1); } });
  it.subscribe(all(say, 'a ')); it.subscribe(all(say, 'b '));
  await turn();
});
t('an observer of a promise that throws is reported', async (rx, say) => {
  rx.config.onUnhandledError = (error) => say(`unhandled ${error.message}`);
  rx.from(Promise.resolve(1)).subscribe(() => { throw new Error('mine'); });
  await turn(70);
  rx.config.onUnhandledError = null;
});
t('a function that answers a promise, in mergeMap', async (rx, say) => { rx.of(1, 2).pipe(rx.mergeMap(async (x) => x * 2)).subscribe(all(say)); say('subscribed'); await turn(); });
t('an async function that throws, in concatMap', async (rx, say) => { rx.of(1, 2).pipe(rx.concatMap(async (x) => { if (x === 2) throw new Error('two'); return x; })).subscribe(all(say)); await turn(); });
t('switchMap leaves a promise', async (rx, say) => { const s = new rx.Subject(); s.pipe(rx.switchMap((x) => Promise.resolve(x))).subscribe(all(say)); s.next(1); s.next(2); await turn(); });
t('firstValueFrom answers the first', async (rx, say) => { say(await rx.firstValueFrom(rx.of(1, 2))); });
t('firstValueFrom of nothing is rejected', async (rx, say) => { await rx.firstValueFrom(rx.EMPTY).catch((error) => say(error.name)); });
t('firstValueFrom of nothing, with a default', async (rx, say) => { say(await rx.firstValueFrom(rx.EMPTY, { defaultValue: 5 })); });
t('firstValueFrom with undefined as the default', async (rx, say) => { say(String(await rx.firstValueFrom(rx.EMPTY, { defaultValue: undefined }))); });
t('firstValueFrom leaves its source', async (rx, say) => { const s = new rx.Subject(), p = rx.firstValueFrom(s); s.next(1); say(s.observed); say(await p); });
t('firstValueFrom is rejected with the error itself', async (rx, say) => { const why = { own: true }; await rx.firstValueFrom(rx.throwError(() => why)).catch((error) => say(error === why)); });
t('lastValueFrom answers the last', async (rx, say) => { say(await rx.lastValueFrom(rx.of(1, 2))); });
t('lastValueFrom of nothing is rejected', async (rx, say) => { await rx.lastValueFrom(rx.EMPTY).catch((error) => say(error.name)); });
t('lastValueFrom of an error', async (rx, say) => { await rx.lastValueFrom(rx.concat(rx.of(1), rx.throwError(() => new Error('no')))).catch((error) => say(error.message)); });
t('forEach answers when it ends', async (rx, say) => { await rx.of(1, 2).forEach(say); say('end'); });
t('forEach is rejected by what its function throws', async (rx, say) => { await rx.of(1, 2).forEach(() => { throw new Error('no'); }).catch((error) => say(error.message)); });
t('forEach leaves the source when its function throws', async (rx, say) => { const s = new rx.Subject(), p = s.forEach(() => { throw new Error('no'); }); s.next(1); say(s.observed); await p.catch((error) => say(error.message)); });
t('toPromise answers the last, or undefined', async (rx, say) => { say(await rx.of(1, 2).toPromise()); say(String(await rx.EMPTY.toPromise())); });
t('defer of an async function', async (rx, say) => { rx.defer(async () => 3).subscribe(all(say)); await turn(); });
t('microtasks come before timers', async (rx, say) => { rx.timer(0).subscribe(() => say('timer')); rx.from(Promise.resolve()).subscribe(() => say('promise')); rx.of(0, rx.asapScheduler).subscribe(() => say('asap')); say('now'); await turn(70); });
t('forkJoin of promises', async (rx, say) => { rx.forkJoin({ a: Promise.resolve(1), b: [1, 2, 3] }).subscribe((it) => say(it)); await turn(); });
t('race of promises', async (rx, say) => { rx.race(rx.timer(20), Promise.resolve('p')).subscribe(all(say)); await turn(); });

// Iterables and their ends
t('a string is told by its code points', (rx, say) => { rx.from('a😀b').subscribe(all(say)); });
t('a sparse array tells undefined', (rx, say) => { rx.from([1, , 3]).subscribe(all(say)); });
t('something like an array', (rx, say) => { rx.from({ length: 2, 0: 'a', 1: 'b' }).subscribe(all(say)); });
t('arguments are like an array', (rx, say) => { (function f() { rx.from(arguments).subscribe(all(say)); })(1, 2); });
t('a typed array', (rx, say) => { rx.from(new Uint8Array([1, 255])).subscribe(all(say)); });
t('a map tells pairs', (rx, say) => { rx.from(new Map([['a', 1]])).subscribe((it) => say(it)); });
t('a set', (rx, say) => { rx.from(new Set([1, 2, 1])).subscribe(all(say)); });
t('an array that grows while it is told', (rx, say) => { const list = [1, 2]; rx.from(list).subscribe((x) => { say(x); if (list.length < 4) list.push(9); }); });
t('a generator is run once for all', (rx, say) => { const it = rx.from((function* g() { yield 1; yield 2; })()); it.subscribe(all(say, 'a ')); it.subscribe(all(say, 'b ')); });
t('a generator that answers', (rx, say) => { rx.from((function* g() { yield 1; return 2; })()).subscribe(all(say)); });
t('a generator that throws', (rx, say) => { rx.from((function* g() { yield 1; throw new Error('no'); })()).subscribe(all(say)); });
t('take calls return of an iterator', (rx, say) => { rx.from((function* g() { try { yield 1; yield 2; } finally { say('finally'); } })()).pipe(rx.take(1)).subscribe(all(say)); });
t('an iterator that is left in its observer', (rx, say) => { const sub = new rx.Subscriber({ next: (x) => { say(x); sub.unsubscribe(); } }); rx.from((function* g() { try { yield 1; yield 2; } finally { say('finally'); } })()).subscribe(sub); });
t('an endless iterator pulls no more than are taken', (rx, say) => { let n = 0; rx.from((function* g() { for (;;) yield n++; })()).pipe(rx.take(3)).subscribe(all(say)); say(`pulled ${n}`); });
t('an object that is no iterable is refused', (rx, say) => { caught(say, () => rx.from({}).subscribe(all(say))); });
t('null is refused', (rx, say) => { caught(say, () => rx.from(null).subscribe(all(say))); });
t('a number in mergeMap is an error', (rx, say) => { rx.of(1).pipe(rx.mergeMap((x) => x)).subscribe(all((it) => say(it.slice(0, 20)))); });
t('an async generator', async (rx, say) => { rx.from((async function* g() { yield 1; yield 2; })()).subscribe(all(say)); await turn(70); });
t('an async generator that throws', async (rx, say) => { rx.from((async function* g() { yield 1; throw new Error('no'); })()).subscribe(all(say)); await turn(70); });
t('an async generator awaits what it yields', async (rx, say) => { rx.from((async function* g() { yield Promise.resolve(1); })()).subscribe(all(say)); await turn(70); });
t('an async iterable in concatMap', async (rx, say) => { rx.of(1, 2).pipe(rx.concatMap(async function* g(x) { yield x; yield x * 10; })).subscribe(all(say)); await turn(70); });
t('take of an async generator', async (rx, say) => { rx.from((async function* g() { yield 1; yield 2; yield 3; })()).pipe(rx.take(2)).subscribe(all(say)); await turn(70); });
t('a stream', async (rx, say) => { rx.from(new ReadableStream({ start: (to) => { to.enqueue('a'); to.enqueue('b'); to.close(); } })).subscribe(all(say)); await turn(70); });
t('a stream that fails', async (rx, say) => { rx.from(new ReadableStream({ start: (to) => { to.error(new Error('no')); } })).subscribe(all(say)); await turn(70); });
t('an iterable that is counted by index', (rx, say) => { rx.from(['a', 'b']).pipe(rx.map((it, i) => it + i)).subscribe(all(say)); });
t('generate with a state', (rx, say) => { rx.generate(1, (x) => x < 20, (x) => x * 2, (x) => -x).subscribe(all(say)); });
t('range counts from a number', (rx, say) => { rx.range(-1, 3).subscribe(all(say)); });
t('range of none', (rx, say) => { rx.range(5, 0).subscribe(all(say)); });
t('pairs of an object', (rx, say) => { rx.pairs({ a: 1, b: 2 }).subscribe((it) => say(it)); });

// Events
t('an event target', (rx, say) => { const it = new EventTarget(), sub = rx.fromEvent(it, 'go').subscribe((e) => say(e.type)); it.dispatchEvent(new Event('go')); sub.unsubscribe(); it.dispatchEvent(new Event('go')); });
t('an event that is told once', (rx, say) => { const it = new EventTarget(); rx.fromEvent(it, 'go', { once: true }).subscribe((e) => say(e.type)); it.dispatchEvent(new Event('go')); it.dispatchEvent(new Event('go')); });
t('an event through a function', (rx, say) => { const it = new EventTarget(); rx.fromEvent(it, 'go', (e) => e.type + '!').subscribe(say); it.dispatchEvent(new Event('go')); });
t('an emitter with addListener', (rx, say) => {
  const list = [], it = { addListener: (name, act) => { say(`add ${name}`); list.push(act); }, removeListener: (name) => say(`remove ${name}`) };
  const sub = rx.fromEvent(it, 'go').subscribe((x) => say(x));
  list[0](1); list[0](1, 2); sub.unsubscribe();
});
t('an emitter with on and off', (rx, say) => { const it = { on: (name) => say(`on ${name}`), off: (name) => say(`off ${name}`) }; rx.fromEvent(it, 'go').subscribe().unsubscribe(); });
t('several targets', (rx, say) => { const a = new EventTarget(), b = new EventTarget(); rx.fromEvent([a, b], 'go').subscribe((e) => say(e.target === a ? 'a' : 'b')); b.dispatchEvent(new Event('go')); a.dispatchEvent(new Event('go')); });
t('what is no target is refused', (rx, say) => { caught(say, () => rx.fromEvent({}, 'go').subscribe(all(say))); });
t('a pattern of events with a signal', (rx, say) => { rx.fromEventPattern(() => 'signal', (_, signal) => say(signal)).subscribe().unsubscribe(); });
t('a pattern of events with several arguments', (rx, say) => { let tell; rx.fromEventPattern((act) => { tell = act; }).subscribe((it) => say(it)); tell(1, 2); tell(3); });
t('a listener that throws is reported', async (rx, say) => {
  rx.config.onUnhandledError = (error) => say(`unhandled ${error.message}`);
  const it = new EventTarget();
  rx.fromEvent(it, 'go').subscribe(() => { throw new Error('mine'); });
  it.dispatchEvent(new Event('go'));
  say('dispatched');
  await turn(70);
  rx.config.onUnhandledError = null;
});
t('a callback as an observable', (rx, say) => { const it = rx.bindCallback((x, done) => done(x * 2)); it(4).subscribe(all(say)); });
t('a callback with several results', (rx, say) => { rx.bindCallback((done) => done(1, 2))().subscribe((it) => say(it)); });
t('a callback is called once for all', (rx, say) => { const it = rx.bindCallback((done) => { say('called'); done(1); })(); it.subscribe(all(say)); it.subscribe(all(say)); });
t('a callback with this', (rx, say) => { const self = { n: 3, f: rx.bindCallback(function f(done) { done(this.n); }) }; self.f().subscribe(all(say)); });
t('a callback in the manner of Node that fails', (rx, say) => { rx.bindNodeCallback((done) => done(new Error('no')))().subscribe(all(say)); });
t('a callback in the manner of Node', (rx, say) => { rx.bindNodeCallback((x, done) => done(null, x))(3).subscribe(all(say)); });
t('a callback that throws', (rx, say) => { rx.bindCallback(() => { throw new Error('no'); })().subscribe(all(say)); });

// Timers and clocks
t('timers are taken when they are needed', async (rx, say) => {
  const { setInterval: real } = globalThis;
  globalThis.setInterval = (act) => { say('faked'); return real(act, 0); };
  try { await rx.firstValueFrom(rx.timer(100000)).then(say); } finally { globalThis.setInterval = real; }
});
t('a timer is cleared as it is left', (rx, say) => {
  const { clearInterval: real } = globalThis;
  globalThis.clearInterval = (it) => { say('cleared'); real(it); };
  try { rx.timer(1000).subscribe().unsubscribe(); } finally { globalThis.clearInterval = real; }
});
t('an interval keeps one timer', async (rx, say) => {
  const { setInterval: real } = globalThis;
  let many = 0;
  globalThis.setInterval = (...of) => { many++; return real(...of); };
  try { await rx.lastValueFrom(rx.interval(1).pipe(rx.take(4))); } finally { globalThis.setInterval = real; }
  say(many);
});
t('Date.now is taken when it is needed', (rx, say) => { const { now } = Date; Date.now = () => 42; try { rx.of(1).pipe(rx.timestamp()).subscribe((it) => say(it.timestamp)); say(rx.asyncScheduler.now()); } finally { Date.now = now; } });
t('a timer at a date', async (rx, say) => { rx.timer(new Date(Date.now() + 3)).subscribe(all(say)); await turn(70); });
t('a date that has been', async (rx, say) => { rx.timer(new Date(0)).subscribe(all(say)); await turn(70); });
t('debounceTime tells the last', async (rx, say) => { const s = new rx.Subject(); s.pipe(rx.debounceTime(3)).subscribe(all(say)); s.next(1); s.next(2); await turn(60); s.next(3); s.complete(); });
t('asap is before the next turn', async (rx, say) => { rx.asapScheduler.schedule(() => say('asap')); say('now'); await Promise.resolve(); await Promise.resolve(); say('later'); await turn(); });
t('asap is left', async (rx, say) => { rx.asapScheduler.schedule(() => say('asap')).unsubscribe(); await turn(); say('later'); });
t('queue does it behind what is at work', (rx, say) => { rx.queueScheduler.schedule(() => { say(1); rx.queueScheduler.schedule(() => say(3)); say(2); }); });
t('an action that puts itself off', async (rx, say) => { rx.asyncScheduler.schedule(function again(n) { say(n); if (n < 3) this.schedule(n + 1, 1); }, 1, 1); await turn(70); });
t('observeOn asap', async (rx, say) => { rx.of(1, 2).pipe(rx.observeOn(rx.asapScheduler)).subscribe(all(say)); say('subscribed'); await turn(70); });
t('subscribeOn asap', async (rx, say) => { rx.defer(() => { say('made'); return rx.of(1); }).pipe(rx.subscribeOn(rx.asapScheduler)).subscribe(all(say)); say('subscribed'); await turn(70); });
t('animation frames by a function that was put in place', async (rx, say) => {
  const { requestAnimationFrame: real, cancelAnimationFrame: other } = globalThis;
  globalThis.requestAnimationFrame = (act) => setTimeout(() => act(performance.now()), 1);
  globalThis.cancelAnimationFrame = (it) => clearTimeout(it);
  try { await rx.lastValueFrom(rx.of(1).pipe(rx.observeOn(rx.animationFrameScheduler))).then(say); } finally { globalThis.requestAnimationFrame = real; globalThis.cancelAnimationFrame = other; }
});
t('delay of an error is at once', async (rx, say) => { rx.throwError(() => new Error('no')).pipe(rx.delay(50)).subscribe(all(say)); });
t('timeout tells what it saw', async (rx, say) => { rx.concat(rx.of(7), rx.NEVER).pipe(rx.timeout({ each: 2, meta: 'm' })).subscribe({ error: (it) => say([it.name, it.info.seen, it.info.lastValue, it.info.meta]) }); await turn(90); });
t('timeout with another', async (rx, say) => { rx.NEVER.pipe(rx.timeout({ first: 2, with: () => rx.of('other') })).subscribe(all(say)); await turn(90); });
t('virtual time', (rx, say) => { const clock = new rx.VirtualTimeScheduler(); rx.interval(10, clock).pipe(rx.take(3)).subscribe((x) => say([x, clock.frame])); clock.flush(); });
t('throttleTime leading and trailing', (rx, say) => { const clock = new rx.VirtualTimeScheduler(); rx.interval(3, clock).pipe(rx.take(8), rx.throttleTime(7, clock, { leading: true, trailing: true })).subscribe(all(say)); clock.flush(); });
t('bufferTime', (rx, say) => { const clock = new rx.VirtualTimeScheduler(); rx.interval(3, clock).pipe(rx.take(5), rx.bufferTime(7, clock)).subscribe((it) => say(it)); clock.flush(); });

// Values
t('undefined is an item', (rx, say) => { rx.of(undefined, null).subscribe(all(say)); });
t('NaN is not NaN for distinctUntilChanged', (rx, say) => { rx.of(NaN, NaN).pipe(rx.distinctUntilChanged()).subscribe(all(say)); });
t('NaN is NaN for distinct', (rx, say) => { rx.of(NaN, NaN).pipe(rx.distinct()).subscribe(all(say)); });
t('0 and -0 are the same', (rx, say) => { rx.of(0, -0).pipe(rx.distinctUntilChanged()).subscribe(all(say)); });
t('big numbers', (rx, say) => { rx.of(1n, 2n).pipe(rx.reduce((a, b) => a + b)).subscribe(all(say)); });
t('symbols', (rx, say) => { rx.of(Symbol.iterator).subscribe((it) => say(it === Symbol.iterator)); });
t('objects keep who they are', (rx, say) => { const it = {}; rx.of(it).pipe(rx.filter(Boolean)).subscribe((got) => say(got === it)); });
t('a frozen object', (rx, say) => { rx.of(Object.freeze([1])).subscribe((it) => say(it.length)); });
t('scan without a seed', (rx, say) => { rx.of(1, 2, 3).pipe(rx.scan((a, b) => a + b)).subscribe(all(say)); });
t('scan with undefined as its seed', (rx, say) => { rx.of(1).pipe(rx.scan((a, b) => [a, b], undefined)).subscribe((it) => say(JSON.stringify(it))); });
t('reduce without a seed, of one', (rx, say) => { rx.of(1).pipe(rx.reduce(() => 'called')).subscribe(all(say)); });
t('filter by truth', (rx, say) => { rx.of(0, 1, '', 'a', null, [], NaN).pipe(rx.filter(Boolean)).subscribe(all(say)); });
t('pluck of what is missing', (rx, say) => { rx.of({ a: { b: 1 } }, {}, null).pipe(rx.pluck('a', 'b')).subscribe(all(say)); });
t('max by a function', (rx, say) => { rx.of('a', 'ccc', 'bb').pipe(rx.max((a, b) => a.length - b.length)).subscribe(all(say)); });
t('elementAt that is not there', (rx, say) => { rx.of(1).pipe(rx.elementAt(3)).subscribe(all(say)); });
t('single of two', (rx, say) => { rx.of(1, 2).pipe(rx.single()).subscribe(all(say)); });
t('every, find and findIndex', (rx, say) => { rx.of(1, 5).pipe(rx.every((x) => x < 5)).subscribe(say); rx.of(1, 5).pipe(rx.find((x) => x > 2)).subscribe(say); rx.of(1, 5).pipe(rx.findIndex((x) => x > 9)).subscribe(say); });
t('groupBy with keys that are objects', (rx, say) => { const a = {}, b = {}; rx.of(a, b, a).pipe(rx.groupBy((it) => it), rx.mergeMap((it) => it.pipe(rx.count()))).subscribe(all(say)); });
t('combineLatest of an object', (rx, say) => { rx.combineLatest({ b: rx.of(1), a: rx.of(2) }).subscribe((it) => say(JSON.stringify(it))); });
t('combineLatest of nothing', (rx, say) => { rx.combineLatest([]).subscribe(all(say)); });
t('combineLatest of an empty object', (rx, say) => { rx.combineLatest({}).subscribe(all(say)); });
t('forkJoin of nothing', (rx, say) => { rx.forkJoin([]).subscribe(all(say)); });
t('zip of none', (rx, say) => { rx.zip().subscribe(all(say)); });
t('merge of none', (rx, say) => { rx.merge().subscribe(all(say)); });
t('race of none', (rx, say) => { rx.race([]).subscribe(all(say)); say('silent'); });
t('sequenceEqual by a function', (rx, say) => { rx.of('a', 'B').pipe(rx.sequenceEqual(rx.of('A', 'b'), (a, b) => a.toLowerCase() === b.toLowerCase())).subscribe(all(say)); });
t('toArray makes a list for each', (rx, say) => { const it = rx.of(1).pipe(rx.toArray()); let a; it.subscribe((x) => { a = x; }); it.subscribe((x) => say(x === a)); });
t('materialize and back', (rx, say) => { rx.of(1).pipe(rx.materialize()).subscribe((it) => say(it.kind + (it.hasValue ? it.value : ''))); rx.of({ kind: 'N', value: 3 }, { kind: 'C' }).pipe(rx.dematerialize()).subscribe(all(say)); });
t('partition by a function', (rx, say) => { const [even, odd] = rx.partition([1, 2, 3], (x) => x % 2 === 0); even.subscribe(all(say, 'even ')); odd.subscribe(all(say, 'odd ')); });

// Classes, this and how things are called
t('an observable is one', (rx, say) => { say(rx.of(1) instanceof rx.Observable); say(new rx.Subject() instanceof rx.Observable); say(rx.isObservable(rx.EMPTY)); say(rx.isObservable({ subscribe() {} })); say(rx.isObservable(null)); });
t('a subscription is one', (rx, say) => { const it = rx.NEVER.subscribe(); say(it instanceof rx.Subscription); say(it instanceof rx.Subscriber); it.unsubscribe(); });
t('a class of its own', (rx, say) => { class Mine extends rx.Observable { twice() { return this.pipe(rx.map((x) => x * 2)); } } new Mine((to) => { to.next(4); to.complete(); }).twice().subscribe(all(say)); });
t('a subject of its own', (rx, say) => { class Mine extends rx.Subject { next(x) { super.next(x + 1); } } const it = new Mine(); it.subscribe(all(say)); it.next(1); });
t('a subscriber of its own', (rx, say) => { class Mine extends rx.Subscriber { _next(x) { super._next(x * 10); } } rx.of(1, 2).subscribe(new Mine({ next: say, error() {}, complete: () => say('end') })); });
t('Observable.create', (rx, say) => { rx.Observable.create((to) => { to.next(1); to.complete(); }).subscribe(all(say)); });
t('an observer whose functions use this', (rx, say) => { rx.of(1).subscribe({ n: 5, next(x) { say(this.n + x); } }); });
t('an observer of another prototype', (rx, say) => { class Sink { next(x) { say(`sink ${x}`); } complete() { say('end'); } } rx.of(1).subscribe(new Sink()); });
t('an observer whose next comes later', (rx, say) => { const it = {}, s = new rx.Subject(); s.subscribe(it); s.next(1); it.next = say; s.next(2); });
t('three functions', (rx, say) => { rx.throwError(() => 'no').subscribe(null, (it) => say(`error ${it}`), () => say('end')); rx.of(1).subscribe(say, undefined, () => say('end')); });
t('no observer at all', (rx, say) => { rx.of(1).subscribe(); say('subscribed'); });
t('null as an observer', (rx, say) => { rx.of(1).subscribe(null); say('subscribed'); });
t('next without its subject', (rx, say) => { const s = new rx.Subject(), { next } = s; caught(say, () => next(1)); s.subscribe(all(say)); [1, 2].forEach((x) => s.next(x)); });
t('a subject is an observer', (rx, say) => { const s = new rx.Subject(); s.subscribe(all(say)); rx.of(1, 2).subscribe(s); say(s.isStopped); });
t('pipe without operators', (rx, say) => { const it = rx.of(1); say(it.pipe() === it); });
t('pipe of functions', (rx, say) => { say(rx.pipe((x) => x + 1, (x) => x * 2)(3)); });
t('an operator of one\'s own', (rx, say) => { const twice = (source) => new rx.Observable((to) => source.subscribe({ next: (x) => { to.next(x); to.next(x); }, complete: () => to.complete() })); rx.of(1, 2).pipe(twice, rx.take(3)).subscribe(all(say)); });
t('operators are called with an index', (rx, say) => { rx.of('a', 'b').pipe(rx.filter((_, i) => i === 1), rx.mergeMap((it, i) => [it + i])).subscribe(all(say)); });
t('map with this', (rx, say) => { rx.of(1).pipe(rx.map(function f(x) { return this.n + x; }, { n: 4 })).subscribe(all(say)); });
t('something with Symbol.observable', (rx, say) => { const symbol = rx.observable; rx.from({ [symbol]: () => ({ subscribe: (to) => { to.next(1); to.complete(); return { unsubscribe: () => say('left') }; } }) }).subscribe(all(say)); });
t('Symbol.observable of ours is ours', (rx, say) => { const it = rx.of(1); say(it[rx.observable]() === it); });
t('something whose Symbol.observable is wrong', (rx, say) => { rx.from({ [rx.observable]: () => ({}) }).subscribe(all((it) => say(it.slice(0, 24)))); });
t('a resource with unsubscribe alone', (rx, say) => { new rx.Observable(() => ({ unsubscribe: () => say('released') })).subscribe().unsubscribe(); });
t('using without a resource', (rx, say) => { rx.using(() => undefined, () => rx.of(1)).subscribe(all(say)); });
t('iif chooses as it is subscribed to', (rx, say) => { let is = true; const it = rx.iif(() => is, rx.of('yes'), rx.of('no')); it.subscribe(all(say)); is = false; it.subscribe(all(say)); });
t('defer is asked for each', (rx, say) => { let n = 0; const it = rx.defer(() => rx.of(++n)); it.subscribe(all(say)); it.subscribe(all(say)); });
t('defer that answers nothing', (rx, say) => { rx.defer(() => undefined).subscribe(all((it) => say(it.slice(0, 30)))); });
t('throwError makes an error for each', (rx, say) => { let n = 0; const it = rx.throwError(() => `e${++n}`); it.subscribe(all(say)); it.subscribe(all(say)); });
t('an error of any kind', (rx, say) => { for (const why of [undefined, null, 0, 'text', { a: 1 }]) rx.throwError(() => why).subscribe({ error: (it) => say(it === why) }); });

// Subscriptions
t('what is added is released with it, in order', (rx, say) => { const sub = rx.NEVER.subscribe(); sub.add(() => say('a')); sub.add(() => say('b')); sub.unsubscribe(); sub.add(() => say('c')); });
t('closed before and after', (rx, say) => { const sub = rx.NEVER.subscribe(); say(sub.closed); sub.unsubscribe(); say(sub.closed); sub.unsubscribe(); say(rx.of(1).subscribe().closed); });
t('a subscription of functions', (rx, say) => { const sub = new rx.Subscription(() => say('first')); sub.add(() => say('second')); sub.unsubscribe(); sub.unsubscribe(); });
t('what is removed is not released', (rx, say) => { const sub = new rx.Subscription(), it = new rx.Subscription(() => say('released')); sub.add(it); sub.remove(it); sub.unsubscribe(); say(it.closed); });
t('a child that has ended is forgotten', (rx, say) => { const sub = new rx.Subscription(), it = new rx.Subscription(() => say('released')); sub.add(it); it.unsubscribe(); sub.unsubscribe(); });
t('several errors of teardowns', (rx, say) => { const sub = new rx.Subscription(); sub.add(() => { throw new Error('a'); }); sub.add(() => say('b')); sub.add(() => { throw new Error('c'); }); try { sub.unsubscribe(); } catch (error) { say([error.name, error.errors.map((it) => it.message)]); } });
t('errors of teardowns within others are flat', (rx, say) => { const a = new rx.Subscription(), b = new rx.Subscription(); b.add(() => { throw new Error('in b'); }); a.add(b); a.add(() => { throw new Error('in a'); }); try { a.unsubscribe(); } catch (error) { say(error.errors.map((it) => it.message)); } });
t('a function that is added twice is called twice', (rx, say) => { const sub = new rx.Subscription(), act = () => say('called'); sub.add(act); sub.add(act); sub.unsubscribe(); });
t('the empty subscription', (rx, say) => { say(rx.Subscription.EMPTY.closed); rx.Subscription.EMPTY.add(() => say('at once')); });
t('a teardown at the end, behind the end', (rx, say) => { new rx.Observable((to) => { setTimeout(() => to.complete()); return () => say('released'); }).subscribe(all(say)); return turn(70); });
t('a teardown of what has ended at once', (rx, say) => { new rx.Observable((to) => { to.complete(); return () => say('released'); }).subscribe(all(say)); });
t('a teardown that is added from within', (rx, say) => { new rx.Observable((to) => { to.add(() => say('added')); to.next(1); to.complete(); }).subscribe(all(say)); });
t('nothing is told behind the end', (rx, say) => { new rx.Observable((to) => { to.next(1); to.complete(); to.next(2); to.error('no'); to.complete(); }).subscribe(all(say)); });
t('what comes behind the end can be heard of', async (rx, say) => { rx.config.onStoppedNotification = (it) => say(it.kind + it.value); new rx.Observable((to) => { to.complete(); to.next(2); }).subscribe(); await turn(70); rx.config.onStoppedNotification = null; });
t('a source asks whether it is left', (rx, say) => { let to; const sub = new rx.Observable((it) => { to = it; }).subscribe(); say(to.closed); sub.unsubscribe(); say(to.closed); });
t('a loop that looks at closed', (rx, say) => { new rx.Observable((to) => { let n = 0; while (!to.closed) to.next(n++); say(`at ${n}`); }).pipe(rx.take(3)).subscribe(all(say)); });
t('left in the midst of a loop', (rx, say) => { let n = 0; const sub = new rx.Subscriber({ next: (x) => { say(x); if (x === 1) sub.unsubscribe(); } }); new rx.Observable((to) => { for (; n < 5; n++) to.next(n); }).subscribe(sub); say(n); });
t('subscribed to within its own item', (rx, say) => { const s = new rx.Subject(); let is_first = true; s.subscribe((x) => { say(`a ${x}`); if (is_first) { is_first = false; s.subscribe((y) => say(`b ${y}`)); } }); s.next(1); s.next(2); });
t('left by another observer in the same item', (rx, say) => { const s = new rx.Subject(); let other; s.subscribe(() => other.unsubscribe()); other = s.subscribe((x) => say(x)); s.next(1); s.next(2); });
t('takeUntil with itself', (rx, say) => { const s = new rx.Subject(); s.pipe(rx.takeUntil(s)).subscribe(all(say)); s.next(1); say(s.observed); });
t('retry of an error at once', (rx, say) => { let n = 0; rx.defer(() => { say(`try ${++n}`); return n < 3 ? rx.throwError(() => 'no') : rx.of('yes'); }).pipe(rx.retry(5)).subscribe(all(say)); });
t('retry with a delay by a function', async (rx, say) => { let n = 0; rx.defer(() => (++n < 3 ? rx.throwError(() => `e${n}`) : rx.of('yes'))).pipe(rx.retry({ delay: (why, many) => { say([why, many]); return rx.timer(1); } })).subscribe(all(say)); await turn(70); });
t('repeat with a delay', async (rx, say) => { rx.of(1).pipe(rx.repeat({ count: 3, delay: 1 })).subscribe(all(say)); say('subscribed'); await turn(70); });
t('catchError with what was caught', (rx, say) => { let n = 0; rx.defer(() => (++n < 3 ? rx.throwError(() => n) : rx.of('yes'))).pipe(rx.catchError((why, caught_) => { say(`caught ${why}`); return caught_; })).subscribe(all(say)); });
t('finalize behind the end, and as it is left', (rx, say) => { rx.of(1).pipe(rx.finalize(() => say('final'))).subscribe(all(say)); rx.NEVER.pipe(rx.finalize(() => say('final'))).subscribe().unsubscribe(); });
t('two finalizers', (rx, say) => { rx.NEVER.pipe(rx.finalize(() => say('inner')), rx.finalize(() => say('outer'))).subscribe().unsubscribe(); });
t('tap hears all', (rx, say) => { rx.of(1).pipe(rx.tap({ subscribe: () => say('subscribe'), next: (x) => say(`tap ${x}`), complete: () => say('tap end'), finalize: () => say('tap final'), unsubscribe: () => say('tap left') })).subscribe(all(say)); });

// Errors
t('a mapper that throws', (rx, say) => { rx.of(1, 2).pipe(rx.map((x) => { if (x === 2) throw new Error('two'); return x; })).subscribe(all(say)); });
t('a source that throws', (rx, say) => { new rx.Observable((to) => { to.next(1); throw new Error('no'); }).subscribe(all(say)); });
t('a source that throws behind the end', async (rx, say) => { rx.config.onUnhandledError = (error) => say(`unhandled ${error.message}`); caught(say, () => new rx.Observable((to) => { to.complete(); throw new Error('no'); }).subscribe(all(say))); await turn(70); rx.config.onUnhandledError = null; });
t('an error that nobody hears', async (rx, say) => { rx.config.onUnhandledError = (error) => say(`unhandled ${error.message}`); rx.throwError(() => new Error('no')).subscribe(); say('subscribed'); await turn(70); rx.config.onUnhandledError = null; });
t('an observer that throws, and the others', async (rx, say) => { const s = new rx.Subject(); rx.config.onUnhandledError = (error) => say(error.message); s.subscribe(() => { throw new Error('mine'); }); s.subscribe(say); s.next(1); await turn(70); rx.config.onUnhandledError = null; });
t('an observer of an error that throws', async (rx, say) => { rx.config.onUnhandledError = (error) => say(error.message); rx.throwError(() => 'no').subscribe({ error: () => { throw new Error('mine'); } }); await turn(70); rx.config.onUnhandledError = null; });
t('an observer of an end that throws', async (rx, say) => { rx.config.onUnhandledError = (error) => say(error.message); rx.of(1).pipe(rx.finalize(() => say('final'))).subscribe({ complete: () => { throw new Error('mine'); } }); await turn(70); rx.config.onUnhandledError = null; });
t('an observer that throws hears the next', async (rx, say) => { rx.config.onUnhandledError = (error) => say(error.message); rx.of(1, 2).subscribe((x) => { say(x); throw new Error(`mine ${x}`); }); await turn(70); rx.config.onUnhandledError = null; });
t('a subject that is closed', (rx, say) => { const s = new rx.Subject(); s.unsubscribe(); caught(say, () => s.next(1)); caught(say, () => s.subscribe(all(say))); say(s.closed); });
t('the errors have names', (rx, say) => { say([new rx.EmptyError().name, new rx.ArgumentOutOfRangeError().name, new rx.NotFoundError('n').name, new rx.ObjectUnsubscribedError().name, new rx.SequenceError('s').name, new rx.TimeoutError().name, new rx.UnsubscriptionError([]).name]); say(new rx.EmptyError() instanceof Error); });
t('the errors have messages', (rx, say) => { say([new rx.EmptyError().message, new rx.ArgumentOutOfRangeError().message, new rx.ObjectUnsubscribedError().message, new rx.TimeoutError().message]); });
t('a subject tells its error to who comes later', (rx, say) => { const s = new rx.Subject(); s.error('no'); s.subscribe(all(say)); });
t('a subject tells its end to who comes later', (rx, say) => { const s = new rx.Subject(); s.complete(); s.subscribe(all(say)); });
t('a behavior subject that has failed', (rx, say) => { const s = new rx.BehaviorSubject(1); s.error(new Error('no')); caught(say, () => s.value); s.subscribe(all(say)); });
t('a behavior subject', (rx, say) => { const s = new rx.BehaviorSubject(1); s.subscribe(all(say)); s.next(2); say(s.value); s.complete(); s.subscribe(all(say, 'late ')); });
t('a replay subject', (rx, say) => { const s = new rx.ReplaySubject(2); s.next(1); s.next(2); s.next(3); s.subscribe(all(say)); s.complete(); s.subscribe(all(say, 'late ')); });
t('an async subject', (rx, say) => { const s = new rx.AsyncSubject(); s.subscribe(all(say)); s.next(1); s.next(2); s.complete(); s.subscribe(all(say, 'late ')); });
t('asObservable hides the subject', (rx, say) => { const s = new rx.Subject(), it = s.asObservable(); say(it instanceof rx.Subject); say(typeof it.next); it.subscribe(all(say)); s.next(1); });
t('a share is connected anew', (rx, say) => { let n = 0; const it = rx.defer(() => { say(`made ${++n}`); return rx.NEVER; }).pipe(rx.share()); const a = it.subscribe(), b = it.subscribe(); a.unsubscribe(); b.unsubscribe(); it.subscribe().unsubscribe(); });
t('shareReplay tells the last to who comes later', (rx, say) => { const s = new rx.Subject(), it = s.pipe(rx.shareReplay(1)); it.subscribe(all(say, 'a ')); s.next(1); s.next(2); it.subscribe(all(say, 'b ')); });
t('connectable', (rx, say) => { const s = new rx.Subject(), it = rx.connectable(s); it.subscribe(all(say)); s.next(1); const c = it.connect(); s.next(2); c.unsubscribe(); s.next(3); say(s.observed); });
t('connect with a selector', (rx, say) => { rx.of(1, 2).pipe(rx.connect((it) => rx.merge(it, it.pipe(rx.map((x) => x * 10))))).subscribe(all(say)); });

// Marbles
t('marbles', (rx, say) => { const clock = new rx.VirtualTimeScheduler(); rx.concat(rx.timer(5, clock), rx.of('b')).subscribe((x) => say([x, clock.frame])); clock.flush(); });

const UNLIKE = {}, ELSEWHERE = { 'two finalizers': inAnyOrder(SAID['two finalizers']) };
const logged = (of) => async (rx) => {
  const list = [];
  await of(rx, (it) => list.push(it));
  return list;
};
export const programs = Object.fromEntries(Object.entries(PROGRAMS).map(([name, of]) => [name, logged(of)]));
export const tests = Object.fromEntries(Object.entries(programs).map(([name, of]) => [name, { of, is: UNLIKE[name]?.is ?? SAID[name], rxjs: SAID[name], elsewhere: ELSEWHERE[name] }]));
