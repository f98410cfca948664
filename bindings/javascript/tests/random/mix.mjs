// Every creation function and every operator that the package has, with the kinds of its arguments and how it is made of them.
//
// Kinds: n a number below 4, h that of a subject, b yes or no, l a label, f a function on items that may fail, o an observable, O two or three of them, i a function that
// answers one of two observables. `at` has the library (`rx`), its operators under rxjs/operators (`ops`), virtual time (`clock`), `say`, what RxJS does wrong
// and the program itself is to mend (`mends`), how subjects are to tell, if not as they do (`subject`), `finalize`
// (`finalized`), and what ends a program that is repeated without an end (`turns`).
// Left out are what waits for the platform's own time (promises, async iterables, streams, animation frames), other names of the same
// (flatMap, exhaust, combineAll, never, and the older operators merge, concat, zip, race, combineLatest, partition).

const even = (it) => it % 2 === 0, flattened = (rx, n) => [rx.mergeAll, rx.concatAll, rx.switchAll, rx.exhaustAll][n]();

export const SOURCES = {
  using: ['lof', ({ rx, resource, mends, finalized }, l, o, f) => (mends.has('using') ? rx.defer(() => {
    const made = resource(l);
    return rx.defer(() => f(() => o)(3)).pipe(finalized(() => made.unsubscribe()));
  }) : rx.using(() => resource(l), () => f(() => o)(3)))],
  of: ['nnn', ({ rx }, ...items) => rx.of(...items)],
  from: ['nnn', ({ rx }, ...items) => rx.from(items)],
  range: ['nn', ({ rx }, start, count) => rx.range(start, count)],
  generate: ['nf', ({ rx }, n, f) => rx.generate(0, (it) => it < n, f((it) => it + 1))],
  timer: ['n', ({ rx, clock }, n) => rx.timer(n, clock)],
  'timer with a period': ['nn', ({ rx, clock }, n, period) => rx.timer(n, period + 2, clock)],
  interval: ['n', ({ rx, clock }, n) => rx.interval(n + 3, clock)],
  EMPTY: ['', ({ rx }) => rx.EMPTY],
  NEVER: ['', ({ rx }) => rx.NEVER],
  empty: ['', ({ rx, clock }) => rx.empty(clock)],
  throwError: ['', ({ rx }) => rx.throwError(() => new Error('thrown'))],
  defer: ['of', ({ rx }, o, f) => rx.defer(() => f(() => o)(3))],
  iif: ['fboo', ({ rx }, f, is, a, b) => rx.iif(() => f(() => is)(3), a, b)],
  scheduled: ['nn', ({ rx, clock }, ...items) => rx.scheduled(items, clock)],
  pairs: ['n', ({ rx }, n) => rx.pairs({ n })],
  fromEvent: ['h', ({ rx, emitter }, n) => rx.fromEvent(emitter(n), 'it')],
  fromEventPattern: ['h', ({ rx, emitter }, n) => rx.fromEventPattern((it) => emitter(n).addListener('it', it), (it) => emitter(n).removeListener('it', it))],
  bindCallback: ['nf', ({ rx }, n, f) => rx.bindCallback((it, tell) => tell(f((one) => one)(it)))(n)],
  bindNodeCallback: ['nb', ({ rx }, n, b) => rx.bindNodeCallback((it, tell) => tell(b ? null : new Error('called back'), it))(n)],
  partition: ['ofb', ({ rx }, o, f, b) => rx.partition(o, f(even))[b ? 0 : 1]],
  onErrorResumeNext: ['O', ({ rx }, all) => rx.onErrorResumeNext(...all)],
  merge: ['On', ({ rx }, all, n) => rx.merge(...all, n || Infinity)],
  concat: ['O', ({ rx }, all) => rx.concat(...all)],
  combineLatest: ['O', ({ rx }, all) => rx.combineLatest(all)],
  zip: ['O', ({ rx }, all) => rx.zip(...all)],
  race: ['O', ({ rx, mends }, all) => (mends.has('race') ? racing(rx, all) : rx.race(...all))],
  forkJoin: ['O', ({ rx }, all) => rx.forkJoin(all)],
  connectable: ['ob', ({ rx, connects }, o, b) => connects(rx.connectable(o, { connector: () => new rx.Subject(), resetOnDisconnect: b }))],
};

const ITEMS = {
  distinctUntilChanged: ['', ({ rx }) => rx.distinctUntilChanged()],
  distinctUntilKeyChanged: ['f', ({ rx }, f) => rx.pipe(rx.map(f((it) => ({ key: it }))), rx.distinctUntilKeyChanged('key'), rx.map(({ key }) => key))],
  filter: ['f', ({ rx }, f) => rx.filter(f((it) => it % 3 !== 1))],
  ignoreElements: ['', ({ rx }) => rx.ignoreElements()],
  map: ['f', ({ rx }, f) => rx.map(f((it) => it + 1))],
  mapTo: ['n', ({ rx }, n) => rx.mapTo(n)],
  pairwise: ['', ({ rx }) => rx.pairwise()],
  pluck: ['', ({ rx }) => rx.pluck('length')],
  scan: ['f', ({ rx }, f) => rx.scan((sum, it) => f((one) => (sum + one) % 7)(it), 0)],
  skip: ['n', ({ rx }, n) => rx.skip(n)],
  skipLast: ['n', ({ rx }, n) => rx.skipLast(n)],
  skipWhile: ['f', ({ rx }, f) => rx.skipWhile(f((it) => it < 2))],
  timestamp: ['', ({ rx, clock }) => rx.timestamp(clock)],
  timeInterval: ['', ({ rx, clock }) => rx.timeInterval(clock)],
  distinct: ['f', ({ rx }, f) => rx.distinct(f((it) => it % 3))],
  materialize: ['', ({ rx }) => rx.materialize()],
  dematerialize: ['f', ({ rx }, f) => rx.pipe(rx.materialize(), rx.filter(({ value }) => f(() => true)(value ?? 0)), rx.dematerialize())],
  tap: ['lf', ({ rx, say }, l, f) => rx.tap(f(() => say('tapped', l)))],
  'tap of ends': ['lf', ({ rx, say }, l, f) => rx.tap({
    next: f(() => say('tapped', l)), error: () => say('tapped', l, 'error'), complete: () => say('tapped', l, 'completed'), unsubscribe: () => say('tapped', l, 'left'),
    finalize: () => say('tapped', l, 'finalized'), subscribe: () => say('tapped', l, 'subscribed'),
  })],
  'finalize of a resource': ['l', ({ rx, resource, finalized }, l) => (source) => rx.defer(() => {
    const made = resource(l);
    return source.pipe(finalized(() => made.unsubscribe()));
  })],
  finalize: ['l', ({ say, finalized }, l) => finalized(() => say('finalized', l))],
};

export const ENDS = {
  count: ['f', ({ rx }, f) => rx.count(f((it) => it > 1))],
  defaultIfEmpty: ['n', ({ rx }, n) => rx.defaultIfEmpty(n)],
  elementAt: ['nb', ({ rx }, n, b) => (b ? rx.elementAt(n, 9) : rx.elementAt(n))],
  every: ['f', (at, f) => askingOnce(at, at.rx.every, f((it) => it < 4), false)],
  find: ['f', (at, f) => askingOnce(at, at.rx.find, f((it) => it > 2), true)],
  findIndex: ['f', (at, f) => askingOnce(at, at.rx.findIndex, f((it) => it > 2), true)],
  first: ['fb', ({ rx }, f, b) => (b ? rx.first(f((it) => it > 1), 9) : rx.first(f((it) => it > 1)))],
  isEmpty: ['', ({ rx }) => rx.isEmpty()],
  last: ['fb', ({ rx }, f, b) => (b ? rx.last(f((it) => it > 1), 9) : rx.last(f((it) => it > 1)))],
  max: ['f', ({ rx }, f) => rx.max((a, b) => f((it) => it - 2)(a) - b)],
  min: ['f', ({ rx }, f) => rx.min((a, b) => f((it) => it - 2)(a) - b)],
  reduce: ['f', ({ rx }, f) => rx.reduce((sum, it) => f((one) => sum + one)(it), 0)],
  single: ['f', ({ rx }, f) => rx.single(f((it) => it > 3))],
  take: ['n', ({ rx }, n) => rx.take(n + 1)],
  takeLast: ['n', ({ rx }, n) => rx.takeLast(n)],
  takeWhile: ['fb', (at, f, b) => askingOnce(at, (ask) => at.rx.takeWhile(ask, b), f((it) => it < 4), false)],
  throwIfEmpty: ['', ({ rx }) => rx.throwIfEmpty(() => new Error('empty'))],
  toArray: ['', ({ rx }) => rx.toArray()],
};

const FLAT = {
  concatAll: ['i', ({ rx }, i) => rx.pipe(rx.map(i), rx.concatAll())],
  concatMap: ['i', ({ rx }, i) => rx.concatMap(i)],
  concatMapTo: ['o', ({ rx }, o) => rx.concatMapTo(o)],
  exhaustAll: ['i', ({ rx }, i) => rx.pipe(rx.map(i), rx.exhaustAll())],
  exhaustMap: ['i', ({ rx }, i) => rx.exhaustMap(i)],
  mergeAll: ['in', ({ rx }, i, n) => rx.pipe(rx.map(i), rx.mergeAll(n || Infinity))],
  mergeMap: ['in', ({ rx }, i, n) => rx.mergeMap(i, n || Infinity)],
  mergeMapTo: ['on', ({ rx }, o, n) => rx.mergeMapTo(o, n || Infinity)],
  switchAll: ['i', ({ rx }, i) => rx.pipe(rx.map(i), rx.switchAll())],
  switchMap: ['i', ({ rx }, i) => rx.switchMap(i)],
  switchMapTo: ['o', ({ rx }, o) => rx.switchMapTo(o)],
  expand: ['nfb', ({ rx, clock }, n, f, b) => rx.expand(f((it) => (it > 3 ? rx.EMPTY : b ? rx.of(it + 1) : rx.timer(1, clock).pipe(rx.map(() => it + 1)))), n || Infinity)],
  mergeScan: ['in', ({ rx }, i, n) => rx.mergeScan((_, it) => i(it), 0, n || Infinity)],
  switchScan: ['i', ({ rx }, i) => rx.switchScan((_, it) => i(it), 0)],
};

const AGAIN = {
  catchError: ['i', ({ rx }, i) => rx.catchError(i)],
  repeat: ['n', ({ rx, mends }, n) => oneAtATime(rx, mends, rx.repeat(n))],
  'repeat with a delay': ['no', ({ rx, mends, turns }, n, o) => oneAtATime(rx, mends, repeating(rx, mends, (delay) => rx.repeat({ count: n, delay: () => (turns(), delay(o)) })))],
  repeatWhen: ['no', ({ rx, mends }, n, o) => oneAtATime(rx, mends, rx.repeatWhen((ends) => rx.concatMap(() => o)(ends).pipe(rx.take(n))))],
  retry: ['n', ({ rx, mends }, n) => oneAtATime(rx, mends, rx.retry(n))],
  'retry with a delay': ['nob', ({ rx, mends, turns }, n, o, b) => oneAtATime(rx, mends, repeating(rx, mends, (delay) => rx.retry({ count: n, delay: () => (turns(), delay(o)), resetOnSuccess: b })))],
  retryWhen: ['no', ({ rx, mends }, n, o) => oneAtATime(rx, mends, rx.retryWhen((ends) => rx.concatMap(() => o)(ends).pipe(rx.take(n))))],
  onErrorResumeNext: ['o', ({ ops }, o) => ops.onErrorResumeNext(o)],
};

const OTHERS = {
  combineLatestAll: ['i', ({ rx }, i) => rx.pipe(rx.map(i), rx.combineLatestAll())],
  combineLatestWith: ['o', ({ rx }, o) => rx.combineLatestWith(o)],
  concatWith: ['o', ({ rx }, o) => rx.concatWith(o)],
  endWith: ['n', ({ rx }, n) => rx.endWith(n)],
  mergeWith: ['o', ({ rx }, o) => rx.mergeWith(o)],
  raceWith: ['o', ({ rx, mends }, o) => (mends.has('race') ? (source) => racing(rx, [source, o]) : rx.raceWith(o))],
  sequenceEqual: ['o', ({ rx }, o) => rx.sequenceEqual(o)],
  startWith: ['n', ({ rx }, n) => rx.startWith(n)],
  withLatestFrom: ['o', ({ rx }, o) => rx.withLatestFrom(o)],
  zipAll: ['i', ({ rx }, i) => rx.pipe(rx.map(i), rx.zipAll())],
  zipWith: ['o', ({ rx }, o) => rx.zipWith(o)],
  skipUntil: ['o', ({ rx }, o) => rx.skipUntil(o)],
  takeUntil: ['o', ({ rx }, o) => rx.takeUntil(o)],
};

const TIMES = {
  audit: ['i', ({ rx }, i) => rx.audit(i)],
  auditTime: ['n', ({ rx, clock }, n) => rx.auditTime(n + 1, clock)],
  debounce: ['i', ({ rx }, i) => rx.debounce(i)],
  debounceTime: ['n', ({ rx, clock }, n) => rx.debounceTime(n + 1, clock)],
  sample: ['o', ({ rx }, o) => rx.sample(o)],
  sampleTime: ['n', ({ rx, clock }, n) => rx.sampleTime(n + 2, clock)],
  throttle: ['ibb', ({ rx }, i, leading, trailing) => rx.throttle(i, { leading, trailing })],
  throttleTime: ['nbb', ({ rx, clock }, n, leading, trailing) => rx.throttleTime(n + 1, clock, { leading, trailing })],
  delay: ['n', ({ rx, clock }, n) => rx.delay(n + 1, clock)],
  delayWhen: ['i', ({ rx }, i) => rx.delayWhen(i)],
  timeout: ['nb', ({ rx, clock }, n, b) => rx.timeout({ [b ? 'first' : 'each']: 4 + n, scheduler: clock })],
  timeoutWith: ['no', ({ rx, clock }, n, o) => rx.timeoutWith(4 + n, o, clock)],
  observeOn: ['n', ({ rx, clock }, n) => rx.observeOn(clock, n)],
  subscribeOn: ['n', ({ rx, clock }, n) => rx.subscribeOn(clock, n)],
};

const LISTS = {
  buffer: ['o', ({ rx }, o) => rx.buffer(o)],
  bufferCount: ['nn', ({ rx }, n, every) => rx.bufferCount(n + 1, every || null)],
  bufferTime: ['nb', ({ rx, clock }, n, b) => (b ? rx.bufferTime(n + 3, clock) : rx.bufferTime(n + 3, n + 5, 2, clock))],
  bufferToggle: ['oi', ({ rx }, o, i) => rx.bufferToggle(o, i)],
  bufferWhen: ['o', ({ rx, clock }, o) => rx.bufferWhen(() => rx.timer(1, clock).pipe(rx.concatWith(o)))],
  groupBy: ['fnn', ({ rx }, f, n, m) => rx.pipe(rx.groupBy(f((it) => it % 2)), rx.map((it) => it.pipe(rx.take(n + 1))), flattened(rx, m))],
  'groupBy with a duration': ['fo', ({ rx }, f, o) => rx.pipe(rx.groupBy(f((it) => it % 2), { duration: () => o }), rx.mergeAll())],
  window: ['on', ({ rx }, o, m) => rx.pipe(rx.window(o), flattened(rx, m))],
  windowCount: ['nnn', ({ rx }, n, every, m) => rx.pipe(rx.windowCount(n + 1, every), flattened(rx, m))],
  windowTime: ['nbn', ({ rx, clock }, n, b, m) => rx.pipe(b ? rx.windowTime(n + 3, clock) : rx.windowTime(n + 3, n + 5, 2, clock), flattened(rx, m))],
  windowToggle: ['oin', ({ rx }, o, i, m) => rx.pipe(rx.windowToggle(o, i), flattened(rx, m))],
  windowWhen: ['on', ({ rx, clock }, o, m) => rx.pipe(rx.windowWhen(() => rx.timer(1, clock).pipe(rx.concatWith(o))), flattened(rx, m))],
};

export const SHARING = {
  share: ['', (at) => at.rx.share(connector(at))],
  'share with words': ['bbbo', (at, e, c, z, o) => sharing(at, { ...connector(at), resetOnError: e, resetOnComplete: c }, z ? null : o)],
  shareReplay: ['nb', ({ rx }, n, refCount) => rx.shareReplay({ bufferSize: n + 1, refCount })],
  connect: ['f', (at, f) => leavesItsSource(at, at.rx.connect((it) => at.rx.merge(it, it.pipe(at.rx.map(f((one) => one + 1)))), connector(at)))],
  multicast: ['', ({ rx, subject }) => rx.pipe(rx.multicast(() => subject?.(new rx.Subject()) ?? new rx.Subject()), rx.refCount())],
  publish: ['', ({ rx, subject }) => rx.pipe(subject ? rx.multicast(subject(new rx.Subject())) : rx.publish(), rx.refCount())],
  publishBehavior: ['n', ({ rx, subject }, n) => rx.pipe(subject ? rx.multicast(subject(new rx.BehaviorSubject(n))) : rx.publishBehavior(n), rx.refCount())],
  publishLast: ['', ({ rx }) => rx.pipe(rx.publishLast(), rx.refCount())],
  publishReplay: ['n', ({ rx, subject }, n) => rx.pipe(subject ? rx.multicast(subject(new rx.ReplaySubject(n + 1))) : rx.publishReplay(n + 1), rx.refCount())],
};

const connector = ({ rx, subject }) => (subject ? { connector: () => subject(new rx.Subject()) } : undefined);
/** With the mend `reset` a notifier tells in place of its error, and is subscribed to only where there is something to reset; with `stale` it resets only
 *  what was there as it was subscribed to. */
function sharing({ rx, mends }, words, notifier) {
  if (notifier === null) return rx.share({ ...words, resetOnRefCountZero: true });
  if (!mends.has('reset') && !mends.has('stale')) return rx.share({ ...words, resetOnRefCountZero: () => notifier });
  return (source) => {
    let many = 0, open = false;
    const ends = () => { open = false; }, known = source.pipe(rx.tap({ subscribe: () => { many++; open = true; }, error: ends, complete: ends }));
    const resets = () => {
      const mine = many;
      return open || mends.has('stale') ? notifier.pipe(rx.catchError(() => rx.of(0)), rx.filter(() => mine === many)) : rx.NEVER;
    };
    return known.pipe(rx.share({ ...words, resetOnRefCountZero: resets }));
  };
}
/** With the mend `connect` the source is left, or not even subscribed to, once nobody hears what comes of it. */
const leavesItsSource = ({ rx, mends }, connected) => (mends.has('connect') ? (source) => new rx.Observable((to) => {
  const ended = new rx.ReplaySubject(1);
  to.add(() => ended.next());
  return source.pipe(rx.takeUntil(ended), connected).subscribe(to);
}) : connected);
/** With the mend `behind` what a notifier tells as it is subscribed to comes as soon as that has returned, where its source has ended as that was subscribed to. */
const repeating = (rx, mends, repeats) => (mends.has('behind') ? (source) => rx.defer(() => {
  let is_in = false, is_at_once = false;
  const told = (act) => { is_at_once = is_in; act(); };
  const known = new rx.Observable((to) => {
    const whole = new rx.Subscriber({ next: (it) => to.next(it), error: (error) => told(() => to.error(error)), complete: () => told(() => to.complete()) });
    to.add(whole);
    is_in = true;
    source.subscribe(whole);
    is_in = false;
  });
  return repeats((notifier) => (is_at_once ? behind(rx, notifier) : notifier))(known);
}) : repeats((notifier) => notifier));
const behind = (rx, notifier) => new rx.Observable((to) => {
  let is_in = true, told = null;
  const tells = (act) => { if (!is_in) act(); else { told ??= act; whole.unsubscribe(); } };
  const whole = new rx.Subscriber({ next: (it) => tells(() => to.next(it)), error: (error) => tells(() => to.error(error)), complete: () => tells(() => to.complete()) });
  to.add(whole);
  notifier.subscribe(whole);
  is_in = false;
  told?.();
});

/** With the mend `asked` the answer that ends it is the last for which it asks. */
const askingOnce = ({ rx, mends }, asking, ask, last) => (mends.has('asked') ? (source) => rx.defer(() => {
  let is_over = false;
  const asked = (it) => {
    const answer = ask(it);
    is_over ||= answer === last;
    return answer;
  };
  return source.pipe(rx.filter(() => !is_over), asking(asked));
}) : asking(ask));

/** With the mend `race` one that has lost is left, even where it is just being subscribed to. */
const racing = (rx, all) => new rx.Observable((to) => {
  const running = [];
  let won = null;
  const wins = (one, act) => {
    won ??= one;
    for (const other of running) if (other !== won) other.unsubscribe();
    act();
  };
  for (const source of all) {
    if (won !== null || to.closed) return;
    const one = new rx.Subscriber({ next: (it) => wins(one, () => to.next(it)), error: (error) => wins(one, () => to.error(error)), complete: () => wins(one, () => to.complete()) });
    running.push(one);
    to.add(one);
    source.subscribe(one);
  }
});

/** With the mend `again` what is subscribed to again leaves what was before. */
const oneAtATime = (rx, mends, again) => (mends.has('again') ? (source) => rx.defer(() => {
  let last = null;
  return again(new rx.Observable((to) => {
    last?.unsubscribe();
    return (last = source.subscribe(to));
  }));
}) : again);

export const OPERATORS = { ...ITEMS, ...ENDS, ...FLAT, ...AGAIN, ...OTHERS, ...TIMES, ...LISTS, ...SHARING };
