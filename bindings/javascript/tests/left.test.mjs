// Subscribers that have been left before they subscribe: what they subscribe to is called all the same, as by RxJS, and left at once. What each tells,
// RxJS told first.
const PIPELINES = {
  'map, filter and scan': [({ rx, a }) => a.pipe(rx.map((x) => x), rx.filter(() => true), rx.scan((x) => x)), ['a made', 'a released']],
  take: [({ rx, a }) => a.pipe(rx.take(2)), ['a made', 'a released']],
  toArray: [({ rx, a }) => a.pipe(rx.toArray()), ['a made', 'a released']],
  tap: [({ rx, a, say }) => a.pipe(rx.tap({ subscribe: () => say('subscribed'), unsubscribe: () => say('left'), finalize: () => say('finalized') })), ['subscribed', 'a made', 'a released']],
  finalize: [({ rx, a, say }) => a.pipe(rx.finalize(() => say('finalized'))), ['a made', 'a released', 'finalized']],
  mergeMap: [({ rx, a, b }) => a.pipe(rx.mergeMap(() => b)), ['a made', 'a released']],
  switchMap: [({ rx, a, b }) => a.pipe(rx.switchMap(() => b)), ['a made', 'a released']],
  'concatMap of an item': [({ rx, b }) => rx.of(1).pipe(rx.concatMap(() => b)), []],
  merge: [({ rx, a, b }) => rx.merge(a, b), []],
  concat: [({ rx, a, b }) => rx.concat(a, b), []],
  startWith: [({ rx, a }) => a.pipe(rx.startWith(1)), []],
  endWith: [({ rx, a }) => a.pipe(rx.endWith(1)), []],
  combineLatest: [({ rx, a, b }) => rx.combineLatest([a, b]), ['a made', 'a released', 'b made', 'b released']],
  forkJoin: [({ rx, a, b }) => rx.forkJoin([a, b]), ['a made', 'a released', 'b made', 'b released']],
  zip: [({ rx, a, b }) => rx.zip(a, b), []],
  race: [({ rx, a, b }) => rx.race(a, b), []],
  withLatestFrom: [({ rx, a, b }) => a.pipe(rx.withLatestFrom(b)), ['b made', 'b released', 'a made', 'a released']],
  sequenceEqual: [({ rx, a, b }) => a.pipe(rx.sequenceEqual(b)), ['a made', 'a released', 'b made', 'b released']],
  takeUntil: [({ rx, a, b }) => a.pipe(rx.takeUntil(b)), ['b made', 'b released']],
  skipUntil: [({ rx, a, b }) => a.pipe(rx.skipUntil(b)), ['b made', 'b released', 'a made', 'a released']],
  sample: [({ rx, a, b }) => a.pipe(rx.sample(b)), ['a made', 'a released', 'b made', 'b released']],
  buffer: [({ rx, a, b }) => a.pipe(rx.buffer(b)), ['a made', 'a released', 'b made', 'b released']],
  bufferToggle: [({ rx, a, b }) => a.pipe(rx.bufferToggle(b, () => b)), ['b made', 'b released', 'a made', 'a released']],
  bufferWhen: [({ rx, a, b }) => a.pipe(rx.bufferWhen(() => b)), ['b made', 'b released', 'a made', 'a released']],
  bufferCount: [({ rx, a }) => a.pipe(rx.bufferCount(2)), ['a made', 'a released']],
  bufferTime: [({ rx, a }) => a.pipe(rx.bufferTime(2)), ['a made', 'a released']],
  window: [({ rx, a, b }) => a.pipe(rx.window(b)), ['a made', 'a released', 'b made', 'b released']],
  windowToggle: [({ rx, a, b }) => a.pipe(rx.windowToggle(b, () => b)), ['b made', 'b released', 'a made', 'a released']],
  windowWhen: [({ rx, a, b }) => a.pipe(rx.windowWhen(() => b)), ['b made', 'b released', 'a made', 'a released']],
  windowCount: [({ rx, a }) => a.pipe(rx.windowCount(2)), ['a made', 'a released']],
  windowTime: [({ rx, a }) => a.pipe(rx.windowTime(2)), ['a made', 'a released']],
  groupBy: [({ rx, a }) => a.pipe(rx.groupBy((x) => x)), ['a made', 'a released']],
  debounce: [({ rx, a, b }) => a.pipe(rx.debounce(() => b)), ['a made', 'a released']],
  throttle: [({ rx, a, b }) => a.pipe(rx.throttle(() => b)), ['a made', 'a released']],
  audit: [({ rx, a, b }) => a.pipe(rx.audit(() => b)), ['a made', 'a released']],
  delay: [({ rx, a }) => a.pipe(rx.delay(1)), ['a made', 'a released']],
  timeout: [({ rx, a }) => a.pipe(rx.timeout(1)), ['a made', 'a released']],
  observeOn: [({ rx, a }) => a.pipe(rx.observeOn(rx.asapScheduler)), ['a made', 'a released']],
  subscribeOn: [({ rx, a }) => a.pipe(rx.subscribeOn(rx.asapScheduler)), []],
  catchError: [({ rx, a, b }) => a.pipe(rx.catchError(() => b)), ['a made', 'a released']],
  'catchError of an error': [({ rx, b }) => rx.throwError(() => 'no').pipe(rx.catchError(() => b)), []],
  repeat: [({ rx, a }) => a.pipe(rx.repeat(3)), ['a made', 'a released']],
  'repeat of an end': [({ rx }) => rx.EMPTY.pipe(rx.repeat()), []],
  retry: [({ rx, a }) => a.pipe(rx.retry(3)), ['a made', 'a released']],
  'retry of an error': [({ rx }) => rx.throwError(() => 'no').pipe(rx.retry()), []],
  repeatWhen: [({ rx, a, b }) => a.pipe(rx.repeatWhen(() => b)), ['a made', 'a released']],
  retryWhen: [({ rx, a, b }) => a.pipe(rx.retryWhen(() => b)), ['a made', 'a released']],
  share: [({ rx, a }) => a.pipe(rx.share()), []],
  shareReplay: [({ rx, a }) => a.pipe(rx.shareReplay(1)), []],
  'share with words': [({ rx, a }) => a.pipe(rx.share({ resetOnRefCountZero: false })), []],
  publish: [({ rx, a }) => a.pipe(rx.publish(), rx.refCount()), []],
  connect: [({ rx, a, b }) => a.pipe(rx.connect(() => b)), ['b made', 'b released', 'a made', 'a released']],
  expand: [({ rx, a, b }) => a.pipe(rx.expand(() => b)), ['a made', 'a released']],
  distinct: [({ rx, a, b }) => a.pipe(rx.distinct((x) => x, b)), ['a made', 'a released', 'b made', 'b released']],
  defer: [({ rx, a, say }) => rx.defer(() => (say('called'), a)), ['called', 'a made', 'a released']],
  iif: [({ rx, a, b }) => rx.iif(() => true, a, b), ['a made', 'a released']],
  using: [({ rx, made }) => made('c', made('d', rx.NEVER)), ['c made', 'd made', 'd released', 'c released']],
  onErrorResumeNext: [({ rx, a, b }) => rx.onErrorResumeNext(a, b), []],
  subject: [({ rx }) => new rx.BehaviorSubject(1), []],
  'a subject that has failed': [({ rx }) => { const s = new rx.ReplaySubject(); s.next(1); s.error('no'); return s; }, []],
  interval: [({ rx }) => rx.interval(1), []],
  fromEvent: [({ rx, say }) => rx.fromEvent({ on: () => say('on'), off: () => say('off') }, 'it'), ['on', 'off']],
  'what throws': [({ rx }) => new rx.Observable(() => { throw new Error('no'); }), []],
  'a source of many': [({ rx, say }) => new rx.Observable((to) => { for (let i = 0; i < 5 && !to.closed; i++) say(i); return () => say('torn down'); }), ['torn down']],
  raceWith: [({ rx, a, b }) => a.pipe(rx.raceWith(b)), []],
  combineLatestWith: [({ rx, a, b }) => a.pipe(rx.combineLatestWith(b)), ['a made', 'a released', 'b made', 'b released']],
  mergeWith: [({ rx, a, b }) => a.pipe(rx.mergeWith(b)), []],
  concatWith: [({ rx, a, b }) => a.pipe(rx.concatWith(b)), []],
  zipWith: [({ rx, a, b }) => a.pipe(rx.zipWith(b)), []],
  timeInterval: [({ rx, a }) => a.pipe(rx.timeInterval()), ['a made', 'a released']],
  partition: [({ rx, a }) => rx.partition(a, () => true)[0], ['a made', 'a released']],
};

/** What is told where a subscriber that has been left subscribes to it; of the package besides what stays open. */
function told(rx, make) {
  const list = [], say = (it) => list.push(it), before = rx.counts?.();
  const made = (name, source) => rx.using(() => (say(`${name} made`), { unsubscribe: () => say(`${name} released`) }), () => source);
  const left = new rx.Subscriber({ next: say, error: () => say('error'), complete: () => say('end') });
  left.unsubscribe();
  make({ rx, say, made, a: made('a', rx.NEVER), b: made('b', rx.NEVER) }).subscribe(left);
  if (before && (rx.counts().nodes !== before.nodes || rx.counts().held !== before.held)) say('something stays open');
  return list;
}

// An input that ends everything, and with what: what RxJS goes on to subscribe to is left at once.
const ENDED = {
  'skipUntil: the notifier has failed': ['error', ({ rx, a, fails }) => a.pipe(rx.skipUntil(fails))],
  'bufferToggle: the openings have failed': ['error', ({ rx, a, fails }) => a.pipe(rx.bufferToggle(fails, () => rx.NEVER))],
  'windowToggle: the openings have failed': ['error', ({ rx, a, fails }) => a.pipe(rx.windowToggle(fails, () => rx.NEVER))],
  'sequenceEqual: the first has failed': ['error', ({ rx, a, fails }) => fails.pipe(rx.sequenceEqual(a))],
  'connect: the selector answers what has failed': ['error', ({ rx, a, fails }) => a.pipe(rx.connect(() => fails))],
  'distinct: the source has failed': ['error', ({ rx, a, fails }) => fails.pipe(rx.distinct((it) => it, a))],
  'forkJoin: the first has ended without an item': ['end', ({ rx, a }) => rx.forkJoin([rx.EMPTY, a])],
  'forkJoin: the first has failed': ['error', ({ rx, a, fails }) => rx.forkJoin([fails, a])],
  'combineLatest: the first has failed': ['error', ({ rx, a, fails }) => rx.combineLatest([fails, a])],
  'combineLatestWith: the source has failed': ['error', ({ rx, a, fails }) => fails.pipe(rx.combineLatestWith(a))],
  'withLatestFrom: an input has failed, and the source comes behind it': ['error', ({ rx, a, fails }) => a.pipe(rx.withLatestFrom(fails))],
  'withLatestFrom: an input has failed, and another comes behind it': ['error', ({ rx, a, fails }) => rx.NEVER.pipe(rx.withLatestFrom(fails, a))],
  'sample: the source has ended': ['end', ({ rx, a }) => rx.of(1).pipe(rx.sample(a))],
  'sample: the source has failed': ['error', ({ rx, a, fails }) => fails.pipe(rx.sample(a))],
  'buffer: the source has ended': ['end', ({ rx, a }) => rx.of(1).pipe(rx.buffer(a))],
  'buffer: the source has failed': ['error', ({ rx, a, fails }) => fails.pipe(rx.buffer(a))],
  'window: the source has ended': ['end', ({ rx, a }) => rx.of(1).pipe(rx.window(a))],
  'window: the source has failed': ['error', ({ rx, a, fails }) => fails.pipe(rx.window(a))],
};
function toldAtTheEnd(rx, make) {
  const list = [], say = (it) => list.push(it), before = rx.counts?.();
  const a = rx.using(() => (say('made'), { unsubscribe: () => say('released') }), () => rx.NEVER);
  make({ rx, a, fails: rx.throwError(() => 'no') }).subscribe({ error: () => say('error'), complete: () => say('end') });
  if (before && (rx.counts().nodes !== before.nodes || rx.counts().held !== before.held)) say('something stays open');
  return list;
}

export const tests = Object.fromEntries(Object.entries(PIPELINES).map(([name, [make, is]]) => [`left before it subscribes: ${name}`, { of: (rx) => told(rx, make), is }]));
for (const [name, [end, make]] of Object.entries(ENDED)) tests[name] = { of: (rx) => toldAtTheEnd(rx, make), is: [end, 'made', 'released'] };

// Left within a finalizer: what is subscribed to again is left at once.
const AGAIN = {
  'repeat is left as its source is released': [(rx, source) => source.pipe(rx.repeat()), (s) => s.complete()],
  'retry is left as its source is released': [(rx, source) => source.pipe(rx.retry()), (s) => s.error('no')],
};
function toldAgain(rx, make, end) {
  const list = [], say = (it) => list.push(it), before = rx.counts?.(), first = new rx.Subject();
  let times = 0;
  const again = rx.using(() => (say('made'), { unsubscribe: () => say('released') }), () => rx.NEVER);
  const source = rx.defer(() => (++times === 1 ? first : again)).pipe(rx.finalize(() => {
    say('finalized');
    if (times === 1) subscription.unsubscribe();
  }));
  const subscription = make(rx, source).subscribe({ error: () => say('error'), complete: () => say('end') });
  end(first);
  if (before && (rx.counts().nodes !== before.nodes || rx.counts().held !== before.held)) say('something stays open');
  return list;
}
for (const [name, [make, end]] of Object.entries(AGAIN)) tests[name] = { of: (rx) => toldAgain(rx, make, end), is: ['finalized', 'made', 'released', 'finalized'] };
