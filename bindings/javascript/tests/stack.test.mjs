// A stack that is almost full: at each depth a program is run whose resources are counted. Whatever is thrown, none stays, and what does not
// end has thrown, at once or in a turn of its own.
const turn = () => new Promise((resolve) => { setTimeout(resolve); });
const down = (n, act) => (n === 0 ? act() : down(n - 1, act) || undefined);

function deepest() {
  let low = 0, high = 1 << 20;
  for (let i = 0; i < 3000; i++) down(1000, () => 0); // so that its frames have their last size
  while (low + 1 < high) {
    const n = (low + high) >> 1;
    try {
      down(n, () => 0);
      low = n;
    } catch { high = n; }
  }
  return low;
}

/** Runs it at many depths; what was wrong. Each answers what is to be left, and says `ended` or what was thrown. */
async function atDepths(rx, make) {
  rx.close?.(); // what other tests have forgotten may go meanwhile
  const wrong = [], most = deepest();
  rx.config.onUnhandledError = () => {};
  let thrown = 0, told = 0;
  // frames become smaller as a program runs, so it goes on until nothing but the overflow comes of it
  for (let n = Math.max(0, most - 2500); thrown < 60 && n < 4 * most; n += thrown ? 1 : 3) {
    const before = rx.counts();
    let made = 0, released = 0, is_over = false, why = null, sub = null;
    const using = (source) => rx.using(() => (made++, { unsubscribe: () => { released++; } }), () => source);
    const final = (source) => rx.defer(() => (made++, source.pipe(rx.finalize(() => { released++; }))));
    const observer = { error: () => { is_over = true; }, complete: () => { is_over = true; } };
    const run = make(rx, { using, final, observer, keep: (it) => { sub = it; } });
    try { down(n, () => { run.act(); }); } catch (error) { why = error; }
    await turn();
    thrown = why ? thrown + 1 : 0;
    if (is_over) told++;
    if (!is_over && !why && run.ends !== false) wrong.push(`at ${n}: neither ended nor thrown`);
    sub?.unsubscribe();
    run.leave?.();
    const now = rx.counts();
    if (made !== released) wrong.push(`at ${n}: ${made} made, ${released} released`);
    if (now.nodes !== before.nodes || now.held !== before.held) wrong.push(`at ${n}: ${now.nodes - before.nodes} nodes and ${now.held - before.held} resources stay`);
    if (wrong.length > 3) break;
  }
  rx.config.onUnhandledError = null;
  if (thrown === 0 && wrong.length === 0) wrong.push('never deep enough');
  if (told === 0 && make.ends !== false) wrong.push('never ended');
  return wrong;
}
/** Each makes what is run: what it does (`act`), whether that ends. */
export const programs = {
  'subscribed to at every depth': (rx, { using, observer, keep }) => ({ act: () => keep(using(rx.of(1)).subscribe(observer)) }),
  'a chain of operators at every depth': (rx, { using, observer, keep }) => ({
    act: () => keep(using(rx.of(1, 2)).pipe(rx.map((x) => x), rx.finalize(() => {}), rx.take(2), rx.toArray()).subscribe(observer)),
  }),
  'what is told at an end at every depth': (rx, { observer, keep }) => ({
    act: () => keep(rx.of(1).pipe(rx.map((x) => x), rx.count()).subscribe(observer)),
  }),
  'an error that is told as an item at every depth': (rx, { observer, keep }) => ({
    act: () => keep(rx.throwError(() => 'no').pipe(rx.materialize(), rx.toArray()).subscribe(observer)),
  }),
  'defer with finalize at every depth': (rx, { final, observer, keep }) => ({
    act: () => keep(final(rx.of(1, 2)).pipe(rx.count()).subscribe(observer)),
  }),
  'concat at every depth': (rx, { using, observer, keep }) => ({
    act: () => keep(rx.concat(using(rx.of(1)), using(rx.of(2)), using(rx.EMPTY)).subscribe(observer)),
  }),
  'repeat and retry at every depth': (rx, { using, observer, keep }) => ({
    act: () => keep(using(rx.of(1)).pipe(rx.repeat(3), rx.mergeMap(() => using(rx.throwError(() => 'no'))), rx.retry(2)).subscribe(observer)),
  }),
  'mergeMap at every depth': (rx, { using, observer, keep }) => ({
    act: () => keep(rx.of(1, 2, 3).pipe(rx.mergeMap((x) => using(rx.of(x)), 2)).subscribe(observer)),
  }),
  'an exchange at every depth': (rx, { using, observer, keep }) => {
    const source = new rx.Subject();
    keep(source.pipe(rx.switchMap(() => using(rx.NEVER))).subscribe(observer));
    source.next(1);
    return { act: () => { source.next(2); source.error('no'); } };
  },
  'unsubscribed at every depth': (rx, { using, observer, keep }) => {
    const sub = using(rx.NEVER).pipe(rx.finalize(() => {}), rx.mergeMap(() => rx.NEVER)).subscribe(observer);
    keep(sub);
    return { ends: false, act: () => { sub.unsubscribe(); observer.complete(); } };
  },
  'a share at every depth': (rx, { using, observer, keep }) => {
    const shared = using(rx.of(1)).pipe(rx.share());
    return { act: () => keep(shared.pipe(rx.mergeMap(() => shared)).subscribe(observer)) };
  },
  'a subject with three observers at every depth': (rx, { using, observer, keep }) => {
    const source = new rx.Subject(), all = new rx.Subscription();
    keep(all);
    for (let i = 0; i < 3; i++) all.add(using(source).pipe(rx.concatMap((x) => using(rx.of(x)))).subscribe(observer));
    return { act: () => { source.next(1); source.complete(); } };
  },
  'catchError and takeUntil at every depth': (rx, { using, observer, keep }) => {
    const stop = new rx.Subject();
    keep(using(rx.NEVER).pipe(rx.takeUntil(stop), rx.concatWith(using(rx.throwError(() => 'no'))), rx.catchError(() => using(rx.of(2)))).subscribe(observer));
    return { act: () => stop.next() };
  },
};
export const only_ours = Object.fromEntries(Object.entries(programs).map(([name, make]) => [name, { of: (rx) => atDepths(rx, make), is: [] }]));
