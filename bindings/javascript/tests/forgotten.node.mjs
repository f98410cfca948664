// What a program has forgotten: it is collected where it holds nothing of the program's, and nothing that somebody can still hear is. In Node alone.
import { spawnSync } from 'node:child_process';

const INDEX = new URL('../index.mjs', import.meta.url).href, MANY = 40;
/** What a program prints as JSON; it has `gone`, which waits until what can be collected has been. */
function program(text) {
  const { stdout, stderr } = spawnSync(process.execPath, ['--expose-gc', '--input-type=module', '-e', `
    const rx = await import(${JSON.stringify(INDEX)}), MANY = ${MANY}, hear = () => {}, of = rx.of(1);
    const another = () => [new rx.Subject(), new rx.Subject().pipe(rx.mergeMap(() => of))].forEach((it) => it.subscribe(hear).unsubscribe());
    async function gone() {
      for (let i = 0; i < 300; i++) another(); // what was opened lately is kept
      for (let i = 0; i < 4; i++) {
        gc();
        await new Promise((done) => setTimeout(done, 5));
      }
    }
    ${PIPELINES}
    ${text}`], { encoding: 'utf8' });
  return stdout ? JSON.parse(stdout) : stderr;
}
const PIPELINES = `
  const pipelines = {
    'a subject': (s) => s, 'map and filter': (s) => s.pipe(rx.map((x) => x), rx.filter(() => true)), mergeMap: (s) => s.pipe(rx.mergeMap((x) => rx.of(x))),
    'mergeMap of a subject': (s, t) => s.pipe(rx.mergeMap(() => t)), concatMap: (s, t) => s.pipe(rx.concatMap(() => t)), switchMap: (s, t) => s.pipe(rx.switchMap(() => t)),
    takeUntil: (s, t) => s.pipe(rx.takeUntil(t)), take: (s) => s.pipe(rx.take(5)), tap: (s) => s.pipe(rx.tap({ complete() {} })), merge: (s, t) => rx.merge(s, t),
    combineLatest: (s, t) => rx.combineLatest([s, t]), withLatestFrom: (s, t) => s.pipe(rx.withLatestFrom(t)), zip: (s, t) => rx.zip(s, t), startWith: (s) => s.pipe(rx.startWith(0)),
    catchError: (s) => s.pipe(rx.catchError(() => rx.EMPTY)), retry: (s) => s.pipe(rx.retry(2)), repeat: (s) => s.pipe(rx.repeat(2)), pairwise: (s) => s.pipe(rx.pairwise()),
    'distinct and scan': (s) => s.pipe(rx.distinctUntilChanged(), rx.scan((a, b) => a + b, 0)), buffer: (s, t) => s.pipe(rx.buffer(t)), window: (s, t) => s.pipe(rx.window(t), rx.mergeAll()),
    groupBy: (s) => s.pipe(rx.groupBy((x) => x), rx.mergeAll()), sample: (s, t) => s.pipe(rx.sample(t)), expand: (s) => s.pipe(rx.expand(() => rx.EMPTY)),
    debounce: (s, t) => s.pipe(rx.debounce(() => t)), share: (s) => s.pipe(rx.share()), shareReplay: (s) => s.pipe(rx.shareReplay(1)),
    'shareReplay while heard': (s) => s.pipe(rx.shareReplay({ bufferSize: 1, refCount: true })), 'publish and refCount': (s) => s.pipe(rx.publish(), rx.refCount()),
    connect: (s) => s.pipe(rx.connect((it) => rx.merge(it, it))), defer: (s) => rx.defer(() => s), 'own operator': (s) => new rx.Observable((to) => s.subscribe((x) => to.next(x))),
    'two shares': (s) => s.pipe(rx.share(), rx.map((x) => x), rx.share()), 'a subscriber': (s) => new rx.Observable((to) => s.subscribe(to)),
  };`;

export const only_ours = {
  'what is forgotten with its source is collected': { of: () => program(`
    const stays = {};
    let made = 0, collected = 0;
    const registry = new FinalizationRegistry(() => { collected++; });
    const forgets = (make) => {
      for (let i = 0; i < MANY; i++) {
        const s = new rx.Subject(), t = new rx.Subject(), observer = { next() {} };
        registry.register(observer, 0), made++;
        make(s, t).subscribe(observer);
        s.next(1), t.next(1), s.next(2);
      }
    };
    for (const [name, make] of Object.entries(pipelines)) {
      const before = made - collected, { nodes } = rx.counts();
      forgets(make);
      await gone();
      if (made - collected > before || rx.counts().nodes > nodes) stays[name] = [made - collected - before, rx.counts().nodes - nodes];
    }
    console.log(JSON.stringify(stays));`), is: {} },
  'what can still be heard is heard': { of: () => program(`
    const lost = {};
    for (const [name, make] of Object.entries(pipelines)) {
      const sources = Array.from({ length: MANY }, () => [new rx.Subject(), new rx.Subject()]), heard = [], [a, b] = [[], []];
      const subscribes = (into) => sources.forEach(([s, t], i) => { make(s, t).subscribe((x) => { into[i] = (into[i] ?? '') + (x?.join?.() ?? x); }); });
      const tells = (x) => sources.forEach(([s, t]) => { s.next(x), t.next(x), s.next(x + 1); });
      subscribes(a), tells(1), tells(3), rx.close();
      subscribes(b), await gone(), tells(1), await gone(), tells(3);
      if (a.length !== MANY || a.join() !== b.join()) lost[name] = [a[0], b[0]];
      rx.close();
    }
    console.log(JSON.stringify(lost));`), is: {} },
  'what was told when it was not kept any more is collected later': { of: () => program(`
    let sources = Array.from({ length: MANY }, () => new rx.Subject());
    sources.forEach((it) => it.pipe(rx.mergeMap(() => of)).subscribe(hear));
    await gone();
    sources.forEach((it) => it.next(1));
    sources = null;
    await gone();
    const early = rx.counts().nodes;
    for (let i = 0; i < 1024; i++) another();
    await gone();
    console.log(JSON.stringify([early, rx.counts().nodes]));`), is: [2 * MANY, 0] },
  'more shares than an engine serves are collected': { of: () => program(`
    const forgets = () => {
      const s = new rx.Subject();
      s.pipe(rx.share()).subscribe(hear);
      s.next(1);
    };
    for (let i = 0; i < 600; i++) forgets();
    await gone();
    console.log(rx.counts().nodes);`), is: 0 },
  'whoever holds a subscription leaves it': { of: () => program(`
    const kept = [], sources = [];
    for (let i = 0; i < MANY; i++) {
      const s = new rx.Subject();
      sources.push(s);
      kept.push(s.pipe(rx.mergeMap(() => rx.NEVER)).subscribe(hear));
      s.next(1);
    }
    await gone();
    kept.forEach((it) => it.unsubscribe());
    console.log(JSON.stringify([sources.some((s) => s.observed), rx.counts().nodes]));`), is: [false, 0] },
  'a share that somebody can still subscribe to is connected once': { of: () => program(`
    const shares = [], again = [];
    let connections = 0;
    for (let i = 0; i < 500; i++) {
      const shared = new rx.Observable(() => { connections++; }).pipe(rx.share());
      shares.push(shared);
      shared.subscribe(hear);
    }
    await gone();
    shares.forEach((it) => it.subscribe(hear));
    console.log(JSON.stringify(connections));`), is: 500 },
  'what holds something of the program stays, and is released once': { of: () => program(`
    let released = 0, told = 0;
    for (let i = 0; i < MANY; i++) {
      rx.NEVER.pipe(rx.finalize(() => { released++; })).subscribe({ complete: () => told++ });
      new rx.Observable(() => () => { released++; }).subscribe(hear);
      rx.NEVER.subscribe(hear).add(() => { released++; });
      rx.using(() => ({ unsubscribe() { released++; } }), () => new rx.Subject()).pipe(rx.share()).subscribe(hear);
    }
    await gone();
    const before = released;
    rx.close();
    console.log(JSON.stringify([before, released / MANY, rx.counts().nodes]));`), is: [0, 4, 0] },
  'under watch all of it is told': { of: () => program(`
    rx.trace();
    for (let i = 0; i < MANY; i++) new rx.Subject().subscribe(hear);
    await gone();
    console.log(rx.leaks().length);`), is: 40 },
};
