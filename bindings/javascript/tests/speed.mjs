// What a subscription cycle, an item and their like take, beside RxJS, in turns in one process: nanoseconds of processor time each. The rounds are short, a
// millisecond or so, so that the least of many says what it takes where nothing else is at work; the median besides.
//
// Usage: node tests/speed.mjs [ROUNDS] [NAME ..]
import { createRequire } from 'node:module';

const [rounds = '200', ...wanted] = process.argv.slice(2), require = createRequire(import.meta.url);
const peer = require('/usr/share/nodejs/rxjs'), ours = await import('../index.mjs');
let sink = 0;
const hear = (value) => { sink += value; };

/** A component that hears what it shows, a search, two values together and a share until it is destroyed, as Angular's are written. */
function mounts(rx) {
  const words = new rx.Subject(), user = new rx.BehaviorSubject(1), theme = new rx.BehaviorSubject(2), feed = new rx.Subject().pipe(rx.share());
  const search = (word) => new rx.Observable((to) => {
    to.next(word);
    return () => { sink++; };
  });
  return (many) => {
    for (let i = 0; i < many; i++) {
      const destroyed = new rx.Subject();
      words.pipe(rx.map((x) => x + 1), rx.distinctUntilChanged(), rx.switchMap(search), rx.takeUntil(destroyed)).subscribe(hear);
      user.pipe(rx.map((x) => x + 1), rx.takeUntil(destroyed)).subscribe(hear);
      rx.combineLatest([user, theme]).pipe(rx.map(([a, b]) => a + b), rx.takeUntil(destroyed)).subscribe(hear);
      feed.pipe(rx.filter((x) => x > 0), rx.takeUntil(destroyed)).subscribe(hear);
      search(i).pipe(rx.finalize(() => { sink++; }), rx.takeUntil(destroyed)).subscribe(hear);
      words.next(i);
      words.next(i + 1);
      destroyed.next();
      destroyed.complete();
    }
  };
}

/** By name: how many, and what makes a function that does so many. */
const WORK = {
  'a subscription cycle': [1000, (rx) => {
    const source = new rx.Subject();
    return (many) => { for (let i = 0; i < many; i++) source.subscribe(hear).unsubscribe(); };
  }],
  'a cycle of a source with a teardown': [1000, (rx) => {
    const source = new rx.Observable(() => () => { sink++; });
    return (many) => { for (let i = 0; i < many; i++) source.subscribe(hear).unsubscribe(); };
  }],
  'a using cycle, with an item': [700, (rx) => {
    const source = new rx.Subject(), held = rx.using(() => ({ unsubscribe() { sink++; } }), () => source);
    return (many) => {
      for (let i = 0; i < many; i++) {
        const it = held.subscribe(hear);
        source.next(i);
        it.unsubscribe();
      }
    };
  }],
  'a cycle through takeUntil': [700, (rx) => {
    const stop = new rx.Subject(), source = new rx.Subject().pipe(rx.takeUntil(stop));
    return (many) => { for (let i = 0; i < many; i++) source.subscribe(hear).unsubscribe(); };
  }],
  'a cycle of a BehaviorSubject': [1000, (rx) => {
    const source = new rx.BehaviorSubject(1);
    return (many) => { for (let i = 0; i < many; i++) source.subscribe(hear).unsubscribe(); };
  }],
  'take(1) of a subject': [1000, (rx) => {
    const source = new rx.Subject(), first = source.pipe(rx.take(1));
    return (many) => {
      for (let i = 0; i < many; i++) {
        first.subscribe(hear);
        source.next(i);
      }
    };
  }],
  'a component that is mounted and left': [100, mounts],
  'a cycle through map, takeUntil and finalize': [700, (rx) => {
    const stop = new rx.Subject(), source = new rx.Subject().pipe(rx.map((x) => x + 1), rx.takeUntil(stop), rx.finalize(() => { sink++; }));
    return (many) => { for (let i = 0; i < many; i++) source.subscribe(hear).unsubscribe(); };
  }],
  'a subject that is made, subscribed to and completed': [1000, (rx) => (many) => {
    for (let i = 0; i < many; i++) {
      const source = new rx.Subject();
      source.subscribe(hear);
      source.complete();
    }
  }],
  'an item': [5000, (rx) => {
    const source = new rx.Subject();
    source.subscribe(hear);
    return (many) => { for (let i = 0; i < many; i++) source.next(i); };
  }],
  'an item through map and filter': [5000, (rx) => {
    const source = new rx.Subject();
    source.pipe(rx.map((x) => x + 1), rx.filter((x) => x >= 0)).subscribe(hear);
    return (many) => { for (let i = 0; i < many; i++) source.next(i); };
  }],
  'an item through ten maps': [5000, (rx) => {
    const source = new rx.Subject();
    source.pipe(...Array.from({ length: 10 }, () => rx.map((x) => x + 1))).subscribe(hear);
    return (many) => { for (let i = 0; i < many; i++) source.next(i); };
  }],
  'an item of an array': [5000, (rx) => {
    const list = Array.from({ length: 1000 }, (_, i) => i);
    return (many) => { for (let i = 0; i < many / 1000; i++) rx.from(list).subscribe(hear); };
  }],
  'an item of an array through map, filter and scan': [5000, (rx) => {
    const list = Array.from({ length: 1000 }, (_, i) => i), source = rx.from(list).pipe(rx.map((x) => x + 1), rx.filter((x) => x >= 0), rx.scan((a, b) => a + b, 0));
    return (many) => { for (let i = 0; i < many / 1000; i++) source.subscribe(hear); };
  }],
  'an item for one of ten observers': [5000, (rx) => {
    const source = new rx.Subject();
    for (let i = 0; i < 10; i++) source.subscribe(hear);
    return (many) => { for (let i = 0; i < many / 10; i++) source.next(i); };
  }],
  'mergeMap(of)': [1000, (rx) => {
    const source = new rx.Subject();
    source.pipe(rx.mergeMap((x) => rx.of(x))).subscribe(hear);
    return (many) => { for (let i = 0; i < many; i++) source.next(i); };
  }],
  'concatMap(of)': [1000, (rx) => {
    const source = new rx.Subject();
    source.pipe(rx.concatMap((x) => rx.of(x))).subscribe(hear);
    return (many) => { for (let i = 0; i < many; i++) source.next(i); };
  }],
  'an item of combineLatest of two': [1000, (rx) => {
    const [a, b] = [new rx.BehaviorSubject(0), new rx.BehaviorSubject(0)];
    rx.combineLatest([a, b]).subscribe(([x]) => hear(x));
    return (many) => { for (let i = 0; i < many; i++) a.next(i); };
  }],
  'a switchMap exchange': [1000, (rx) => {
    const source = new rx.Subject(), inner = new rx.Subject();
    source.pipe(rx.switchMap(() => inner)).subscribe(hear);
    return (many) => { for (let i = 0; i < many; i++) source.next(i); };
  }],
  'a subscriber of a share of 1,000': [1000, (rx) => {
    const shared = new rx.Subject().pipe(rx.share());
    for (let k = 0; k < 1000; k++) shared.subscribe(hear);
    return (many) => { for (let i = 0; i < many; i++) shared.subscribe(hear).unsubscribe(); };
  }],
  'one of 1,000 that come to a share, and leave': [1000, (rx) => {
    const shared = new rx.Subject().pipe(rx.share());
    return (many) => {
      const all = [];
      for (let i = 0; i < many; i++) all.push(shared.subscribe(hear));
      for (const it of all) it.unsubscribe();
    };
  }],
  'an item for one of a share of 1,000': [5000, (rx) => {
    const source = new rx.Subject(), shared = source.pipe(rx.share());
    for (let k = 0; k < 1000; k++) shared.subscribe(hear);
    return (many) => { for (let i = 0; i < many / 1000; i++) source.next(i); };
  }],
};

const median = (list) => [...list].sort((a, b) => a - b)[list.length >> 1];
for (const [name, [many, make]] of Object.entries(WORK)) {
  if (wanted.length && !wanted.some((it) => name.includes(it))) continue;
  const of = [peer, ours].map((rx) => ({ act: make(rx), times: [] }));
  for (let i = 0; i < 60; i++) for (const { act } of of) act(many);
  for (let round = 0; round < Number(rounds); round++) {
    for (const { act, times } of of) {
      const before = process.cpuUsage();
      act(many);
      const { user, system } = process.cpuUsage(before);
      times.push((user + system) * 1000 / many);
    }
  }
  const told = [Math.min, (...list) => median(list)].map((one) => of.map((it) => one(...it.times)))
    .map(([theirs, mine]) => `${theirs.toFixed(0)} ns over RxJS, ${mine.toFixed(0)} ns here, ${(mine / theirs).toFixed(1)} times`);
  console.log(`${name}: ${told[0]} (median ${told[1]})`);
}
void sink;
