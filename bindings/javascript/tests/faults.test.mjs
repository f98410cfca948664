// Small ways in which RxJS 7.5.7 leaks, runs on or is silent: what it tells (`rxjs`), and what this package tells.
import { inAnyOrder } from './runner.mjs';

const quiet = (rx, list) => { rx.config.onUnhandledError = (error) => list.push(`unhandled ${error.message ?? error}`); };
const turn = (ms = 5) => new Promise((resolve) => { setTimeout(resolve, ms); });
const test = (of, is, rxjs = is, elsewhere) => ({ of: async (rx) => {
  const list = [];
  quiet(rx, list);
  try { await of(rx, (it) => list.push(it)); } catch (error) { list.push(`thrown ${error.message ?? error}`); }
  await turn();
  rx.config.onUnhandledError = null;
  return list;
}, is, rxjs, elsewhere });
const resource = (say, name = 'r') => ({ unsubscribe: () => say(`${name} released`) });
const made = (rx, say, name, source) => rx.using(() => (say(`${name} made`), resource(say, name)), () => source);

export const tests = {
  'using: the function that makes the source throws': test((rx, say) => {
    rx.using(() => resource(say), () => { throw new Error('no'); }).subscribe({ error: () => say('error') });
  }, ['error', 'r released'], ['error']),
  'using: it answers what is no observable': test((rx, say) => {
    rx.using(() => resource(say), () => 7).subscribe({ error: () => say('error') });
  }, ['error', 'r released'], ['error']),
  'using: the source completes at once and its teardown throws': test((rx, say) => {
    rx.using(() => resource(say), () => new rx.Observable((to) => { to.complete(); return () => { throw new Error('x'); }; }))
      .subscribe({ complete: () => say('end') });
  }, ['end', 'r released', 'thrown x'], ['end']),
  'an inner of mergeMap completes at once and its teardown throws': test((rx, say) => {
    rx.of(1).pipe(rx.mergeMap(() => rx.using(() => resource(say), () => new rx.Observable((to) => { to.complete(); return () => { throw new Error('x'); }; }))))
      .subscribe({ complete: () => say('end'), error: () => say('error') });
  }, ['r released', 'end', 'unhandled x'], ['end']),
  'an input of zip ends at once and its teardown throws': test((rx, say) => {
    const fails = new rx.Observable((to) => { to.next(1); to.complete(); return () => { throw new Error('x'); }; });
    rx.zip(rx.NEVER, fails).subscribe({ error: () => say('error') });
    rx.zip(rx.NEVER, fails.pipe(rx.map((x) => x), rx.switchMap(() => rx.NEVER))).subscribe({ error: () => say('error of an inner') });
  }, ['unhandled x', 'unhandled x'], ['error']),
  'an input of forkJoin ends at once and its teardown throws': test((rx, say) => {
    rx.forkJoin([rx.of(1).pipe(rx.finalize(() => { throw new Error('x'); })), rx.NEVER]).subscribe({ error: () => say('error') });
  }, ['unhandled x'], []),
  'what is retried, repeated or expanded at once, and never ends, is an error': test((rx, say) => {
    const heard = { error: ({ name, message }) => say(`${name}: ${message}`) }, fails = rx.concat(rx.of(1), rx.throwError(() => new Error('no')));
    fails.pipe(rx.retry({ count: 2, delay: () => rx.of(0), resetOnSuccess: true })).subscribe(heard);
    rx.of(1).pipe(rx.repeat({ delay: () => rx.of(0) })).subscribe(heard);
    rx.of(1).pipe(rx.expand((it) => rx.of(it))).subscribe(heard);
    rx.of(1).pipe(rx.repeat({ count: 200000 }), rx.count()).subscribe(say);
  }, ['RangeError: cellarcliff: what was repeated came 100000 times at once', 'RangeError: cellarcliff: what was repeated came 100000 times at once',
    'RangeError: cellarcliff: 100000 expansions came each at once within the one before', 200000], ['unhandled Maximum call stack size exceeded']),
  'an inner observable ends as a function has its item in hand': test((rx, say) => {
    const inner = new rx.BehaviorSubject(1), failing = new rx.BehaviorSubject(2);
    rx.merge(rx.NEVER, rx.of(0)).pipe(rx.mergeMap(() => inner), rx.tap(() => inner.complete())).subscribe(say);
    rx.of(0).pipe(rx.mergeMap(() => failing), rx.map((it) => { failing.error('no'); return it; })).subscribe({ next: say, error: say });
  }, [1, 2, 'no'], [1, 'no']),
  'what retry repeats fails at once and its teardown throws': test((rx, say) => {
    const fails = new rx.Observable((to) => { say('made'); to.error(new Error('no')); return () => { throw new Error('x'); }; });
    fails.pipe(rx.retry(1)).subscribe({ error: ({ message }) => say(`error ${message}`) });
  }, ['made', 'made', 'error no', 'unhandled x', 'unhandled x'], ['made', 'error x']),
  'a teardown throws as its end is told by a link': test((rx, say) => {
    const fails = new rx.Observable(() => () => { throw new Error('x'); });
    rx.onErrorResumeNext(fails.pipe(rx.sample(rx.throwError(() => 'over'))), rx.of('goes on')).subscribe({ next: say, error: () => say('error') });
  }, ['goes on', 'unhandled x'], ['goes on']),
  'a finalizer throws at the end of a subject': test((rx, say) => {
    const s = new rx.Subject();
    s.pipe(rx.finalize(() => { throw new Error('x'); })).subscribe({ complete: () => say('first') });
    made(rx, say, 'r', s).subscribe({ complete: () => say('second') });
    s.complete();
  }, ['r made', 'first', 'second', 'r released', 'unhandled x'], ['r made', 'first', 'thrown 1 errors occurred during unsubscription:\n1) Error: x']),
  'connect from within the first item connects once': test((rx, say) => {
    const c = rx.connectable(made(rx, say, 'r', rx.concat(rx.of(1), rx.NEVER)));
    let is_first = true;
    c.subscribe(() => { if (is_first) { is_first = false; c.connect(); } });
    c.connect().unsubscribe();
  }, ['r made', 'r released'], ['r made', 'r made', 'r released']),
  'share: the function for resets throws': test((rx, say) => {
    made(rx, say, 'r', rx.NEVER).pipe(rx.share({ resetOnRefCountZero: () => { throw new Error('no'); } })).subscribe().unsubscribe();
  }, ['r made', 'r released', 'thrown 1 errors occurred during unsubscription:\n1) Error: no'],
    ['r made', 'thrown 1 errors occurred during unsubscription:\n1) Error: no']),
  'share: the notifier for resets fails': test((rx, say) => {
    made(rx, say, 'r', rx.NEVER).pipe(rx.share({ resetOnRefCountZero: () => rx.throwError(() => new Error('no')) })).subscribe().unsubscribe();
  }, ['r made', 'r released', 'unhandled no'], ['r made', 'unhandled no']),
  'an async iterable is left while it waits': test((rx, say) => {
    const it = { [Symbol.asyncIterator]: () => ({ next: () => new Promise(() => {}), return: async () => say('returned') }) };
    rx.from(it).subscribe().unsubscribe();
  }, ['returned'], []),
  'a stream is left while it waits': test((rx, say) => {
    const stream = new ReadableStream({ cancel: () => say('cancelled') });
    rx.from(stream).subscribe().unsubscribe();
  }, ['cancelled'], []),
  'debounce: the selector ends the source': test((rx, say) => {
    const s = new rx.Subject();
    s.pipe(rx.debounce(() => { s.complete(); return made(rx, say, 'r', rx.NEVER); })).subscribe({ complete: () => say('end') });
    s.next(1);
  }, ['r made', 'r released', 'end'], ['end', 'r made']),
  'switchMap: the mapper emits': test((rx, say) => {
    const s = new rx.Subject();
    const sub = s.pipe(rx.switchMap((x) => { if (x === 1) s.next(2); return made(rx, say, `r${x}`, rx.NEVER); })).subscribe();
    s.next(1);
    sub.unsubscribe();
  }, ['r1 made', 'r1 released', 'r2 made', 'r2 released'], ['r2 made', 'r1 made', 'r2 released', 'r1 released']),
  'switchMap: the release of the old inner emits': test((rx, say) => {
    const s = new rx.Subject();
    const inner = (x) => rx.NEVER.pipe(rx.finalize(() => { say(`released ${x}`); if (x === 1) s.next(3); }));
    const sub = s.pipe(rx.switchMap(inner)).subscribe();
    s.next(1);
    s.next(2);
    sub.unsubscribe();
  }, ['released 1', 'released 2', 'released 3'], ['released 1', 'released 3', 'released 2']),
  'mergeMap with a bound makes none once it is left': test((rx, say) => {
    const first = new rx.Subject();
    const sub = rx.of(1, 2).pipe(rx.mergeMap((x) => (say(`called ${x}`), x === 1 ? first.pipe(rx.finalize(() => sub.unsubscribe())) : rx.NEVER), 1)).subscribe();
    first.complete();
  }, ['called 1'], ['called 1', 'called 2']),
  'a finalizer throws at a take': test((rx, say) => {
    const s = new rx.Subject();
    s.pipe(rx.finalize(() => { throw new Error('x'); }), rx.take(1)).subscribe({ complete: () => say('end') });
    s.next(1);
  }, ['end', 'unhandled x'], ['end']),
  'a replayed item comes before one from within': test((rx, say) => {
    const s = new rx.ReplaySubject();
    s.next(1);
    s.next(2);
    s.subscribe((x) => { say(x); if (x === 1) s.next(3); });
  }, [1, 2, 3], [1, 3, 2]),
  'a finalizer throws at the error of a subject': test((rx, say) => {
    const s = new rx.Subject();
    s.pipe(rx.finalize(() => { throw new Error('x'); })).subscribe({ error: () => say('first') });
    made(rx, say, 'r', s).subscribe({ error: () => say('second') });
    s.error('no');
  }, ['r made', 'first', 'second', 'r released', 'unhandled x'], ['r made', 'first', 'thrown 1 errors occurred during unsubscription:\n1) Error: x']),
  'a finalizer throws at the end of a share': test((rx, say) => {
    const s = new rx.Subject(), shared = s.pipe(rx.share());
    shared.pipe(rx.finalize(() => { throw new Error('x'); })).subscribe({ complete: () => say('first') });
    made(rx, say, 'r', shared).subscribe({ complete: () => say('second') });
    s.complete();
  }, ['r made', 'first', 'second', 'r released', 'unhandled x'], ['r made', 'first', 'unhandled 1 errors occurred during unsubscription:\n1) Error: x'],
  inAnyOrder(['r made', 'first', 'second', 'r released', 'unhandled x'])),
  'debounce: the selector emits into the source': test((rx, say) => {
    const s = new rx.Subject();
    const sub = s.pipe(rx.debounce((x) => { if (x === 1) s.next(2); return made(rx, say, `r${x}`, rx.NEVER); })).subscribe();
    s.next(1);
    sub.unsubscribe();
  }, ['r1 made', 'r1 released', 'r2 made', 'r2 released'], ['r2 made', 'r1 made', 'r2 released', 'r1 released']),
  'debounce: the selector leaves': test((rx, say) => {
    const s = new rx.Subject(), sub = s.pipe(rx.debounce(() => { sub.unsubscribe(); return made(rx, say, 'r', rx.NEVER); })).subscribe();
    s.next(1);
  }, [], ['r made']),
  'switchMap: the end of a stray inner ends the whole': test((rx, say) => {
    const s = new rx.Subject(), inners = [0, 1, 2, 3].map(() => new rx.Subject());
    const inner = (x) => inners[x].pipe(rx.finalize(() => { say(`released ${x}`); if (x === 1) s.next(3); }));
    const sub = s.pipe(rx.switchMap(inner)).subscribe({ next: (x) => say(x), complete: () => say('end') });
    s.next(1);
    s.next(2);
    s.complete();
    inners[2].complete();
    inners[3].next('of 3');
    inners[3].complete();
    sub.unsubscribe();
  }, ['released 1', 'released 2', 'of 3', 'end', 'released 3'], ['released 1', 'end', 'released 3', 'released 2']),
  'switchAll: the release of the old inner emits': test((rx, say) => {
    const s = new rx.Subject();
    const inner = (x) => rx.NEVER.pipe(rx.finalize(() => { say(`released ${x}`); if (x === 1) s.next(inner(3)); }));
    const sub = s.pipe(rx.switchAll()).subscribe();
    s.next(inner(1));
    s.next(inner(2));
    sub.unsubscribe();
  }, ['released 1', 'released 2', 'released 3'], ['released 1', 'released 3', 'released 2']),
  'race: the release of a loser makes another loser speak': test((rx, say) => {
    const [a, b, c] = [0, 1, 2].map(() => new rx.Subject());
    rx.race(a, b.pipe(rx.finalize(() => c.next('c'))), c).subscribe({ next: (x) => say(x), error: (error) => say(`error ${error.constructor.name}`) });
    a.next('a');
  }, ['a'], ['c', 'error TypeError']),
  'a finalizer throws behind an end at once': test((rx, say) => {
    rx.of(1).pipe(rx.finalize(() => { throw new Error('x'); })).subscribe({ complete: () => say('end') });
  }, ['end', 'unhandled x'], ['end']),
};

export const only_ours = {
  'a subject that feeds itself goes on': test((rx, say) => {
    const s = new rx.Subject();
    let n = 0;
    s.subscribe((x) => { n = x; if (x < 20000) s.next(x + 1); });
    s.next(1);
    say(n);
  }, [20000]),
  'repeat of what ends at once goes on': test((rx, say) => {
    let n = 0;
    rx.defer(() => (n++, rx.of(1))).pipe(rx.repeat(20000)).subscribe({ complete: () => say(n) });
  }, [20000]),
  'retry of what fails at once goes on': test((rx, say) => {
    let n = 0;
    rx.defer(() => (++n < 20000 ? rx.throwError(() => 'no') : rx.of(n))).pipe(rx.retry()).subscribe((x) => say(x));
  }, [20000]),
  'expand of what tells at once goes on': test((rx, say) => {
    let last = 0;
    rx.of(0).pipe(rx.expand((x) => (x < 5000 ? rx.of(x + 1) : rx.EMPTY))).subscribe({ next: (x) => { last = x; }, complete: () => say(last) });
  }, [5000]),
  'polling by recursion is left': test(async (rx, say) => {
    let rounds = 0, released = 0;
    // one wait in a hundred is for a turn, so that the test can leave
    const wait = () => rx.from(rounds % 100 ? Promise.resolve() : turn(0)).pipe(rx.finalize(() => { released++; }));
    const poll = () => rx.defer(() => { rounds++; return wait(); }).pipe(rx.concatMap(() => poll()));
    const sub = poll().subscribe();
    while (rounds < 3000) await turn(1);
    sub.unsubscribe();
    const then = rounds;
    await turn(5);
    say([sub.closed, rounds === then, released === rounds]);
  }, [[true, true, true]]),
  'a chain of ten thousand subscriptions is torn down': test((rx, say) => {
    let n = 0;
    const top = new rx.Subscription();
    for (let i = 0, it = top; i < 10000; i++) {
      const next = new rx.Subscription(() => { n++; });
      it.add(next);
      it = next;
    }
    try { top.unsubscribe(); } catch (error) { say(error.constructor.name); }
    say(n);
  }, [10000]),
};
