// What is JavaScript's own: observers that act from within, depth, timers that were put in place, copies of the package.
const turn = (ms = 5) => new Promise((resolve) => { setTimeout(resolve, ms); });
const test = (of, is, rxjs = is) => ({ of: async (rx) => {
  const list = [];
  await of(rx, (it) => list.push(it));
  return list;
}, is, rxjs });

export const tests = {
  'an observer that leaves hears no more': test((rx, say) => {
    const s = new rx.Subject(), sub = s.subscribe((x) => { say(x); sub.unsubscribe(); });
    s.next(1);
    s.next(2);
  }, [1]),
  'who leaves as it hears its end, between two items of an array, has released all': test((rx, say) => {
    let inner = null;
    const source = new rx.Subject(), sub = new rx.Observable((it) => {
      inner = it;
      return source.pipe(rx.finalize(() => say('released'))).subscribe(it);
    });
    sub.subscribe({ complete: () => {
      rx.of(1, 2).pipe(rx.map((x) => { if (x === 2) inner.unsubscribe(); return x; })).subscribe(say);
      say('told');
    } });
    source.complete();
    const s = new rx.Subject();
    s.subscribe((x) => { if (x === 1) s.next(2); });
    s.subscribe(say);
    s.next(1);
  }, [1, 'released', 2, 'told', 1, 2], [1, 'released', 2, 'told', 2, 1]),
  'behind a function that leaves its own subscription no other is called': test((rx, say) => {
    for (const operator of [rx.map, rx.filter, rx.tap, rx.takeWhile, rx.first, rx.every, (leave) => rx.scan(leave, 0)]) {
      const s = new rx.Subject(), leave = () => { sub.unsubscribe(); return true; }, sub = s.pipe(operator(leave), rx.map(say)).subscribe(say);
      s.next(1);
    }
  }, []),
  'an observer that emits hears it behind what it is told': test((rx, say) => {
    const s = new rx.Subject();
    s.subscribe((x) => { if (x < 3) s.next(x + 1); say(x); });
    s.next(1);
  }, [1, 2, 3], [3, 2, 1]),
  'a second observer hears items in order': test((rx, say) => {
    const s = new rx.Subject();
    s.subscribe((x) => { if (x === 1) s.next(2); });
    s.subscribe(say);
    s.next(1);
  }, [1, 2], [2, 1]),
  'what the first observer leaves from within hears no more': test((rx, say) => {
    const s = new rx.Subject();
    s.subscribe((x) => { if (x === 2) second.unsubscribe(); });
    const second = s.subscribe(say);
    [1, 2, 3].forEach((x) => s.next(x));
  }, [1]),
  'an exchange comes before the inner observable hears the same item': test((rx, say) => {
    const s = new rx.Subject();
    s.pipe(rx.switchMap((x) => s.pipe(rx.map((y) => `${x}${y}`)))).subscribe(say);
    [1, 2, 3].forEach((x) => s.next(x));
  }, []),
  'an end from within comes behind the item, for each observer': test((rx, say) => {
    const s = new rx.Subject(), to = (name) => ({ next: (x) => say(`${name}${x}`), complete: () => say(`${name} end`) });
    s.subscribe({ ...to('a'), next: (x) => { say(`a${x}`); s.complete(); } });
    s.subscribe(to('b'));
    s.next(1);
  }, ['a1', 'b1', 'b end', 'a end'], ['a1', 'a end', 'b end']),
  'three items, each from within the one before, are heard in order by all': test((rx, say) => {
    const s = new rx.Subject();
    s.subscribe((x) => { if (x < 3) s.next(x + 1); });
    for (const name of 'bc') s.subscribe((x) => say(`${name}${x}`));
    s.next(1);
  }, ['b1', 'c1', 'b2', 'c2', 'b3', 'c3'], ['b3', 'c3', 'b2', 'c2', 'b1', 'c1']),
  'the finalizer of a link comes behind what it held': test((rx, say) => {
    const held = (name) => rx.NEVER.pipe(rx.finalize(() => say(`${name} released`))), s = new rx.Subject();
    rx.onErrorResumeNext(s.pipe(rx.sample(held('first'))), rx.defer(() => (say('second made'), rx.EMPTY))).subscribe({ complete: () => say('end') });
    s.complete();
  }, ['first released', 'second made', 'end']),
  'sequenceEqual answers when both are known': test((rx, say) => {
    const a = new rx.Subject(), b = new rx.Subject();
    a.pipe(rx.sequenceEqual(b)).subscribe({ next: say, complete: () => say('end') });
    b.next(1);
    a.complete();
    say('waits');
    b.complete();
  }, ['waits', true, 'end']),
  'bufferToggle tells what its closing tells at once as often as RxJS does': test((rx, say) => {
    rx.NEVER.pipe(rx.bufferToggle(rx.of(1), () => rx.of(1, 2))).subscribe((x) => say(x.length));
  }, [0, 0]),
  'a duration of throttle that tells at once is heard on': test((rx, say) => {
    const s = new rx.Subject(), ends = new rx.Subject();
    s.pipe(rx.throttle(() => ends.pipe(rx.startWith(0)))).subscribe(say);
    [1, 2].forEach((x) => s.next(x));
    ends.next(0);
    s.next(3);
  }, [1, 3]),
  'an observer that throws loses nothing for others': test(async (rx, say) => {
    const s = new rx.Subject();
    rx.config.onUnhandledError = (error) => say(error.message);
    s.subscribe(() => { throw new Error('mine'); });
    s.subscribe(say);
    s.next(1);
    await turn();
    rx.config.onUnhandledError = null;
  }, [1, 'mine']),
  'timers are taken when they are needed': test(async (rx, say) => {
    const { setInterval: real } = globalThis;
    globalThis.setInterval = (act) => { say('faked'); return real(act, 0); };
    try { await rx.firstValueFrom(rx.timer(100000)).then(say); } finally { globalThis.setInterval = real; }
  }, ['faked', 0]),
  'what the observer of an array emits comes before the next item of the array': test((rx, say) => {
    const s = new rx.Subject();
    rx.merge(s, rx.of(1, 2, 3)).subscribe((x) => { say(x); if (x < 3) s.next(x + 10); });
  }, [1, 11, 2, 12, 3]),
  'what the observer of an array emits behind some items comes before the next one': test((rx, say) => {
    const s = new rx.Subject();
    rx.merge(s, rx.from([1, 2, 3, 4, 5])).subscribe((x) => { say(x); if (x === 3) s.next(30); });
  }, [1, 2, 3, 30, 4, 5]),
  'an observer leaves in the midst of an array': test((rx, say) => {
    const whole = new rx.Subscriber({ next: (x) => { say(x); if (x === 3) whole.unsubscribe(); }, complete: () => say('end') });
    whole.add(() => say('left'));
    rx.from([1, 2, 3, 4]).subscribe(whole);
    say(whole.closed);
  }, [1, 2, 3, 'left', true]),
  'an array within an array': test((rx, say) => {
    rx.of(1, 2, 3).subscribe((x) => rx.of(10 * x, 10 * x + 1).subscribe(say));
  }, [10, 11, 20, 21, 30, 31]),
  'an array, of which a function fails, and one of which the observer throws': test(async (rx, say) => {
    rx.config.onUnhandledError = (error) => say(`unhandled ${error.message}`);
    rx.range(1, 4).pipe(rx.map((x) => { if (x === 3) throw new Error('no'); return x; })).subscribe({ next: say, error: (error) => say(error.message) });
    rx.range(1, 3).subscribe({ next: (x) => { say(x); if (x === 2) throw new Error('mine'); }, complete: () => say('end') });
    await turn();
    rx.config.onUnhandledError = null;
  }, [1, 2, 'no', 1, 2, 3, 'end', 'unhandled mine']),
  'an iterable that is left is let go, and one that ends is not told so': test((rx, say) => {
    function* items() { try { for (let i = 1; i < 4; i++) yield i; } finally { say('let go'); } }
    rx.from(items()).pipe(rx.take(2)).subscribe({ next: say, complete: () => say('end') });
    rx.config.onStoppedNotification = () => say('stopped');
    const whole = new rx.Subscriber({ next: (x) => { if (x === 2) whole.unsubscribe(); } });
    rx.from(new Set([1, 2, 3])).subscribe(whole);
    rx.config.onStoppedNotification = null;
  }, [1, 2, 'end', 'let go']),
  'an observer of an array makes a thousand subscriptions, and leaves them': test((rx, say) => {
    const s = new rx.Subject(), all = [];
    rx.from([1, 2, 3, 4]).subscribe((x) => {
      say(x);
      if (x === 2) for (let i = 0; i < 1000; i++) all.push(s.subscribe());
      if (x === 3) for (const it of all) it.unsubscribe();
    });
    say(s.observed);
  }, [1, 2, 3, 4, false]),
  'what has ended tells the functions behind it nothing more': test((rx, say) => {
    const fails = () => { throw new Error('no'); }, look = rx.tap((x) => say(x)), kinds = rx.tap(({ kind }) => say(kind)), done = { error: () => say('error'), complete: () => say('end') };
    rx.of(1).pipe(rx.take(1), rx.isEmpty(), look).subscribe(done);
    rx.of(5).pipe(rx.take(1), rx.every((x) => x < 4), look).subscribe(done);
    rx.of(1, 2).pipe(rx.take(2), rx.find((x) => x === 2), look).subscribe(done);
    rx.of(1).pipe(rx.take(1), rx.map(fails), rx.toArray(), look).subscribe(done);
    rx.of(1).pipe(rx.takeWhile(() => false, true), rx.map(fails), rx.materialize(), kinds).subscribe(done);
    rx.of(1, 2).pipe(rx.materialize(), rx.dematerialize(), rx.toArray(), look).subscribe(done);
    rx.of(3).pipe(rx.single(), rx.first(), rx.defaultIfEmpty(7), rx.count(), look).subscribe(done);
    rx.EMPTY.pipe(rx.defaultIfEmpty(7), rx.take(1), rx.toArray(), look).subscribe(done);
  }, [false, 'end', false, 'end', 2, 'end', 'error', 'E', 'end', [1, 2], 'end', 1, 'end', [7], 'end']),
  'a function hears what is replayed as far as its observer does': test((rx, say) => {
    const s = new rx.ReplaySubject(), look = rx.tap((x) => say(`looks at ${x}`));
    [1, 2, 3].forEach((x) => s.next(x));
    s.pipe(look, rx.take(1)).subscribe(say);
    const whole = new rx.Subscriber({ next: (x) => { say(x); if (x === 2) whole.unsubscribe(); } });
    s.pipe(look).subscribe(whole);
    say(s.observed);
  }, ['looks at 1', 1, 'looks at 1', 1, 'looks at 2', 2, false]),
  'a subject that ends within its replay tells the rest first': test((rx, say) => {
    const s = new rx.ReplaySubject(), done = { error: (error) => say(error), complete: () => say('end') };
    [1, 2].forEach((x) => s.next(x));
    s.subscribe({ ...done, next: (x) => { say(x); if (x === 1) s.complete(); } });
    s.subscribe({ ...done, next: say });
  }, [1, 2, 'end', 1, 2, 'end'], [1, 'end', 1, 2, 'end']),
  'a function that leaves as it projects': test((rx, say) => {
    const s = new rx.Subject(), made = rx.using(() => (say('made'), { unsubscribe: () => say('released') }), () => rx.NEVER);
    for (const operator of [rx.mergeMap, rx.switchMap, rx.exhaustMap, rx.concatMap]) {
      const whole = s.pipe(operator(() => { whole.unsubscribe(); return made; })).subscribe();
      s.next(1);
    }
    say(s.observed);
  }, ['made', 'released', 'made', 'released', 'made', 'released', 'made', 'released', false]),
  'what is added is released with it, in order': test((rx, say) => {
    const sub = rx.NEVER.subscribe();
    sub.add(() => say('a'));
    sub.add(() => say('b'));
    sub.unsubscribe();
    sub.add(() => say('c'));
  }, ['a', 'b', 'c']),
};

export const only_ours = {
  'a stack that overflows leaves the engine alive': test((rx, say) => {
    const s = new rx.Subject();
    let many = 0;
    s.subscribe(() => { many++; });
    const deep = (n) => { s.next(n); return deep(n + 1) + 1; };
    try { deep(0); } catch (error) { say(error.constructor.name); }
    const before = many;
    s.next(0);
    say(many === before + 1);
  }, ['RangeError', true]),
  'a program that nests without end leaves the engine alive': test(async (rx, say) => {
    const subjects = Array.from({ length: 6000 }, () => new rx.Subject());
    subjects.forEach((it, i) => it.subscribe((x) => subjects[i + 1]?.next(x)));
    rx.config.onUnhandledError = () => {};
    try { subjects[0].next(1); } catch (error) { say(error.constructor.name); }
    await turn();
    rx.config.onUnhandledError = null;
    let told = 0;
    const s = new rx.Subject();
    s.subscribe((x) => { told = x; });
    s.next(5);
    say(told);
  }, [5]),
  'an array is one item of the history, where nothing happens between': test((rx, say) => {
    const list = Array.from({ length: 100 }, (_, i) => i), all = [];
    rx.close();
    const before = rx.counts().events;
    rx.from(list).pipe(rx.map((x) => x)).subscribe({ next: (x) => all.push(x) });
    say([all.length, rx.counts().events - before < 10]);
    rx.from(list).subscribe((x) => { all.push(rx.counts().effects); });
    say([all.length, Math.max(...all.slice(100))]);
  }, [[100, true], [200, 0]]),
  'a stream and an async iterable of which nobody hears are left alone': test(async (rx, say) => {
    const stream = new ReadableStream({ cancel: () => say('cancelled') }), left = new rx.Subscriber();
    left.unsubscribe();
    rx.from(stream).subscribe(left);
    rx.from({ [Symbol.asyncIterator]: () => say('asked') }).subscribe(left);
    await turn();
    say(stream.locked);
  }, [false]),
  'both forms of the package have one engine': test(async (rx, say) => {
    say(Object.keys(globalThis[Symbol.for('cellarcliff.realm.1')]).includes('engine'));
  }, [true]),
};
