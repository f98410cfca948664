// Shares in numbers: more than an engine has hubs for, below one another, and connected anew.
const test = (of, is, rxjs = is) => ({ of: async (rx) => {
  const list = [];
  await of(rx, (it) => list.push(it));
  return list;
}, is, rxjs });

/** So many shares, each with two subscribers; how often each source was subscribed to, and what was told. */
function many(rx, count, say) {
  const source = new rx.Subject();
  let made = 0, released = 0, told = 0;
  const shares = Array.from({ length: count }, () => rx.using(() => (made++, { unsubscribe: () => { released++; } }), () => source).pipe(rx.share()));
  const round = () => {
    const all = [...shares, ...shares].map((it) => it.subscribe(() => { told++; }));
    source.next(1);
    say([made, told, released]);
    for (const it of all.slice(0, count)) it.unsubscribe();
    source.next(2);
    say([made, told, released]);
    for (const it of all.slice(count)) it.unsubscribe();
    source.next(3);
    say([made, told, released]);
  };
  round();
  round();
}

export const tests = {
  'ten shares': test((rx, say) => many(rx, 10, say), [[10, 20, 0], [10, 30, 0], [10, 30, 10], [20, 50, 10], [20, 60, 10], [20, 60, 20]]),
  'seven hundred shares': test((rx, say) => many(rx, 700, say),
    [[700, 1400, 0], [700, 2100, 0], [700, 2100, 700], [1400, 3500, 700], [1400, 4200, 700], [1400, 4200, 1400]]),
  'a chain of a hundred shares': test((rx, say) => {
    const source = new rx.Subject();
    let it = source;
    for (let i = 0; i < 100; i++) it = it.pipe(rx.map((x) => x + 1), rx.share());
    const a = it.subscribe(say), b = it.subscribe(say);
    source.next(0);
    a.unsubscribe();
    source.next(1);
    b.unsubscribe();
    source.next(2);
    say(source.observed);
  }, [100, 100, 101, false]),
  'a share ends for all, and begins anew': test((rx, say) => {
    let n = 0;
    const it = rx.defer(() => rx.of(++n)).pipe(rx.share());
    it.subscribe({ next: say, complete: () => say('end') });
    it.subscribe({ next: say, complete: () => say('end') });
  }, [1, 'end', 2, 'end']),
  'who comes while a share tells an item hears the next one, and who leaves hears none': test((rx, say) => {
    const source = new rx.Subject(), shared = source.pipe(rx.share());
    shared.subscribe((x) => {
      say(`a ${x}`);
      if (x !== 1) return;
      c.unsubscribe();
      shared.subscribe((it) => say(`d ${it}`));
    });
    shared.subscribe((x) => say(`b ${x}`));
    const c = shared.subscribe((x) => say(`c ${x}`));
    source.next(1);
    source.next(2);
    source.complete();
  }, ['a 1', 'b 1', 'a 2', 'b 2', 'd 2']),
  'what a share is told from within comes behind, for each of its subscribers': test((rx, say) => {
    const source = new rx.Subject(), shared = source.pipe(rx.share());
    const hears = (name, at, act) => shared.subscribe({ next: (x) => {
      say(`${name} ${x}`);
      if (x === at) act();
    }, complete: () => say(`${name} end`) });
    hears('a', -1), hears('b', 0, () => source.next(1)), hears('c', 1, () => source.complete());
    source.next(0);
  }, ['a 0', 'b 0', 'a 1', 'c 0', 'c 1', 'a end', 'c end', 'b 1', 'b end'], ['a 0', 'b 0', 'a 1', 'b 1', 'c 1', 'a end', 'b end', 'c end']),
  'of a thousand subscribers of whom half leave the others hear in their order': test((rx, say) => {
    const source = new rx.Subject(), shared = source.pipe(rx.share()), heard = [];
    const all = Array.from({ length: 1000 }, (_, i) => shared.subscribe((x) => heard.push(i + x)));
    all.forEach((it, i) => { if (i % 2) it.unsubscribe(); });
    source.next(0);
    say(heard.length === 500 && heard.every((it, i) => it === 2 * i));
    shared.subscribe((x) => heard.push(7000 + x));
    all.forEach((it, i) => { if (i % 4) it.unsubscribe(); });
    heard.length = 0;
    source.next(1);
    say(heard.length === 251 && heard.every((it, i) => it === (i < 250 ? 4 * i + 1 : 7001)));
    all.forEach((it) => it.unsubscribe());
    heard.length = 0;
    source.next(2);
    say(heard);
    source.complete();
  }, [true, true, [7002]]),
  'seven hundred shares of which each fails': test((rx, say) => {
    const sources = Array.from({ length: 700 }, () => new rx.Subject()), shares = sources.map((it) => it.pipe(rx.share()));
    let failed = 0;
    for (const it of [...shares, ...shares]) it.subscribe({ error: () => { failed++; } });
    for (const it of sources) it.error('no');
    say(failed);
    say(sources.some((it) => it.observed));
  }, [1400, false]),
};
