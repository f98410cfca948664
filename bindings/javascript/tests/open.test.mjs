// What is open, by the engine's own account.
const turn = (ms = 5) => new Promise((resolve) => { setTimeout(resolve, ms); });
const test = (of, is) => ({ of: async (rx) => {
  const list = [];
  await of(rx, (it) => list.push(it));
  return list;
}, is });
const of_program = (rx) => rx.leaks().filter((it) => it.kind === 'subscription');

export const only_ours = {
  'what is open is counted': test((rx, say) => {
    const before = rx.counts(), sub = rx.using(() => ({ unsubscribe() {} }), () => rx.NEVER).subscribe(), now = rx.counts();
    say([now.nodes - before.nodes, now.held - before.held, now.accepted - before.accepted]);
    sub.unsubscribe();
    const then = rx.counts();
    say([then.nodes - before.nodes, then.held - before.held, then.taken - before.taken, then.waiting, then.effects]);
  }, [[2, 1, 1], [0, 0, 1, 0, 0]]),
  'a subscription that was forgotten is found': test((rx, say) => {
    const before = of_program(rx).length, sub = new rx.Subject().pipe(rx.share(), rx.map((x) => x)).subscribe();
    say(of_program(rx).length - before);
    sub.unsubscribe();
    say(of_program(rx).length - before);
  }, [1, 0]),
  'its place in the program is told, if that was asked for': test((rx, say) => {
    rx.trace();
    const sub = rx.NEVER.pipe(rx.mergeMap(() => rx.NEVER)).subscribe(function here() {});
    rx.trace(false);
    const [found] = of_program(rx).filter((it) => it.at !== null);
    say([/open\.test\.mjs:\d+/.test(found.at), found.stack.includes('subscribed here')]);
    sub.unsubscribe();
    const other = rx.NEVER.subscribe();
    say(of_program(rx).some((it) => it.at !== null));
    other.unsubscribe();
  }, [[true, true], false]),
  'an item that is only heard is no event, unless somebody asks where subscriptions are made': test((rx, say) => {
    const source = new rx.Subject(), stop = new rx.Subject(), subs = [source.pipe(rx.share()), source.pipe(rx.finalize(() => {}), rx.takeUntil(stop))].map((it) => it.subscribe());
    const events = () => {
      const { events: before } = rx.counts();
      source.next(1);
      return rx.counts().events - before;
    };
    say(events());
    rx.trace();
    say(events());
    rx.trace(false);
    say(events());
    subs.forEach((it) => it.unsubscribe());
  }, [0, 2, 0]),
  'the history is a dump, until it is cut': test((rx, say) => {
    const it = rx.dump();
    say(it === null || it instanceof Uint8Array);
  }, [true]),
  'who is closed hears nothing': test((rx, say) => {
    const noted = { next: () => say('item'), complete: () => say('end'), error: () => say('error') };
    rx.forkJoin([rx.NEVER, rx.NEVER]).subscribe(noted);
    rx.forkJoin([new rx.Observable(() => () => say('released')), rx.NEVER]).subscribe(noted);
    rx.close();
  }, ['released']),
  'nothing is left open': test(async (rx, say) => {
    const { nodes, held } = rx.counts();
    const sub = rx.interval(1).pipe(rx.mergeMap((x) => rx.timer(1)), rx.share(), rx.finalize(() => {})).subscribe();
    await turn(10);
    sub.unsubscribe();
    const now = rx.counts();
    say([now.nodes - nodes, now.held - held]);
  }, [[0, 0]]),
};
