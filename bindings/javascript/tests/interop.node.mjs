// Both ways with RxJS itself: its observables, operators, subjects and subscribers in ours, and ours in its. In Node alone.
import { createRequire } from 'node:module';

let peer = null;
try { peer = createRequire(import.meta.url)('/usr/share/nodejs/rxjs'); } catch { /* not here: the tests below are left out */ }
const test = (of, is) => ({ of: async (rx) => {
  const list = [];
  await of(rx, (it) => list.push(it));
  return list;
}, is });
const all = (say, name = '') => ({ next: (it) => say(`${name}${it}`), error: (it) => say(`${name}error ${it?.message ?? it}`), complete: () => say(`${name}end`) });
const held = (lib, say, source) => lib.using(() => ({ unsubscribe: () => say('released') }), () => source);

export const only_ours = peer === null ? {} : {
  'from an observable of RxJS': test((rx, say) => { rx.from(peer.of(1, 2)).subscribe(all(say)); }, ['1', '2', 'end']),
  'RxJS from ours': test((rx, say) => { peer.from(rx.of(1, 2)).subscribe(all(say)); }, ['1', '2', 'end']),
  'its operator in our pipe': test((rx, say) => { rx.of(1, 2).pipe(peer.map((x) => x * 2), rx.filter((x) => x > 2)).subscribe(all(say)); }, ['4', 'end']),
  'our operator in its pipe': test((rx, say) => { peer.of(1, 2).pipe(rx.map((x) => x * 2), peer.filter((x) => x > 2)).subscribe(all(say)); }, ['4', 'end']),
  'many of both in a pipe': test((rx, say) => {
    peer.range(1, 5).pipe(rx.mergeMap((x) => peer.of(x, -x)), peer.scan((a, b) => a + b, 0), rx.bufferCount(3), peer.concatMap((it) => rx.from(it)), rx.takeLast(2)).subscribe(all(say));
  }, ['5', '0', 'end']),
  'an observable of RxJS for each item': test((rx, say) => { rx.of(1).pipe(rx.switchMap((x) => peer.of(x, 2)), rx.toArray()).subscribe((it) => say(it)); }, [[1, 2]]),
  'ours for each item of RxJS': test((rx, say) => { peer.of(1).pipe(peer.switchMap((x) => rx.of(x, 2)), peer.toArray()).subscribe((it) => say(it)); }, [[1, 2]]),
  'its resource is released as ours is left': test((rx, say) => { rx.from(held(peer, say, peer.NEVER)).subscribe().unsubscribe(); }, ['released']),
  'our resource is released as its is left': test((rx, say) => { peer.from(held(rx, say, rx.NEVER)).subscribe().unsubscribe(); }, ['released']),
  'our resource is released at its end': test((rx, say) => { held(rx, say, rx.of(1)).pipe(peer.take(1)).subscribe(all(say)); }, ['1', 'end', 'released']),
  'its resource is released at our end': test((rx, say) => { held(peer, say, peer.of(1)).pipe(rx.take(1)).subscribe(all(say)); }, ['1', 'end', 'released']),
  'an error of RxJS': test((rx, say) => { rx.from(peer.throwError(() => new Error('no'))).pipe(rx.catchError((error) => peer.of(error.message))).subscribe(all(say)); }, ['no', 'end']),
  'takeUntil with a notifier of RxJS': test((rx, say) => { const s = new peer.Subject(), t = new rx.Subject(); t.pipe(rx.takeUntil(s)).subscribe(all(say)); t.next(1); s.next(); t.next(2); say(s.observed); }, ['1', 'end', false]),
  'its takeUntil with ours': test((rx, say) => { const s = new rx.Subject(), t = new peer.Subject(); t.pipe(peer.takeUntil(s)).subscribe(all(say)); t.next(1); s.next(); t.next(2); say(s.observed); }, ['1', 'end', false]),
  'our subject hears its observable': test((rx, say) => { const s = new rx.Subject(); s.subscribe(all(say)); peer.of(1).subscribe(s); }, ['1', 'end']),
  'its subject hears ours': test((rx, say) => { const s = new peer.Subject(); s.subscribe(all(say)); rx.of(1).subscribe(s); }, ['1', 'end']),
  'our share of its subject': test((rx, say) => {
    const s = new peer.Subject(), it = rx.from(s).pipe(rx.share()), a = it.subscribe(all(say, 'a ')), b = it.subscribe(all(say, 'b '));
    s.next(1); a.unsubscribe(); s.next(2); b.unsubscribe(); say(s.observed);
  }, ['a 1', 'b 1', 'b 2', false]),
  'its share of our subject': test((rx, say) => {
    const s = new rx.Subject(), it = s.pipe(peer.share()), a = it.subscribe(all(say, 'a ')), b = it.subscribe(all(say, 'b '));
    s.next(1); a.unsubscribe(); s.next(2); b.unsubscribe(); say(s.observed);
  }, ['a 1', 'b 1', 'b 2', false]),
  'subscriptions of both in one': test((rx, say) => {
    const a = new peer.Subscription(() => say('its')), b = new rx.Subscription(() => say('ours')), whole = new rx.Subscription(), other = new peer.Subscription();
    whole.add(a); other.add(b); whole.add(other); whole.unsubscribe();
    say([a.closed, b.closed, other.closed]);
  }, ['its', 'ours', [true, true, true]]),
  'both say what is an observable': test((rx, say) => { say([rx.isObservable(peer.EMPTY), peer.isObservable(rx.EMPTY)]); }, [[true, true]]),
  'its scheduler for ours': test((rx, say) => { const clock = new peer.VirtualTimeScheduler(); rx.interval(10, clock).pipe(rx.take(2)).subscribe(all(say)); clock.flush(); }, ['0', '1', 'end']),
  'our scheduler for its': test((rx, say) => { const clock = new rx.VirtualTimeScheduler(); peer.interval(10, clock).pipe(peer.take(2)).subscribe(all(say)); clock.flush(); }, ['0', '1', 'end']),
  'nothing of it stays open': test((rx, say) => {
    const { nodes, held: now } = rx.counts();
    for (let i = 0; i < 50; i++) {
      peer.merge(rx.interval(10), held(rx, () => {}, rx.NEVER)).pipe(rx.mergeMap(() => peer.NEVER), peer.takeUntil(rx.NEVER), rx.share(), peer.share()).subscribe().unsubscribe();
    }
    const then = rx.counts();
    say([then.nodes - nodes, then.held - now]);
  }, [[0, 0]]),
};
