// RxJS in the package's manner. A subject: what is told from within comes behind what is being told, to each who hears it; and whoever is being told
// something hears the rest as soon as that has returned. And what is released before something follows.

/** One who hears, an item at a time; with a place, of whose function it hears until that has returned. */
class Leaf {
  constructor(to, place = []) { Object.assign(this, { to, place, is_busy: false, waiting: [] }); }
  tells(act) {
    this.waiting.push(act);
    while (!this.is_busy && this.waiting.length) this.hears(this.waiting.shift());
  }
  hears(act) {
    this.is_busy = true;
    this.place.push(this);
    try { act(this.to); } finally {
      this.is_busy = false;
      this.place.pop();
    }
  }
  next(value) { this.tells((to) => to.next(value)); }
  error(error) { this.tells((to) => to.error(error)); }
  complete() { this.tells((to) => to.complete()); }
}

/** What is told to somebody who is being told something waits for that. */
export const waiting = (rx, place) => (source) => new rx.Observable((to) => source.subscribe(new Leaf(to, place)));

/** `finalize` that is known before its source is subscribed to. */
export const finalizing = (rx) => (act) => (source) => new rx.Observable((to) => {
  to.add(act);
  return source.subscribe(to);
});
/** What it has is released before its end is told. */
export const releasing = (rx) => (source) => new rx.Observable((to) => {
  const ends = (act) => { whole.unsubscribe(); act(); };
  const whole = new rx.Subscriber({ next: (value) => to.next(value), error: (error) => ends(() => to.error(error)), complete: () => ends(() => to.complete()) });
  to.add(whole);
  source.subscribe(whole);
});

/** What it tells each who comes, of what it told before. */
function remembered(subject) {
  const told = [];
  subject.subscribe((value) => told.push(value)).unsubscribe();
  return told;
}
/** Over a subject, which remembers what its kind does; each who hears it waits for itself, or does not. */
export function inLeaves(rx, subject, waits) {
  const leaves = [], telling = [], is_last = subject instanceof rx.AsyncSubject;
  const goesOn = () => {
    while (telling.length) {
      const it = telling[0];
      try { while (it.at < it.leaves.length) it.act(it.leaves[it.at++]); } finally { if (telling[0] === it) telling.shift(); }
    }
  };
  const tells = (remember, act) => {
    if (subject.isStopped) return;
    remember();
    telling.push({ act, leaves: [...leaves], at: 0 });
    goesOn();
  };
  const ends = (remember, act) => {
    goesOn();
    tells(remember, act);
  };
  const made = new rx.Observable((to) => {
    const leaf = waits ? new Leaf(to) : to;
    if (subject.isStopped) return subject.subscribe(leaf);
    leaves.push(leaf);
    to.add(() => { const at = leaves.indexOf(leaf); if (at >= 0) leaves.splice(at, 1); });
    if (!is_last) for (const value of remembered(subject)) if (!to.closed) leaf.next(value);
  });
  return Object.assign(made, {
    next: (value) => tells(() => subject.next(value), (leaf) => { if (!is_last) leaf.next(value); }),
    error: (error) => ends(() => subject.error(error), (leaf) => leaf.error(error)),
    complete: () => ends(() => subject.complete(), (leaf) => {
      if (is_last) for (const value of remembered(subject)) leaf.next(value);
      leaf.complete();
    }),
  });
}
