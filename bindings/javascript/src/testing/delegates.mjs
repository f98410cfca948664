// What stands in the place of the platform's timers while a test scheduler runs.

/** Timers in virtual time: of what is due, what is for the next turn comes first, then intervals, then timeouts. */
export function timersOf(scheduler) {
  let last = 0;
  const waiting = new Map(), order = ['immediate', 'interval', 'timeout'];
  const add = (kind, act, duration, words) => {
    const handle = ++last;
    const it = { kind, due: scheduler.now() + duration, duration, handle, act: () => act(...words) };
    it.subscription = scheduler.schedule(run, duration);
    waiting.set(handle, it);
    return handle;
  };
  function run() {
    const now = scheduler.now(), due = [...waiting.values()].filter((it) => it.due <= now);
    for (const kind of order) {
      const it = due.find((one) => one.kind === kind);
      if (!it) continue;
      if (kind === 'interval') {
        it.due = now + it.duration;
        it.subscription = scheduler.schedule(run, it.duration);
      } else waiting.delete(it.handle);
      return it.act();
    }
    return undefined;
  }
  const clear = (handle) => {
    waiting.get(handle)?.subscription.unsubscribe();
    waiting.delete(handle);
  };
  const timer = (kind) => ({ set: (act, duration = 0, ...words) => add(kind, act, kind === 'immediate' ? 0 : duration, words), clear });
  return { immediates: timer('immediate'), intervals: timer('interval'), timeouts: timer('timeout') };
}

/** Frames at the times that a diagram says. */
export function animatorOf(scheduler, parse) {
  let last = 0, waiting = null;
  return {
    animate(marbles) {
      if (waiting) throw new Error('animate() must not be called more than once within run()');
      if (/[|#]/.test(marbles)) throw new Error('animate() must not complete or error');
      waiting = new Map();
      for (const { frame } of parse(marbles)) {
        scheduler.schedule(() => {
          const now = scheduler.now(), acts = [...waiting.values()];
          waiting.clear();
          for (const act of acts) act(now);
        }, frame);
      }
    },
    frames: {
      set(act) {
        if (!waiting) throw new Error('animate() was not called within run()');
        waiting.set(++last, act);
        return last;
      },
      clear(handle) {
        if (!waiting) throw new Error('animate() was not called within run()');
        waiting.delete(handle);
      },
    },
  };
}
