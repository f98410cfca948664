// Observables of items: windows, by other observables, by number, by time; and groups, by key.
import { Link } from '../core/link.mjs';
import { Observable } from '../core/observable.mjs';
import { operate } from '../core/operator.mjs';
import { Subject } from '../core/subject.mjs';
import { Own, Subscription } from '../core/subscription.mjs';
import { isFunction, noop, popScheduler } from '../core/util.mjs';
import { innerFrom } from '../sources/from.mjs';
import { asyncScheduler } from '../schedulers/async.mjs';
import { scheduleFor } from '../schedulers/schedule.mjs';

export const window = (boundaries) => operate((source, to) => {
  let now = new Subject();
  to.next(now.asObservable());
  const fails = (error) => {
    now.error(error);
    to.error(error);
  };
  source.subscribe(new Link(to, (value) => now?.next(value), () => {
    now.complete();
    to.complete();
  }, fails));
  const lets = () => {
    now?.unsubscribe();
    now = null;
  };
  innerFrom(boundaries).subscribe(new Link(to, () => {
    now.complete();
    to.next((now = new Subject()));
  }, noop, fails));
  return new Own(lets);
});

export function windowCount(size, startWindowEvery = 0) {
  const every = startWindowEvery > 0 ? startWindowEvery : size;
  return operate((source, to) => {
    let windows = [new Subject()], count = 0;
    to.next(windows[0].asObservable());
    source.subscribe(new Link(to, (value) => {
      for (const it of windows) it.next(value);
      const done = count - size + 1;
      if (done >= 0 && done % every === 0) windows.shift().complete();
      if (++count % every === 0) {
        const it = new Subject();
        windows.push(it);
        to.next(it.asObservable());
      }
    }, () => {
      while (windows.length) windows.shift().complete();
      to.complete();
    }, (error) => {
      while (windows.length) windows.shift().error(error);
      to.error(error);
    }, () => { windows = []; }));
  });
}

export function windowTime(span, ...words) {
  const scheduler = popScheduler(words) ?? asyncScheduler, every = words[0] ?? null, most = words[1] || Infinity;
  return operate((source, to) => {
    let records = [], restarts = false;
    const closes = (record) => {
      record.window.complete();
      record.subs.unsubscribe();
      records = records.filter((it) => it !== record);
      if (restarts) starts();
    };
    const starts = () => {
      if (to.closed) return;
      const subs = new Subscription(), record = { window: new Subject(), subs, seen: 0 };
      to.add(subs);
      records.push(record);
      to.next(record.window.asObservable());
      scheduleFor(subs, scheduler, () => closes(record), span);
    };
    if (every !== null && every >= 0) scheduleFor(to, scheduler, starts, every, true);
    else restarts = true;
    starts();
    const ends = (tell) => {
      for (const { window: it } of [...records]) tell(it);
      tell(to);
      to.unsubscribe();
    };
    source.subscribe(new Link(to, (value) => {
      for (const record of [...records]) {
        record.window.next(value);
        if (most <= ++record.seen) closes(record);
      }
    }, () => ends((it) => it.complete()), (error) => ends((it) => it.error(error))));
    return new Own(() => { records = []; });
  });
}

export const windowToggle = (openings, closingSelector) => operate((source, to) => {
  let windows = [];
  const fails = (error) => {
    while (windows.length) windows.shift().error(error);
    to.error(error);
  };
  innerFrom(openings).subscribe(new Link(to, (opening) => {
    const it = new Subject(), closings = new Subscription();
    windows.push(it);
    const closes = () => {
      windows = windows.filter((other) => other !== it);
      it.complete();
      closings.unsubscribe();
    };
    let notifier;
    try { notifier = innerFrom(closingSelector(opening)); } catch (error) { return fails(error); }
    to.next(it.asObservable());
    closings.add(notifier.subscribe(new Link(to, closes, noop, fails)));
  }, noop));
  source.subscribe(new Link(to, (value) => {
    for (const it of [...windows]) it.next(value);
  }, () => {
    while (windows.length) windows.shift().complete();
    to.complete();
  }, fails, () => {
    while (windows.length) windows.shift().unsubscribe();
  }));
  return undefined;
});

export const windowWhen = (closingSelector) => operate((source, to) => {
  let now = null, closes = null;
  const fails = (error) => {
    now.error(error);
    to.error(error);
  };
  const opens = () => {
    closes?.unsubscribe();
    now?.complete();
    now = new Subject();
    to.next(now.asObservable());
    let notifier;
    try { notifier = innerFrom(closingSelector()); } catch (error) { return fails(error); }
    return notifier.subscribe((closes = new Link(to, opens, opens, fails)));
  };
  opens();
  source.subscribe(new Link(to, (value) => now.next(value), () => {
    now.complete();
    to.complete();
  }, fails, () => {
    closes?.unsubscribe();
    now = null;
  }));
});

/** An observable for each key. The source is kept while a group is subscribed to. */
export function groupBy(keySelector, elementOrOptions, duration, connector) {
  let element = elementOrOptions;
  if (elementOrOptions && !isFunction(elementOrOptions)) ({ duration, element, connector } = elementOrOptions);
  return operate((source, to) => {
    const groups = new Map();
    const toAll = (tell) => {
      groups.forEach(tell);
      tell(to);
    };
    const fails = (error) => toAll((it) => it.error(error));
    const link = new Grouping(to, (value) => {
      try {
        const key = keySelector(value), group = groups.get(key) ?? opens(key);
        group.next(element ? element(value) : value);
      } catch (error) { fails(error); }
    }, () => toAll((it) => it.complete()), fails, () => groups.clear());
    const opens = (key) => {
      const group = connector ? connector() : new Subject(), grouped = link.observableOf(key, group);
      groups.set(key, group);
      to.next(grouped);
      if (duration) link.add(lasting(group, duration(grouped), () => groups.delete(key)));
      return group;
    };
    source.subscribe(link);
  });
}
/** A group ends with the first item of its duration. */
function lasting(group, duration, finalize) {
  const lasts = new Link(group, () => {
    group.complete();
    lasts.unsubscribe();
  }, undefined, undefined, finalize);
  return innerFrom(duration).subscribe(lasts);
}

/** The link of a source that is kept, once it has been left, while a group is subscribed to. */
class Grouping extends Link {
  many = 0; is_left = false;
  unsubscribe() {
    if (!this.isStopped) {
      this.is_left = true;
      if (this.many > 0) return;
    }
    super.unsubscribe();
  }
  observableOf(key, group) {
    const made = new Observable((subscriber) => {
      this.many++;
      const inner = group.subscribe(subscriber);
      return new Own(() => {
        inner.unsubscribe();
        if (--this.many === 0 && this.is_left) this.unsubscribe();
      });
    });
    made.key = key;
    return made;
  }
}
