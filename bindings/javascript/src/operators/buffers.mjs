// Lists of items, by other observables, by number, by time.
import { Link } from '../core/link.mjs';
import { operate } from '../core/operator.mjs';
import { Subscription } from '../core/subscription.mjs';
import { noop, popScheduler } from '../core/util.mjs';
import { innerFrom } from '../sources/from.mjs';
import { asyncScheduler } from '../schedulers/async.mjs';
import { scheduleFor } from '../schedulers/schedule.mjs';

export const buffer = (closingNotifier) => operate((source, to) => {
  let items = [];
  source.subscribe(new Link(to, (value) => items.push(value), () => {
    to.next(items);
    to.complete();
  }));
  innerFrom(closingNotifier).subscribe(new Link(to, () => {
    const told = items;
    items = [];
    to.next(told);
  }, noop));
});

export function bufferCount(bufferSize, startBufferEvery) {
  const every = startBufferEvery ?? bufferSize;
  return operate((source, to) => {
    let buffers = [], at = 0;
    source.subscribe(new Link(to, (value) => {
      if (at++ % every === 0) buffers.push([]);
      for (const it of buffers) it.push(value);
      const full = buffers.filter((it) => bufferSize <= it.length);
      buffers = buffers.filter((it) => bufferSize > it.length);
      for (const it of full) to.next(it);
    }, () => {
      for (const it of buffers) to.next(it);
      to.complete();
    }, undefined, () => { buffers = []; }));
  });
}

export function bufferTime(span, ...words) {
  const scheduler = popScheduler(words) ?? asyncScheduler, every = words[0] ?? null, most = words[1] || Infinity;
  return operate((source, to) => {
    let records = [], restarts = false;
    const emit = (record) => {
      record.subs.unsubscribe();
      records = records.filter((it) => it !== record);
      to.next(record.items);
      if (restarts) starts();
    };
    const starts = () => {
      if (to.closed) return;
      const subs = new Subscription(), record = { items: [], subs };
      to.add(subs);
      records.push(record);
      scheduleFor(subs, scheduler, () => emit(record), span);
    };
    if (every !== null && every >= 0) scheduleFor(to, scheduler, starts, every, true);
    else restarts = true;
    starts();
    const link = new Link(to, (value) => {
      for (const record of [...records]) {
        record.items.push(value);
        if (most <= record.items.length) emit(record);
      }
    }, () => {
      const left = records;
      records = [];
      for (const { items, subs } of left) {
        subs.unsubscribe();
        to.next(items);
      }
      link.unsubscribe();
      to.complete();
    }, undefined, () => { records = []; });
    source.subscribe(link);
  });
}

export const bufferToggle = (openings, closingSelector) => operate((source, to) => {
  let buffers = [];
  innerFrom(openings).subscribe(new Link(to, (opening) => {
    const items = [], closings = new Subscription();
    buffers.push(items);
    const closes = () => {
      buffers = buffers.filter((it) => it !== items);
      to.next(items);
      closings.unsubscribe();
    };
    closings.add(innerFrom(closingSelector(opening)).subscribe(new Link(to, closes, noop)));
  }, noop));
  source.subscribe(new Link(to, (value) => {
    for (const it of buffers) it.push(value);
  }, () => {
    while (buffers.length) to.next(buffers.shift());
    to.complete();
  }));
});

export const bufferWhen = (closingSelector) => operate((source, to) => {
  let items = null, closes = null;
  const opens = () => {
    closes?.unsubscribe();
    const told = items;
    items = [];
    if (told) to.next(told);
    innerFrom(closingSelector()).subscribe(closes = new Link(to, opens, noop));
  };
  opens();
  source.subscribe(new Link(to, (value) => items?.push(value), () => {
    if (items) to.next(items);
    to.complete();
  }, undefined, () => { items = closes = null; }));
});
