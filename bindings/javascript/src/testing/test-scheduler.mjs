import { COMPLETE_NOTIFICATION, errorNotification, nextNotification } from '../core/notification.mjs';
import { Observable } from '../core/observable.mjs';
import { dates, frames, immediates, intervals, moments, timeouts } from '../schedulers/providers.mjs';
import { VirtualAction, VirtualTimeScheduler } from '../schedulers/virtual.mjs';
import { animatorOf, timersOf } from './delegates.mjs';
import { messagesOf, subscriptionsOf } from './marbles.mjs';
import { ColdObservable, HotObservable } from './observables.mjs';
import { farther } from '../engine/tracing.mjs';

const MAX_FRAMES = 750;
const PROVIDERS = { dates, frames, immediates, intervals, moments, timeouts };

/** Virtual time with marble diagrams; what is expected is compared by a function of the program's. */
export class TestScheduler extends VirtualTimeScheduler {
  static frameTimeFactor = 10;
  hotObservables = [];
  coldObservables = [];
  flushTests = [];
  runMode = false;

  constructor(assertDeepEqual) {
    super(VirtualAction, MAX_FRAMES);
    this.assertDeepEqual = assertDeepEqual;
  }

  createTime(marbles) {
    const messages = this.runMode ? this.#parse(marbles.trim()) : null;
    const at = this.runMode ? messages.find((it) => it.notification.kind === 'C')?.frame ?? -1 : marbles.indexOf('|');
    if (at === -1) throw new Error('marble diagram for time should have a completion marker "|"');
    return this.runMode ? at : at * TestScheduler.frameTimeFactor;
  }
  createColdObservable(marbles, values, error) {
    if (marbles.includes('^')) throw new Error('cold observable cannot have subscription offset "^"');
    if (marbles.includes('!')) throw new Error('cold observable cannot have unsubscription marker "!"');
    const cold = new ColdObservable(this.#parse(marbles, values, error), this);
    this.coldObservables.push(cold);
    return cold;
  }
  createHotObservable(marbles, values, error) {
    if (marbles.includes('!')) throw new Error('hot observable cannot have unsubscription marker "!"');
    const hot = new HotObservable(this.#parse(marbles, values, error), this);
    this.hotObservables.push(hot);
    return hot;
  }

  #parse(marbles, values, error, valueOf) { return TestScheduler.parseMarbles(marbles, values, error, valueOf, this.runMode); }

  // What an observable tells, into a list; of an observable that it tells, what that tells, from then on.
  #recorded(observable, list, from = 0) {
    const push = (notification) => list.push({ frame: this.frame - from, notification });
    return farther(() => observable.subscribe({
      next: (value) => {
        if (value instanceof Observable) {
          const inner = [];
          this.#recorded(value, inner, this.frame);
          value = inner;
        }
        push(nextNotification(value));
      },
      error: (error) => push(errorNotification(error)),
      complete: () => push(COMPLETE_NOTIFICATION),
    }));
  }

  expectObservable(observable, subscriptionMarbles = null) {
    const actual = [], test = { actual, ready: false };
    const { subscribedFrame, unsubscribedFrame } = TestScheduler.parseMarblesAsSubscriptions(subscriptionMarbles, this.runMode);
    const from = subscribedFrame === Infinity ? 0 : subscribedFrame;
    let subscription;
    this.schedule(() => { subscription = this.#recorded(observable, actual); }, from);
    if (unsubscribedFrame !== Infinity) this.schedule(() => subscription.unsubscribe(), unsubscribedFrame);
    this.flushTests.push(test);
    return {
      toBe: (marbles, values, error) => {
        test.ready = true;
        test.expected = this.#parse(marbles, values, error, true);
      },
      toEqual: (other) => {
        test.ready = true;
        test.expected = [];
        this.schedule(() => { subscription = this.#recorded(other, test.expected); }, from);
      },
    };
  }

  expectSubscriptions(actualSubscriptionLogs) {
    const test = { actual: actualSubscriptionLogs, ready: false };
    this.flushTests.push(test);
    return {
      toBe: (marblesOrList) => {
        test.ready = true;
        test.expected = (typeof marblesOrList === 'string' ? [marblesOrList] : marblesOrList)
          .map((it) => TestScheduler.parseMarblesAsSubscriptions(it, this.runMode)).filter((it) => it.subscribedFrame !== Infinity);
      },
    };
  }

  flush() {
    while (this.hotObservables.length) this.hotObservables.shift().setup();
    super.flush();
    this.flushTests = this.flushTests.filter((test) => {
      if (test.ready) this.assertDeepEqual(test.actual, test.expected);
      return !test.ready;
    });
  }

  static parseMarblesAsSubscriptions(marbles, runMode = false) { return subscriptionsOf(marbles, runMode, this.frameTimeFactor); }
  static parseMarbles(marbles, values, errorValue, materializeInnerObservables = false, runMode = false) {
    const valueOf = (it) => (materializeInnerObservables && it instanceof ColdObservable ? it.messages : it);
    return messagesOf(marbles, values, errorValue, valueOf, runMode, this.frameTimeFactor);
  }

  /** Runs a test in virtual time: timers, clocks and frames are this scheduler's meanwhile. */
  run(callback) {
    const before = TestScheduler.frameTimeFactor, { maxFrames } = this;
    TestScheduler.frameTimeFactor = 1;
    this.maxFrames = Infinity;
    this.runMode = true;
    const animator = animatorOf(this, (marbles) => this.#parse(marbles)), timers = timersOf(this);
    const places = { ...timers, frames: animator.frames, dates: this, moments: this };
    for (const [name, it] of Object.entries(places)) PROVIDERS[name].delegate = it;
    try {
      const answer = callback({
        cold: this.createColdObservable.bind(this), hot: this.createHotObservable.bind(this), flush: this.flush.bind(this),
        time: this.createTime.bind(this), expectObservable: this.expectObservable.bind(this),
        expectSubscriptions: this.expectSubscriptions.bind(this), animate: animator.animate,
      });
      this.flush();
      return answer;
    } finally {
      TestScheduler.frameTimeFactor = before;
      this.maxFrames = maxFrames;
      this.runMode = false;
      for (const name of Object.keys(places)) PROVIDERS[name].delegate = undefined;
    }
  }
}
