export {
  AsyncSubjectClass as AsyncSubject, BehaviorSubjectClass as BehaviorSubject, ObservableClass as Observable, ReplaySubjectClass as ReplaySubject,
  SchedulerClass as Scheduler, SubjectClass as Subject, SubscriberClass as Subscriber, SubscriptionClass as Subscription,
} from './classes.mjs';
export { isObservable } from './core/observable.mjs';
export { Notification, NotificationKind } from './core/notification.mjs';
export { noop, identity, pipe, observable } from './core/util.mjs';
export { config } from './core/config.mjs';
export { firstValueFrom, lastValueFrom } from './core/promises.mjs';
export {
  ArgumentOutOfRangeError, EmptyError, NotFoundError, ObjectUnsubscribedError, SequenceError, TimeoutError, UnsubscriptionError,
} from './core/errors.mjs';
export { async, asyncScheduler } from './schedulers/async.mjs';
export { queue, queueScheduler } from './schedulers/queue.mjs';
export { animationFrame, animationFrameScheduler, asap, asapScheduler } from './schedulers/turns.mjs';
export { VirtualAction, VirtualTimeScheduler } from './schedulers/virtual.mjs';
export { scheduled } from './schedulers/scheduled.mjs';
export { from } from './sources/from.mjs';
export { EMPTY, NEVER, defer, empty, generate, iif, never, of, pairs, range, throwError, using } from './sources/simple.mjs';
export { animationFrames } from './sources/animation-frames.mjs';
export { combineLatest, concat, forkJoin, merge, partition, race, zip } from './sources/combining.mjs';
export { bindCallback, bindNodeCallback, fromEvent, fromEventPattern } from './sources/events.mjs';
export { interval, timer } from './sources/timer.mjs';
export { onErrorResumeNext } from './sources/on-error-resume-next.mjs';
export { ConnectableObservable, connectable } from './operators/connecting.mjs';
export { counts, dump, trace, leaks, close } from './core/open.mjs';
export * from './piped.mjs';
