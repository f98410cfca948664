// The classes as programs see them. Within the package the plain ones are used.
import { callable } from './core/callable.mjs';
import { Observable } from './core/observable.mjs';
import { ReplaySubject } from './core/replay-subject.mjs';
import { AsyncSubject, BehaviorSubject, Subject } from './core/subject.mjs';
import { Subscriber } from './core/subscriber.mjs';
import { Subscription } from './core/subscription.mjs';
import { Scheduler } from './schedulers/scheduler.mjs';

export const ObservableClass = /* @__PURE__ */ callable(Observable);
export const SubjectClass = /* @__PURE__ */ callable(Subject);
export const BehaviorSubjectClass = /* @__PURE__ */ callable(BehaviorSubject);
export const ReplaySubjectClass = /* @__PURE__ */ callable(ReplaySubject);
export const AsyncSubjectClass = /* @__PURE__ */ callable(AsyncSubject);
export const SubscriberClass = /* @__PURE__ */ callable(Subscriber);
export const SubscriptionClass = /* @__PURE__ */ callable(Subscription);
export const SchedulerClass = /* @__PURE__ */ callable(Scheduler);
