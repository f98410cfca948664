import { observeNotification } from '../core/notification.mjs';
import { Observable } from '../core/observable.mjs';
import { Subject } from '../core/subject.mjs';
import { Subscription } from '../core/subscription.mjs';
import { SubscriptionLog } from './marbles.mjs';

// Who subscribed when, and until when.
const logging = (self) => {
  const { scheduler, subscriptions } = self, at = subscriptions.push(new SubscriptionLog(scheduler.now())) - 1;
  return new Subscription(() => { subscriptions[at] = new SubscriptionLog(subscriptions[at].subscribedFrame, scheduler.now()); });
};

/** Tells its messages anew to each that subscribes. */
export class ColdObservable extends Observable {
  subscriptions = [];
  constructor(messages, scheduler) {
    super((subscriber) => {
      const subscription = logging(this);
      for (const { frame, notification } of messages) {
        subscriber.add(scheduler.schedule(() => observeNotification(notification, subscriber), frame));
      }
      return subscription;
    });
    this.messages = messages;
    this.scheduler = scheduler;
  }
}

/** Tells its messages whether somebody hears them or not. */
export class HotObservable extends Subject {
  subscriptions = [];
  constructor(messages, scheduler) {
    super();
    this.messages = messages;
    this.scheduler = scheduler;
  }
  _subscribe(subscriber) {
    const subscription = logging(this);
    subscription.add(super._subscribe(subscriber));
    return subscription;
  }
  setup() {
    for (const { frame, notification } of this.messages) this.scheduler.schedule(() => observeNotification(notification, this), frame);
  }
}
