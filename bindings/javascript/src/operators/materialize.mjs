import { staged } from '../core/operator.mjs';
import { Notification, observeNotification } from '../core/notification.mjs';
import { Hooked } from './ends.mjs';

class Materialize extends Hooked {
  onNext(value, leaf) { this.up.next(Notification.createNext(value), leaf); }
  onError(error, leaf) { this.answers(Notification.createError(error), leaf); }
  onComplete(leaf) { this.answers(Notification.createComplete(), leaf); }
}
export const materialize = () => staged((up) => new Materialize(up));

class Dematerialize extends Hooked {
  onNext(notification, leaf) {
    const { up } = this;
    try {
      observeNotification(notification, {
        next: (value) => up.next(value, leaf), error: (error) => up.error(error, leaf), complete: () => up.complete(leaf),
      });
    } catch (error) { up.error(error, leaf); }
  }
}
export const dematerialize = () => staged((up) => new Dematerialize(up));
