import { EMPTY, of, throwError } from '../sources/simple.mjs';
import { isFunction } from './util.mjs';

export const NotificationKind = { NEXT: 'N', ERROR: 'E', COMPLETE: 'C' };

export const nextNotification = (value) => ({ kind: 'N', value, error: undefined });
export const errorNotification = (error) => ({ kind: 'E', value: undefined, error });
export const COMPLETE_NOTIFICATION = { kind: 'C', value: undefined, error: undefined };

/** Tells an observer what a notification says. */
export function observeNotification(notification, observer) {
  const { kind, value, error } = notification;
  if (typeof kind !== 'string') throw new TypeError('Invalid notification, missing "kind"');
  if (kind === 'N') observer.next?.(value);
  else if (kind === 'E') observer.error?.(error);
  else observer.complete?.();
}

/** What an observer is told, as a value. */
export class Notification {
  constructor(kind, value, error) {
    this.kind = kind;
    this.value = value;
    this.error = error;
    this.hasValue = kind === 'N';
  }
  observe(observer) { return observeNotification(this, observer); }
  do(next, error, complete) {
    const { kind } = this;
    return kind === 'N' ? next?.(this.value) : kind === 'E' ? error?.(this.error) : complete?.();
  }
  accept(nextOrObserver, error, complete) {
    return isFunction(nextOrObserver?.next) ? this.observe(nextOrObserver) : this.do(nextOrObserver, error, complete);
  }
  toObservable() {
    const { kind, value, error } = this;
    if (kind === 'N') return of(value);
    if (kind === 'E') return throwError(() => error);
    if (kind === 'C') return EMPTY;
    throw new TypeError(`Unexpected notification kind ${kind}`);
  }
  static createNext(value) { return new Notification('N', value); }
  static createError(error) { return new Notification('E', undefined, error); }
  static createComplete() { return Notification.#completion; }
  static #completion = new Notification('C');
}
