// Observables that are connected by hand.
import { Link } from '../core/link.mjs';
import { Observable } from '../core/observable.mjs';
import { operate } from '../core/operator.mjs';
import { ReplaySubject } from '../core/replay-subject.mjs';
import { AsyncSubject, BehaviorSubject, Subject } from '../core/subject.mjs';
import { Own, Subscription } from '../core/subscription.mjs';
import { SafeSubscriber } from '../core/subscriber.mjs';
import { isFunction } from '../core/util.mjs';
import { defer } from '../sources/simple.mjs';
import { innerFrom } from '../sources/from.mjs';

/** An observable that subscribes to its source when it is told to, one connection at a time. */
export function connectable(source, config = {}) {
  const { connector = () => new Subject(), resetOnDisconnect = true } = config;
  let connection = null, subject = connector();
  const made = new Observable((subscriber) => subject.subscribe(subscriber));
  made.connect = () => {
    if (connection && !connection.closed) return connection;
    const mine = subject, it = connection = new SafeSubscriber({
      next: (value) => mine.next(value), error: (error) => mine.error(error), complete: () => mine.complete(),
    });
    if (resetOnDisconnect) it.add(new Own(() => { if (subject === mine) subject = connector(); }));
    defer(() => source).subscribe(it);
    return it;
  };
  return made;
}

export class ConnectableObservable extends Observable {
  _subject = null;
  _users = { many: 0 }; // who counts on the connection; others once that has ended
  _connection = null;

  constructor(source, subjectFactory) {
    super();
    this.source = source;
    this.subjectFactory = subjectFactory;
    if (isFunction(source?.lift)) this.lift = source.lift;
  }
  _open(at) { this.getSubject()._open(at); }
  _subscribe(subscriber) { return this.getSubject().subscribe(subscriber); }
  getSubject() {
    if (!this._subject || this._subject.isStopped) this._subject = this.subjectFactory();
    return this._subject;
  }
  get _refCount() { return this._users.many; }

  // A connection ends once, and what was connected anew since is left alone.
  _ended(connection) {
    if (this._connection !== connection) return;
    this._users = { many: 0 };
    this._subject = this._connection = null;
    connection.unsubscribe();
  }
  connect() {
    if (this._connection) return this._connection;
    const connection = this._connection = new Subscription(), subject = this.getSubject(), ends = () => this._ended(connection);
    // the source is released before its end is told, unless it ends as it is subscribed to
    const link = new Link(subject, undefined, () => {
      ends();
      subject.complete();
    }, (error) => {
      ends();
      subject.error(error);
    }, ends);
    link.asked = 'connection';
    connection.add(this.source.subscribe(link));
    return connection.closed ? Subscription.EMPTY : connection;
  }
  refCount() { return refCount()(this); }
}

export const refCount = () => operate((source, to) => {
  if (to.closed) return;
  const users = source._users;
  users.many++;
  const link = new Link(to, undefined, undefined, undefined, () => {
    if (--users.many > 0) return;
    if (users === source._users) source._connection?.unsubscribe();
    to.unsubscribe();
  });
  source.subscribe(link);
  if (!link.closed) source.connect();
});

export function multicast(subjectOrFactory, selector) {
  const factory = isFunction(subjectOrFactory) ? subjectOrFactory : () => subjectOrFactory;
  if (isFunction(selector)) return connect(selector, { connector: factory });
  return (source) => new ConnectableObservable(source, factory);
}
export const publish = (selector) => (source) => (selector ? connect(selector) : multicast(new Subject()))(source);
export const publishBehavior = (value) => (source) => {
  const subject = new BehaviorSubject(value);
  return new ConnectableObservable(source, () => subject);
};
export const publishLast = () => (source) => {
  const subject = new AsyncSubject();
  return new ConnectableObservable(source, () => subject);
};
export function publishReplay(size, windowTime, selectorOrClock, clock) {
  const selector = isFunction(selectorOrClock) ? selectorOrClock : undefined;
  if (selectorOrClock && !selector) clock = selectorOrClock;
  return (source) => multicast(new ReplaySubject(size, windowTime, clock), selector)(source);
}

export const connect = (selector, config = {}) => {
  const { connector = () => new Subject() } = config;
  return operate((source, to) => {
    const subject = connector();
    innerFrom(selector(subjectAsObservable(subject))).subscribe(to);
    const link = new SafeSubscriber({
      next: (value) => subject.next(value), error: (error) => subject.error(error), complete: () => subject.complete(),
    });
    to.add(link);
    source.subscribe(link);
  });
};
const subjectAsObservable = (subject) => new Observable((subscriber) => subject.subscribe(subscriber));
