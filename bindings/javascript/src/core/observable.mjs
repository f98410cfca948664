import { realm } from '../engine/realm.mjs';
import { farther, taking } from '../engine/tracing.mjs';
import { config, inContext } from './config.mjs';
import { Link } from './link.mjs';
import { isAsked, isLeft, openLeaf, unopenedAt } from './place.mjs';
import { SafeSubscriber, Subscriber, isSubscriber } from './subscriber.mjs';
import { Leaf, failing } from './leaf.mjs';
import { isFunction, observable, pipeFromArray } from './util.mjs';

/** What tells items over time to each that subscribes. */
export class Observable {
  constructor(subscribe) { if (subscribe) this._subscribe = subscribe; }

  static create(subscribe) { return new Observable(subscribe); }

  lift(operator) {
    const made = new Observable();
    made.source = this;
    made.operator = operator;
    return made;
  }

  subscribe(observerOrNext, error, complete) {
    const is_one = typeof observerOrNext !== 'function' && isSubscriber(observerOrNext);
    const subscriber = is_one ? observerOrNext : new SafeSubscriber(observerOrNext, error, complete);
    const is_new = !is_one || (subscriber instanceof Subscriber && !subscriber._used && !(subscriber instanceof Leaf));
    const root = is_new ? subscriber : new Link(subscriber);
    root._used = true;
    if (realm.engine.tracing) {
      const limit = taking(subscriber !== observerOrNext), where = isAsked(root) ? new Error('subscribed here') : null;
      Error.stackTraceLimit = limit;
      this._opensFrom(where, root);
    } else this._opens(root);
    return subscriber;
  }

  // What is made before a command is given, or something else is subscribed to, came of this line.
  _opensFrom(where, root) {
    const { engine } = realm, outer = engine.line;
    engine.line = where;
    try { this._opens(root); } finally { engine.line = outer; }
  }
  _opens(root) {
    if (config.useDeprecatedSynchronousErrorHandling) inContext(() => this._open(root));
    else this._open(root);
  }

  /** Opens this observable at a place of a tree. */
  _open(at) {
    const { operator, source } = this;
    if (operator && operator.opens) return operator.opens(at, source);
    const leaf = openLeaf(at);
    if (leaf === null || (leaf.closed && !isLeft(leaf))) return;
    const teardown = operator ? this._called(operator, leaf, source) : source ? this._passed(leaf) : this._trySubscribe(leaf);
    if (teardown) holds(leaf, teardown);
  }

  _called(operator, leaf, source) {
    try { return operator.call(leaf, source); } catch (error) { failing(leaf, error); }
  }
  _passed(leaf) {
    try { return this._subscribe(leaf); } catch (error) { unopenedAt(leaf, error); }
  }
  _trySubscribe(leaf) {
    try { return this._subscribe(leaf); } catch (error) { failing(leaf, error); }
  }
  _subscribe(subscriber) { return this.source?.subscribe(subscriber); }

  forEach(next, promiseCtor) {
    return new (promiseOf(promiseCtor))((resolve, reject) => {
      const subscriber = new SafeSubscriber({
        next: (value) => {
          try { next(value); } catch (error) {
            reject(error);
            subscriber.unsubscribe();
          }
        },
        error: reject,
        complete: resolve,
      });
      this.subscribe(subscriber);
    });
  }

  pipe(...operators) { return pipeFromArray(operators)(this); }

  toPromise(promiseCtor) {
    return new (promiseOf(promiseCtor))((resolve, reject) => {
      let value;
      farther(() => this.subscribe((it) => (value = it), reject, () => resolve(value)));
    });
  }

  [observable]() { return this; }
}

/** A source's teardown. That of a source which has ended is done at once: what it throws goes to the program's line that subscribes, or else is
 *  reported, since who heard the end hears no error behind it. */
function holds(leaf, teardown) {
  try { leaf.add(teardown); } catch (error) {
    if (error instanceof RangeError || !(leaf.hears ?? leaf).closed || isOfLine(leaf)) throw error;
    realm.engine.report(error);
  }
}
function isOfLine(leaf) {
  let root = leaf;
  while (root.above !== null) root = root.above;
  return root.hears !== null && isAsked(root.hears);
}
const promiseOf = (given) => given ?? config.Promise ?? Promise;
export const isOurs = (value) => !!value && isFunction(value._open) && isFunction(value.lift);
export const isObservable = (value) => !!value && (value instanceof Observable || (isFunction(value.lift) && isFunction(value.subscribe)));
