import { failing } from './leaf.mjs';
import { Subscriber } from './subscriber.mjs';
import { finalizeOne } from './subscription.mjs';

/** Hears one observable for an operator, and is left with what it tells (`destination`). What its functions throw is an error there. */
export class Link extends Subscriber {
  constructor(destination, next, complete, error, finalize) {
    super(destination);
    this._onNext = next;
    this._onComplete = complete;
    this._onError = error;
    this._onFinalize = finalize;
    this.is_linked = false; // whether it was opened with the leaf that it tells
  }
  get _isInner() { return true; }
  _needsNone() { return this._onFinalize === undefined && super._needsNone(); }

  // What it does once it has left comes behind all that it held.
  _over() {
    if (this._onFinalize === undefined) this._hearing = 0;
    this.unsubscribe();
  }
  _finalized(errors) {
    errors = super._finalized(errors);
    const { _onFinalize } = this;
    if (_onFinalize === undefined) return errors;
    this._onFinalize = undefined;
    return finalizeOne(_onFinalize, errors);
  }
  _next(value) {
    const { destination, _onNext } = this;
    try {
      if (_onNext) _onNext(value); else destination.next(value);
    } catch (error) {
      if (!_onNext && !(error instanceof RangeError)) throw error;
      failing(destination, error);
    }
  }
  _error(error) {
    const { destination, _onError } = this;
    try {
      if (_onError) _onError(error); else destination.error(error);
    } catch (why) { failing(destination, why); } finally { this._over(); }
  }
  _complete() {
    const { destination, _onComplete } = this;
    try {
      if (_onComplete) _onComplete(); else destination.complete();
    } catch (error) { failing(destination, error); } finally { this._over(); }
  }
}
