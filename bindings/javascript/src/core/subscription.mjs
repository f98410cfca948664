import { realm } from '../engine/realm.mjs';
import { UnsubscriptionError } from './errors.mjs';
import { isFunction } from './util.mjs';

const NONE = [];
/** What one finalizer does: the list of errors, with what it threw; null while nothing was thrown. */
export function finalizeOne(finalizer, errors) {
  try {
    if (typeof finalizer === 'function') finalizer();
    else finalizer.unsubscribe();
  } catch (error) {
    if (error instanceof RangeError && finalizer._needsNone !== undefined && !finalizer.closed) { // for want of stack: nothing was done
      realm.engine.surely(() => finalizer.unsubscribe());
      return errors;
    }
    errors ??= [];
    if (error instanceof UnsubscriptionError) errors.push(...error.errors);
    else errors.push(error);
  }
  return errors;
}

/** A teardown of an operator: where nobody can hear any more it need not be done. */
export class Own {
  constructor(act) { this.act = act; }
  unsubscribe() { this.act(); }
}

/** A resource, or several: what is added to it is released with it, in order. */
export class Subscription {
  constructor(initialTeardown) {
    this.closed = false;
    this._parents = null; // one, or a list
    this._finalizers = null;
    this.initialTeardown = initialTeardown;
  }

  unsubscribe() { if (!this.closed) this._leave(); }
  _leave() {
    realm.engine.room(); // where there is none nothing has been changed
    this._ends();
  }
  _ends() {
    this.closed = true;
    const errors = this._finalized(null);
    if (errors !== null) throw new UnsubscriptionError(errors);
  }

  /** Leaves its parents and runs its finalizers; answers what they threw. Those below those are run without depth. */
  _finalized(errors) {
    if (this._parents === null && this.initialTeardown === undefined) { // as a subscription of a program has it
      const finalizers = this._finalizers;
      if (finalizers === null) return errors;
      if (finalizers.length === 1 && !(finalizers[0] instanceof Subscription)) {
        this._finalizers = null;
        return finalizeOne(finalizers[0], errors);
      }
    }
    return this._allFinalized(errors);
  }
  _allFinalized(errors) {
    let list, at = 0, lists = null;
    [list, errors] = this._emptied(errors);
    while (list !== null) {
      if (at === list.length) {
        if (lists === null || lists.length === 0) return errors;
        at = lists.pop();
        list = lists.pop();
        continue;
      }
      const it = list[at++];
      if (typeof it === 'function' || it.unsubscribe !== PLAIN.unsubscribe || it._leave !== PLAIN._leave) errors = finalizeOne(it, errors);
      else if (!it.closed) {
        it.closed = true;
        (lists ??= []).push(list, at);
        [list, errors] = it._emptied(errors);
        at = 0;
        list ??= NONE;
      }
    }
    return errors;
  }

  // Leaves its parents and does what it was made with; answers the finalizers that were added.
  _emptied(errors) {
    const parents = this._parents, { initialTeardown } = this;
    if (parents !== null) {
      this._parents = null;
      if (Array.isArray(parents)) for (const it of parents) it.remove(this);
      else parents.remove(this);
    }
    if (initialTeardown !== undefined) {
      this.initialTeardown = undefined;
      if (isFunction(initialTeardown)) errors = finalizeOne(initialTeardown, errors);
    }
    const finalizers = this._finalizers;
    this._finalizers = null;
    return [finalizers, errors];
  }

  /** Releases it with this one: at once, if this one is closed. */
  add(teardown) {
    if (!teardown || teardown === this) return;
    if (this.closed) {
      if (isFunction(teardown)) teardown();
      else teardown.unsubscribe();
      return;
    }
    if (teardown instanceof Subscription && !teardown._isNewTo(this)) return;
    if (this._finalizers === null) this._finalizers = [teardown];
    else this._finalizers.push(teardown);
  }

  _isNewTo(parent) {
    const parents = this._parents;
    if (this.closed || parents === parent) return false;
    if (parents === null) this._parents = parent;
    else if (!Array.isArray(parents)) this._parents = [parents, parent];
    else if (parents.includes(parent)) return false;
    else parents.push(parent);
    return true;
  }

  /** Forgets it, and releases nothing. */
  remove(teardown) {
    const finalizers = this._finalizers, at = finalizers === null ? -1 : finalizers.indexOf(teardown);
    if (at >= 0) finalizers.splice(at, 1);
    if (!(teardown instanceof Subscription)) return;
    const parents = teardown._parents;
    if (parents === this) teardown._parents = null;
    else if (Array.isArray(parents)) teardown._parents = parents.filter((it) => it !== this);
  }

  static EMPTY = (() => {
    const empty = new Subscription();
    empty.closed = true;
    return empty;
  })();
}

const { unsubscribe, _leave } = Subscription.prototype, PLAIN = { unsubscribe, _leave }; // as they are unless a program puts others in their place
export const isSubscription = (value) => value instanceof Subscription
  || (!!value && typeof value === 'object' && 'closed' in value && isFunction(value.remove) && isFunction(value.add) && isFunction(value.unsubscribe));
