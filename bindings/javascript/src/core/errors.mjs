// The errors that operators make. A bundle has those that it can come to: a call that is marked pure may be left out.

const named = (name, message) => {
  const Made = class extends Error {
    constructor(...words) {
      super(typeof message === 'function' ? message(...words) : message);
      this.name = name;
    }
  };
  Object.defineProperty(Made, 'name', { value: name });
  return Made;
};

export const ArgumentOutOfRangeError = /* @__PURE__ */ named('ArgumentOutOfRangeError', 'argument out of range');
export const EmptyError = /* @__PURE__ */ named('EmptyError', 'no elements in sequence');
export const NotFoundError = /* @__PURE__ */ named('NotFoundError', (message) => message);
export const ObjectUnsubscribedError = /* @__PURE__ */ named('ObjectUnsubscribedError', 'object unsubscribed');
export const SequenceError = /* @__PURE__ */ named('SequenceError', (message) => message);

/** No item came in time; `info` says which were told before. */
export class TimeoutError extends Error {
  constructor(info = null) {
    super('Timeout has occurred');
    this.name = 'TimeoutError';
    this.info = info;
  }
}

/** What finalizers threw, all of them. */
export class UnsubscriptionError extends Error {
  constructor(errors) {
    super(errors ? `${errors.length} errors occurred during unsubscription:\n${errors.map((it, i) => `${i + 1}) ${it}`).join('\n  ')}` : undefined);
    this.name = 'UnsubscriptionError';
    this.errors = errors;
  }
}
