// Small functions that many modules need.

export const noop = () => {};
export const identity = (value) => value;
export const isFunction = (value) => typeof value === 'function';
export const isScheduler = (value) => !!value && isFunction(value.schedule);
export const lastOf = (list) => list[list.length - 1];
export const popScheduler = (words) => (isScheduler(lastOf(words)) ? words.pop() : undefined);
export const popFunction = (words) => (isFunction(lastOf(words)) ? words.pop() : undefined);
export const popNumber = (words, other) => (typeof lastOf(words) === 'number' ? words.pop() : other);
/** The list itself, where a list is the only argument. */
export const flatList = (words) => (words.length === 1 && Array.isArray(words[0]) ? words[0] : words);
/** Inputs of a list or of an object, and what makes an object of values again. */
export function inputsOf(words) {
  if (words.length === 1) {
    const [first] = words;
    if (Array.isArray(first)) return { inputs: first, keys: null };
    if (first && typeof first === 'object' && Object.getPrototypeOf(first) === Object.prototype) {
      const keys = Object.keys(first);
      return { inputs: keys.map((key) => first[key]), keys };
    }
  }
  return { inputs: words, keys: null };
}
export const objectOf = (keys, values) => keys.reduce((made, key, i) => ((made[key] = values[i]), made), {});
/** A function of several values out of one of a list. */
export const spreading = (call) => (words) => (Array.isArray(words) ? call(...words) : call(words));

export function pipe(...operators) { return pipeFromArray(operators); }
export function pipeFromArray(operators) {
  if (operators.length === 0) return identity;
  if (operators.length === 1) return operators[0];
  return (source) => operators.reduce((it, operator) => operator(it), source);
}
export const observable = (typeof Symbol === 'function' && Symbol.observable) || '@@observable';
