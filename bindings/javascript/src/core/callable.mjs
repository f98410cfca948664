/** A class that older classes may extend too, which call it without `new`. */
export function callable(made) {
  const seen = new Proxy(made, {
    apply: (target, self, words) => Reflect.construct(target, words, Object.getPrototypeOf(self)?.constructor ?? target),
    // what is made with a proxy for its class has a shape of its own, and is slow
    construct: (target, words, whose) => Reflect.construct(target, words, whose === seen ? target : whose),
  });
  Object.defineProperty(made.prototype, 'constructor', { value: seen, writable: true, configurable: true });
  return seen;
}
