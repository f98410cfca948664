// Timers and clocks, taken from the platform each time that they are needed, since programs put others in their place.
// A test scheduler puts its own here, as `delegate`.

const provider = (set, clear) => ({
  delegate: undefined,
  set(...words) { return (this.delegate?.set ?? set)(...words); },
  clear(handle) { return (this.delegate?.clear ?? clear)(handle); },
});

export const timeouts = /* @__PURE__ */ provider((...words) => globalThis.setTimeout(...words), (handle) => globalThis.clearTimeout(handle));
export const intervals = /* @__PURE__ */ provider((...words) => globalThis.setInterval(...words), (handle) => globalThis.clearInterval(handle));

// What comes before the next turn: by promises.
let nextHandle = 1;
const waiting = new Set();
export const immediates = /* @__PURE__ */ provider((act) => {
  const handle = nextHandle++;
  waiting.add(handle);
  Promise.resolve().then(() => waiting.delete(handle) && act());
  return handle;
}, (handle) => { waiting.delete(handle); });

export const frames = {
  delegate: undefined,
  set(act) { return (this.delegate?.set ?? globalThis.requestAnimationFrame)(act); },
  clear(handle) { return (this.delegate?.clear ?? globalThis.cancelAnimationFrame)(handle); },
};
export const dates = { delegate: undefined, now() { return (this.delegate ?? Date).now(); } };
export const moments = { delegate: undefined, now() { return (this.delegate ?? performance).now(); } };
export const provided = { setTimeout: (...words) => timeouts.set(...words) };
