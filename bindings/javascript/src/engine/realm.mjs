// One engine for a realm, however often and in whichever form the package is loaded.
import { Crossing } from './crossing.mjs';

const KEY = Symbol.for('cellarcliff.realm.1');

export const realm = globalThis[KEY] ??= {
  engine: null,
  report: null, // where an error goes that nobody hears
  lones: null, // the roots that need no engine
  /** Makes the engine of its module and of the one between, unless another copy of the package has made it. */
  start(module, glue) {
    if (this.engine) return;
    this.make = () => new Crossing(new WebAssembly.Instance(module).exports, glue, this);
    this.engine = this.make();
    atTheEnd(() => { if (this.engine.dead === null) this.closes(); else this.lones?.leave(this.lones.all()); });
  },
  /** Closes all that is open, what stands above first: no root of the engine stands below one that needs none. */
  closes() {
    const lones = this.lones?.all() ?? [];
    this.engine.shut();
    this.lones?.leave(lones);
  },
  /** Has another engine in the place of this one, which is dead. */
  renews(dead) {
    if (this.engine !== dead) return;
    const made = this.make();
    made.tracing = dead.tracing;
    this.engine = made;
  },
};

/** Does it at the end of a process or of a page, where the platform tells of that: not of a page that is kept to be shown again. */
function atTheEnd(act) {
  if (typeof process === 'object' && typeof process.on === 'function' && process.versions?.node) process.on('exit', act);
  else if (typeof document === 'object' && typeof addEventListener === 'function') addEventListener('pagehide', (event) => { if (!event.persisted) act(); });
}
