import { realm } from '../engine/realm.mjs';
import { traced } from '../engine/tracing.mjs';
import { LEFT, openAt, openUsing } from '../core/place.mjs';
import { operator } from '../core/operator.mjs';
import { Resource } from '../core/subscriber.mjs';

/** Calls it once, however each subscription comes to its end: a resource of the engine. */
export const finalize = (callback) => operator((at, source) => {
  const tag = traced(new Resource(callback), 'finalizer');
  let below = null;
  // called where no node can be opened too: the place has closed, or there is no room
  try { below = openUsing(at, tag); } finally { if (below === null) realm.engine.surely(() => tag.release()); }
  if (below === null) return;
  openAt(source, below);
  if (below._above === LEFT) tag.release();
});
