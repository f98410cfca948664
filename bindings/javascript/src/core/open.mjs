// What is open, by the engine's own account.
import { realm } from '../engine/realm.mjs';
import { placeOf } from '../engine/tracing.mjs';
import { enters, lones } from './lone.mjs';

/** How many nodes and resources are open, and how many came and went. */
export const counts = () => {
  const totals = realm.engine.totals();
  for (const it of lones.all()) {
    totals.nodes++;
    if (it.hears._finalizers === null) continue;
    totals.held++; // what it leaves with it
    totals.accepted++;
  }
  return totals;
};
/** The history of the engine, which the audit of the book reads; null if it has been cut. */
export const dump = () => realm.engine.dump();
/** Asks for the place in the program where each subscription is made. */
export const trace = (is_on = true) => {
  realm.engine.tracing = is_on;
  if (is_on) for (const it of lones.all()) if (it.hears._finalizers === null) enters(it); else it.hears._hold();
};
/** What is open: a program's subscriptions, and the package's own nodes; of each subscription the place where it was made, and the whole stack, if
 *  that was asked for. */
export const leaks = () => [...realm.engine.things().filter((it) => it.owed > 0 && 'hears' in it), ...lones.all()].map((it) => ({
  kind: it.hears && !it.hears._isInner ? 'subscription' : 'node', at: it.where ? shown(placeOf(it.where)) : null, stack: it.where?.stack ?? null,
}));
const shown = (place) => place && `${place.function ? `${place.function} ` : ''}${place.file}:${place.line}:${place.column}`;

/** What is open of what the program made since `trace()`: subscriptions, resources of `using`, finalizers and teardowns, each with the line
 *  that made it. */
export const made = () => realm.engine.things().filter((it) => it.where !== undefined)
  .map((it) => ({ what: it.what, place: placeOf(it.where), stack: it.where.stack, since: it.since, node: it.lo + it.hi * 2 ** 32 }));
/** Closes all that is open. */
export const close = () => realm.closes();
