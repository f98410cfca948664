// Leaves out of a history the hubs that nothing in it names: at its first share an engine makes all that it has, 1,024, each of them an event.

// The place of another event stands behind a word; behind "error" it is a code. A history is read as a text, since its numbers are of 64 bits.
const PLACE = /("(?!error)\w+",)(\d+)/g;

/** The history and the names of its places, as `rxbook picture` takes them, with the places counted anew. The audit judges both alike: where an engine
 *  makes hubs no event is forced, and no rule looks at these. */
export function withoutUnusedHubs(dump, names) {
  const used = new Set(Array.from(dump.matchAll(PLACE), (it) => Number(it[2]))), places = new Map();
  const kept = (dump.match(/\[[^[\]]+\]/g) ?? []).filter((event, place) => {
    const stays = !event.startsWith('["hub"') || used.has(place);
    if (stays) places.set(place, places.size);
    return stays;
  });
  const events = kept.map((event) => event.replace(PLACE, (_, word, place) => word + places.get(Number(place))));
  const named = Object.entries(names).filter(([place]) => places.has(Number(place))).map(([place, name]) => [places.get(Number(place)), name]);
  return `{"dump":[${events}],"names":${JSON.stringify(Object.fromEntries(named))}}`;
}
