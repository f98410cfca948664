// What a report says: what is open, by the lines that made it, and how that grew.
import { relative } from 'node:path';
import { withoutUnusedHubs } from './hubs.mjs';

const began = Date.now(), counted = new Map(), below = [];
let reports = 0;

// Whether these only grow from report to report.
const grow = (counts) => counts.length > 1 && counts[counts.length - 1] > counts[0] && counts.every((it, i) => i === 0 || it >= counts[i - 1]);

const near = (file) => {
  const found = relative(process.cwd(), file);
  return found.startsWith('..') ? file : found;
};
const lineOf = (place) => (place === null ? 'a place that no stack tells' : `${near(place.file)}:${place.line}`);
const seconds = (from) => ((Date.now() - from) / 1000).toFixed(1);

/** Rows of what is open, one for what a line made, whatever the stack calls the function there: first what only grows, then what there is most of. A
 *  teardown of a subscription that is told already is not told again. */
function rows(open) {
  const groups = new Map(), subscribed = new Set(open.filter((it) => it.what === 'subscription').map((it) => lineOf(it.place)));
  for (const it of open) {
    const line = lineOf(it.place), name = `${it.what}, made at ${line}`;
    if (it.what === 'teardown' && subscribed.has(line)) continue;
    if (!groups.has(name)) groups.set(name, []);
    groups.get(name).push(it);
  }
  reports++;
  for (const name of new Set([...groups.keys(), ...counted.keys()])) {
    if (!counted.has(name)) counted.set(name, Array(reports - 1).fill(0));
    counted.get(name).push(groups.get(name)?.length ?? 0);
  }
  const found = [...groups].map(([name, its]) => {
    const counts = counted.get(name).slice(-6), many = its.length, grows = grow(counts), [{ what, place }] = its;
    const words = `${many} ${what}${many > 1 ? 's' : ''}, made at ${lineOf(place)}${place?.function ? ` in ${place.function}` : ''}`;
    const since = `${many > 1 ? 'the oldest ' : ''}for ${seconds(Math.min(...its.map((it) => it.since)))} s`;
    return { grows, many, text: `${grows ? 'GROWS ' : ''}${words}, ${since}${counts.length > 1 ? ` (at each report: ${counts.join(', ')})` : ''}` };
  });
  return found.sort((a, b) => b.grows - a.grows || b.many - a.many);
}

/** The report on what is open, as a text; `nodes` counts those of the engine. */
export function reported(open, isWhole, nodes) {
  const found = rows(open), many = found.reduce((sum, it) => sum + it.many, 0);
  const head = `cellarcliff/watch: after ${seconds(began)} s ${many ? `${many} of what the program made ${many > 1 ? 'are' : 'is'} open` : 'nothing that the program made is open'}`;
  below.splice(0, below.length - 5);
  below.push(nodes);
  const held = grow(below) && !found.some((it) => it.grows) ? [`GROWS what stands below these (nodes at each report: ${below.join(', ')})`] : [];
  const tail = isWhole ? [] : ['the engine made a checkpoint, so the history is not whole: this is made of what is open'];
  return `${[head, ...found.map((it) => it.text), ...held, ...tail].join('\n  ')}\n`;
}

/** The history with the lines of the program as names, for `rxbook picture`; null where it is not whole. */
export function named(history, open) {
  if (history === null) return null;
  const text = new TextDecoder().decode(history), names = {}, events = JSON.parse(text);
  for (const it of open) {
    if (it.place === null) continue;
    const label = `${it.place.file.split('/').pop()}:${it.place.line}`;
    if (it.what === 'subscription') names[it.node] = label;
    else if (events[it.node]?.[0] === 'accept') names[it.node] = `${it.what} ${label}`;
  }
  return withoutUnusedHubs(text, names);
}
