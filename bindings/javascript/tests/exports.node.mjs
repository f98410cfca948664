// The names of the package beside those of RxJS, and beside its types. In Node alone.
import { readFileSync } from 'node:fs';
import { createRequire } from 'node:module';

const require = createRequire(import.meta.url), PEER = '/usr/share/nodejs/rxjs/dist/cjs';
const OURS = ['close', 'counts', 'dump', 'leaks', 'trace']; // what is open, by the engine's own account
const typed = (...files) => new Set(files.flatMap((it) => [...readFileSync(new URL(`../types/${it}.d.ts`, import.meta.url), 'utf8')
  .matchAll(/^export declare (?:class|function|const|enum|abstract class) (\w+)/gm)].map(([, name]) => name)));
const TYPES = { index: ['core', 'sources', 'piped'], operators: ['piped', 'old'], testing: ['testing'] };

async function differences(entry, path) {
  const peer = Object.keys(require(PEER + path)), ours = Object.keys(await import(`../${entry}.mjs`)), types = typed(...TYPES[entry]);
  return [...peer.filter((it) => !ours.includes(it)).map((it) => `lacks ${it}`),
    ...ours.filter((it) => !peer.includes(it) && !OURS.includes(it)).map((it) => `besides ${it}`),
    ...ours.filter((it) => !types.has(it)).map((it) => `no type of ${it}`), ...[...types].filter((it) => !ours.includes(it)).map((it) => `type alone ${it}`)];
}
/** Names of types that RxJS's first entry has and ours lacks. */
function typesLacking() {
  const names = (text) => [...text.matchAll(/^export (?:declare )?(?:interface|type) (\w+)/gm)].map(([, name]) => name);
  const theirs = names(readFileSync(`${PEER}/../types/internal/types.d.ts`, 'utf8'));
  const ours = new Set(TYPES.index.flatMap((it) => names(readFileSync(new URL(`../types/${it}.d.ts`, import.meta.url), 'utf8'))));
  return theirs.filter((it) => !ours.has(it));
}

export const only_ours = {
  'the names of rxjs': { of: () => differences('index', ''), is: [] },
  'the names of rxjs/operators': { of: () => differences('operators', '/operators'), is: [] },
  'the names of rxjs/testing': { of: () => differences('testing', '/testing'), is: [] },
  'the types of rxjs': { of: () => typesLacking(), is: [] },
};
