// The cases that all languages share (bindings/cases), over the package, in the manner of RxJS, or else of RxPY; what is neither stands in
// unlike-cases.json under its reason.
//
// Usage: node cases.mjs [--show] [FAMILY ..]; it needs no peer.
import { execFileSync } from 'node:child_process';
import { mkdirSync, mkdtempSync, readFileSync, readdirSync, rmSync, symlinkSync } from 'node:fs';
import { tmpdir } from 'node:os';
import { dirname, join } from 'node:path';
import { fileURLToPath } from 'node:url';

const here = dirname(fileURLToPath(import.meta.url)), top = dirname(here), cases = join(top, '../cases'), words = process.argv.slice(2);
const show = words.includes('--show'), wanted = words.filter((it) => it !== '--show');
const families = readdirSync(cases).filter((it) => it.endsWith('.json')).map((it) => it.slice(0, -5))
  .filter((it) => Array.isArray(read(it)) && (!wanted.length || wanted.includes(it)));
const unlike = JSON.parse(readFileSync(join(here, 'unlike-cases.json'), 'utf8'));
const reasons = new Map(Object.entries(unlike).flatMap(([reason, names]) => names.map((it) => [it, reason])));

function read(family) { return JSON.parse(readFileSync(join(cases, `${family}.json`), 'utf8')); }

/** At one time, what is released before the next `made` is a set: it stands behind what is told, by name. */
function inOrder(told) {
  if (!Array.isArray(told)) return told;
  const ordered = [];
  let released = [], time = null;
  for (const it of told) {
    const [at, , what] = it.split(' ');
    if (at !== time || what === 'made') {
      ordered.push(...released.sort());
      released = [];
    }
    time = at;
    (what === 'released' ? released : ordered).push(it);
  }
  return [...ordered, ...released.sort()];
}

const home = mkdtempSync(join(tmpdir(), 'cases.'));
mkdirSync(join(home, 'cellarcliff'));
execFileSync(process.execPath, [join(top, 'build.mjs'), join(home, 'cellarcliff/dist')]);
symlinkSync(join(top, 'package.json'), join(home, 'cellarcliff/package.json'));
const env = { ...process.env, NODE_PATH: home, CELLARCLIFF_WASM: process.env.CELLARCLIFF_WASM || join(top, 'engine.wasm') };
const counts = { RxJS: 0, RxPY: 0, unlike: 0, wrong: 0 }, by = new Map();
try {
  for (const family of families) {
    const told = JSON.parse(execFileSync(process.execPath, [join(cases, 'runner.js'), 'cellarcliff', join(cases, `${family}.json`)], { env, encoding: 'utf8', maxBuffer: 1 << 28 }));
    for (const it of read(family)) {
      const mine = JSON.stringify(inOrder(told[it.name])), of = (name) => JSON.stringify(inOrder(it[name] ?? it.log)), reason = reasons.get(it.name);
      if (mine === of('RxJS')) counts.RxJS++;
      else if (mine === of('RxPY')) {
        counts.RxPY++;
        by.set(it.differs, [...by.get(it.differs) ?? [], it.name]);
        continue;
      } else if (reason) counts.unlike++;
      else {
        counts.wrong++;
        console.log(`NO REASON: ${it.name}${show ? `\n  ours ${mine}\n  RxJS ${of('RxJS')}\n  RxPY ${of('RxPY')}` : ''}`);
      }
      if (reason && mine === of('RxJS')) console.log(`AS RxJS NOW: ${it.name}`);
    }
  }
} finally { rmSync(home, { recursive: true, force: true }); }
console.log(`${counts.RxJS} as RxJS has it, ${counts.RxPY} as RxPY alone has it, ${counts.unlike} unlike both for a reason, ${counts.wrong} without`);
for (const [row, names] of by) console.log(`- ${row}, as RxPY has it: ${names.length}${show ? ` (${names.join('; ')})` : ''}`);
for (const [reason, names] of Object.entries(unlike)) console.log(`- ${reason}: ${names.length}`);
process.exit(counts.wrong ? 1 : 0);
