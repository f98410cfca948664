// Makes the archive of the package, installs it without a network, and runs programs over it: ES modules, CommonJS, both at once, types, bundles.
//
// Usage: node pack.mjs [--node PROGRAM] [--debian FOLDER], with engine.wasm beside the package, or named by CELLARCLIFF_WASM. It needs npm, and Debian's
// node-typescript for types, esbuild and rollup for bundles, and chromium for pages.
//    --node PROGRAM   another Node, in which all is run besides
//    --debian FOLDER  Debian's webpack, jest and node-jsdom, with what they depend on, unpacked there (apt-get download, dpkg -x): run by that Node, which
//                     has to be Debian's own
import { execFileSync } from 'node:child_process';
import { createHash } from 'node:crypto';
import { copyFileSync, existsSync, mkdirSync, mkdtempSync, readFileSync, rmSync, statSync, writeFileSync } from 'node:fs';
import { tmpdir } from 'node:os';
import { dirname, join } from 'node:path';
import { fileURLToPath } from 'node:url';
import { bundles } from './bundles.mjs';
import { foreign } from './foreign.mjs';
import { pages } from './pages.mjs';

const top = dirname(dirname(fileURLToPath(import.meta.url))), work = mkdtempSync(join(tmpdir(), 'pack.'));
const { CELLARCLIFF_WASM: given, ...rest } = process.env, env = { ...rest, npm_config_cache: join(work, 'cache'), npm_config_offline: 'true', npm_config_update_notifier: 'false' };
const option = (name) => (process.argv.includes(name) ? process.argv[process.argv.indexOf(name) + 1] : null);
const other = option('--node'), debian = option('--debian'), nodes = ['node', ...(other ? [other] : [])];
const run = (words, cwd, more = {}) => execFileSync(words[0], words.slice(1), { cwd, env: { ...env, ...more }, encoding: 'utf8', stdio: ['ignore', 'pipe', 'pipe'] });
const is = (what, got, wanted) => {
  if (got.trim() !== wanted) throw new Error(`${what}: ${got.trim()}, and it is ${wanted}`);
  console.log(`${what}: as it is to be`);
};
const PROGRAM = `const told = [];
rx.of(1, 2, 3).pipe(rx.map((x) => x * 2), ops.filter((x) => x > 2)).subscribe((x) => told.push(x));
told.push(typeof testing.TestScheduler, rx.counts().nodes);
console.log(JSON.stringify(told));`;
const SAID = '[4,6,"function",0]';

try {
  if (given && !existsSync(join(top, 'engine.wasm'))) copyFileSync(given, join(top, 'engine.wasm'));
  const archive = JSON.parse(run(['npm', 'pack', '--json', '--pack-destination', work], top).replace(/^[^[]*/, ''))[0];
  console.log(`${archive.filename}: ${archive.files.length} files, ${archive.size} bytes, ${archive.unpackedSize} unpacked`);
  const home = join(work, 'home');
  mkdirSync(home);
  writeFileSync(join(home, 'package.json'), '{ "name": "home", "version": "1.0.0", "private": true }');
  run(['npm', 'install', '--no-audit', '--no-fund', join(work, archive.filename)], home);
  const lock = JSON.parse(readFileSync(join(home, 'package-lock.json'), 'utf8'));
  const file = (name) => readFileSync(join(home, 'node_modules/cellarcliff', name));
  if (!given) is('PROVED has the sum of the module', String(file('PROVED').includes(createHash('sha256').update(file('engine.wasm')).digest('hex'))), 'true');
  is('packages that came with it', String(Object.keys(lock.packages).length - 1), '1');
  writeFileSync(join(home, 'a.mjs'), `import * as rx from 'cellarcliff';\nimport * as ops from 'cellarcliff/operators';\nimport * as testing from 'cellarcliff/testing';\n${PROGRAM}`);
  writeFileSync(join(home, 'b.cjs'), `const rx = require('cellarcliff'), ops = require('cellarcliff/operators'), testing = require('cellarcliff/testing');\n${PROGRAM}`);
  writeFileSync(join(home, 'both.mjs'), `import { createRequire } from 'node:module';
import * as rx from 'cellarcliff';
const other = createRequire(import.meta.url)('cellarcliff'), subject = new other.Subject();
const sub = rx.merge(subject, new rx.Subject()).subscribe((x) => console.log(x));
subject.next(rx.counts().nodes === other.counts().nodes && rx.counts().nodes > 0);
sub.unsubscribe();
console.log(rx.counts().nodes, subject.observed, Object.keys(other).every((it) => other[it] === rx[it]));`);
  for (const node of nodes) {
    const version = run([node, '--version'], home).trim();
    is(`as ES modules, in Node ${version}`, run([node, 'a.mjs'], home), SAID);
    is(`as CommonJS, in Node ${version}`, run([node, 'b.cjs'], home), SAID);
    is(`both in one realm, in Node ${version}`, run([node, 'both.mjs'], home), 'true\n0 false true');
  }
  for (const [file, type] of [['t.mts', 'module'], ['u.cts', 'commonjs']]) {
    writeFileSync(join(home, file), `import { of, map, Observable } from 'cellarcliff';\nimport { concat } from 'cellarcliff/operators';
import { TestScheduler } from 'cellarcliff/testing';\nexport const it: Observable<number> = of('a').pipe(concat(of('b')), map((x: string) => x.length));\nexport const made = TestScheduler;\n`);
    run(['tsc', '--strict', '--noEmit', '--target', 'es2020', '--module', 'node16', '--moduleResolution', 'node16', file], home);
    console.log(`types, ${type}: as they are to be`);
  }
  writeFileSync(join(home, 'tsconfig.json'), '{ "compilerOptions": { "strict": true, "noEmit": true, "target": "es2020", "module": "commonjs", "moduleResolution": "node" }, "files": ["v.ts"] }');
  writeFileSync(join(home, 'v.ts'), "import { of } from 'cellarcliff';\nimport { map } from 'cellarcliff/operators';\nimport { TestScheduler } from 'cellarcliff/testing';\nexport const it = of(1).pipe(map(String)), made = TestScheduler;\n");
  run(['tsc', '-p', '.'], home);
  console.log('types, moduleResolution node: as they are to be');
  await bundles(home, run, is, nodes);
  await pages(home, is);
  if (debian) foreign(home, run, is, other ?? 'node', debian);
  console.log(`a page needs ${statSync(join(home, 'node_modules/cellarcliff/engine.wasm')).size} bytes of WebAssembly`);
} catch (error) {
  console.log(error.stdout ?? '', error.stderr ?? '', error.message);
  process.exitCode = 1;
} finally { rmSync(work, { recursive: true, force: true }); }
