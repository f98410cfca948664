// Runs the tests in Node, over RxJS first and then over the package.
//
// Usage: node run.mjs [FILE ..]; without a file all: NAME.test.mjs, which a page runs too, and NAME.node.mjs.
import { createRequire } from 'node:module';
import { readdirSync } from 'node:fs';
import { dirname, join, resolve } from 'node:path';
import { fileURLToPath } from 'node:url';
import { runAll } from './runner.mjs';

const here = dirname(fileURLToPath(import.meta.url)), require = createRequire(import.meta.url), given = process.argv.slice(2);
const files = given.length ? given.map((it) => resolve(it)) : readdirSync(here).filter((it) => /\.(test|node)\.mjs$/.test(it)).map((it) => join(here, it));
let peer = null;
try { peer = require('/usr/share/nodejs/rxjs'); } catch { console.log('RxJS is not here (Debian: node-inquirer)'); }
const modules = [];
for (const it of files) modules.push(await import(it));
const { failed, unlike } = await runAll(modules, await import('../index.mjs'), peer, console.log);
process.exit(failed || unlike ? 1 : 0);
