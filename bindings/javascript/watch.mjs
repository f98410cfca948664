// Finds the leak in a program that is written for RxJS, as it is: node --import cellarcliff/watch PROGRAM
//
// The program's `rxjs`, `rxjs/operators` and `rxjs/testing`, imported or required, are answered by this package. As it ends, and on the signal
// USR2, standard error gets what is still open, by the line that subscribed to it or made it, and how that grew.
//
// From the environment: CELLARCLIFF_FAIL=1 makes the status 3 where something was left open and the program's own was 0;
// CELLARCLIFF_DUMP=FILE writes the history there, with these lines as names, for `rxbook picture`.
import { writeFileSync, writeSync } from 'node:fs';
import module, { createRequire } from 'node:module';
import { counts, dump, trace } from './index.mjs';
import { made } from './src/core/open.mjs';
import { named, reported } from './src/watch/report.mjs';

const require = createRequire(import.meta.url);
const required = { rxjs: 'cellarcliff', 'rxjs/operators': 'cellarcliff/operators', 'rxjs/testing': 'cellarcliff/testing' };
const resolveFilename = module._resolveFilename;
const filename = (name) => require.resolve(`./dist/${name === 'cellarcliff' ? 'index' : name.slice('cellarcliff/'.length)}.cjs`);

module._resolveFilename = function (request, ...rest) {
  return Object.hasOwn(required, request) ? filename(required[request]) : resolveFilename.call(this, request, ...rest);
};
module.register('./src/watch/hooks.mjs', import.meta.url);
trace();

/** What is open now, as a text. */
export const report = () => reported(made(), dump() !== null, counts().nodes);
const tell = () => writeSync(2, report());

process.on('SIGUSR2', tell);
// (before the package closes what is open)
process.prependListener('exit', (code) => {
  const open = made(), file = process.env.CELLARCLIFF_DUMP;
  tell();
  if (file) {
    const text = named(dump(), open);
    if (text === null) writeSync(2, 'cellarcliff/watch: the history is not whole, so none is written\n');
    else writeFileSync(file, `${text}\n`);
  }
  if (process.env.CELLARCLIFF_FAIL && open.length && code === 0) process.exitCode = 3;
});
