// The installed package in webpack and in jest, of Debian's packages unpacked into a folder.
import { mkdirSync, writeFileSync } from 'node:fs';
import { join } from 'node:path';

const PROGRAM = `import { Subject, filter, finalize, map } from 'cellarcliff';
const told = [], source = new Subject();
source.pipe(map((x) => x + 1), filter((x) => x % 2 === 1), finalize(() => told.push('released'))).subscribe((x) => told.push(x));
source.next(2);
source.complete();
console.log(JSON.stringify(told));`;
const FORMS = {
  'web for es2017': { target: ['web', 'es2017'] }, 'web for es2017, minified': { target: ['web', 'es2017'], mode: 'production' }, node: { target: 'node' },
  'esm': { target: ['web', 'es2020'], experiments: { outputModule: true }, output: { module: true, library: { type: 'module' } } },
};
const CONFIG = `const webpack = require('webpack'), forms = ${JSON.stringify(FORMS)};
for (const [i, it] of Object.values(forms).entries()) {
  const output = { path: __dirname + '/packed', filename: i + (it.experiments ? '.mjs' : '.cjs'), ...it.output };
  webpack({ mode: 'development', devtool: false, performance: false, entry: './program.mjs', context: __dirname, ...it, output }, (error, stats) => {
    if (error || stats.hasErrors()) { console.log(error ?? stats.toString()); process.exitCode = 1; }
  });
}`;
const TEST = `const { Subject, finalize, map } = require('cellarcliff');
test('a subject', () => {
  const told = [], source = new Subject();
  source.pipe(map((x) => x + 1), finalize(() => told.push('released'))).subscribe((x) => told.push(x));
  source.next(2);
  source.complete();
  expect(told).toEqual([3, 'released']);
  expect(typeof window).toBe(process.env.WINDOW);
});`;

/** Runs it there, in the folder where it is installed. */
export function foreign(home, run, is, node, folder) {
  const modules = join(folder, 'usr/share/nodejs'), env = { NODE_PATH: `${modules}:/usr/share/nodejs` };
  writeFileSync(join(home, 'program.mjs'), PROGRAM);
  writeFileSync(join(home, 'webpack.cjs'), CONFIG);
  mkdirSync(join(home, 'packed'));
  run([node, 'webpack.cjs'], home, env);
  Object.entries(FORMS).forEach(([form, it], i) => is(`webpack, ${form}`, run([node, `packed/${i}.${it.experiments ? 'mjs' : 'cjs'}`], home), '[3,"released"]'));
  writeFileSync(join(home, 'a.test.cjs'), TEST);
  for (const [name, window] of [['node', 'undefined'], ['jsdom', 'object']]) {
    run([node, join(modules, 'jest/bin/jest.js'), `--env=${name}`, '--testMatch=**/*.test.cjs', '--watchman=false'], home, { ...env, WINDOW: window });
    console.log(`jest, with ${name}: as it is to be`);
  }
}
