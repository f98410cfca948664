// The installed package in bundles: by esbuild and rollup, as Debian has them, in each form, for old and new platforms; run in Node, and some in headless
// Chromium.
import { mkdirSync, readFileSync, statSync, writeFileSync } from 'node:fs';
import { join } from 'node:path';
import { gzipSync } from 'node:zlib';
import { inChromium } from './chromium.mjs';

const PROGRAM = `const told = [], source = new Subject();
source.pipe(map((x) => x + 1), filter((x) => x % 2 === 1), finalize(() => told.push('released'))).subscribe((x) => told.push(x));
source.next(2);
source.complete();
console.log(JSON.stringify(told));`;
const PROGRAMS = {
  'what it needs': `import { Subject, filter, finalize, map } from 'cellarcliff';\n${PROGRAM}`,
  'an entry of operators': `import { Subject } from 'cellarcliff';\nimport { filter, finalize, map } from 'cellarcliff/operators';\n${PROGRAM}`,
  'a dependency that requires it': `import { dependency } from './dependency.cjs';\nimport { Subject, filter, finalize, map } from 'cellarcliff';
if (!(dependency.made instanceof Subject) || dependency.Subject !== Subject) throw new Error('two libraries');\n${PROGRAM}`,
};
const SAID = '[3,"released"]';
const FORMS = {
  'esm': ['--format=esm'], 'iife': ['--format=iife'], 'cjs': ['--format=cjs'], 'esm for es2017': ['--format=esm', '--target=es2017'], 'iife for es2021': ['--format=iife', '--target=es2021'],
  'esm without async, as Angular asks for': ['--format=esm', '--supported:async-await=false'], 'iife for es2017': ['--format=iife', '--target=es2017'], 'cjs for Node': ['--format=cjs', '--platform=node'], 'esm, minified': ['--format=esm', '--minify'],
};

/** Bundles it in each way, in the folder where it is installed, and runs what was made: in these Nodes, and in Chromium. */
export async function bundles(home, run, is, nodes = ['node']) {
  const runs = (what, to) => { for (const node of nodes) is(`${what}${node === 'node' ? '' : `, in ${node}`}`, run([node, to], home), SAID); };
  mkdirSync(join(home, 'out'));
  writeFileSync(join(home, 'dependency.cjs'), "const { Subject } = require('cellarcliff');\nexports.dependency = { Subject, made: new Subject() };\n");
  const pages = [];
  for (const [name, text] of Object.entries(PROGRAMS)) {
    const from = `${name.replaceAll(' ', '-')}.mjs`;
    writeFileSync(join(home, from), text);
    for (const [form, words] of Object.entries(FORMS)) {
      const to = `out/${name} ${form}.${words.includes('--format=esm') ? 'mjs' : 'cjs'}`.replaceAll(' ', '-');
      run(['esbuild', from, '--bundle', '--platform=browser', '--log-level=error', ...words, `--outfile=${to}`], home);
      runs(`esbuild, ${form}: ${name}`, to);
      if (!words.includes('--format=cjs')) pages.push([to, words.includes('--format=esm')]);
      if (form.includes('minified')) console.log(`  ${statSync(join(home, to)).size} bytes, ${gzipSync(readFileSync(join(home, to)), { level: 9 }).length} by gzip`);
    }
  }
  // by its path, since Debian's rollup has no plugin that looks in node_modules
  writeFileSync(join(home, 'by-path.mjs'), PROGRAMS['what it needs'].replace("'cellarcliff'", "'./node_modules/cellarcliff/dist/inlined/index.mjs'"));
  for (const [format, kind] of [['es', 'mjs'], ['iife', 'cjs'], ['cjs', 'cjs']]) {
    run(['rollup', 'by-path.mjs', '--silent', '--format', format, '--file', `out/rollup-${format}.${kind}`], home);
    runs(`rollup, ${format}`, `out/rollup-${format}.${kind}`);
    if (format !== 'cjs') pages.push([`out/rollup-${format}.${kind}`, format === 'es']);
  }
  await inPages(home, is, pages);
  for (const node of nodes) {
    is(`required under the condition browser, in ${node}`, run([node, '--conditions=browser', '-e', "const { of } = require('cellarcliff'); of(1).subscribe(console.log)"], home), '1');
  }
}

/** Each bundle in a frame of its own of one page. */
async function inPages(home, is, all) {
  const frame = (i) => `<!doctype html><script>const said = []; console.log = (it) => said.push(it); onerror = (it) => said.push(String(it));</script>
    <script${all[i][1] ? ' type="module"' : ''} src="/bundle/${i}"></script><script type="module">parent.postMessage([${i}, said]);</script>`;
  const page = `<!doctype html><script type="module">
    const all = [];
    onmessage = ({ data: [i, said] }) => { all[i] = said; if (++i === ${all.length}) fetch('/report', { method: 'POST', body: JSON.stringify(all) }); else next(i); };
    const next = (i) => document.body.append(Object.assign(document.createElement('iframe'), { src: '/frame/' + i }));
    next(0);
  </script>`;
  const send = (response, kind, body) => {
    response.writeHead(200, { 'content-type': kind });
    response.end(body);
    return true;
  };
  const also = (request, response, path) => {
    const [, what, i] = path.split('/');
    if (what === 'bundles.html') return send(response, 'text/html', page);
    if (what === 'frame') return send(response, 'text/html', frame(i));
    return what === 'bundle' && send(response, 'text/javascript', readFileSync(join(home, all[i][0])));
  };
  const said = await inChromium('bundles.html', { also, seconds: 240 });
  all.forEach(([it], i) => is(`in Chromium: ${it.slice(4)}`, String(said[i]?.[0]), SAID));
}
