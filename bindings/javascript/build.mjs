// Makes the other forms of the package of its ES modules.
//
// - For Node, CommonJS: all modules in one, in the order in which they need each other. What is imported there are the names of that, so that a process has
//   one library. A name at the top of a module is the only one of that name in all modules; this fails where two have the same.
// - For bundlers and pages: the ES modules, and the engine within a module, as text, so that nothing has to be found or awaited.
//
// Usage: node build.mjs [FOLDER]; writes there cellarcliff.cjs and, over it, NAME.cjs and NAME.mjs of index, operators and testing. Without a folder it
// is dist/, with inlined/ for bundlers, and the licence comes beside the package, for an archive.
import { copyFileSync, existsSync, mkdirSync, readFileSync, writeFileSync } from 'node:fs';
import { dirname, join, resolve } from 'node:path';
import { fileURLToPath } from 'node:url';

const top = dirname(fileURLToPath(import.meta.url)), to = resolve(process.argv[2] ?? join(top, 'dist'));
const ENTRIES = ['index', 'operators', 'testing'];
const FROM = /^(import|export)\s+(\{[^}]*\}|\*)\s+from\s+'([^']+)';\n/gms, EXPORTED = /^export (\{[^}]*\});\n/gms;
const modules = new Map(), order = [];

const pairs = (braces) => braces.slice(1, -1).split(',').map((it) => it.trim()).filter(Boolean).map((it) => {
  const [name, alias = name] = it.split(/\s+as\s+/);
  return [name, alias];
});

function read(file) {
  if (modules.has(file)) return;
  const text = readFileSync(file, 'utf8'), it = { exports: new Map(), stars: [], text: '' };
  modules.set(file, it);
  for (const [, what, names, from] of text.matchAll(FROM)) {
    const other = resolve(dirname(file), from);
    read(other);
    if (what === 'import') {
      if (names === '*' || pairs(names).some(([a, b]) => a !== b)) throw new Error(`${file}: import ${names}: a name of its own is not understood`);
    } else if (names === '*') it.stars.push(other);
    else for (const [name, alias] of pairs(names)) it.exports.set(alias, { file: other, name });
  }
  let body = text.replace(FROM, '');
  for (const [, names] of body.matchAll(EXPORTED)) for (const [name, alias] of pairs(names)) it.exports.set(alias, name);
  body = body.replace(EXPORTED, '');
  for (const [, name] of body.matchAll(/^export (?:const|let|class|function\*?|async function) (\w+)/gm)) it.exports.set(name, name);
  for (const [, list] of body.matchAll(/^export const (\w+ = [^;]*?);$/gms)) {
    for (const [, name] of list.matchAll(/(?:^|, )(\w+) = /g)) it.exports.set(name, name);
  }
  it.text = body.replace(/^export /gm, '');
  order.push(file);
}

/** What a module exports: the names, and what each is called in the one function. */
function exportsOf(file) {
  const { exports, stars } = modules.get(file), found = new Map(stars.flatMap((it) => [...exportsOf(it)]));
  for (const [name, it] of exports) found.set(name, typeof it === 'string' ? it : exportsOf(it.file).get(it.name));
  return found;
}

function mustBeUnique() {
  const seen = new Map();
  for (const file of order) {
    for (const [, name] of modules.get(file).text.matchAll(/^(?:const|let|class|function\*?|async function) (\w+)/gm)) {
      if (seen.has(name)) throw new Error(`${name} stands in ${seen.get(name)} and in ${file}`);
      seen.set(name, file);
    }
  }
}

for (const it of ENTRIES) read(join(top, `src/${it}.mjs`));
mustBeUnique();
const is_engine = (file) => file.includes('/src/engine/');
const text = (files) => files.map((it) => modules.get(it).text).join('\n');
const tables = ENTRIES.map((it) => `exports.${it} = {${[...exportsOf(join(top, `src/${it}.mjs`))].map(([name, local]) => (name === local ? name : `${name}: ${local}`)).join(', ')}};`);
mkdirSync(to, { recursive: true });
writeFileSync(join(to, 'cellarcliff.cjs'), [`'use strict';`, text(order.filter(is_engine)), readFileSync(join(top, 'src/engine/load.cjs'), 'utf8'),
  text(order.filter((it) => !is_engine(it))), ...tables, ''].join('\n'));
for (const it of ENTRIES) writeFileSync(join(to, `${it}.cjs`), `'use strict';\nmodule.exports = require('./cellarcliff.cjs').${it};\n`);
const names = (entry) => [...exportsOf(join(top, `src/${entry}.mjs`)).keys()].filter((it) => it !== 'default');
for (const it of ENTRIES) writeFileSync(join(to, `${it}.mjs`), `import library from './${it}.cjs';\nexport const { ${names(it).join(', ')} } = library;\n`);
if (!process.argv[2]) {
  const inlined = join(to, 'inlined'), wasm = process.env.CELLARCLIFF_WASM || join(top, 'engine.wasm');
  mkdirSync(inlined, { recursive: true });
  writeFileSync(join(inlined, 'engine.mjs'), `import { glue } from '../../src/engine/glue.mjs';\nimport { realm } from '../../src/engine/realm.mjs';\n
if (!realm.engine) {
  const text = atob('${readFileSync(wasm).toString('base64')}'), bytes = new Uint8Array(text.length);
  for (let i = 0; i < text.length; i++) bytes[i] = text.charCodeAt(i);
  realm.start(new WebAssembly.Module(bytes), new WebAssembly.Module(glue()));
}\n`);
  for (const it of ENTRIES) writeFileSync(join(inlined, `${it}.mjs`), `import './engine.mjs';\nexport * from '../../src/${it}.mjs';\n`);
}
const licence = join(top, '../../LICENSE.md');
if (!process.argv[2] && existsSync(licence)) copyFileSync(licence, join(top, 'LICENSE'));
