// A line of JSON in, a line out, by the module of this name: node node.mjs MODULE. tools/try-wasm starts it.
import fs from 'node:fs';
import readline from 'node:readline';
import { answer, begin } from './engine.mjs';

const module = new WebAssembly.Module(fs.readFileSync(process.argv[2]));
if (WebAssembly.Module.imports(module).length) throw new Error('the module imports something');
begin(new WebAssembly.Instance(module).exports);
for await (const line of readline.createInterface({ input: process.stdin })) process.stdout.write(`${answer(line)}\n`);
