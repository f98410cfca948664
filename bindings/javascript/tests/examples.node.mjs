// The examples of the page print what the page says. In Node alone.
import { execFileSync } from 'node:child_process';
import { readFileSync } from 'node:fs';
import { fileURLToPath } from 'node:url';

const file = fileURLToPath(new URL('../examples/first.mjs', import.meta.url));
const lines = (text) => text.trim().split('\n');
export const only_ours = {
  'the examples of the page': { of: () => lines(execFileSync(process.execPath, [file], { encoding: 'utf8' })), is: lines(readFileSync(file.replace('.mjs', '.out'), 'utf8')) },
};
