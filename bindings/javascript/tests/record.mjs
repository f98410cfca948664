// Records what RxJS says to the programs of own.test.mjs, into own.said.mjs. Usage: node record.mjs, where RxJS is (Debian: node-inquirer).
import { createRequire } from 'node:module';
import { existsSync, writeFileSync } from 'node:fs';

const said = new URL('./own.said.mjs', import.meta.url);
if (!existsSync(said)) writeFileSync(said, 'export const SAID = {};\n');
const { programs } = await import('./own.test.mjs'), rx = createRequire(import.meta.url)('/usr/share/nodejs/rxjs'), lines = [];
for (const [name, of] of Object.entries(programs)) lines.push(`  ${JSON.stringify(name)}: ${JSON.stringify(await of(rx))},`);
writeFileSync(said, `// What RxJS 7.5.7 says; made by record.mjs.\nexport const SAID = {\n${lines.join('\n')}\n};\n`);
console.log(`${lines.length} programs`);
