// The installed package in pages of headless Chromium: the entry that fetches the module, from a server that does not know what it is; a module service
// worker; pages with a Content-Security-Policy.
import { readFileSync } from 'node:fs';
import { extname, join } from 'node:path';
import { inChromium } from './chromium.mjs';

const KINDS = { '.mjs': 'text/javascript', '.wasm': 'application/octet-stream' };
const PROGRAM = `const told = [], source = new rx.Subject();
source.pipe(rx.map((x) => x + 1), rx.finalize(() => told.push('released'))).subscribe((x) => told.push(x));
source.next(2);
source.complete();`;
const SAID = '[3,"released"]', tells = "const tell = (it) => fetch('/report', { method: 'POST', body: JSON.stringify({ said: it }) });";
const within = (entry, act) => `${tells} import('/cellarcliff/${entry}').then((rx) => { ${PROGRAM} tell(JSON.stringify(told)); }).catch((error) => tell(String(error)));${act ?? ''}`;
const INLINED = 'dist/inlined/index.mjs';
const WORKER = `import * as rx from '/cellarcliff/${INLINED}';
onmessage = ({ source: to }) => { ${PROGRAM} to.postMessage(JSON.stringify(told)); };`;
const REGISTERS = `${tells} navigator.serviceWorker.onmessage = ({ data }) => tell(data);
navigator.serviceWorker.register('/worker.js', { type: 'module' }).then(() => navigator.serviceWorker.ready).then((it) => it.active.postMessage(0)).catch((error) => tell(String(error)));`;
const scripts = { 'page.js': within('index.mjs'), 'inlined.js': within(INLINED), 'worker.js': WORKER, 'registers.js': REGISTERS };
const CASES = {
  'the entry for a page, whose module comes as octet-stream': ['page.js'],
  'a module service worker': ['registers.js'],
  "under a policy with 'wasm-unsafe-eval'": ['inlined.js', "script-src 'self' 'wasm-unsafe-eval'"],
  'under a policy without it': ['inlined.js', "script-src 'self'", /CompileError: WebAssembly\.\w+\(\).*(Content Security Policy|unsafe-eval)/],
};

/** Runs it in each of these pages. */
export async function pages(home, is) {
  for (const [name, [script, policy, refused]] of Object.entries(CASES)) {
    const also = (request, response, path) => {
      const send = (kind, body) => {
        response.writeHead(200, { 'content-type': kind, ...(policy ? { 'content-security-policy': policy } : {}) });
        response.end(body);
        return true;
      };
      if (path === '/the.html') return send('text/html', `<!doctype html><script src="/${script}"></script>`);
      if (path.slice(1) in scripts) return send('text/javascript', scripts[path.slice(1)]);
      return path.startsWith('/cellarcliff/') && send(KINDS[extname(path)], readFileSync(join(home, 'node_modules', path)));
    };
    const said = String((await inChromium('the.html', { also, seconds: 120 })).said);
    if (refused) is(`in Chromium, ${name}: ${said.slice(0, 140)}`, String(refused.test(said)), 'true'); else is(`in Chromium, ${name}`, said, SAID);
  }
}
