// Runs a page in headless Chromium (Debian: chromium) from a server of its own, and prints what it reports.
//
// Usage: node chromium.mjs [PAGE]; tests/page.html without one: the package's own tests.
import { spawn } from 'node:child_process';
import { createServer } from 'node:http';
import { mkdtempSync, readFileSync, readdirSync, rmSync } from 'node:fs';
import { tmpdir } from 'node:os';
import { dirname, extname, join, normalize } from 'node:path';
import { fileURLToPath } from 'node:url';

const here = dirname(fileURLToPath(import.meta.url)), top = dirname(here);
const KINDS = { '.html': 'text/html', '.mjs': 'text/javascript', '.js': 'text/javascript', '.wasm': 'application/wasm', '.json': 'application/json', '.css': 'text/css' };
const module = process.env.CELLARCLIFF_WASM || join(top, 'engine.wasm');

/** Serves the package, and answers what the page reports; `also` answers other requests of a page. */
export async function inChromium(page, { seconds = 180, also = () => null } = {}) {
  let reported;
  const report = new Promise((resolve) => { reported = resolve; });
  const server = createServer((request, response) => {
    const path = normalize(new URL(request.url, 'http://localhost').pathname);
    const send = (kind, body) => { response.writeHead(200, { 'content-type': kind }); response.end(body); };
    if (path === '/report') {
      let text = '';
      request.on('data', (it) => { text += it; }).on('end', () => { send('text/plain', ''); reported(JSON.parse(text)); });
    } else if (path === '/tests') send('application/json', JSON.stringify(readdirSync(here).filter((it) => it.endsWith('.test.mjs'))));
    else if (also(request, response, path)) { /* it has answered */ } else {
      try { send(KINDS[extname(path)] ?? 'text/plain', readFileSync(path === '/engine.wasm' ? module : join(top, path))); } catch {
        response.writeHead(404);
        response.end();
      }
    }
  });
  await new Promise((resolve) => { server.listen(0, '127.0.0.1', resolve); });
  const profile = mkdtempSync(join(tmpdir(), 'chromium.'));
  const browser = spawn('chromium', ['--headless=new', '--no-sandbox', '--disable-gpu', '--no-first-run', '--disable-background-timer-throttling',
    `--user-data-dir=${profile}`, `http://127.0.0.1:${server.address().port}/${page}`], { stdio: 'ignore' });
  const late = setTimeout(() => reported({ counts: { failed: 1 }, text: 'the page reported nothing' }), seconds * 1000);
  const said = await report;
  clearTimeout(late);
  const ended = new Promise((resolve) => { browser.on('exit', resolve); });
  browser.kill();
  await ended;
  server.close();
  server.closeAllConnections();
  await removed(profile);
  return said;
}

// The browser's other processes may write there for a while.
async function removed(folder) {
  for (let left = 40; ; left--) {
    try { return rmSync(folder, { recursive: true, force: true }); } catch (error) {
      if (left === 0) throw error;
      await new Promise((resolve) => { setTimeout(resolve, 250); });
    }
  }
}

if (process.argv[1] === fileURLToPath(import.meta.url)) {
  const { counts, text } = await inChromium(process.argv[2] ?? 'tests/page.html');
  console.log(text.trim());
  process.exit(counts.failed ? 1 : 0);
}
