// Drives the example of a search box in headless Chromium: what is typed is asked for, the last word alone, requests are cancelled, and what is
// forgotten is found. Usage: node example.mjs
import { inChromium } from './chromium.mjs';

// Runs in the page.
async function drive() {
  const wait = (ms) => new Promise((resolve) => { setTimeout(resolve, ms); }), element = (id) => document.getElementById(id);
  const until = async (is, what) => { for (let i = 0; i < 200; i++) { if (is()) return; await wait(25); } throw new Error(`it never came that ${what}`); };
  const typed = (text) => { element('box').value = text; element('box').dispatchEvent(new Event('input')); };
  const number = (id) => Number(element(id).textContent), said = [];
  await until(() => element('nodes'), 'the page draws');
  const nodes = number('nodes'), held = number('held');
  typed('a');
  typed('ab');
  await until(() => element('found').children.length === 2, 'words are found');
  said.push([...element('found').children].map((it) => it.textContent));
  typed('slow');
  await wait(300);
  typed('abc');
  await until(() => element('found').children[0]?.textContent === 'abc 1', 'the last word is found');
  said.push(element('state').textContent);
  element('start').click();
  await until(() => number('nodes') > nodes, 'a stopwatch is open');
  element('stop').click();
  await until(() => number('nodes') === nodes && number('held') === held, 'nothing of it stays');
  element('start').click();
  element('forget').click();
  await until(() => number('nodes') > nodes, 'a forgotten one is open');
  element('leaks').click();
  const list = [...element('list').children].map((it) => it.textContent);
  said.push([list.length, list.filter((it) => /search\.mjs:\d+/.test(it)).length, list.filter((it) => it.includes('showWatch')).length]);
  element('close').click();
  said.push([number('nodes'), number('held')]);
  return said;
}

const asked = [];
const also = (request, response, path) => {
  if (path === '/examples/search/driven.html') {
    response.writeHead(200, { 'content-type': 'text/html' });
    response.end(`<!doctype html><iframe id="it" src="index.html" style="width:900px;height:700px"></iframe><script type="module">
      const frame = document.getElementById('it'), tell = (it) => fetch('/report', { method: 'POST', body: JSON.stringify(it) });
      frame.onload = async () => {
        try { tell({ said: await frame.contentWindow.eval('(' + ${JSON.stringify(drive.toString())} + ')()') }); } catch (error) { tell({ text: String(error?.stack ?? error) }); }
      };</script>`);
    return true;
  }
  if (path !== '/examples/search/search') return false;
  const word = new URL(request.url, 'http://localhost').searchParams.get('q'), it = { word, ended: 'answered' };
  asked.push(it);
  const late = setTimeout(() => {
    response.writeHead(200, { 'content-type': 'application/json' });
    response.end(JSON.stringify([`${word} 1`, `${word} 2`]));
  }, word === 'slow' ? 3000 : 30);
  response.on('close', () => { if (!response.writableEnded) { it.ended = 'cancelled'; clearTimeout(late); } });
  return true;
};
const { said, text } = await inChromium('examples/search/driven.html', { also, seconds: 60 });
if (text) {
  console.log(text);
  process.exit(1);
}
const is = [['ab 1', 'ab 2'], '', [2, 2, 1], [0, 0]], were = [['ab', 'answered'], ['slow', 'cancelled'], ['abc', 'answered']];
const got = asked.map((it) => [it.word, it.ended]), is_right = JSON.stringify(said) === JSON.stringify(is) && JSON.stringify(got) === JSON.stringify(were);
console.log(is_right ? 'the example does what it is to do' : `FAILS: ${JSON.stringify(said)} ${JSON.stringify(got)}`);
process.exit(is_right ? 0 : 1);
