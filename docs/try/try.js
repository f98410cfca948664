// The page: takes a text, has the worker judge.js answer, and shows what it says.
'use strict';

const MOST = 16777216;     // bytes of an input
const IN_THE_FIELD = 1e6;  // a file with more bytes is kept beside the field
const at = id => document.getElementById(id);
const count = number => number.toLocaleString('en-US');
const many = (number, one, more) => `${count(number)} ${number === 1 ? one : more}`;

let worker;                // the worker, and what waits for its answers
let waiting = new Map();
let number = 0;
let chosen;                // a file that is kept beside the field
let bar;                   // moves the bar
let running = 0;           // which run is shown
let place = 0;
let places = 0;
let names = {};

// The worker --------------------------------------------------------------------------------------

function start() {
  worker = new Worker('judge.js');
  worker.onmessage = ({ data }) => {
    const it = waiting.get(data.id);
    if (!data.is_last) return it?.tell?.(data.doing, data.seconds);
    waiting.delete(data.id);
    it?.done(data);
    if (data.is_over) end();
  };
  worker.onerror = event => {
    event.preventDefault();
    fail(`The worker judge.js cannot run${event.message ? `: ${event.message}` : ''}.`);
    end();
  };
}

/** Ends the worker, with whatever it is at and all its memory. */
function end() {
  worker?.terminate();
  worker = undefined;
  waiting = new Map();
}

function ask(what, words = {}, tell = undefined, moved = []) {
  if (!worker) start();
  const id = ++number;
  return new Promise(done => {
    waiting.set(id, { done, tell });
    worker.postMessage({ id, ask: what, ...words }, moved);
  });
}

// What is shown -----------------------------------------------------------------------------------

function say(words, mood = '') {
  at('verdict').textContent = words;
  at('verdict').className = mood;
}

function fail(words) {
  work();
  show({});
  say(words, 'bad');
  document.documentElement.dataset.state = 'failed';
}

/** Says what is at work, and moves the bar where it is known how long that takes. */
function work(doing, seconds) {
  clearInterval(bar);
  at('working').hidden = !doing;
  at('run').disabled = !!doing;
  const progress = at('progress'), began = performance.now();
  progress.removeAttribute('value');
  if (!doing) return;
  at('doing').textContent = seconds ? `${doing}; some ${Math.max(1, Math.round(seconds))} s` : doing;
  if (seconds) {
    // An estimate, by the time that the first part took; it comes near the end and waits there.
    const move = () => { progress.value = 100 * (1 - Math.exp(-2.5 * (performance.now() - began) / 1000 / seconds)); };
    move();
    bar = setInterval(move, 100);
  }
}

function show({ told = '', why = '', caption = '', svg }) {
  at('why').textContent = why;
  at('why').hidden = !why;
  at('told').textContent = told;
  at('told').hidden = !told;
  at('caption').textContent = caption;
  at('drawn').hidden = !svg;
  at('place').textContent = '';
  if (!svg) return;
  hang(svg);
  fit();
  const is_wide = at('picture').scrollWidth > at('picture').clientWidth;
  at('place').textContent = `Move over the picture, touch it, or use the arrow keys: what happened there, and what stays held.${is_wide ? ' It is wider than the screen, and goes on to the right.' : ''}`;
}

const host = at('picture').attachShadow({ mode: 'open' });
const sheet = new CSSStyleSheet();
sheet.replaceSync('svg { display: block; max-width: none; height: auto } :host(.fits) svg { max-width: 100% } .place.here { stroke: #1a4f8b; fill: #1a4f8b33 }');
host.adoptedStyleSheets = [sheet];

/** The picture, as a document of its own in the shadow of its place, so that its styles stay there. It has no script. */
function hang(svg) {
  const root = new DOMParser().parseFromString(svg, 'image/svg+xml').documentElement;
  host.replaceChildren(document.importNode(root, true));
  host.firstChild.setAttribute('role', 'img');
  host.firstChild.setAttribute('aria-label', 'Picture of the history');
  place = -1;
  at('picture').setAttribute('aria-valuemax', String(Math.max(0, places - 1)));
}

/** A picture that is a little wider than the screen is made to fit it, as long as its text of 12 pixels keeps 9. */
function fit() {
  const room = at('picture').clientWidth - 2 * Number.parseFloat(getComputedStyle(at('picture')).paddingLeft);
  if (host.firstChild) at('picture').classList.toggle('fits', host.firstChild.viewBox.baseVal.width * 0.75 <= room);
}

const title = it => it?.querySelector('title')?.textContent ?? '';
const columns = () => [...host.querySelectorAll('path.place')];
const place_of = it => Number.parseInt(title(it), 10);

/** Tells of a place: its event, and what is open, held or waiting behind it. */
async function look(to, of = '') {
  if (!places || to === place) return;
  place = Math.min(Math.max(to, 0), places - 1);
  const wanted = place, column = columns().filter(it => place_of(it) <= wanted).at(-1);
  for (const it of host.querySelectorAll('.here')) it.classList.remove('here');
  column?.classList.add('here');
  at('picture').setAttribute('aria-valuenow', String(wanted));
  const said = await ask('place', { at: wanted });
  if (wanted !== place || !said.event) return;
  const words = title(column).startsWith(`${wanted}:`) ? title(column) : `${wanted}: ${said.event}`;
  at('place').textContent = `Event ${words}.${of ? ` Here: ${of}.` : ''} ${left(said)}`;
  at('picture').setAttribute('aria-valuetext', at('place').textContent);
}

function left({ told, until, broken }) {
  if (broken !== undefined) return `Event ${broken} may not come where it is, so nothing is said of what is held.`;
  if (!told) return 'The history ends before all that its events force has happened.';
  const of = word => new RegExp(`^${word}: ?(.*)$`, 'm').exec(told)?.[1].trim().split(/\s+/).filter(Boolean) ?? [];
  const part = (word, many) => many.length ? `${word} ${many.map(named).join(', ')}` : '';
  const parts = [part('held:', of('held')), part('waiting for release:', of('waiting')), part('open:', of('live'))].filter(Boolean);
  const when = until > place ? `Behind what it forces, up to event ${until}` : 'Behind it';
  return parts.length ? `${when} are ${parts.join('; ')}.` : `${when} nothing is held, waiting or open.`;
}

const named = it => names[it] === undefined ? it : `${it} (${names[it]})`;

// A run -------------------------------------------------------------------------------------------

async function bytes_of() {
  if (chosen) return new Uint8Array(await chosen.arrayBuffer());
  const text = at('input').value;
  return text.length > MOST ? { length: text.length } : new TextEncoder().encode(text);
}

function words_of(said) {
  if (said.is === 'neither') return ['This is neither a scenario nor a history.', 'bad'];
  if (said.is === 'history') {
    if (said.word !== 'lawful') return [said.word === 'unlawful' ? 'The history is unlawful: an event may not come where it is.' : 'The history is unsettled: the rules force another event.', 'bad'];
    return said.left ? ['The history is lawful. At its end something is still open, held or waiting: a leak, if the program has ended.', 'left'] : ['The history is lawful, and leaves nothing.', 'good'];
  }
  const released = number => `the closing of the run released ${number === 1 ? 'it' : 'them'}`;
  if (said.held) return [`The scenario ran. When its steps ended ${many(said.held, 'resource was', 'resources were')} still held; ${released(said.held)}.`, 'left'];
  if (said.waiting) return [`The scenario ran. When its steps ended ${many(said.waiting, 'resource waited', 'resources waited')} for release; ${released(said.waiting)}.`, 'left'];
  return ['The scenario ran. When its steps ended nothing was held, and each resource had been released.', 'good'];
}

async function run() {
  const mine = ++running, began = performance.now(), bytes = await bytes_of();
  document.documentElement.dataset.state = 'running';
  at('linked').textContent = '';
  if (bytes.length > MOST) return fail(`This text has ${count(bytes.length)} bytes. An input may have at most ${count(MOST)}.`);
  if (waiting.size) end();
  show({});
  say('');
  work(`Reading ${count(bytes.length)} bytes`);
  const size = bytes.length;
  const said = await ask('run', { bytes }, (doing, seconds) => mine === running && work(doing, seconds), [bytes.buffer]);
  if (mine !== running) return;
  work();
  if (said.fault) return fail(said.fault);
  say(...words_of(said));
  [places, names] = [said.places ?? 0, said.names ?? {}];
  const caption = said.is === 'scenario' ? 'The history of the run before it closed what was open:' : 'The history:';
  const undrawn = said.unshown ? `Its picture would have ${count(said.unshown)} bytes, and is not shown.` : said.undrawn ? `A history of more than ${count(said.undrawn)} bytes is not drawn.` : said.checkpoint ? 'A scenario with a checkpoint has no whole history, and is not drawn.' : '';
  show({ ...said, why: [said.why, undrawn].filter(Boolean).join(' '), caption });
  at('foot').textContent = `${count(size)} bytes; answered after ${((performance.now() - began) / 1000).toFixed(2)} s. ${proved}`;
  document.documentElement.dataset.state = 'done';
  if (size > 4e6 || said.unshown) end(); // and its memory with it
}

function stop() {
  running++;
  end();
  work();
  say('Stopped.');
  document.documentElement.dataset.state = 'stopped';
}

// The text ----------------------------------------------------------------------------------------

/** Takes a file, or a text that is too long for the field as if it were one. */
function choose(file) {
  if (!file) return;
  if (file.size > MOST) return fail(`${file.name} has ${count(file.size)} bytes. An input may have at most ${count(MOST)}.`);
  at('example').selectedIndex = 0;
  if (file.size <= IN_THE_FIELD) return file.text().then(text => { put_away(); at('input').value = text; run(); });
  chosen = file;
  at('input').hidden = true;
  at('chosen').hidden = false;
  at('chosen').firstElementChild.textContent = `${file.name}, ${count(file.size)} bytes`;
  run();
}

function bring(event, from) {
  event.preventDefault();
  choose(from.files[0] ?? new File([from.getData('text')], 'The text'));
}

function put_away() {
  chosen = undefined;
  at('input').hidden = false;
  at('chosen').hidden = true;
}

// A link carries the text in its fragment, which no browser sends: packed, in letters that a link may have. A short one may unpack to any length.
async function through(text, way) {
  const reader = new Blob([text]).stream().pipeThrough(way).getReader(), parts = [];
  for (let size = 0, it; !(it = await reader.read()).done; parts.push(it.value)) {
    size += it.value.length;
    if (size > MOST) {
      reader.cancel();
      throw new RangeError('too long');
    }
  }
  return new Uint8Array(await new Blob(parts).arrayBuffer());
}

async function link() {
  const text = at('input').value;
  if (typeof CompressionStream !== 'function') return void (at('linked').textContent = 'This browser packs no texts. Any newer one does.');
  if (chosen || text.length > 200000) return void (at('linked').textContent = 'A link carries at most 200,000 characters.');
  const bytes = await through(text, new CompressionStream('deflate-raw'));
  const letters = btoa(Array.from(bytes, it => String.fromCharCode(it)).join('')).replace(/\+/g, '-').replace(/\//g, '_').replace(/=+$/, '');
  history.replaceState(null, '', `#z=${letters}`);
  try {
    await navigator.clipboard.writeText(location.href);
    at('linked').textContent = `The link is copied; it has ${count(location.href.length)} characters.`;
  } catch {
    at('linked').textContent = 'The link stands in the address bar.';
  }
}

/** The text of the fragment, if there is one; or { fault } in words. */
async function linked() {
  const letters = /^#z=([\w-]*)$/.exec(location.hash)?.[1];
  if (letters === undefined) return location.hash.length > 1 ? { fault: 'The link carries no text that can be read' } : '';
  if (typeof DecompressionStream !== 'function') return { fault: 'This browser unpacks no links' };
  try {
    const bytes = Uint8Array.from(atob(letters.replace(/-/g, '+').replace(/_/g, '/')), it => it.charCodeAt(0));
    return new TextDecoder().decode(await through(bytes, new DecompressionStream('deflate-raw')));
  } catch (error) {
    return { fault: error instanceof RangeError ? `The link carries more than ${count(MOST)} bytes` : 'The link carries no text that can be read' };
  }
}

async function open() {
  const text = await linked();
  put_away();
  if (text && !text.fault) {
    at('example').value = '';
    at('input').value = text;
    return run();
  }
  at('example').selectedIndex = 1;
  at('input').value = at('example').value;
  await run();
  if (text.fault) at('linked').textContent = `${text.fault}; this is an example.`;
}

// The page ----------------------------------------------------------------------------------------

let proved = '';
fetch('PROVED').then(it => it.ok ? it.text() : '').then(text => {
  const verdict = /^verdict: (.*)$/m.exec(text)?.[1];
  if (verdict) proved = verdict.startsWith('NONE') ? 'This module was built without its proof.' : 'This module is compiled from the proved library.';
}).catch(() => {});

for (const [name, text] of Object.entries(globalThis.EXAMPLES ?? {})) at('example').append(new Option(name, text));
at('example').onchange = () => {
  put_away();
  at('input').value = at('example').value;
  if (at('example').value) run();
};
at('input').oninput = () => { at('example').selectedIndex = 0; };
at('run').onclick = run;
at('stop').onclick = stop;
at('link').onclick = link;
at('clear').onclick = () => { put_away(); at('input').focus(); };
at('file').onchange = () => { choose(at('file').files[0]); at('file').value = ''; };
document.addEventListener('keydown', event => {
  if (event.key === 'Enter' && (event.ctrlKey || event.metaKey)) run();
  if (event.key === 'Escape' && !at('working').hidden) stop();
});
document.addEventListener('dragover', event => event.preventDefault());
document.addEventListener('drop', event => {
  if (event.dataTransfer.files.length || event.dataTransfer.getData('text').length > IN_THE_FIELD) bring(event, event.dataTransfer);
});
at('input').addEventListener('paste', event => {
  if (event.clipboardData.getData('text').length > IN_THE_FIELD) bring(event, event.clipboardData);
});
at('picture').addEventListener('keydown', event => {
  const to = { ArrowLeft: place - 1, ArrowRight: place + 1, Home: 0, End: places - 1, PageUp: place - 10, PageDown: place + 10 }[event.key];
  if (to === undefined) return;
  event.preventDefault();
  look(to);
  host.querySelector('.here')?.scrollIntoView({ block: 'nearest', inline: 'nearest' });
});
const point = event => {
  const it = event.target.closest('path'), x = it && new DOMPoint(event.clientX, 0).matrixTransform(host.firstChild.getScreenCTM().inverse()).x;
  if (!it?.querySelector('title')) return;
  const column = it.classList.contains('place') ? it : columns().find(one => Math.abs(Number.parseFloat(one.getAttribute('d').slice(1)) - x) <= 10);
  if (column) look(place_of(column), it.classList.contains('place') ? '' : title(it));
};
host.addEventListener('pointermove', point);
host.addEventListener('pointerdown', point);
window.addEventListener('hashchange', open);
window.addEventListener('resize', fit);
if (typeof Worker !== 'function') fail('This browser has no workers, in which the library runs. Any newer one has them.');
else if (typeof WebAssembly !== 'object') fail('This browser has no WebAssembly, in which the library runs. Any newer one has it.');
else if (location.protocol === 'file:') fail('A browser loads no module from a file. Start a server in this folder, as python3 -m http.server, and open its address.');
else open();
