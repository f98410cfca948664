// A worker: runs scenarios, judges histories, explains and draws, by the calls of texts.wasm. A message is { id, ask, .. }; the answer to it
// { id, .. }, or { id, fault } in words. On the way it tells { id, doing, seconds }: what it begins, and how long that may take.
'use strict';

const [DONE, SMALL, FAULTY, SAYS] = [0, 1, 3, 5];
const PIECE = 1 << 19;      // bytes of a history that are judged first, to tell how long the rest may take
const DRAWN = 4 << 20;      // a longer history is not drawn
const SHOWN = 8 << 20;      // and a longer picture is not shown
const encoder = new TextEncoder(), decoder = new TextDecoder();

/** A fault that is told in these words. */
class Told extends Error {}

let texts;                  // a promise of the module
let shown = { events: [] }; // what the picture is of: the text of each event

class Texts {
  #calls;
  #room = 0;
  #buffer = 0;
  #told = 0;

  constructor(instance) {
    this.#calls = instance.exports;
    this.#told = this.#place(8);
  }
  #place(size) {
    const at = Number(BigInt.asUintN(32, BigInt(this.#calls.place(BigInt(size)))));
    if (!at) throw new Told('There is no memory left for this text.');
    return at;
  }
  #grow(size) {
    if (this.#room) this.#calls.unplace(BigInt(this.#buffer));
    this.#room = 0;
    this.#buffer = this.#place(size);
    this.#room = size;
  }
  /** Makes a call on bytes: its status, and its text, where that is not too long. */
  ask(call, bytes, most = Infinity) {
    if (!this.#room) this.#grow(1 << 16);
    const at = this.#place(bytes.length || 1), calls = this.#calls;
    try {
      new Uint8Array(calls.memory.buffer, at, bytes.length).set(bytes);
      for (;;) {
        const status = calls[call](BigInt(at), BigInt(bytes.length), BigInt(this.#buffer), BigInt(this.#room), BigInt(this.#told));
        const length = Number(new DataView(calls.memory.buffer).getBigUint64(this.#told, true));
        if (status === 4) throw new Told('There is no memory left for this text.');
        if (length > most) return { status: SMALL, length };
        if (status !== SMALL) return { status, text: decoder.decode(new Uint8Array(calls.memory.buffer, this.#buffer, length).slice()) };
        this.#grow(length);
      }
    } finally {
      calls.unplace(BigInt(at));
    }
  }
}

async function load() {
  if (typeof WebAssembly !== 'object') throw new Told('This browser has no WebAssembly, in which the library runs. Any newer one has it.');
  let answer;
  try {
    answer = await fetch('texts.wasm');
  } catch {
    throw new Told('The module texts.wasm cannot be read. A browser loads none from a file: start a server in this folder, as python3 -m http.server, and open its address.');
  }
  if (!answer.ok) throw new Told(`The module texts.wasm is not beside this page (the server says ${answer.status}). In a checkout tools/build-wasm makes it.`);
  try {
    return new Texts((await WebAssembly.instantiate(await answer.arrayBuffer())).instance);
  } catch (error) {
    throw new Told(`The module texts.wasm is not one that this browser takes: ${error.message}`);
  }
}

/** Where each element of the array stands that begins at this place of the text. */
function elements(text, from) {
  const found = [];
  let depth = 0, begin = from + 1;
  for (let at = from; at < text.length; at++) {
    const it = text[at];
    if (it === '"') {
      for (at++; at < text.length && text[at] !== '"'; at++) if (text[at] === '\\') at++;
    } else if (it === '[' || it === '{') depth++;
    else if (it === ']' || it === '}') {
      if (--depth === 0) {
        if (text.slice(begin, at).trim()) found.push(text.slice(begin, at).trim());
        return { found, end: at + 1 };
      }
    } else if (it === ',' && depth === 1) {
      found.push(text.slice(begin, at).trim());
      begin = at + 1;
    }
  }
  return { found, end: text.length };
}

/** The text of the dump in an object that has names beside it, or in the array that it is. */
function dump_in(text) {
  const start = text.trimStart();
  if (start[0] === '[') return start;
  const at = /"dump"\s*:\s*\[/.exec(start);
  return at ? start.slice(at.index + at[0].length - 1, elements(start, at.index + at[0].length - 1).end) : undefined;
}

/** Judges bytes that are a history, and tells before how long that may take. */
function judge(texts, bytes, tell) {
  if (bytes.length > 2 * PIECE) {
    const cut = bytes.subarray(0, PIECE).lastIndexOf(93); // behind the last event that is whole there
    const first = new Uint8Array(cut + 2);
    first.set(bytes.subarray(0, cut + 1));
    first[cut + 1] = 93;
    const began = performance.now();
    texts.ask('cellar_audit', first);
    tell('Judging', (performance.now() - began) / 1000 * bytes.length / PIECE);
  }
  return texts.ask('cellar_audit', bytes);
}

/** The picture of what is to be drawn, and where it begins. */
function draw(texts, text) {
  const { status, text: svg, length } = texts.ask('cellar_picture', encoder.encode(text), SHOWN);
  if (length) return { unshown: length };
  if (status !== DONE) return {};
  shown = { events: elements(dump_in(text), 0).found };
  return { svg, places: shown.events.length, names: JSON.parse(text).names ?? {} };
}

function history(texts, bytes, text, tell) {
  const dump = dump_in(text), its = text.trimStart() === dump ? bytes : encoder.encode(dump);
  const { status, text: told } = judge(texts, its, tell);
  if (status === FAULTY) return;
  const left = told.split('\n').flatMap(line => /^(live|held|waiting): ?(.*)$/.exec(line)?.slice(1, 3).filter(Boolean).join(': ') ?? []);
  let why = '';
  if (status === SAYS) {
    tell('Explaining');
    why = texts.ask('cellar_explain', its).text;
  }
  const answer = { is: 'history', word: told.split(/\s/)[0], told, why, left: left.some(it => it.includes(':')) };
  if (bytes.length > DRAWN) return { ...answer, undrawn: DRAWN };
  tell('Drawing');
  return { ...answer, ...draw(texts, text) };
}

function scenario(texts, bytes, tell) {
  tell('Running');
  const { status, text: told } = texts.ask('cellar_run', bytes);
  if (status === FAULTY) return;
  const [held = 0, waiting = 0] = (/ held=(\d+) waiting=(\d+)/.exec(told) ?? []).slice(1).map(Number);
  const names = texts.ask('cellar_run_names', bytes);
  tell('Drawing');
  return { is: 'scenario', told, held, waiting, ...names.status === DONE ? draw(texts, names.text) : { checkpoint: true } };
}

async function run({ bytes }, tell) {
  const its = await texts, text = decoder.decode(bytes);
  shown = { events: [] };
  const answer = (text.trimStart()[0] === '[' ? undefined : scenario(its, bytes, tell)) ?? (dump_in(text) && history(its, bytes, text, tell));
  return answer ?? { is: 'neither', why: its.ask('cellar_explain', bytes).text };
}

/** What is left behind an event: the verdict on the history up to there, and up to the end of what it forces. */
async function place({ at }) {
  const its = await texts;
  for (let end = at + 1; end <= shown.events.length; end++) {
    const { status, text } = its.ask('cellar_audit', encoder.encode(`[${shown.events.slice(0, end).join(',')}]`));
    if (status === DONE) return { event: shown.events[at], until: end - 1, told: text };
    if (text.startsWith('unlawful')) return { event: shown.events[at], broken: Number(text.split(' ')[1]) };
  }
  return { event: shown.events[at] };
}

onmessage = async ({ data }) => {
  const tell = (doing, seconds) => postMessage({ id: data.id, doing, seconds });
  try {
    texts ??= load();
    if (data.ask === 'load') await texts;
    postMessage({ id: data.id, is_last: true, ...(data.ask === 'run' ? await run(data, tell) : data.ask === 'place' ? await place(data) : {}) });
  } catch (error) {
    const words = error instanceof Told ? error.message : `The module stopped: ${error.message}. The next run begins with a new one.`;
    postMessage({ id: data.id, is_last: true, fault: words, is_over: !(error instanceof Told) });
  }
};
