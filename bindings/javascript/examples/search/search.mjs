// A search box whose requests are cancelled, beside a view of all that is open. The server answers search?q=WORD with a list of words as JSON.
import { EMPTY, Observable, close, counts, debounceTime, defer, distinctUntilChanged, fromEvent, interval, leaks, map, catchError, startWith, switchMap, tap, trace } from '../../index.mjs';

trace(); // each subscription keeps the place where it was made

const element = (id) => document.getElementById(id);
const item = (text) => Object.assign(document.createElement('li'), { textContent: text });

/** A request that is cancelled as it is left. */
const request = (url) => new Observable((to) => {
  const abort = new AbortController();
  fetch(url, { signal: abort.signal }).then((it) => {
    if (!it.ok) throw new Error(`${it.status} ${it.statusText}`);
    return it.json();
  }).then((it) => {
    to.next(it);
    to.complete();
  }).catch((error) => to.error(error));
  return () => abort.abort();
});

// The search: the last word alone, once nobody has typed for a while; what was asked before is cancelled.
const found = fromEvent(element('box'), 'input').pipe(
  map(() => element('box').value.trim()), debounceTime(100), distinctUntilChanged(),
  tap((word) => { element('state').textContent = word ? 'searching' : ''; }),
  switchMap((word) => (word ? request(`search?q=${encodeURIComponent(word)}`).pipe(catchError((error) => {
    element('state').textContent = error.message;
    return EMPTY;
  })) : [[]])),
);
found.subscribe((words) => {
  element('state').textContent = '';
  element('found').replaceChildren(...words.map(item));
});

// A stopwatch for each time that one is shown.
let watch = null;
function showWatch() {
  const place = Object.assign(document.createElement('span'), { className: 'watch' }), began = Date.now();
  element('watches').append(place);
  const subscription = defer(() => interval(100)).pipe(startWith(0)).subscribe(() => { place.textContent = `${((Date.now() - began) / 1000).toFixed(1)} s`; });
  watch = { place, subscription };
}
function takeAway(is_left) {
  watch?.place.remove();
  if (is_left) watch?.subscription.unsubscribe();
  watch = null;
}
element('start').onclick = showWatch;
element('stop').onclick = () => takeAway(true);
element('forget').onclick = () => takeAway(false);

// What is open: the engine's own account, drawn each half second by what is no subscription, so that it does not count itself.
function draw() {
  const now = counts(), rows = { Nodes: now.nodes, 'Resources held': now.held, 'Resources released': now.taken, Events: now.events };
  element('counts').replaceChildren(...Object.entries(rows).map(([name, value]) => {
    const row = document.createElement('tr');
    row.append(Object.assign(document.createElement('td'), { textContent: name }), Object.assign(document.createElement('td'), { textContent: value, id: name.split(' ').pop().toLowerCase() }));
    return row;
  }));
}
setInterval(draw, 200);
draw();
element('leaks').onclick = () => {
  element('list').replaceChildren(...leaks().filter((it) => it.kind === 'subscription').map((it) => item(it.at ?? 'somewhere')));
};
element('close').onclick = () => {
  close();
  draw();
};
