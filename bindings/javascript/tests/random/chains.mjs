// Chains of functions on items, and of what ends by itself, with a look behind each: all that each is told, in its order, is what RxJS tells it. What is
// done as something is left has no order.
import { drawing } from './drawing.mjs';
import { OPERATORS } from './mix.mjs';

const OTHERS = /Time|time|share|publish|multicast|delay|groupBy|window|observeOn|subscribeOn|expand|connect/;
const NAMES = Object.keys(OPERATORS).filter((it) => !/[oi]/.test(OPERATORS[it][0]) && !OTHERS.test(it));
const number = (it) => (Array.isArray(it) ? it.length : typeof it === 'number' ? it : it ? 1 : 0);
const shown = (it) => (it instanceof Error ? it.message : JSON.stringify(it, (_, value) => (value instanceof Error ? value.message : value)));

function drawn(d) {
  const word = { n: () => d.below(4), b: () => d.chance(0.5), l: () => d.made++, f: () => d.chance(1 / 6) };
  const operator = () => { const name = d.one(NAMES); return [name, ...[...OPERATORS[name][0]].map((kind) => word[kind]())]; };
  return {
    is_hot: d.chance(0.4), fails: d.chance(0.2), items: Array.from({ length: d.below(6) }, () => d.below(5)),
    operators: Array.from({ length: 1 + d.below(5) }, operator), leaves_at: d.chance(0.2) ? d.below(3) : -1,
  };
}

function run([rx, ops], it) {
  const list = [], say = (...of) => list.push(of.join(' ')), subject = new rx.Subject(), error = new Error('source');
  const called = (fails, i) => (act) => (value) => {
    say('called', i, shown(value));
    if (fails && number(value) === 3) throw new Error('called');
    return act(number(value));
  };
  const operator = ([name, ...words], i) => {
    const [kinds, make] = OPERATORS[name];
    return make({ rx, ops, say, clock: new rx.VirtualTimeScheduler(), mends: new Set(), finalized: rx.finalize }, ...words.map((word, k) => (kinds[k] === 'f' ? called(word, i) : word)));
  };
  let chain = it.is_hot ? subject : it.fails ? rx.concat(it.items, rx.throwError(() => error)) : rx.from(it.items), told = 0;
  it.operators.forEach((one, i) => { chain = chain.pipe(operator(one, i), rx.tap((value) => say('behind', i, shown(value)))); });
  const whole = new rx.Subscriber({
    next: (value) => { say('next', shown(value)); if (told++ === it.leaves_at) whole.unsubscribe(); },
    error: (why) => say('error', shown(why)), complete: () => say('end'),
  });
  chain.subscribe(whole);
  if (!it.is_hot) return list;
  for (const value of it.items) subject.next(value);
  if (it.fails) subject.error(error); else subject.complete();
  return list;
}

/** Runs so many over both; the status. */
export function chains(peer, ours, many, first) {
  const [{ counts }] = ours, isLast = (line) => /finalized|left/.test(line);
  const compared = (list) => JSON.stringify([list.filter((line) => !isLast(line)), list.filter(isLast).sort()]);
  let differ = 0;
  for (let seed = first; seed < first + many; seed++) {
    const it = drawn(drawing(seed)), a = run(peer, it), { nodes, held } = counts(), b = run(ours, it), after = counts();
    if (compared(a) === compared(b) && after.nodes === nodes && after.held === held) continue;
    if (++differ < 6) console.log(`seed ${seed}\n ${JSON.stringify(it)}\n RxJS ${a.join(', ')}\n ours ${b.join(', ')}\n ${after.nodes - nodes} nodes and ${after.held - held} held stay`);
  }
  console.log(`${many} chains of ${NAMES.length} operators; ${differ} differ`);
  return differ ? 1 : 0;
}
