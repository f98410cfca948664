// A history that is written down by hand: what may not come is refused at once, with the rule and the lines. Usage: node watch-history.mjs
import assert from 'node:assert/strict';
import { basename } from 'node:path';
import { fileURLToPath } from 'node:url';

const { History, WrongOrder } = await import(process.env.CELLARCLIFF_PACKAGE ? `${process.env.CELLARCLIFF_PACKAGE}/history.mjs` : '../history.mjs');
const file = basename(fileURLToPath(import.meta.url));
const line = () => Number(/:(\d+):\d+\)?$/.exec(new Error().stack.split('\n')[2])[1]);

/** Refuses it by this rule, says the line of the call and the one that made what it is about, and nothing was written down. */
function refused(history, rule, call, about = null) {
  const before = [history.report(), history.dump()];
  assert.throws(call, (error) => {
    assert.ok(error instanceof WrongOrder);
    assert.equal(error.rule, rule);
    assert.ok(error.message.includes(`(${rule})`));
    assert.equal(basename(error.place.file), file);
    if (about !== null) assert.match(error.message, new RegExp(`${file}:${about}`));
    return true;
  });
  assert.deepEqual([history.report(), history.dump()], before);
}
const isEmpty = (history) => assert.equal(history.report(), 'history: nothing of what was written down is open\n');

const TESTS = {
  'a subscription with a source and a resource'(history) {
    const view = history.opened('pass', 'root', null, 'view'), prices = history.opened('leaf', 'source', view), socket = history.held(view, 'socket'), made = line();
    history.item(prices);
    history.completed(prices);
    assert.deepEqual(history.openNow(), [socket]);
    assert.match(history.report(), new RegExp(`resource socket, written down at .*${file}:${made}`));
    history.released(socket);
    isEmpty(history);
    const events = JSON.parse(history.dump());
    assert.deepEqual(events.slice(0, 3), [['open', 'root', 'pass'], ['open', 'source', 0, 'leaf'], ['accept', 0, 0]]);
    assert.deepEqual(events.at(-1), ['take', 2]);
    assert.deepEqual(JSON.parse(history.dumpNamed()).names, { 0: 'view', 2: 'socket' });
  },
  'a resource that is released before its subscription ends'(history) {
    const view = history.opened(), socket = history.held(view);
    history.released(socket);
    assert.deepEqual(history.openNow(), [view]);
    history.closed(view);
    isEmpty(history);
  },
  'nothing comes behind an end'(history) {
    const view = history.opened(), made = line();
    const prices = history.opened('leaf', 'source', view);
    history.completed(prices);
    const ended = line() - 1;
    refused(history, 'Gone', () => history.item(prices), ended);
    refused(history, 'Gone', () => history.completed(prices));
    refused(history, 'Gone', () => history.failed(prices));
    refused(history, 'Gone', () => history.closed(view), made);
    refused(history, 'Gone', () => history.held(view));
    refused(history, 'Gone', () => history.opened('leaf', 'source', view));
    isEmpty(history);
  },
  'nothing comes behind a closing'(history) {
    const view = history.opened(), prices = history.opened('leaf', 'source', view);
    history.closed(view);
    refused(history, 'Gone', () => history.item(prices));
    refused(history, 'Gone', () => history.closed(view));
  },
  'a release comes once'(history) {
    const view = history.opened(), socket = history.held(view), made = line();
    history.closed(view);
    history.released(socket);
    refused(history, 'NoLease', () => history.released(socket), made);
  },
  'what a kind does not do'(history) {
    const view = history.opened(), leaf = history.opened('leaf', 'source', view);
    refused(history, 'WrongKind', () => history.item(view));
    refused(history, 'WrongKind', () => history.completed(view));
    refused(history, 'WrongKind', () => history.declined(view));
    refused(history, 'WrongKind', () => history.opened('leaf', 'source', leaf));
    refused(history, 'WrongKind', () => history.opened('leaf', 'inner', view));
    refused(history, 'WrongKind', () => history.opened('leaf', 'notifier', view));
  },
  'one source and one notifier'(history) {
    const until = history.opened('until');
    for (const place of ['source', 'notifier']) {
      history.opened('leaf', place, until);
      refused(history, 'PlaceTaken', () => history.opened('leaf', place, until));
    }
  },
  'an inner comes of an item'(history) {
    const latest = history.opened('switch'), made = line(), routes = history.opened('leaf', 'source', latest);
    refused(history, 'NothingOwed', () => history.opened('leaf', 'inner', latest), made);
    refused(history, 'NothingOwed', () => history.declined(latest));
    history.item(routes);
    const first = history.opened('leaf', 'inner', latest);
    refused(history, 'NothingOwed', () => history.opened('leaf', 'inner', latest));
    history.item(routes);
    history.opened('leaf', 'inner', latest);
    refused(history, 'Gone', () => history.item(first));
    history.item(routes);
    history.declined(latest);
    history.item(routes);
    history.failed(latest);
    isEmpty(history);
  },
  'only a root is closed from outside'(history) {
    const view = history.opened(), leaf = history.opened('leaf', 'source', view);
    refused(history, 'NotRoot', () => history.closed(leaf));
  },
  'what is shared by hand'(history) {
    const feed = history.hub('manual', 'feed'), connection = history.connected(feed);
    refused(history, 'Connected', () => history.connected(feed));
    const source = history.opened('leaf', 'source', connection), first = history.opened(['sub', feed]);
    history.item(source);
    history.closed(first);
    history.closed(connection);
    refused(history, 'NotConnected', () => history.closed(connection));
  },
  'a share is connected while it has a subscriber'(history) {
    const feed = history.hub('auto', 'feed');
    refused(history, 'WrongKind', () => history.connected(feed));
    const first = history.opened(['sub', feed]), source = history.opened('leaf', 'source', feed.connection);
    history.closed(first);
    refused(history, 'Gone', () => history.item(source));
    isEmpty(history);
  },
  'hubs that nobody shares are not in the history with names'(history) {
    const auto = history.hub('auto'), manual = history.hub('manual'), first = history.opened(['sub', manual], 'root', null, 'first');
    history.connected(manual);
    history.opened(['sub', auto], 'root', null, 'second');
    history.failed(history.opened('leaf', 'source', manual.connection));
    assert.deepEqual(first.isOpen, false);
    assert.deepEqual(JSON.parse(history.dumpNamed()), {
      dump: [['hub', 'auto'], ['hub', 'manual'], ['open', 'root', 'sub', 1], ['connect', 1], ['open', 'root', 'sub', 0], ['connect', 0], ['open', 'source', 3, 'leaf'],
        ['end', 6, 'error', 0], ['end', 3, 'error', 0], ['end', 2, 'error', 0]],
      names: { 2: 'first', 4: 'second' },
    });
  },
  'many that close at once'(history) {
    const view = history.opened('flat'), routes = history.opened('leaf', 'source', view);
    for (let i = 0; i < 100; i++) {
      history.item(routes);
      history.held(history.opened('leaf', 'inner', view));
    }
    assert.equal(history.openNow().length, 202);
    history.closed(view);
    const left = history.openNow();
    assert.deepEqual(left.map((it) => it.what), Array(100).fill('resource'));
    left.forEach((it) => history.released(it));
    isEmpty(history);
  },
  'no such words'(history) {
    for (const words of [['loaf'], ['leaf', 'source'], ['leaf', 'top'], [['share', null]], [['sub', null]]]) assert.throws(() => history.opened(...words), TypeError);
    assert.throws(() => history.hub('both'), TypeError);
  },
};
let failed = 0;
for (const [name, test] of Object.entries(TESTS)) {
  try { test(new History()); } catch (error) {
    console.log(`FAILS ${name}: ${error.stack}`);
    failed++;
  }
}
console.log(`${Object.keys(TESTS).length - failed} passed, ${failed} failed`);
process.exit(failed ? 1 : 0);
