// Programs for RxJS under `node --import cellarcliff/watch`: what they leave open is told by their lines. Usage: node watch-node.mjs, in Node alone.
import { spawnSync } from 'node:child_process';
import { mkdirSync, mkdtempSync, readFileSync, rmSync, symlinkSync, writeFileSync } from 'node:fs';
import { tmpdir } from 'node:os';
import { dirname, join } from 'node:path';
import { fileURLToPath } from 'node:url';

const top = dirname(dirname(fileURLToPath(import.meta.url))), leaks = join(top, 'examples/leaks'), room = mkdtempSync(join(tmpdir(), 'watch-'));
let failed = 0, passed = 0;
const check = (what, is, shown) => {
  if (is) passed++;
  else console.log(`FAILS ${what}: ${shown}`), failed++;
};

mkdirSync(join(room, 'node_modules'));
symlinkSync(process.env.CELLARCLIFF_PACKAGE ?? top, join(room, 'node_modules/cellarcliff'));

function watched(file, text, more = {}) {
  writeFileSync(join(room, file), text);
  const { status, stdout, stderr } = spawnSync(process.execPath, ['--import', 'cellarcliff/watch', file], { cwd: room, encoding: 'utf8', env: { ...process.env, CELLARCLIFF_FAIL: '1', ...more } });
  return { status, stdout, stderr, rows: stderr.split('\n').filter((it) => /^ {2}(GROWS )?\d/.test(it)) };
}

// Each example, by the lines that have these words.
const WANTED = {
  dashboard: [['1 subscription', 'routes.pipe('], ['1 resource', "routes.next('news')"]],
  share: [['1 subscription', 'constructor(name)']],
  retry: [['3 subscriptions', 'lines().pipe('], null],
  subject: [['2 subscriptions', 'this.said.pipe('], ['2 finalizers', 'this.said.pipe(']],
};
for (const [name, wanted] of Object.entries(WANTED)) {
  const text = readFileSync(join(leaks, `${name}.mjs`), 'utf8'), said = watched(`${name}.mjs`, text);
  check(`${name}: the status`, said.status === 3, `${said.status} ${said.stderr}`);
  for (const [what, words] of wanted.filter(Boolean)) {
    const line = text.split('\n').findIndex((it) => it.includes(words)) + 1;
    check(`${name}: ${what}`, said.rows.some((it) => it.includes(what) && it.includes(`${name}.mjs:${line}`)), said.stderr);
  }
}

// Programs that leave nothing.
const CLEAN = {
  'an end': 'held(of(1)).subscribe()', 'an error': 'held(throwError(() => 1)).subscribe({ error() {} })', 'left': 'held(NEVER).subscribe().unsubscribe()',
  take: 'held(s).pipe(take(1)).subscribe(); s.next(1)', takeUntil: 'const end = new Subject(); held(s).pipe(takeUntil(end)).subscribe(); end.next(1)',
  'takeUntil last': 'const end = new Subject(); s.pipe(switchMap(() => held(NEVER)), takeUntil(end)).subscribe(); s.next(1); s.next(2); end.next(1)',
  mergeMap: 's.pipe(mergeMap((it) => held(of(it)))).subscribe(); s.next(1); s.complete()', concatMap: 'of(1, 2).pipe(concatMap((it) => held(of(it)))).subscribe()',
  switchMap: 's.pipe(switchMap((it) => held(NEVER))).subscribe(); s.next(1); s.error(1)'.replace('subscribe()', 'subscribe({ error() {} })'),
  exhaustMap: 'of(1, 2).pipe(exhaustMap((it) => held(of(it)))).subscribe()', merge: 'merge(held(of(1)), held(of(2))).subscribe()', concat: 'concat(held(of(1)), held(of(2))).subscribe()',
  zip: 'zip(held(of(1)), held(of(2))).subscribe()', combineLatest: 'combineLatest([held(of(1)), held(of(2))]).subscribe()',
  share: 'const it = held(s).pipe(share()), a = it.subscribe(), b = it.subscribe(); a.unsubscribe(); b.unsubscribe()',
  retry: 'let n = 0; defer(() => held(n++ ? of(1) : throwError(() => 1))).pipe(retry(1)).subscribe()', catchError: 'held(throwError(() => 1)).pipe(catchError(() => held(of(2)))).subscribe()',
  finalize: 'of(1).pipe(finalize(() => {})).subscribe()', 'a teardown': 'new Observable(() => () => {}).subscribe().unsubscribe()', timer: 'held(timer(10)).subscribe()',
  interval: 'held(interval(5)).pipe(take(3)).subscribe()', firstValueFrom: 'firstValueFrom(held(s)).then(() => {}); s.next(1)', replay: 'const it = new ReplaySubject(1); held(it).subscribe(); it.next(1); it.complete()',
};
const names = 'Observable Subject ReplaySubject NEVER of throwError take takeUntil switchMap mergeMap concatMap exhaustMap merge concat zip combineLatest share retry defer catchError finalize timer interval firstValueFrom using';
for (const [name, text] of Object.entries(CLEAN)) {
  const said = watched('clean.mjs', `import { ${names.split(' ').join(', ')} } from 'rxjs';\nconst s = new Subject(), held = (inner) => using(() => ({ unsubscribe() {} }), () => inner);\n${text.replaceAll('; ', ';\n')};\n`);
  check(name, said.status === 0 && said.stderr.includes('nothing that the program made is open'), `${said.status} ${said.stderr}`);
}

// Whatever subscribes, and whoever calls it: each by the line that asks for it, which says what it makes.
const LINES = `import { NEVER, Observable, Subject, connectable, debounceTime, defer, filter, finalize, firstValueFrom, lastValueFrom, map, mergeMap, publish, shareReplay, switchMap, using } from 'rxjs';
lastValueFrom(NEVER); // subscription
firstValueFrom(NEVER); // subscription
NEVER.forEach(() => {}); // subscription
NEVER.toPromise(); // subscription
const s = NEVER.pipe(shareReplay(1));
s.subscribe().unsubscribe(); // subscription
connectable(NEVER).connect(); // subscription
NEVER.pipe(publish()).connect(); // connection
const held = (it) => using(() => ({ unsubscribe() {} }), () => it);
held(NEVER).subscribe(); // subscription resource
const t = new Subject();
t.pipe(map((x) => x), filter(Boolean), switchMap(() => held(NEVER)), finalize(() => {})).subscribe(); // subscription finalizer
t.next(1); // resource
new Observable((to) => {
  return held(NEVER).subscribe(to); // resource
}).subscribe(); // subscription
const u = new Subject();
u.pipe(mergeMap(() => held(NEVER))).subscribe(); // subscription
defer(() => {
  u.next(1); // resource
  return held(NEVER);
}).subscribe(); // subscription resource
held(new Subject()).pipe(debounceTime(1)).subscribe(); // subscription resource
`;
const asked = LINES.split('\n').flatMap((it, i) => (it.split(' // ')[1] ?? '').split(' ').filter(Boolean).map((what) => `${what} ${i + 1}`)).sort();
const told = watched('lines.mjs', LINES).rows.map((it) => it.replace(/^ +\d+ (\w+), made at lines\.mjs:(\d+).*/, '$1 $2')).sort();
check('each by its line', JSON.stringify(told) === JSON.stringify(asked), `${told} and not ${asked}`);
check('a connection that is left', watched('connected.mjs', "import { NEVER, of, publish, refCount } from 'rxjs';\nNEVER.pipe(publish()).connect().unsubscribe();\nof(1).pipe(publish()).connect();\nNEVER.pipe(publish(), refCount()).subscribe().unsubscribe();\n").status === 0, 'is told');

const required = watched('required.cjs', "const { Subject } = require('rxjs'), { map } = require('rxjs/operators');\nconst s = new Subject();\ns.pipe(map(String)).subscribe();\n");
check('a program that requires', required.rows.some((it) => it.includes('required.cjs:3')), required.stderr);
const grows = watched('grows.mjs', "import { Subject } from 'rxjs';\nconst s = new Subject();\ns.subscribe();\nfor (let i = 0; i < 3; i++) {\n  s.subscribe(console.log);\n  process.kill(process.pid, 'SIGUSR2');\n  await new Promise((resolve) => setTimeout(resolve, 50));\n}\n");
check('what grows comes first', grows.rows.at(-2)?.startsWith('  GROWS 3 subscriptions') && grows.rows.at(-2).endsWith(', 3)'), grows.stderr);
const named = watched('named.mjs', "import { NEVER } from 'rxjs';\nconst one = { subscribes() {\n  NEVER.subscribe();\n} }, { subscribes: other } = one;\none.subscribes();\nprocess.kill(process.pid, 'SIGUSR2');\nawait new Promise((resolve) => setTimeout(resolve, 50));\nother();\nnew one.subscribes.constructor('it', 'it()')(other);\n");
check('one line once, whatever calls its function', named.rows.length === 2 && named.rows[1].startsWith('  GROWS 3 subscriptions, made at named.mjs:3') && named.rows[1].endsWith('(at each report: 1, 3)'), named.stderr);
const inner = watched('inner.mjs', "import { NEVER, Subject, mergeMap } from 'rxjs';\nconst s = new Subject();\ns.pipe(mergeMap(() => NEVER)).subscribe();\nfor (let i = 0; i < 2; i++) {\n  s.next(i);\n  process.kill(process.pid, 'SIGUSR2');\n  await new Promise((resolve) => setTimeout(resolve, 50));\n}\n");
check('what grows below a subscription', /^ {2}GROWS what stands below these \(nodes at each report: \d+, \d+\)$/m.test(inner.stderr), inner.stderr);
check('the status of the program', watched('status.mjs', "import 'rxjs';\nprocess.exit(7);\n").status === 7, 'another');
const dumped = watched('dashboard.mjs', readFileSync(join(leaks, 'dashboard.mjs'), 'utf8'), { CELLARCLIFF_DUMP: 'dump.json' });
check('the history with names', JSON.parse(readFileSync(join(room, 'dump.json'), 'utf8')).names[0].startsWith('dashboard.mjs:'), dumped.stderr);
watched('share.mjs', "import { NEVER, share } from 'rxjs';\nNEVER.subscribe();\nNEVER.pipe(share()).subscribe();\n", { CELLARCLIFF_DUMP: 'share.json' });
const shared = readFileSync(join(room, 'share.json'), 'utf8');
check('the hub of a share alone', shared === '{"dump":[["open","root","leaf"],["hub","auto"],["open","root","sub",1],["connect",1],["open","source",3,"leaf"]],' +
  '"names":{"0":"share.mjs:2","2":"share.mjs:3"}}\n', shared);
const cut = watched('cut.mjs', "import { Subject } from 'rxjs';\nconst s = new Subject();\ns.subscribe();\nfor (let i = 0; i < 70000; i++) s.next(i);\n");
check('a history that is cut', cut.stderr.includes('made a checkpoint'), cut.stderr);
rmSync(room, { recursive: true });
console.log(`${passed} passed, ${failed} failed`);
process.exit(failed ? 1 : 0);
