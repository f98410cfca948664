// Runs cases over RxJS, or over a package with its names, in virtual time.
//
// Usage: node runner.js PACKAGE FILE ..; PACKAGE is rxjs, or a path. Prints an object with, for each case by its name, what was told
// (a list), or the name of what the package lacks, or what was raised. README.md beside it has the format.
'use strict'
const fs = require('fs'), path = require('path')
const WORDS = JSON.parse(fs.readFileSync(path.join(__dirname, 'words.json')))
let lacking // what the package was found to lack in this case

// a module of the package; a name that it lacks is noted
const names = module => new Proxy(module, {
  get (target, name) {
    if (!(name in target)) throw new Error(lacking ??= name)
    return target[name]
  }
})
const rx = names(require(process.argv[2])), ops = names(require(process.argv[2] + '/operators'))

// functions on items, values, errors

const FUNCTIONS = {
  identity: () => value => value, add: n => value => value + n, times: n => value => value * n, mod: n => value => value % n,
  is: n => value => value === n, below: n => value => value < n, 'is even': () => value => value % 2 === 0,
  sum: () => (...values) => values.reduce((a, b) => a + b)
}
const ARITY = { map_indexed: 2, scan: 2, reduce: 2, starmap: 9 } // how many values a function takes, where not one: RxJS gives an index besides
const LIBRARY_ERRORS = {
  EmptyError: 'no elements', NotFoundError: 'no elements', ArgumentOutOfRangeError: 'out of range', SequenceError: 'more than one',
  TimeoutError: 'timeout'
}
const text = value => Array.isArray(value) ? `[${value.map(text).join(', ')}]` : JSON.stringify(value)
const message = error => LIBRARY_ERRORS[error.name] ?? error.message

// a function on items by its name, which may fail at an item
function functionOf (text, arity = 1) {
  const [name, failsAt] = text.split(' or fail at ')
  const [, word, number] = /^(.*) (\d+)$/.exec(name) ?? [0, name, 0]
  const call = FUNCTIONS[word === 'fail' ? 'identity' : word](Number(number))
  return (...values) => {
    values = values.slice(0, arity)
    if (word === 'fail' || (failsAt && values.includes(Number(failsAt)))) throw new Error('failed')
    return call(...values)
  }
}

// an item as JSON has it
function plain (value) {
  if (Array.isArray(value)) return value.map(plain)
  if (value?.kind === 'N') return `next ${text(value.value)}`
  if (value?.kind === 'E') return `error ${message(value.error)}`
  if (value?.kind === 'C') return 'completed'
  return value?.interval === undefined ? value ?? null : [value.value, value.interval]
}

function tell (observer, what, value) {
  if (what === 'next') observer.next(JSON.parse(value))
  else if (what === 'error') observer.error(new Error(value))
  else observer.complete()
}

// the first words of a line, and its rest
function split (line, many) {
  const words = line.split(' ')
  return [...words.slice(0, many), words.slice(many).join(' ')]
}

// one case: what it made, and what was told
class Run {
  constructor (it) {
    Object.assign(this, { it, told: [], when: { ...it.when }, subjects: {}, lets: {}, counts: {}, subscriptions: {} })
    this.clock = new rx.VirtualTimeScheduler(undefined, 1000)
    for (const [name, made] of Object.entries(it.sources)) {
      const source = this.fed(name, made)
      this.lets[name] = this.using(name, () => source)
    }
    for (const [time, command] of it.do.map(it => split(it, 1))) this.clock.schedule(() => this.act(command), Number(time))
    this.pipe = this.build(it.pipe)
  }

  note (who, what, ...value) {
    const said = [who, what, ...value.map(it => what === 'error' || what === 'called' ? it : text(plain(it)))].join(' ')
    this.told.push(`${this.clock.frame} ${said}`)
    const commands = this.when[said] ?? []
    delete this.when[said]
    for (const command of commands) this.act(command)
  }

  act (command) {
    const [who, what, value] = split(command, 2)
    if (what === 'subscribe' || what === 'connect') {
      const whole = this.subscriptions[who] = new rx.Subscription()
      const observable = what === 'connect' ? this.build(who) : value ? this.build(JSON.parse(value)) : this.pipe
      whole.add(what === 'connect' ? observable.connect() : observable.subscribe({
        next: value => this.note(who, 'next', value),
        error: error => this.note(who, 'error', message(error)),
        complete: () => this.note(who, 'completed')
      }))
    } else if (what === 'dispose' || what === 'disconnect') this.subscriptions[who].unsubscribe()
    else tell(this.subjects[who], what, value)
  }

  // observables

  build (it) {
    if (typeof it === 'string') return this.lets[it] ??= this.build(this.it.let[it])
    const made = (table, kinds, module, [name, ...words]) => {
      words = this.args(name, kinds[name].split(' '), words)
      return table[name] ? table[name](this, ...words) : module[RXJS[name] ?? camel(name)](...words)
    }
    if (typeof it[0] === 'string' && it[0] in WORDS.sources) return made(SOURCES, WORDS.sources, rx, it)
    return it.slice(1).reduce((source, one) => made(OPERATORS, WORDS.operators, ops, one)(source), this.build(it[0]))
  }

  // a subject, or an observable that tells all that is listed so many ticks after each subscription
  fed (name, made) {
    if (typeof made === 'string') {
      const [word, number] = made.split(' ')
      const kind = rx[{ hot: '', behavior: 'Behavior', replay: 'Replay', async: 'Async' }[word] + 'Subject']
      return this.subjects[name] = number ? new kind(Number(number)) : new kind()
    }
    return new rx.Observable(observer => {
      const whole = new rx.Subscription()
      for (const [time, ...told] of made.map(it => split(it, 2))) {
        whole.add(this.clock.schedule(() => tell(observer, ...told), Number(time)))
      }
      return whole
    })
  }

  counted (name) { return this.counts[name] = (this.counts[name] ?? 0) + 1 }

  resource (name) {
    const number = this.counted(name)
    this.note(name, 'made', number)
    return new rx.Subscription(() => this.note(name, 'released', number))
  }

  using (name, factory) { return rx.using(() => this.resource(name), factory) }

  create (name, told) {
    return new rx.Observable(observer => {
      const resource = this.resource(name)
      for (const it of told) tell(observer, ...split(it, 1))
      return resource
    })
  }

  // arguments

  args (name, kinds, words) {
    const convert = {
      observable: it => this.build(it), inner: it => this.inner(it), factory: it => this.factory(it),
      function: it => functionOf(it, ARITY[name]), error: it => new Error(it)
    }
    return words.map((word, index) => (convert[kinds[Math.min(index, kinds.length - 1)].replace(/[?*]$/, '')] ?? (it => it))(word))
  }

  // a function from an item to an observable: always the same, or by the item; `self` is the item itself
  inner (word) {
    return value => {
      this.lets.self = value
      return this.factory(typeof word === 'object' && !Array.isArray(word) ? word[value] ?? word.else : word)()
    }
  }

  factory (word) {
    return () => {
      if (word === 'fail') throw new Error('failed')
      return this.build(word)
    }
  }

  called (name, what) { return (...value) => this.note(name, 'called', [what, ...value.map(it => it.message ?? it)].join(' ')) }
}

// what is called by another name, and what not by its name and with its arguments alone

const camel = name => name.replace(/_(.)/g, (_, letter) => letter.toUpperCase())
const RXJS = {
  all: 'every', to_list: 'toArray', element_at_or_default: 'elementAt', flat_map: 'mergeMap', flat_map_latest: 'switchMap', project: 'map',
  map_indexed: 'map',
  switch_latest: 'switchAll', buffer_with_count: 'bufferCount', window_with_count: 'windowCount', delay_with_mapper: 'delayWhen',
  throttle_with_mapper: 'debounce', publish_value: 'publishBehavior', replay: 'publishReplay', first_or_default: 'first',
  last_or_default: 'last'
}
const SOURCES = {
  empty: () => rx.EMPTY, never: () => rx.NEVER, throw: (run, error) => rx.throwError(() => error), amb: (run, ...all) => rx.race(all),
  using: (run, name, factory) => run.using(name, factory), create: (run, name, ...told) => run.create(name, told),
  timer: (run, due, period) => rx.timer(due, period ?? run.clock, run.clock), interval: (run, period) => rx.interval(period, run.clock),
  combine_latest: (run, ...all) => rx.combineLatest(all), fork_join: (run, ...all) => rx.forkJoin(all)
}
const OPERATORS = {
  starmap: (run, call) => ops.map(values => call(...values)),
  distinct_until_changed: (run, key) => key ? ops.distinctUntilChanged(undefined, key) : ops.distinctUntilChanged(),
  do_action: (run, name) =>
    ops.tap({ next: run.called(name, 'next'), error: run.called(name, 'error'), complete: run.called(name, 'completed') }),
  finally_action: (run, name) => ops.finalize(() => run.note(name, 'released', run.counted(name))),
  catch: (run, other) => ops.catchError(() => other),
  retry: (run, many) => many === undefined ? ops.retry() : ops.retry(many - 1), // RxPY counts the first subscription too
  merge: (run, ...others) => ops.mergeWith(...others),
  concat: (run, ...others) => ops.concatWith(...others),
  amb: (run, other) => ops.raceWith(other),
  combine_latest: (run, ...others) => ops.combineLatestWith(...others),
  zip: (run, ...others) => ops.zipWith(...others),
  fork_join: (run, ...others) => source => rx.forkJoin([source, ...others]),
  buffer_when: (run, closing) => ops.bufferWhen(() => closing),
  window_when: (run, closing) => ops.windowWhen(() => closing),
  debounce: (run, time) => ops.debounceTime(time, run.clock),
  throttle_first: (run, time) => ops.throttleTime(time, run.clock),
  sample_time: (run, time) => ops.sampleTime(time, run.clock),
  audit_time: (run, time) => ops.auditTime(time, run.clock),
  delay: (run, time) => ops.delay(time, run.clock),
  timeout: (run, time, other) => ops.timeout({ each: time, scheduler: run.clock, ...other && { with: () => other } }),
  buffer_with_time: (run, span, shift) => ops.bufferTime(span, shift ?? null, Infinity, run.clock),
  buffer_with_time_or_count: (run, span, many) => ops.bufferTime(span, null, many, run.clock),
  window_with_time: (run, span) => ops.windowTime(span, null, Infinity, run.clock),
  time_interval: run => ops.timeInterval(run.clock),
  observe_on: run => ops.observeOn(run.clock),
  subscribe_on: run => ops.subscribeOn(run.clock),
  delay_subscription: (run, time) => ops.subscribeOn(run.clock, time),
  share_replay: (run, bufferSize) => ops.shareReplay({ bufferSize, refCount: true }),
  multicast: () => ops.multicast(new rx.Subject())
}

function outcome (it) {
  lacking = undefined
  let told
  try {
    const run = new Run(it)
    run.clock.flush()
    told = run.told
  } catch (why) {
    told = `raised ${why}`
  }
  return lacking ? `lacks ${lacking}` : told
}

const cases = process.argv.slice(3).flatMap(file => JSON.parse(fs.readFileSync(file)))
process.stdout.write(JSON.stringify(Object.fromEntries(cases.map(it => [it.name, outcome(it)]))))
