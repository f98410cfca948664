// Where in the program something was made, if that is asked for.
import { realm } from './realm.mjs';

const ROW = /^\s+at (?:(.*?) \()?(?:async )?((?:file|node|https?):[^)]*?|[^ )]*?):(\d+):(\d+)\)?$/;
const FAR = 60; // so many rows, since those of the package come first
const NEAR = 2; // of `subscribe` and of who calls it
/** The folder of the package, as stacks have it: what lies there is not the program's. */
const folder = () => (/(?:file:\/\/)?((?:https?:\/\/[^\s/()]+)?\/?[^\s()]*?)\/(?:src|dist)\//.exec((new Error().stack ?? '').replace(/^.*\n/, '')) ?? [null, null])[1];

let near = NEAR, ownFolder;

/** Before the stack of who subscribes is taken within `subscribe`: rows are dear, so it has few where a line of the program calls that. Answers
 *  the limit that was there. */
export function taking(is_near) {
  const { stackTraceLimit } = Error;
  Error.stackTraceLimit = is_near ? near : FAR;
  near = NEAR;
  return stackTraceLimit;
}

/** Within this `subscribe` is called by the package, so that the line of the program stands farther away. */
export function farther(act) {
  near = FAR;
  try { return act(); } finally { near = NEAR; }
}

/** Remembers where this was made, and when; with another thing that was made at the same place. */
export function traced(it, what, other = null) {
  if (other !== null && other.where !== undefined) [it.what, it.where, it.since] = [what, other.where, other.since];
  else if (realm.engine.tracing) {
    it.what = what;
    it.where = realm.engine.line ?? far(`${what} made here`);
    it.since = Date.now();
  }
  return it;
}

function far(words) {
  const { stackTraceLimit } = Error;
  Error.stackTraceLimit = FAR;
  const where = new Error(words);
  Error.stackTraceLimit = stackTraceLimit;
  return where;
}

const path = (file) => file.replace(/^file:\/\//, '');
function isOwn(file) {
  const own = ownFolder === undefined ? ownFolder = folder() : ownFolder;
  return file.startsWith('node:') || file.includes('/node_modules/rxjs/') || (own !== null && (file.startsWith(`${own}/src/`) || file.startsWith(`${own}/dist/`)));
}

/** The innermost line of the program in a stack: its file, line, column and function; null where there is none. */
export function placeOf(error) {
  for (const row of (error.stack ?? '').split('\n')) {
    const found = ROW.exec(row);
    if (found !== null && !isOwn(path(found[2]))) {
      return { file: path(found[2]), line: Number(found[3]), column: Number(found[4]), function: found[1] ?? '' };
    }
  }
  return null;
}
