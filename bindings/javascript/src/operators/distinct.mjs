import { Link } from '../core/link.mjs';
import { operate } from '../core/operator.mjs';
import { noop } from '../core/util.mjs';
import { innerFrom } from '../sources/from.mjs';

export const distinct = (keySelector, flushes) => operate((source, to) => {
  const seen = new Set();
  source.subscribe(new Link(to, (value) => {
    const key = keySelector ? keySelector(value) : value;
    if (seen.has(key)) return;
    seen.add(key);
    to.next(value);
  }));
  if (flushes) innerFrom(flushes).subscribe(new Link(to, () => seen.clear(), noop));
});
