// For `import`: the names of RxJS are answered by this package. What it has no entry for, such as rxjs/ajax, is RxJS's own.
import { existsSync } from 'node:fs';

// what is imported is what is required, where that has been built
const folder = new URL(existsSync(new URL('../../dist/index.mjs', import.meta.url)) ? '../../dist/' : '../../', import.meta.url);
const ours = { rxjs: 'index', 'rxjs/operators': 'operators', 'rxjs/testing': 'testing' };

export async function resolve(specifier, context, next) {
  const entry = ours[specifier];
  return entry ? { url: new URL(`${entry}.mjs`, folder).href, format: 'module', shortCircuit: true } : next(specifier, context);
}
