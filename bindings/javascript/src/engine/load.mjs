// The module of the engine: compiled as this is imported, by whatever the platform has; of the files of a checkout, or of a server. The archive's other forms do not wait.
import { glue } from './glue.mjs';
import { realm } from './realm.mjs';

const IS_NODE = typeof process === 'object' && !!process.versions?.node;

/** The compiled module, of the file beside the package. */
export async function compiled() {
  const place = new URL('../../engine.wasm', import.meta.url);
  if (!IS_NODE) {
    const answer = await fetch(place);
    // a server may not know what the file is
    return WebAssembly.compileStreaming(answer.clone()).catch(async () => WebAssembly.compile(await answer.arrayBuffer()));
  }
  const { readFileSync } = await import(/* webpackIgnore: true */ 'node:fs');
  return new WebAssembly.Module(readFileSync(process.env.CELLARCLIFF_WASM || place));
}

if (!realm.engine) {
  const [module, between] = await Promise.all([compiled(), WebAssembly.compile(glue())]);
  realm.start(module, between);
}
