// The module of the engine, compiled at once: for CommonJS, in Node.
if (!realm.engine) {
  const place = process.env.CELLARCLIFF_WASM || require('node:path').join(__dirname, '../engine.wasm');
  realm.start(new WebAssembly.Module(require('node:fs').readFileSync(place)), new WebAssembly.Module(glue()));
}
