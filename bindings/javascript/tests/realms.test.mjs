// Frames and workers of a page: each has an engine of its own. In a page alone; those of Node stand in process.node.mjs.
const INDEX = new URL('../index.mjs', import.meta.url).href;
const test = (of, is) => ({ of: async (rx) => {
  const list = [];
  await of(rx, (it) => list.push(it));
  return list;
}, is });

/** A frame in which a finalizer is open, and how many nodes it has. */
async function frameWithFinalizer(say) {
  const frame = document.createElement('iframe');
  const nodes = new Promise((resolve) => { globalThis.frameIsReady = resolve; });
  globalThis.frameSays = say;
  frame.srcdoc = `<script type="module">import * as rx from ${JSON.stringify(INDEX)};
    rx.NEVER.pipe(rx.finalize(() => parent.frameSays('released'))).subscribe();
    parent.frameIsReady(rx.counts().nodes);</script>`;
  document.body.append(frame);
  return { frame, nodes: await nodes };
}

export const only_ours = typeof document !== 'object' ? {} : {
  'a frame has an engine of its own, and closes what is open as it ends, unless it is kept': test(async (rx, say) => {
    const before = rx.counts().nodes, { frame, nodes } = await frameWithFinalizer(say);
    say([nodes, rx.counts().nodes - before]);
    frame.contentWindow.dispatchEvent(new PageTransitionEvent('pagehide', { persisted: true }));
    say('kept');
    const gone = new Promise((resolve) => { frame.addEventListener('load', resolve, { once: true }); });
    frame.contentWindow.location.replace('about:blank');
    await gone;
    frame.remove();
  }, [[2, 0], 'kept', 'released']),
  'a worker has an engine of its own': test(async (rx, say) => {
    const text = `import * as rx from ${JSON.stringify(INDEX)};
      rx.NEVER.pipe(rx.finalize(() => {})).subscribe();
      postMessage(rx.counts().nodes);
      onmessage = () => { rx.close(); postMessage(rx.counts().nodes); };`;
    const before = rx.counts().nodes, worker = new Worker(URL.createObjectURL(new Blob([text], { type: 'text/javascript' })), { type: 'module' });
    const told = () => new Promise((resolve, reject) => {
      worker.onmessage = ({ data }) => resolve(data);
      worker.onerror = (event) => reject(new Error(event.message));
    });
    say([await told(), rx.counts().nodes - before]);
    worker.postMessage('close');
    say(await told());
    worker.terminate();
  }, [[2, 0], 0]),
};
