// The worker of the page: it solves, so that the page stays usable and a call can be stopped. Each call has an instance of its own.
import { Instance } from './netflow_module.mjs';

/** The status of a call that ended without an answer, such as for a stack that is too small. */
const BROKEN = 70;
let compiled;

function answer({ name, inputs, room }) {
  const instance = new Instance(compiled);
  return { ...instance.call(name, inputs, room), memory: instance.memory.buffer.byteLength };
}

self.onmessage = async ({ data }) => {
  const start = performance.now();
  let reply;
  try {
    if (data.wasm) {
      compiled = await WebAssembly.compile(data.wasm);
      reply = { isReady: true };
    } else {
      reply = answer(data);
    }
  } catch (error) {
    reply = { status: BROKEN, text: new TextEncoder().encode(String(error)), message: String(error) };
  }
  self.postMessage({ ...reply, id: data.id, milliseconds: performance.now() - start });
};
