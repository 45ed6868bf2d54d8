// Calls of the module from the page, in a worker.

/** What a call that is stopped rejects with. */
export class Stopped extends Error {}

/** A worker with the module. Calls are answered in their order. */
export class Calls {
  constructor(workerSource, wasm) {
    this.url = URL.createObjectURL(new Blob([workerSource], { type: 'text/javascript' }));
    this.wasm = wasm;
    this.begin();
  }

  begin() {
    this.waiting = new Map();
    this.count = 0;
    this.worker = new Worker(this.url);
    this.worker.onmessage = ({ data }) => this.take(data);
    this.worker.onerror = event => this.fail(new Error(event.message || 'the worker of this page could not start'));
    this.ready = this.post({ wasm: this.wasm });
    this.ready.catch(() => {});
  }

  post(message) {
    const id = ++this.count;
    return new Promise((done, failed) => {
      this.waiting.set(id, { done, failed });
      this.worker.postMessage({ ...message, id });
    });
  }

  take(reply) {
    const { done, failed } = this.waiting.get(reply.id);
    this.waiting.delete(reply.id);
    // The first message is the module; if the browser cannot compile it, no call can be answered.
    if (reply.id === 1 && !reply.isReady) failed(new Error(reply.message));
    else done(reply);
  }

  fail(error) {
    for (const { failed } of this.waiting.values()) failed(error);
    this.waiting.clear();
  }

  /**
   * Calls an export with byte arrays and booleans; resolves to its status, its text as bytes, and its time in milliseconds. `room` is
   * the first memory for the text, in bytes.
   */
  async call(name, inputs, room = undefined) {
    await this.ready;
    return this.post({ name, inputs, room });
  }

  /** Ends all calls, which reject with Stopped, and prepares for the next. */
  stop() {
    this.worker.terminate();
    this.fail(new Stopped('stopped'));
    this.begin();
  }
}
