// Calls of the WebAssembly module with bytes. It runs in the page's worker and in node.

/** The exit status of a call for which there is no memory. */
export const OUT_OF_MEMORY = 5;
/** The memory for the text of a call, in bytes: most texts fit, and a text that does not fit is computed twice. */
const ROOM = 2 ** 22;

/** An instance of the module, whose memory keeps what its calls left there. */
export class Instance {
  constructor(module) {
    this.exports = new WebAssembly.Instance(module, {}).exports;
    this.memory = this.exports.memory;
  }

  /** Returns the address of so many bytes, or 0 if there is no memory: a number on wasm32, a big integer on wasm64. */
  allocate(bytes) {
    return this.exports.allocate(BigInt(bytes));
  }

  /** Copies bytes into the module's memory; returns the two arguments for them, or null if there is no memory. */
  put(bytes) {
    const address = this.allocate(bytes.length);
    if (!address) return null;
    new Uint8Array(this.memory.buffer).set(bytes, Number(address));
    return [address, BigInt(bytes.length)];
  }

  /**
   * Calls an export such as `netflow_solve` with byte arrays and booleans; returns its status and its text as bytes.
   * `room` is the size of the first memory for the text. A text that does not fit is asked for again.
   */
  call(name, inputs, room = ROOM) {
    const nothing = { status: OUT_OF_MEMORY, text: new Uint8Array(0) };
    const words = [];
    for (const input of inputs) {
      const put = typeof input === 'boolean' ? [Number(input)] : this.put(input);
      if (!put) return nothing;
      words.push(...put);
    }
    for (;;) {
      const out = this.allocate(room), length = out && this.allocate(8);
      if (!out || !length) return nothing;
      const status = this.exports[name](...words, out, BigInt(room), length);
      const needed = Number(new DataView(this.memory.buffer).getBigUint64(Number(length), true));
      const start = Number(out);
      if (needed <= room) return { status, text: new Uint8Array(this.memory.buffer).slice(start, start + needed) };
      this.exports.release(length);
      this.exports.release(out);
      room = needed;
    }
  }
}
