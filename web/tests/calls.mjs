// Calls of the module for tests: node calls.mjs MODULE.wasm. Reads a JSON request a line and answers with a line.
import fs from 'fs';
import readline from 'readline';
import { Instance } from '../page/netflow_module.mjs';

const source = fs.readFileSync(process.argv[2]), modules = new Map([[0, new WebAssembly.Module(source)]]);

for await (const line of readline.createInterface({ input: process.stdin })) {
  const { name, inputs, module = 0, bytes } = JSON.parse(line);
  if (bytes) modules.set(module, new WebAssembly.Module(Buffer.from(bytes, 'base64')));
  const bytesOf = it => (typeof it === 'boolean' ? it : Buffer.from(it, 'base64'));
  const { status, text } = new Instance(modules.get(module)).call(name, inputs.map(bytesOf), module ? 4096 : undefined);
  console.log(JSON.stringify([status, Buffer.from(text).toString('base64')]));
}
