// Tests the allocator and the functions of 128 bits: node heap.mjs HEAP.wasm WIDE.wasm SEED ROUNDS. Prints what it did; the exit status
// is 1 if something is wrong.
import fs from 'fs';

const [heapFile, wideFile, seed, rounds] = process.argv.slice(2);
let state = BigInt(seed) | 1n;

/** Returns a random whole number below a limit, the same ones for the same seed. */
function random(limit) {
  state = (state * 6364136223846793005n + 1442695040888963407n) & ((1n << 64n) - 1n);
  return Number((state >> 33n) % BigInt(limit));
}

function fail(why) {
  console.log(`heap: ${why}`);
  process.exit(1);
}

const instance = file => new WebAssembly.Instance(new WebAssembly.Module(fs.readFileSync(file)), {}).exports;

/** Allocates, resizes and releases blocks of random sizes; each has a pattern that nothing else may change. */
function testHeap() {
  const heap = instance(heapFile), blocks = [];
  const view = ({ at, size }) => new Uint8Array(heap.memory.buffer, at, size);
  const size = () => (random(10) ? random(random(4) ? 200 : 20_000) : random(2_000_000));
  // Of a large block both ends are checked: neighbours write there first.
  const checked = block => {
    const bytes = view(block), parts = block.size < 4096 ? [bytes] : [bytes.subarray(0, 1024), bytes.subarray(-1024)];
    if (!parts.every(part => part.every(it => it === block.mark))) fail(`a block of ${block.size} bytes was changed`);
  };
  let refused = 0;
  for (let round = 0; round < Number(rounds); round++) {
    const kind = random(blocks.length > 300 ? 4 : 3), here = random(blocks.length || 1), block = blocks[here];
    if (kind === 0 || !block) {
      const made = { size: size(), mark: random(256) };
      made.at = Number(heap.test_alloc(BigInt(made.size)));
      if (!made.at) refused++;
      else if (made.at % 16) fail('a block is not aligned');
      else blocks.push(made), view(made).fill(made.mark);
    } else if (kind === 1) {
      checked(block);
      const next = size(), at = Number(heap.test_realloc(block.at, BigInt(next)));
      if (!at) { refused++; continue; }
      const kept = Math.min(block.size, next);
      block.at = at;
      block.size = kept;
      checked(block);
      block.size = next;
      view(block).fill(block.mark);
    } else {
      checked(block);
      heap.test_dealloc(block.at);
      blocks.splice(here, 1);
    }
    if (round % 50 === 0 && Number(heap.test_heap()) !== blocks.length) fail(`the heap is inconsistent after ${round} calls`);
  }
  for (const block of blocks) checked(block), heap.test_dealloc(block.at);
  if (Number(heap.test_heap()) !== 0) fail('blocks are left after all were released');
  if (heap.test_alloc(1n << 40n) || heap.test_alloc((1n << 64n) - 1n)) fail('a block that is too large was allocated');
  if (!refused) fail('no call was refused: the memory is too large for this test');
  return refused;
}

function testWide() {
  const wide = instance(wideFile), all = (1n << 128n) - 1n, low = (1n << 64n) - 1n;
  const number = () => {
    const bits = BigInt(random(129));
    let found = 0n;
    for (let at = 0; at < 5; at++) found = (found << 31n) | BigInt(random(2 ** 31));
    return (random(3) ? found : all - found) & ((1n << bits) - 1n);
  };
  const result = () => (BigInt.asUintN(64, wide.test_half(1)) << 64n) | BigInt.asUintN(64, wide.test_half(0));
  for (let round = 0; round < Number(rounds); round++) {
    const x = number(), y = number(), bits = random(128), signed = BigInt.asIntN(128, x);
    wide.test_product(x & low, x >> 64n, y & low, y >> 64n);
    if (result() !== ((x * y) & all)) fail(`${x} times ${y}`);
    [(x << BigInt(bits)) & all, x >> BigInt(bits), BigInt.asUintN(128, signed >> BigInt(bits))].forEach((wanted, kind) => {
      wide.test_shift(x & low, x >> 64n, bits, kind);
      if (result() !== wanted) fail(`shift ${kind} of ${x} by ${bits}`);
    });
  }
  testComparison(wide);
}

function testComparison(wide) {
  const bytes = new Uint8Array(wide.memory.buffer, 65536, 256);
  for (let round = 0; round < Number(rounds); round++) {
    const count = random(64), place = random(64);
    bytes.fill(random(2));
    if (random(4)) bytes[place] = random(256);
    const [one, two] = [bytes.slice(0, count), bytes.slice(128, 128 + count)];
    if (Math.sign(wide.test_memcmp(65536, 65536 + 128, count)) !== Buffer.compare(one, two)) fail('a comparison of bytes');
  }
}

const refused = testHeap();
testWide();
console.log(`heap: ${rounds} calls, ${refused} refused; ${rounds} products and ${3 * rounds} shifts: all as they should be`);
