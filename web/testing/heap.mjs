// heap.c against a list: a million random blocks, each with bytes of its own, none of which another block touches.
// node heap.mjs HEAP.wasm
import fs from 'node:fs';

const { exports: heap } = new WebAssembly.Instance(new WebAssembly.Module(fs.readFileSync(process.argv[2])), {});
let seed = 1;
const random = below => {
  seed = (Math.imul(seed, 1103515245) + 12345) >>> 0;
  return Math.floor((seed / 2 ** 32) * below);
};
const lengths = [() => 1 + random(64), () => 1 + random(4000), () => 1 + random(200_000)];
const blocks = [];
let held = 0, wrong = 0;

// The first and the last bytes of a block tell whose it is.
const mark = ({ at, length, id }) => {
  const bytes = new Uint8Array(heap.memory.buffer, at, length);
  bytes.fill(id & 255, 0, 32);
  bytes.fill(id & 255, -32);
};
const isWhole = ({ at, length, id }) => {
  const bytes = new Uint8Array(heap.memory.buffer, at, length);
  return [...bytes.subarray(0, 32), ...bytes.subarray(-32)].every(byte => byte === (id & 255));
};

for (let id = 0; id < 1_000_000; id++) {
  if (blocks.length > 2000 || (blocks.length && random(2))) {
    const k = random(blocks.length);
    const block = blocks[k];
    blocks[k] = blocks.at(-1);
    blocks.pop();
    if (!isWhole(block)) wrong++;
    held -= block.length;
    heap.mcc_give(BigInt(block.at));
  } else {
    const length = lengths[id % 50 ? (id % 5 ? 0 : 1) : 2]();
    const at = Number(heap.mcc_take(BigInt(length)));
    if (at === 0 || at % 16) wrong++;
    const block = { at, length, id };
    blocks.push(block);
    held += length;
    mark(block);
  }
}
blocks.sort((a, b) => a.at - b.at);
for (const [k, block] of blocks.entries()) {
  if (!isWhole(block) || (k && blocks[k - 1].at + blocks[k - 1].length > block.at)) wrong++;
}
const used = Number(heap.mcc_used());
console.log(`heap: a million steps, ${blocks.length} blocks of ${held} bytes held in ${used}`);
console.log(wrong ? '0 passed, 1 failed' : '1 passed, 0 failed');
