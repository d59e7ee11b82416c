// The worker: each message is a piece of work on the module, so that a long run can be ended with it and the page stays quick.
import { Mcc } from './mcc.mjs';

const ENCODER = new TextEncoder();
const PAST = 8;
let mcc = null;

const WORK = {
  start: async ({ wasm }) => {
    const unpacked = new Response(new Blob([wasm]).stream().pipeThrough(new DecompressionStream('deflate')));
    mcc = new Mcc(await WebAssembly.compile(await unpacked.arrayBuffer()));
    return {};
  },
  // All that the page shows of a C text.
  program: ({ text, steps, plain }) => {
    const bytes = ENCODER.encode(text);
    const interp = mcc.interp(bytes, steps);
    const build = mcc.build(bytes, plain);
    if (build.image === null) return { interp, build };
    return { interp, build, run: mcc.run(build.image, steps), list: mcc.list(build.image), orders: mcc.orders(bytes) };
  },
  runs: ({ text, image, steps }) => ({ interp: mcc.interp(ENCODER.encode(text), steps), run: mcc.run(image, steps) }),
  explain: ({ text }) => mcc.explain(ENCODER.encode(text)),
  show: ({ text, stage, name }) => mcc.show(ENCODER.encode(text), stage, name),
  // The machine, what it wrote until then and how its next word ends, if it does; the words of the stack, and the machine before each
  // of the last words.
  machine: ({ image, from, most, stop, address }) => {
    const view = mcc.machine(image, { from, most, stop, address });
    if (view.status !== 0) return view;
    const next = mcc.run(image, view.words + 1);
    const stack = mcc.machine(image, { from: view.words, address: view.registers[29] });
    const first = Math.max(0, view.words - PAST);
    const past = Array.from({ length: view.words - first }, (_, k) => mcc.machine(image, { from: first + k, address }));
    return { ...view, next, stack: stack.memory ?? [], past };
  },
};

self.onmessage = async ({ data: { id, name, work } }) => {
  try {
    self.postMessage({ id, answer: await WORK[name](work) });
  } catch (error) {
    self.postMessage({ id, error: String(error) });
  }
};
