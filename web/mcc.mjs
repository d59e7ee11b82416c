// The module's exports as functions: bytes in, an answer out. A trap (a text that nests too deep, or memory that ran out)
// leaves the memory in the middle of a call, so the instance is made anew.
const VIEW_BYTES = 288;
const ROOM = 1 << 16;
// An answer is written at once where it has room; it has to be computed anew where it turns out longer. So a long input has much.
const MOST_ROOM = 1 << 26;
const roomFor = length => Math.min(ROOM + 24 * length, MOST_ROOM);

export const BROKEN = 'This nests too deep for the page, or its memory ran out.';

export class Mcc {
  constructor(module) {
    this.module = module;
    this.renew();
  }

  renew() { this.exports = new WebAssembly.Instance(this.module, {}).exports; }

  bytes(at, length) { return new Uint8Array(this.exports.memory.buffer, Number(at), Number(length)); }

  take(length) {
    const at = this.exports.mcc_take(BigInt(length));
    if (at === 0n) throw new RangeError('no memory');
    return at;
  }

  lend(bytes) {
    const at = this.take(bytes.length);
    this.bytes(at, bytes.length).set(bytes);
    return at;
  }

  guarded(work) {
    try {
      return work();
    } catch (error) {
      if (!(error instanceof WebAssembly.RuntimeError || error instanceof RangeError)) throw error;
      this.renew();
      return { status: -1, bytes: new TextEncoder().encode(BROKEN + '\n') };
    }
  }

  // Calls an export that takes the input, `more`, and where its answer goes; again with more room where the answer needs it.
  call(name, input, more = []) {
    return this.guarded(() => {
      let room = roomFor(input.length);
      const { exports } = this;
      const text = this.lend(input);
      const status = this.take(1);
      let answer = null;
      while (answer === null) {
        const out = this.take(room);
        const length = Number(exports[name](text, BigInt(input.length), ...more, out, BigInt(room), status));
        if (length <= room) answer = this.bytes(out, length).slice();
        exports.mcc_give(out);
        room = length;
      }
      const code = this.bytes(status, 1)[0];
      exports.mcc_give(status);
      exports.mcc_give(text);
      return { status: code, bytes: answer };
    });
  }

  text(name, input, more) {
    const { status, bytes } = this.call(name, input, more);
    return { status, text: new TextDecoder().decode(bytes) };
  }

  check(text) { return this.text('mcc_web_check', text); }
  explain(text) { return this.text('mcc_web_explain', text); }
  // With where and why it is wrong, if it is.
  interp(text, steps, depth = 256) {
    const ran = this.text('mcc_web_interp', text, [depth, BigInt(steps)]);
    return ran.status === 3 ? { ...ran, why: this.text('mcc_web_wrong', text, [depth, BigInt(steps)]).text } : ran;
  }
  orders(text, depth = 256) { return this.text('mcc_web_orders', text, [depth]); }
  run(image, steps) { return this.text('mcc_web_run', image, [BigInt(steps)]); }
  list(image) { return this.text('mcc_web_list', image); }

  // A stage of the function of this name, or of all where there is no name.
  show(text, stage, name = '') {
    return this.guarded(() => {
      const lent = [stage, name].map(word => new TextEncoder().encode(word)).map(word => [this.lend(word), BigInt(word.length)]);
      const shown = this.text('mcc_web_show', text, lent.flat());
      for (const [at] of lent) if (shown.status >= 0) this.exports.mcc_give(at);
      return shown;
    });
  }

  // The line that is printed, or what is told; and the image.
  build(text, plain = false, depth = 256) {
    const { status, bytes } = this.call('mcc_web_build', text, [plain ? 1 : 0, depth]);
    if (status !== 0) return { status, text: new TextDecoder().decode(bytes), image: null };
    const end = bytes.indexOf(10) + 1;
    return { status, text: new TextDecoder().decode(bytes.subarray(0, end)), image: bytes.slice(end) };
  }

  // The machine behind `from` words, and on to the address `stop` within `most` more; memory from `address` on.
  machine(image, { from, most = 0, stop = 0, address = 0x10000000 }) {
    return this.guarded(() => {
      const lent = this.lend(image);
      const at = this.lend(new Uint8Array(VIEW_BYTES));
      const status = this.exports.mcc_web_machine(lent, BigInt(image.length), BigInt(from), BigInt(most), stop, address, at);
      const view = readView(new DataView(this.exports.memory.buffer, Number(at), VIEW_BYTES));
      this.exports.mcc_give(at);
      this.exports.mcc_give(lent);
      return { status, address, ...view };
    });
  }
}

function readView(data) {
  const words = at => Array.from({ length: 32 }, (_, k) => data.getUint32(at + 4 * k, true));
  return {
    words: Number(data.getBigUint64(0, true)), pc: data.getUint32(8, true),
    target: data.getUint8(16) ? data.getUint32(12, true) : null, loads: data.getUint8(17), hold: data.getUint8(18),
    loaded: data.getUint32(20, true), high: data.getUint32(24, true), low: data.getUint32(28, true), registers: words(32),
    memory: words(160).slice(0, data.getUint8(19)),
  };
}
