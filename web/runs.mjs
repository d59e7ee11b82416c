// Runs a block and an order of it from one start, word by word, to show what a verdict is about. No proof covers it: the page says so.

const low = word => word >>> 0;
const OPERATIONS = {
  addu: (a, b) => a + b, subu: (a, b) => a - b, and: (a, b) => a & b, or: (a, b) => a | b, xor: (a, b) => a ^ b, nor: (a, b) => ~(a | b),
  slt: (a, b) => ((a | 0) < (b | 0) ? 1 : 0), sltu: (a, b) => (a < b ? 1 : 0),
  sll: (a, b) => a << (b & 31), srl: (a, b) => a >>> (b & 31), sra: (a, b) => a >> (b & 31), lui: a => a << 16,
};
const SAME_AS = { addiu: 'addu', andi: 'and', ori: 'or', xori: 'xor', slti: 'slt', sltiu: 'sltu', sllv: 'sll', srlv: 'srl', srav: 'sra' };
const SIZES = { lw: 4, lbu: 1, sw: 4, sb: 1 };
const LINK = 0x00401234;

class Stuck extends Error {}
const wordOf = word => '0x' + low(word).toString(16).padStart(8, '0');

// An instruction or an exit: its name, its operands, and the numbers of those that are registers.
function parse(line) {
  const [name, rest = ''] = line.split(' ');
  const parts = rest.split(/[,()]/).filter(Boolean);
  return { name, parts, registers: parts.filter(part => part[0] === '$').map(part => Number(part.slice(1))) };
}

// Registers, HI, LO, the bytes that were stored or told, and what fills the rest of memory; `load` is under way.
class State {
  constructor({ regs, high, low: least, filling, words = [] }) {
    Object.assign(this, { regs: [...regs], high, low: least, filling, bytes: new Map(), load: null, hold: 0 });
    for (const [at, word] of words) for (let k = 0; k < 4; k++) this.bytes.set(at + k, (word >>> (24 - 8 * k)) & 255);
  }

  read(part) {
    return part?.[0] !== '$' ? low(Number(part ?? 0)) : part === '$0' ? 0 : this.regs[Number(part.slice(1))];
  }

  put(part, word) {
    if (part !== '$0') this.regs[Number(part.slice(1))] = low(word);
  }

  byte(at) {
    const { base, mask, factor, offset } = this.filling;
    const number = low(Math.imul(Math.floor(at / 4), factor) + offset);
    return this.bytes.get(at) ?? ((base + ((number >>> 8) & mask)) >>> (24 - 8 * (at % 4))) & 255;
  }

  // HI and LO of a product, or of a division.
  combine(name, a, b) {
    const isSigned = !name.endsWith('u');
    const [x, y] = isSigned ? [a | 0, b | 0] : [a, b];
    if (name.startsWith('mult')) {
      const product = BigInt.asUintN(64, BigInt(x) * BigInt(y));
      [this.high, this.low] = [Number(product >> 32n), Number(product & 0xffffffffn)];
    } else if (b === 0 || (isSigned && a === 0x80000000 && y === -1)) throw new Stuck('the division has no value');
    else [this.high, this.low] = [low(x % y), low(Math.trunc(x / y))];
  }

  // Does an instruction; what it loads is answered, and isn't there yet.
  act({ name, parts: [first, second, third] }) {
    const operation = OPERATIONS[SAME_AS[name] ?? name];
    const size = SIZES[name];
    if (operation) this.put(first, operation(this.read(second), this.read(third)));
    else if (name === 'mfhi' || name === 'mflo') this.put(first, name === 'mfhi' ? this.high : this.low);
    else if (size) {
      const at = low(this.read(third) + Number(second));
      if (at % size) throw new Stuck("the word's address is no multiple of 4");
      const reached = Array.from({ length: size }, (_, k) => at + k);
      if (name[0] === 'l') return { to: first, word: reached.reduce((sum, byte) => sum * 256 + this.byte(byte), 0) };
      reached.forEach((byte, k) => this.bytes.set(byte, (this.read(first) >>> (8 * (size - 1 - k))) & 255));
    } else if (name !== 'nop') this.combine(name, this.read(first), this.read(second));
    return null;
  }

  settle() {
    if (this.load) this.put(this.load.to, this.load.word);
    this.load = null;
    if (this.hold > 0) this.hold--;
  }

  // Where an exit leads from here; it writes its link, or its number of a call to the system.
  leave({ name, parts }) {
    const [a, b] = parts.map(part => (part[0] === '$' ? this.read(part) : 0));
    const tests = { beq: a === b, bne: a !== b, blez: (a | 0) <= 0, bgtz: (a | 0) > 0, bltz: (a | 0) < 0, bgez: (a | 0) >= 0 };
    const [link, word] = [this.regs[31], this.regs[4]].map(wordOf);
    if (name === 'call') this.put('$31', LINK);
    if (name === 'out' || name === 'halt') this.put('$2', name === 'out' ? 1 : 10);
    if (name in tests) return 'goes to ' + parts.at(tests[name] ? -2 : -1);
    const others = { goto: `goes to ${parts[0]}`, call: `calls ${parts[0]}`, return: `returns to ${link}`, out: `prints ${word}` };
    return others[name] ?? `ends with ${word}`;
  }
}

// The rows of one line after the other, up to one that is stuck: each line, and what shows after it.
function rowsOf(state, work) {
  const rows = [];
  for (const [line, act] of work) {
    const was = [...state.regs, state.high, state.low];
    const { name, parts } = parse(line);
    const more = name === 'sw' || name === 'sb' ? [`[${wordOf(state.read(parts[2]) + Number(parts[1]))}] = ${parts[0]}`] : [];
    try {
      more.push(act() ?? '');
    } catch (error) {
      if (!(error instanceof Stuck)) throw error;
      return [...rows, { line, shows: 'stuck: ' + error.message, isStuck: true }];
    }
    if (state.load) more.push(`(${state.load.to} gets ${wordOf(state.load.word)} one word later)`);
    const names = k => (k < 32 ? '$' + k : k === 32 ? 'hi' : 'lo');
    const changed = [...state.regs, state.high, state.low].flatMap((word, k) => (word === was[k] ? [] : [`${names(k)} = ${wordOf(word)}`]));
    rows.push({ line, shows: [...changed, ...more].filter(Boolean).join(', '), isStuck: false });
  }
  return rows;
}

// Runs lines, and then an exit: the rows, the state that is left, and where it goes on.
function run(start, work) {
  const state = new State(start);
  const left = { state, goes: null };
  const rows = rowsOf(state, work(state, left));
  return { ...left, rows, isStuck: rows.at(-1).isStuck };
}

// A block: each load shows at once.
export const runBlock = (block, start) => run(start, (state, left) => [
  ...block.insts.map(line => [line, () => {
    const load = state.act(parse(line));
    if (load) state.put(load.to, load.word);
  }]),
  [block.exit, () => { left.goes = state.leave(parse(block.exit)); return left.goes; }],
]);

// An order, as the machine runs it: a load shows one word later, and the slot runs before its exit leads away.
export const runOrder = (order, start) => run(start, (state, left) => {
  const exit = parse(order.exit);
  const check = registers => {
    if (state.load && registers.includes(Number(state.load.to.slice(1)))) throw new Stuck(`${state.load.to} is still being loaded`);
  };
  const word = (line, isSlot) => [line, () => {
    const inst = parse(line);
    const isMove = inst.name.startsWith('mf');
    check(inst.registers);
    if (isSlot && (isMove || inst.name[0] === 'l' && inst.name in SIZES)) throw new Stuck('a load, mfhi or mflo in the slot');
    if (/^(mult|div)/.test(inst.name) && state.hold) throw new Stuck('HI or LO was read fewer than two words before');
    const load = state.act(inst);
    state.settle();
    state.load = load;
    if (isMove) state.hold = 2;
  }];
  const leave = () => {
    check({ call: [31], return: [31], out: [2], halt: [2] }[exit.name] ?? exit.registers);
    state.settle();
    left.goes = state.leave(exit);
    return order.slot === null ? left.goes : left.goes + ', after the slot';
  };
  return [...order.insts.map(line => word(line, false)), [order.exit, leave], ...(order.slot === null ? [] : [word(order.slot, true)])];
});

// Where two runs differ: the place, and what each leaves there.
export function differences(block, order) {
  if (block.isStuck) return [];
  if (order.isStuck) return [['run', "isn't stuck", 'is stuck']];
  const places = ({ state, goes }, stored) => [...state.regs.map((word, r) => ['$' + r, wordOf(word)]).slice(1), ['hi', wordOf(state.high)],
    ['lo', wordOf(state.low)], ...stored.map(at => [`byte at ${wordOf(at)}`, wordOf(state.byte(at))]), ['exit', goes]];
  const stored = [...new Set([...block.state.bytes.keys(), ...order.state.bytes.keys()])].sort((a, b) => a - b);
  const ordered = places(order, stored);
  return places(block, stored).map(([place, left], k) => [place, left, ordered[k][1]]).filter(([, a, b]) => a !== b);
}

// ---- starts: that which an answer tells, or one of a list by its number
function mixed(word) {
  const a = low(word ^ (word << 13));
  const b = a ^ (a >>> 17);
  return low(b ^ (b << 5));
}

function wordOfKind(kind, base, word) {
  const top = word >>> 30;
  const small = word >>> 8;
  if (kind === 0 || (kind === 2 && top < 2)) return low(base + (small & 0x7c));
  if (kind === 1 || (kind === 2 && top === 2)) return low(word & ~3);
  return kind === 2 ? [0, 1, 0xffffffff, 0x7fffffff, 0x80000000, 4, 0xfffffffc, small % 64][small % 8] : word;
}

function startNumber(block, number) {
  const insts = block.insts.map(parse);
  const bases = [0x10000000, ...insts.filter(inst => inst.name === 'lui').map(inst => low(Number(inst.parts[1]) << 16))];
  const base = bases[Math.min(Math.floor(number / 8) % 4, bases.length - 1)];
  const kind = number % 4;
  const words = [mixed(low(number + 0x2545f491))];
  for (let k = 1; k < 34; k++) words.push(mixed(words[k - 1]));
  const [high, least] = words.slice(32);
  const regs = words.slice(0, 32).map((word, r) => (r ? wordOfKind(kind, base, word) : 0));
  const [fill, mask] = [[base, 0x7c], [0x20000000, 0x00fffffc], [base, 0xfc], [least, 0x00ffffff]][kind];
  const accesses = insts.filter(inst => inst.name in SIZES);
  if (number % 8 < 4 && accesses.length) {
    const pair = mixed(low(number + 0x12345678));
    const [p, q] = [pair, pair >>> 16].map(k => accesses[k % accesses.length].parts);
    regs[Number(p[2].slice(1))] = low(regs[Number(q[2].slice(1))] + Number(q[1]) - Number(p[1]));
  }
  return { regs, high, low: least, filling: { base: fill, mask, factor: 0x9e3779b1, offset: least } };
}

// What `mcc check --explain` prints of a start: registers and words of memory, and what each side leaves; null where it prints none.
export function parseStart(said) {
  const [text] = /the order is wrong[^]*/.exec(said) ?? [];
  if (!text) return null;
  const after = start => new RegExp(`^ *${start}(.*)$`, 'm').exec(text)?.[1] ?? '';
  const [registers, words] = [/^ *\$(\d+) = (\w+)$/gm, /^ *the word at (\w+) = (\w+)$/gm].map(line => Array.from(text.matchAll(line), found => found.slice(1).map(Number)));
  return { registers, words, high: Number(after('hi = ')), low: Number(after('lo = ')), block: after('block: '), order: after('order: ') };
}

// A start from which to run both: that which the answer tells, else the first from which they differ, else the first that isn't stuck.
export function chooseStart(block, order, said) {
  const told = parseStart(said);
  const word = (_, r) => told.registers.find(([named]) => named === r)?.[1] ?? 0;
  if (told) return { ...told, regs: Array.from({ length: 32 }, word), filling: { base: 0, mask: 0, factor: 0, offset: 0 } };
  let found = null;
  for (let number = 0; number < 512; number++) {
    const start = startNumber(block, number);
    const ran = runBlock(block, start);
    if (!ran.isStuck) found ??= start;
    if (found && (/^same|no start/.test(said) || differences(ran, runOrder(order, start)).length)) return start;
  }
  return found ?? startNumber(block, 0);
}

// The registers that a block or an order reads before it writes them.
export function readFirst(...texts) {
  const read = new Set();
  for (const lines of texts) {
    const written = new Set([0]);
    for (const { name, registers } of lines.filter(Boolean).map(parse)) {
      const own = { return: [31], out: [4], halt: [4] }[name] ?? [];
      const hasTarget = !/^(sw|sb|mult|multu|div|divu|b\w+)$/.test(name);
      for (const r of [...(hasTarget ? registers.slice(1) : registers), ...own]) if (!written.has(r)) read.add(r);
      if (hasTarget && registers.length) written.add(registers[0]);
    }
  }
  return [...read].sort((a, b) => a - b);
}
