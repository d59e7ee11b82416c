// What the page makes of the program's texts: blocks, orders, functions, the graph of a function, and changes of an order.
// The module decides everything that matters (verdicts, images, runs); this is how it is shown.

export const RULES = {
  M1: 'M1: the word after a load reads or writes the loaded register.',
  M2: 'M2: a multiplication or division with fewer than two words since HI or LO was read.',
  M3: 'M3: a branch or jump in a delay slot.',
  M4: 'M4: a division without a value: by 0, or the least int by -1.',
  M5: "M5: a word's address that is no multiple of 4.",
  M6: "M6: an address that isn't mapped.",
  M7: 'M7: a fetch outside the code, or not at a multiple of 4.',
  M8: 'M8: a word that no instruction has.',
  M9: 'M9: a call to the system with another number than 1 and 10.',
};

const EXIT_WORDS = { goto: 2, call: 4, return: 2, out: 4, halt: 2 };

export const hex = word => '0x' + word.toString(16).padStart(8, '0');

const mnemonic = line => line.split(' ')[0];
export const exitWords = exit => EXIT_WORDS[mnemonic(exit)] ?? 4;
export const hasSlot = exit => !['out', 'halt'].includes(mnemonic(exit));

// The numbers of the blocks to which an exit goes inside its function, the first one where a condition holds.
export function targets(exit) {
  const operands = exit.split(' ')[1]?.split(',') ?? [];
  switch (mnemonic(exit)) {
    case 'goto': case 'out': return [Number(operands[0])];
    case 'call': return [Number(operands[1])];
    case 'return': case 'halt': return [];
    default: return operands.slice(-2).map(Number);
  }
}

// A check text: its block, and its order.
export function parsePair(text) {
  const lines = text.trimEnd().split('\n');
  const middle = lines.indexOf('order');
  if (lines[0] !== 'block' || middle < 2) return null;
  const block = { insts: lines.slice(1, middle - 1), exit: lines[middle - 1] };
  const rest = lines.slice(middle + 1);
  const slot = rest.at(-1)?.startsWith('slot ') ? rest.pop().slice(5) : null;
  return { block, order: { insts: rest.slice(0, -1), exit: rest.at(-1), slot } };
}

export function pairText(block, order) {
  const slot = order.slot === null ? [] : ['slot ' + order.slot];
  return ['block', ...block.insts, block.exit, 'order', ...order.insts, order.exit, ...slot, ''].join('\n');
}

export const orderWords = order => order.insts.length + exitWords(order.exit);

// A block without Nops, as `mcc show` prints it.
export const bare = block => ({ ...block, insts: block.insts.filter(inst => inst !== 'nop') });

// The blocks of a build, each with its order, its plain one, and the address of its first word. Only the plain one has the block's Nops.
export function parseOrders(text, isPlain) {
  let address = 0x00400000;
  return text.split(/^# /m).slice(1).map(part => {
    const end = part.indexOf('\n');
    const [number, owner] = part.slice(0, end).split(' ').map(Number);
    const block = { number, owner, address, ...parsePair(part.slice(end + 1)) };
    block.plain = plainOrder(block.block);
    if (isPlain) block.order = block.plain;
    address += 4 * orderWords(block.order);
    return { ...block, block: bare(block.block) };
  });
}

export const blockAt = (blocks, pc) => blocks.findLast(b => b.address <= pc && pc < b.address + 4 * orderWords(b.order)) ?? null;

// The plain order: a Nop behind each load, two behind each mfhi and mflo, one in the slot.
export function plainOrder(block) {
  const insts = block.insts.flatMap(i => {
    const count = { lw: 1, lbu: 1, mfhi: 2, mflo: 2 }[mnemonic(i)] ?? 0;
    return [i, ...Array(count).fill('nop')];
  });
  return { insts, exit: block.exit, slot: hasSlot(block.exit) ? 'nop' : null };
}

// A text with spaces for its comments.
const codeOf = text => text.replace(/\/\*[\s\S]*?\*\/|\/\/.*/g, found => found.replace(/[^\n]/g, ' '));

// The lines of a function from which a block's exit comes: those that have `out`, a call of the same function, or `return`, and the
// function's end. The compiler keeps no lines, so where there are several no one can tell which of them it is.
export function exitLines(text, group, block, groups) {
  const [word, operands = ''] = block.block.exit.split(' ');
  const name = word === 'call' ? groups.find(g => g.owner === parseInt(operands, 10))?.name : word;
  if (!group.lines || !['out', 'call', 'return'].includes(word)) return [];
  const sought = new RegExp(`\\b${name}\\b`);
  const { from, to } = group.lines;
  const lines = codeOf(text).split('\n').slice(from - 1, to);
  const isOne = (line, k) => ((k > 0 || from === to) && sought.test(line)) || (word === 'return' && k + from === to);
  return lines.flatMap((line, k) => (isOne(line, k) ? [k + from] : []));
}

// The functions that a C text defines, in order, with their lines; what isn't code is left out.
export function functionsOf(text) {
  const code = codeOf(text);
  const found = [];
  // where what stands before a brace begins, and its line
  let depth = 0, start = 0, head = -1;
  for (let at = 0, line = 1; at < code.length; at++) {
    const c = code[at];
    if (c === '\n') line++;
    if (c === '{' && depth++ === 0) {
      const name = head < 0 ? null : /(\w+)\s*\([^()]*\)$/.exec(code.slice(head, at).trimEnd())?.[1];
      if (name) found.push({ name, from: start, to: line });
    } else if (c === '}' && --depth <= 0) {
      depth = 0;
      if (found.length) found.at(-1).to = Math.max(found.at(-1).to, line);
      head = -1;
    } else if (depth === 0 && c === ';') head = -1;
    else if (depth === 0 && head < 0 && c.trim() !== '') [start, head] = [line, at];
  }
  return found;
}

const COLOURED = /(\/\*[\s\S]*?(?:\*\/|$)|\/\/.*)|\b(int|unsigned|char|void|if|else|while|for|break|continue|return|out)\b|(?<![$\w])(\d\w*)/g;

// The parts of each line that have a colour: comments, the words of C, numbers.
export function coloursOf(text) {
  const lines = text.split('\n').map(() => []);
  let line = 0, start = 0;
  for (const { 0: found, index, 1: comment, 2: word } of text.matchAll(COLOURED)) {
    for (let end = text.indexOf('\n', start); end >= 0 && end < index; end = text.indexOf('\n', start)) [line, start] = [line + 1, end + 1];
    found.split('\n').forEach((part, k) => {
      const from = k ? 0 : index - start;
      lines[line + k].push([from, from + part.length, comment ? 'comment' : word ? 'keyword' : 'number']);
    });
  }
  return lines;
}

// The length of an array, which may be octal.
const lengthOf = text => (/^0[0-7]/.test(text) ? parseInt(text, 8) : Number(text));

// The globals of a C text, with their addresses and places: one word each, or as many as an array has; four bytes share one.
export function globalsOf(text) {
  let depth = 0, address = 0x10000000;
  const outside = [...codeOf(text)].filter(c => (c === '}' ? depth-- : c === '{' ? depth++ : depth) === 0 && c !== '}').join('');
  return [...outside.matchAll(/\b(int|unsigned|char)\s+(\w+)\s*(?:(?:\[\s*(\w+?)[uU]?\s*\]|=[^;]*)\s*)?;/g)].map(([, type, name, count]) => {
    const found = { name, address, count: count === undefined ? null : lengthOf(count), size: type === 'char' ? 1 : 4 };
    address += 4 * Math.ceil(((found.count ?? 1) * found.size) / 4);
    return found;
  });
}

// The name of the word at an address: `a[3]`, and `line[4..7]` where it has four bytes.
export function nameAt(globals, address) {
  const held = globals.findLast(g => g.address <= address);
  if (!held || address >= held.address + 4 * Math.ceil(((held.count ?? 1) * held.size) / 4)) return '';
  const first = (address - held.address) / held.size;
  if (held.count === null) return held.name;
  return held.size === 4 ? `${held.name}[${first}]` : `${held.name}[${first}..${Math.min(first + 3, held.count - 1)}]`;
}

// The functions of a build: the start, and those of the text in their order; each with the numbers of its blocks.
export function groupBlocks(blocks, functions) {
  const named = [{ name: 'start' }, ...functions];
  return [...Map.groupBy(blocks, b => b.owner)].map(([owner, own], k) => (
    { owner, name: named[k]?.name ?? 'block ' + owner, lines: functions[k - 1] ?? null, blocks: own }));
}

// ---- faults
// The line of a fault, and its place and what is said of it, where the program tells them.
export function parseTold(text) {
  const lines = text.split('\n');
  const told = { fault: lines[0], line: null, column: null, message: null, hint: null };
  for (const line of lines.slice(1)) {
    const place = /^[\w.]+:(\d+):(\d+):(?: error: (.*))?$/.exec(line);
    if (place) Object.assign(told, { line: +place[1], column: +place[2], message: place[3] ?? null });
    else if (line.startsWith('hint: ')) told.hint = line.slice(6);
    else if (told.line === null && line) told.message = line;
  }
  return told;
}

// ---- what is said of a verdict
// The places of an order (0.., 'exit', 'slot') of the two words that `mcc check --explain` names behind a rule.
export function marked(order, said) {
  const [verdict, , ...named] = said.split('\n').map(line => line.trim());
  if (!verdict.startsWith('unclean ')) return [];
  const words = [...order.insts, order.exit, order.slot];
  const places = [...order.insts.keys(), 'exit', 'slot'];
  const pairs = [...places.keys()].flatMap(k => [[k, k + 1], ...(verdict === 'unclean U2' ? [[k, k + 2]] : [])]);
  const found = pairs.find(([k, n]) => words[k] === named[0] && words[n] === named[1]);
  return found ? found.map(k => places[k]) : [];
}

// What a stage of `mcc show` has of a block, without its margin.
export function blockOf(stage, number) {
  const found = new RegExp(`^  block ${number}\\b.*\\n((?: {4}.*\\n)*)`, 'm').exec(stage);
  return found ? found[1].replace(/^ {4}/gm, '') : '';
}

// ---- changes of an order; each gives a new one
// Moves what stands at a place (a number or 'slot') to another one; what was in the slot and is no Nop goes to the end.
export function move(order, from, to) {
  const next = { ...order, insts: [...order.insts] };
  if (from === to) return next;
  let inst = next.slot;
  if (from === 'slot') next.slot = 'nop';
  else [inst] = next.insts.splice(from, 1);
  if (to !== 'slot') return { ...next, insts: next.insts.toSpliced(to, 0, inst) };
  if (next.slot !== null && next.slot !== 'nop') next.insts.push(next.slot);
  return { ...next, slot: inst };
}

export const addNop = (order, at) => ({ ...order, insts: order.insts.toSpliced(at, 0, 'nop') });

// An order with another line at a place, or without it where the line is empty.
export function withLine(order, place, line) {
  if (place === 'slot') return { ...order, slot: line.replace(/^slot /, '') || 'nop' };
  if (place === 'exit') return { ...order, exit: line || order.exit, slot: hasSlot(line || order.exit) ? order.slot ?? 'nop' : null };
  return { ...order, insts: line ? order.insts.with(place, line) : order.insts.toSpliced(place, 1) };
}

// ---- the graph of a function: blocks in layers, and its edges
export function graphOf(blocks) {
  const numbers = new Map(blocks.map((b, k) => [b.number, k]));
  const edges = blocks.flatMap((b, from) => targets(b.block.exit).map((t, k, all) => (
    { from, to: numbers.get(t), kind: all.length < 2 ? '' : k === 0 ? 'yes' : 'no', isBack: false })).filter(e => e.to !== undefined));
  const layer = layers(blocks.length, edges);
  const steps = stepsOf(edges, layer);
  return { edges, layer, rank: ranks(layer.length, steps, layer) };
}

// Where an edge goes past layers, it has a place in each of them, behind those of the blocks (`by`).
function stepsOf(edges, layer) {
  return edges.flatMap(edge => {
    edge.by = [];
    if (edge.isBack) return [];
    for (let at = layer[edge.from] + 1; at < layer[edge.to]; at++) edge.by.push(layer.push(at) - 1);
    const way = [edge.from, ...edge.by, edge.to];
    return way.slice(1).map((to, k) => ({ from: way[k], to }));
  });
}

// The layer of each block, below all from which an edge comes down; marks the edges that go back.
function layers(count, edges) {
  const out = Array.from({ length: count }, () => []);
  for (const edge of edges) out[edge.from].push(edge);
  const state = new Array(count).fill(0);
  const ended = [];
  const visit = from => {
    state[from] = 1;
    for (const edge of out[from]) {
      if (state[edge.to] === 1) edge.isBack = true;
      else if (state[edge.to] === 0) visit(edge.to);
    }
    state[from] = 2;
    ended.push(from);
  };
  for (let root = 0; root < count; root++) if (state[root] === 0) visit(root);
  const layer = new Array(count).fill(0);
  for (const from of ended.reverse()) {
    for (const { to, isBack } of out[from]) if (!isBack) layer[to] = Math.max(layer[to], layer[from] + 1);
  }
  return layer;
}

// The place of each block in its layer: near the middle of the blocks above it, then of those below.
function ranks(count, edges, layer) {
  const rows = [];
  for (let k = 0; k < count; k++) (rows[layer[k]] ??= []).push(k);
  const rank = new Array(count).fill(0);
  const settle = row => row.forEach((k, place) => { rank[k] = place - (row.length - 1) / 2; });
  rows.forEach(settle);
  const sweep = (order, near) => {
    for (const row of order) {
      const middle = (k, others) => (others.length ? others.reduce((sum, n) => sum + rank[n], 0) / others.length : rank[k]);
      const by = new Map(row.map(k => [k, middle(k, near[k])]));
      row.sort((a, b) => by.get(a) - by.get(b) || a - b);
      settle(row);
    }
  };
  const [above, below] = [0, 1].map(() => Array.from({ length: count }, () => []));
  for (const { from, to } of edges) {
    above[to].push(from);
    below[from].push(to);
  }
  for (let round = 0; round < 3; round++) {
    sweep(rows, above);
    sweep([...rows].reverse(), below);
  }
  return rank;
}

// ---- listings
// The lines of the code in a listing, a word each.
export function codeLines(text) {
  const start = text.indexOf('00400000  ');
  return start < 0 ? [] : text.slice(start).split(/\n(?!00)/, 1)[0].split('\n');
}

export const NAMES = ['zero', 'at', 'v0', 'v1', ...[0, 1, 2, 3].map(k => 'a' + k), ...[0, 1, 2, 3, 4, 5, 6, 7].map(k => 't' + k),
  ...[0, 1, 2, 3, 4, 5, 6, 7].map(k => 's' + k), 't8', 't9', 'k0', 'k1', 'gp', 'sp', 'fp', 'ra'];

// What a word did, by the machine before it and after it: what it does, what shows then, and where its slot leads.
export function deed(line, before, after, wordText) {
  const at = reached(line, before.registers);
  const does = after.loads ? `$${after.loads} gets ${wordText(after.loaded)}`
    : after.target !== null ? `goes to ${hex(after.target).slice(2)}`
      : at !== null && line[0] === 's' ? `[${hex(at).slice(2)}] gets ${line.slice(3).split(',')[0]}` : '';
  const own = /^(?!sw|sb|b|lw|lbu|mult|div|jr|syscall)\w+ \$(\d+),/.exec(line)?.[1] ?? (line.startsWith('jal ') ? 31 : 0);
  const shows = [...new Set([before.loads, Number(own)])].filter(r => r > 0).map(r => `$${r} = ${wordText(after.registers[r])}`).join(', ');
  return { does, shows, isLate: before.loads > 0, leap: before.target === before.pc + 4 ? null : before.target };
}

// The address that a load or store reaches, by the registers before it.
export function reached(text, registers) {
  const parts = /^(lw|lbu|sw|sb) \$\d+,(-?\d+)\(\$(\d+)\)$/.exec(text);
  return parts ? (registers[+parts[3]] + Number(parts[2])) >>> 0 : null;
}
