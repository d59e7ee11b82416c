// The page: what is typed goes to the worker, and what it answers is shown.
import {
  NAMES, RULES, addNop, bare, blockAt, blockOf, codeLines, coloursOf, deed, exitLines, functionsOf, globalsOf, graphOf, groupBlocks, hex, marked, move,
  nameAt, orderWords, pairText, parseOrders, parsePair, parseTold, plainOrder, reached, withLine,
} from './model.mjs';
import { chooseStart, differences, parseStart, readFirst, runBlock, runOrder } from './runs.mjs';

const $ = id => document.getElementById(id);
const [SHORT_RUN, LONG_RUN] = [1_000_000, 1_000_000_000_000];
const [LINES, SHOWN, DRAWN, SHORT_TEXT, LONG_LINK] = [400, 100_000, 300, 200_000, 2_000_000];
const NO_MEMORY64 = 'This browser lacks WebAssembly with 64-bit memories. Chromium or Chrome from 133 on has it, and Firefox from 134 on.';

const element = (tag, text, ...classes) => {
  const made = document.createElement(tag);
  if (text !== null) made.textContent = text;
  made.classList.add(...classes.filter(Boolean));
  return made;
};
const say = (id, text) => { $(id).textContent = text; };
const attempt = (work, other = null) => {
  try { return work(); } catch { return other; }
};
const cut = text => (text.length > SHOWN ? text.slice(0, SHOWN) + '\n.. and more' : text);
// A long output, with the line that tells its end.
const cutOutput = text => (text.length > SHOWN ? `${cut(text)} ..\n${text.slice(-200).trimEnd().split('\n').at(-1)}\n` : text);

// ---- the worker
class Client {
  constructor(script, wasm) {
    const url = URL.createObjectURL(new Blob([script], { type: 'text/javascript' }));
    Object.assign(this, { script: url, wasm, count: 0 });
  }

  // A worker of its own, with what waits for it: what an ended one still sends reaches nobody.
  start() {
    const worker = new Worker(this.script);
    const waiting = new Map();
    worker.onmessage = ({ data: { id, answer, error } }) => {
      const asked = waiting.get(id);
      if (worker !== this.worker || !asked) return;
      waiting.delete(id);
      if (error === undefined) asked.resolve(answer);
      else asked.reject(new Error(error));
    };
    Object.assign(this, { worker, waiting });
    return (this.ready = this.send('start', { wasm: this.wasm }));
  }

  send(name, work) {
    return new Promise((resolve, reject) => {
      const id = ++this.count;
      this.waiting.set(id, { resolve, reject });
      this.worker.postMessage({ id, name, work });
    });
  }

  // Asks a worker that has its module.
  async ask(name, work) {
    for (let ready = null; ready !== this.ready;) await (ready = this.ready).catch(() => null);
    return this.send(name, work);
  }

  // Ends what is running, and starts a new worker.
  stop() {
    this.worker.terminate();
    for (const { reject } of this.waiting.values()) reject(new Error('stopped'));
    return this.start();
  }
}

let client = null;
const page = {
  text: '', built: '', lines: [], marks: {}, told: null, wrong: null, image: null, blocks: [], groups: [], group: null,
  chosen: null, order: null, at: 0, said: '', stages: new Map(), tried: null, isRunning: false, isOther: false,
  mine: new Map(), past: [], badLine: null, globals: [], isPlaying: false, goal: null, wanted: {}, colours: null,
  listing: [], view: null, before: null, breakpoint: null, cursor: null, touched: null, isBusy: false, isStale: false, isDimmed: false, isHeld: false, replaced: null,
};

// ---- the C text
// The lines that are marked: that of a fault, else those of the function that is shown and of the chosen block's exit.
function showGutter() {
  const { group, chosen } = page;
  const bad = (page.told ?? page.wrong)?.line ?? null;
  const held = bad === null && chosen?.number != null ? group?.lines : null;
  page.lines = page.text.split('\n');
  page.marks = { bad, held, left: held ? exitLines(page.text, group, chosen, page.groups) : [] };
  page.colours = page.text.length <= SHORT_TEXT ? coloursOf(page.text) : null;
  $('source').classList.toggle('uncoloured', !page.colours);
  follow();
}

// The numbers of the lines that are seen, and the marked place, where the text stands.
function follow() {
  const { scrollTop: top, scrollLeft: left } = $('source');
  const { bad, held, left: exits } = page.marks;
  const first = Math.max(1, Math.floor(top / parseFloat(getComputedStyle($('numbers')).lineHeight)) - 10);
  const count = Math.max(0, Math.min(120, page.lines.length - first + 1));
  $('numbers').replaceChildren(...Array.from({ length: count }, (_, k) => {
    const line = first + k;
    const isHeld = held && held.from <= line && line <= held.to;
    return element('div', String(line), line === bad ? 'bad' : exits.includes(line) ? 'left' : isHeld && 'held');
  }));
  drawText(first, count);
  $('numbers').style.transform = `translateY(calc(${first - 1}lh - ${top}px))`;
  $('behind').style.transform = `translate(${-left}px, calc(${first - 1}lh - ${top}px))`;
}

// The text of the lines that are seen, in colours, with the place of a fault.
function drawText(first, count) {
  const { colours, lines } = page;
  const told = page.told ?? page.wrong;
  const parts = [];
  for (let k = first - 1; k < first - 1 + count; k++) {
    const line = lines[k];
    const start = told?.line === k + 1 ? told.column - 1 : -1;
    const end = start < 0 ? -1 : start + Math.max(1, /^(\w+|[-+*\/%&|^<>=!]+|.)/u.exec(line.slice(start))?.[0].length ?? 1);
    const spans = start < 0 ? colours?.[k] ?? [] : [[start, end, 'bad']];
    spans.forEach(([from, to, kind], n) => {
      parts.push(line.slice(spans[n - 1]?.[1] ?? 0, from), element(kind === 'bad' ? 'mark' : 'span', line.slice(from, to) || ' ', kind));
    });
    parts.push((colours || start >= 0 ? line.slice(spans.at(-1)?.[1] ?? 0) : '') + '\n');
  }
  $('behind').replaceChildren(...parts);
}

// Undo brings back a long text, which the browser's own doesn't know. Enter keeps the indentation, and adds to it after a brace.
function sourceKey(event) {
  const { value, selectionStart } = event.target;
  if ((event.ctrlKey || event.metaKey) && !event.shiftKey && keyName(event) === 'z' && value === page.replaced?.by) {
    event.preventDefault();
    return putText(page.replaced.text);
  }
  if (event.key !== 'Enter' || event.isComposing || event.ctrlKey || event.altKey || value.length > SHORT_TEXT) return;
  const line = value.slice(value.lastIndexOf('\n', selectionStart - 1) + 1, selectionStart);
  event.preventDefault();
  document.execCommand('insertText', false, '\n' + /^ */.exec(line)[0] + (/\{\s*$/.test(line) ? '    ' : ''));
}

function showFault(told) {
  page.told = told;
  $('fault').hidden = told === null;
  if (told) {
    const place = told.line === null ? '' : `Line ${told.line}, column ${told.column}: `;
    const hint = told.hint ? [element('div', 'Hint: ' + told.hint)] : [];
    $('fault').replaceChildren(element('b', place + (told.message ?? told.fault)), ...hint, element('small', told.fault));
  }
  showGutter();
}

// What stands on the right isn't of the text on the left: it is dimmed, and says why. Who held the order before holds it after.
function setStale(why) {
  page.isHeld ||= $('order').contains(document.activeElement);
  if (why !== null) keepLine();
  const below = page.chosen ? 'Below is what the last text without a fault gave.' : 'There is nothing below yet.';
  Object.assign($('stale'), { hidden: why === null, textContent: `${why} ${below}` });
  $('right').classList.toggle('stale', why !== null);
  page.isDimmed = why !== null;
  for (const tab of TABS) $(tab).inert = page.isDimmed;
  if (!page.isDimmed) {
    if (page.isHeld && document.activeElement === document.body) focusOrder();
    page.isHeld = false;
  }
  showGoal();
}

// An answer that takes its time: nothing of the text before stands beside this one.
function showWorking() {
  $('stop').hidden = false;
  say('state', 'working ..');
  showRuns({ status: 1, text: '' }, null);
  showFault(null);
  setStale('Working.');
}

async function refresh() {
  page.isStale = page.isBusy;
  if (page.isBusy) return;
  page.isBusy = true;
  do {
    page.isStale = false;
    $('again').hidden = true;
    const { text } = page;
    page.tried = text;
    const plain = $('plain').checked;
    const late = setTimeout(showWorking, 700);
    const started = performance.now();
    try {
      if (isPair(text)) await showPair(text);
      else {
        const answer = await client.ask('program', { text, steps: SHORT_RUN, plain });
        if (text === page.text) showProgram(answer, plain, performance.now() - started);
      }
    } catch (error) {
      say('state', error.message);
      if (text === page.text) {
        showRuns({ status: 1, text: error.message }, null);
        setStale('The text has no answer yet.');
        $('again').hidden = false;
      }
    }
    clearTimeout(late);
    $('stop').hidden = true;
  } while (page.isStale);
  page.isBusy = false;
}
// Where and why the C program's run is wrong, as mcc tells it.
const WHY = /^program\.c(?::(\d+):(\d+))?: in function '(\w+)':\nwrong: ([^]*)$/;

function showRuns(interp, run) {
  const isOne = !run || interp.text === run.text;
  const isMore = interp.status === 4 || run?.status === 4;
  $('machine').parentElement.hidden = isOne;
  $('run-on').hidden = !isMore || !run;
  const [, line, column, name, words] = WHY.exec(interp.why ?? '') ?? [];
  page.wrong = line ? { line: Number(line), column: Number(column) } : null;
  const reason = name ? `Wrong in ${name}${line ? `, line ${line}` : ''}: ${words.trim().replace(/\nhint: (.*)/, ' ($1)')}. ` : '';
  const agree = !run ? '' : interp.status === 3 ? 'C gives the text no meaning from there on, so nothing is promised of the machine.'
    : isMore ? 'Not at the end after these steps.' : isOne ? 'Both print the same.' : 'They differ: this must not be.';
  const texts = { interp: cutOutput(interp.text), machine: cutOutput(run?.text ?? ''), reason, agree };
  texts.whose = run && isOne ? 'Output of interpreter and machine' : 'Interpreter';
  for (const [id, text] of Object.entries(texts)) say(id, text);
  showGutter();
  if (run?.status === 3) showPlace(run.text.trimEnd().split('\n').at(-1).slice(6), reason);
}

// Why the machine is stuck, and at which word of which block.
async function showPlace(rule, reason) {
  const { image } = page;
  const view = await client.ask('machine', { image, from: 0, most: SHORT_RUN, stop: 0, address: 0x10000000 }).catch(() => null);
  if (!view || image !== page.image) return;
  const block = blockAt(page.blocks, view.pc);
  const name = page.groups.find(g => g.owner === block?.owner)?.name;
  const there = element('button', 'Show the word');
  there.onclick = () => { chooseTab('steps'); goTo(view.words); };
  const place = element('b', `${hex(view.pc)}: ${lineAt(view.pc)}`);
  $('reason').replaceChildren(`${reason}The machine is stuck by ${RULES[rule] ?? rule} `, place, `, block ${block?.number} of ${name}. `, there);
}

const isPair = text => text.startsWith('block\n');

// A check text of one's own: its order is judged as it is typed.
async function showPair(text) {
  const { status, text: said } = await client.ask('explain', { text });
  if (text !== page.text) return;
  const pair = status === 1 ? null : parsePair(text);
  // what was changed on the right stands there already
  const isThere = page.chosen?.number === null && text === page.built;
  Object.assign(page, { image: null, blocks: [], groups: [], group: null, listing: [] });
  showRuns({ status: 1, text: '' }, null);
  showFault(pair ? null : parseTold(said));
  setStale(pair || isThere ? null : 'The check text has a fault.');
  say('state', said.split('\n')[0]);
  if (isThere || !pair) return;
  page.built = text;
  setOwn(true);
  chooseBlock({ number: null, owner: null, address: 0, plain: plainOrder(pair.block), ...pair });
}

// A check text has neither a graph nor RTL, and nothing runs.
function setOwn(isOwn) {
  document.body.classList.toggle('own', isOwn);
  for (const tab of TABS.slice(1)) {
    $('tab-' + tab).disabled = isOwn;
    $('tab-' + tab).title = isOwn ? 'A check text has no program' : '';
  }
  if (isOwn) chooseTab('orders');
}

function showProgram({ interp, build, run, list, orders }, isPlain, time) {
  keepLine();
  if (build.image === null) {
    page.image = null;
    showRuns({ status: 1, text: '' }, null);
    showFault(parseTold(build.text));
    setStale('The text has a fault.');
    say('state', 'fault');
    return;
  }
  const blocks = orders.status === 0 ? parseOrders(orders.text, isPlain) : [];
  const groups = groupBlocks(blocks, functionsOf(page.text));
  Object.assign(page, { image: build.image, blocks, groups, listing: codeLines(list.text), globals: globalsOf(page.text), breakpoint: null });
  Object.assign(page, { stages: new Map(), built: page.text });
  setOwn(false);
  showFault(null);
  setStale(null);
  showRuns(interp, run);
  say('state', `${build.text.trim().split(' ').slice(0, 4).join(' ')} · ${time.toFixed(0)} ms`);
  showFunctions();
  goTo(0, { isFollowed: false });
}

// What `mcc show` prints of a stage, of a function or of all, asked for once; again where it was stopped.
function stageOf(stage, group) {
  const name = group && group !== page.groups[0] ? group.name : '';
  const key = `${stage} ${name}`;
  const { stages, built: text } = page;
  const ask = () => client.ask('show', { text, stage, name }).then(shown => shown.text, error => {
    stages.delete(key);
    return error.message + '\n';
  });
  if (!stages.has(key)) stages.set(key, ask());
  return stages.get(key);
}

async function showStage() {
  if ($('stages').hidden || !page.group) return;
  const wanted = stageOf($('stage').value, $('whole').checked ? null : page.group);
  showStage.wanted = wanted;
  const shown = await wanted;
  if (wanted === showStage.wanted) say('stage-text', cut(shown));
}

// RTL and the terms of the chosen block.
async function showParts() {
  const { chosen, group } = page;
  const isShort = page.text.length <= SHORT_TEXT && group?.blocks.length <= DRAWN;
  const parts = chosen.number !== null && isShort ? await Promise.all(['rtl', 'terms'].map(stage => stageOf(stage, group))) : ['', ''];
  if (chosen !== page.chosen) return;
  const [rtl, terms] = parts.map(part => blockOf(part, chosen.number));
  say('rtl', rtl || 'none');
  say('terms', terms || (isShort ? 'none' : 'The text is long: they stand under Stages as text.'));
}

// ---- the graph of a function
function showFunctions() {
  const was = page.isOther ? null : page.group?.name;
  $('functions').replaceChildren(...page.groups.map((g, k) => new Option(`${g.name} (${g.blocks.length})`, k)));
  const place = name => page.groups.findIndex(g => g.name === name);
  const wanted = place(page.wanted.name ?? was);
  chooseGroup(wanted >= 0 ? wanted : Math.max(place('main'), 0), page.wanted.number ?? (wanted >= 0 ? page.chosen?.number : null));
  Object.assign(page, { isOther: false, wanted: {} });
}

function chooseGroup(k, number) {
  keepLine();
  page.group = page.groups[k] ?? null;
  $('functions').value = k;
  if (!page.group) return;
  page.chosen = page.group.blocks.find(b => b.number === number) ?? page.group.blocks[0];
  showGraph();
  chooseBlock(page.chosen);
  showStage();
}

const NODE = { width: 78, height: 34, across: 100, down: 62, pad: 10 };
const svg = (tag, attributes, text = null) => {
  const made = document.createElementNS('http://www.w3.org/2000/svg', tag);
  for (const [name, value] of Object.entries(attributes)) made.setAttribute(name, value);
  if (text !== null) made.textContent = text;
  return made;
};

function showGraph() {
  const all = page.group.blocks;
  const start = Math.max(0, Math.min(all.indexOf(page.chosen) - DRAWN / 2, all.length - DRAWN));
  const blocks = all.slice(start, start + DRAWN);
  say('drawn', blocks.length < all.length ? `${DRAWN} of ${all.length} blocks are drawn` : '');
  const { edges, layer, rank } = graphOf(blocks);
  const least = Math.min(...rank);
  const back = edges.filter(e => e.isBack);
  const middle = k => NODE.pad + NODE.width / 2 + (rank[k] - least) * NODE.across;
  const top = k => NODE.pad + layer[k] * NODE.down;
  const right = NODE.pad + NODE.width + (Math.max(...rank) - least) * NODE.across;
  const width = right + 8 + 10 * back.length;
  const height = NODE.pad * 2 + NODE.height + Math.max(...layer) * NODE.down + (back.length ? 8 : 0);
  $('graph').setAttribute('viewBox', `0 0 ${width} ${height}`);
  const scale = parseFloat(getComputedStyle($('rtl')).fontSize) / 13;
  Object.assign($('graph').style, { width: width * scale + 'px', height: height * scale + 'px' });
  const drawn = [];
  let lane = right + 6;
  const entered = new Set(back.map(e => e.to));
  const labels = [];
  // Short ways back are nearer than long ones.
  const length = e => (e.isBack ? layer[e.from] - layer[e.to] : 0);
  for (const { from, to, by, kind, isBack } of [...edges].sort((e, f) => length(e) - length(f))) {
    const side = kind === 'yes' ? -14 : kind === 'no' ? 14 : 0;
    const enter = !entered.has(to) ? 0 : isBack ? 10 : -10;
    const [x, y, u, v] = [middle(from) + side, top(from) + NODE.height, middle(to) + enter, top(to)];
    const bend = NODE.down - NODE.height;
    const curve = (a, b, c, d) => `C ${a} ${b + bend}, ${c} ${d - bend}, ${c} ${d}`;
    const past = by.map(k => [middle(k), top(k)]);
    const ends = [[x, y], ...past.map(([c, d]) => [c, d + NODE.height])];
    const down = [...past, [u, v]].map(([c, d], k) => curve(...ends[k], c, d) + (k < past.length ? ` L ${c} ${d + NODE.height}` : ''));
    const line = isBack ? `M ${x} ${y} C ${x} ${y + 16}, ${lane} ${y + 16}, ${lane} ${y - 6} L ${lane} ${v + 6} `
      + `C ${lane} ${v - 18}, ${u} ${v - 18}, ${u} ${v}` : `M ${x} ${y} ` + down.join(' ');
    if (isBack) lane += 10;
    drawn.push(svg('path', { d: line, class: isBack ? 'back' : '', 'marker-end': isBack ? 'url(#arrow-back)' : 'url(#arrow)' }));
    const [near, anchor] = side < 0 ? [x - 5, 'end'] : [x + 5, 'start'];
    if (kind) labels.push(svg('text', { x: near, y: y + 13, class: 'kind way', 'text-anchor': anchor }, kind));
  }
  const nodes = blocks.map((b, k) => {
    const node = svg('g', { class: 'node', tabindex: -1, role: 'button', 'data-block': b.number, 'aria-label': `block ${b.number}` });
    node.append(svg('rect', { x: middle(k) - NODE.width / 2, y: top(k), width: NODE.width, height: NODE.height }));
    const [word] = b.block.exit.split(' ');
    node.append(svg('text', { x: middle(k), y: top(k) + 14, 'text-anchor': 'middle' }, String(b.number)));
    node.append(svg('text', { x: middle(k), y: top(k) + 28, 'text-anchor': 'middle', class: 'kind' }, `${b.block.insts.length} · ${word}`));
    node.onclick = () => chooseBlock(b);
    return node;
  });
  $('shapes').replaceChildren(...drawn, ...labels, ...nodes);
}

function markNodes() {
  const here = page.view ? blockAt(page.blocks, page.view.pc) : null;
  for (const node of document.querySelectorAll('#graph .node')) {
    const number = Number(node.dataset.block);
    node.classList.toggle('chosen', number === page.chosen?.number);
    node.classList.toggle('pointed', number === here?.number);
    node.setAttribute('tabindex', number === page.chosen?.number ? 0 : -1);
  }
  seeNode();
}

// Brings the chosen block into view, with what is around it.
function seeNode() {
  const box = document.querySelector('.drawing');
  const node = document.querySelector('#graph .node.chosen')?.getBoundingClientRect();
  const { left, top, right, bottom } = box.getBoundingClientRect();
  if (!node || (node.left >= left && node.right <= right && node.top >= top && node.bottom <= bottom)) return;
  box.scrollBy((node.left + node.right - left - right) / 2, (node.top + node.bottom - top - bottom) / 2);
}

// Tab reaches the chosen block alone; arrows lead to the others, Enter chooses one.
function graphKey(event) {
  const nodes = [...document.querySelectorAll('#graph .node')];
  const at = nodes.indexOf(document.activeElement);
  const next = { ArrowDown: at + 1, ArrowRight: at + 1, ArrowUp: at - 1, ArrowLeft: at - 1, Home: 0, End: nodes.length - 1 }[event.key];
  const isChosen = event.key === 'Enter' || event.key === ' ';
  if (at < 0 || (next === undefined && !isChosen)) return;
  event.preventDefault();
  if (isChosen) nodes[at].dispatchEvent(new Event('click'));
  else nodes[next]?.focus();
}

// ---- a block and its order
// One's order of a block is kept while one looks at others. A check text has its order itself.
const keyOf = ({ block }) => [...bare(block).insts, block.exit].join('\n');

function chooseBlock(block) {
  keepLine();
  page.chosen = block;
  page.order = (block.number === null ? null : page.mine.get(keyOf(block))) ?? block.order;
  page.at = 0;
  say('block-title', block.number === null ? 'A block of a check text' : `Block ${block.number}, ${hex(block.address)}`);
  const { insts, exit } = block.block;
  $('block').replaceChildren(...insts.map(line => element('li', line, line === 'nop' && 'nop')), element('li', exit, 'exit'));
  showOrder();
  markNodes();
  showListing();
  showGutter();
  showParts();
  judge();
  tieGoal();
  keep();
}

// The block of a word of the image.
function chooseAt(address) {
  const block = blockAt(page.blocks, address);
  const k = page.groups.findIndex(g => g.owner === block?.owner);
  if (!block || block === page.chosen) return;
  if (page.groups[k] === page.group) chooseBlock(block);
  else chooseGroup(k, block.number);
}

// The places of the order, in the order of their words: 0.., 'exit', 'slot'.
const placesOf = order => [...order.insts.keys(), 'exit', ...(order.slot === null ? [] : ['slot'])];

function showOrder() {
  const { order } = page;
  const places = placesOf(order);
  const broken = page.badLine === null ? marked(order, page.said) : [places[page.badLine]];
  if (!places.includes(page.at)) page.at = places.includes(page.at - 1) ? page.at - 1 : places[0];
  $('order').replaceChildren(...places.map(place => {
    const line = place === 'exit' ? order.exit : place === 'slot' ? 'slot ' + order.slot : order.insts[place];
    const kinds = [typeof place === 'string' && place, /^(slot )?nop$/.test(line) && 'nop', broken.includes(place) && 'broken'];
    const item = element('li', line, ...kinds);
    item.dataset.place = place;
    item.tabIndex = place === page.at ? 0 : -1;
    item.draggable = place !== 'exit';
    return item;
  }));
  say('verdict-words', `${orderWords(order)} words; the plain order takes ${orderWords(page.chosen.plain)}.`);
}

const focusOrder = () => $('order').querySelector('[tabindex="0"]')?.focus();

// What was said of another order doesn't stay while this one waits for its verdict.
function showJudging() {
  for (const id of ['why', 'start', 'from']) say(id, '');
  for (const id of ['leaves', 'rows']) $(id).replaceChildren();
  Object.assign($('verdict'), { className: '', textContent: 'judging ..' });
  $('witness').hidden = true;
  showGoal();
}

let asked = 0, lateVerdict = null;
async function judge() {
  const mine = ++asked;
  page.said = '';
  lateVerdict ??= setTimeout(showJudging, 100);
  const { block } = page.chosen;
  const { status, text } = await client.ask('explain', { text: pairText(block, page.order) }).catch(({ message }) => ({ text: message }));
  if (mine !== asked) return;
  clearTimeout(lateVerdict);
  lateVerdict = null;
  const told = status === 1 ? parseTold(text) : null;
  page.said = told ? '' : text;
  page.badLine = told?.line ? told.line - block.insts.length - 4 : null;
  const [verdict, ...why] = told ? ['no order', told.message, told.hint ?? ''] : text.split(/\nthe order is wrong/)[0].trimEnd().split('\n');
  const isSame = verdict === 'same';
  Object.assign($('verdict'), { className: isSame ? 'same' : 'other', textContent: verdict });
  $('why').classList.toggle('prose', isSame || told !== null);
  say('why', isSame ? 'The order means the block: it may stand for it.' : why.join('\n'));
  showStart(told === null);
  showGoal();
  if ($('order').querySelector('input')) return;
  const isFocused = $('order').contains(document.activeElement);
  showOrder();
  if (isFocused) focusOrder();
}

// A start from which block and order do otherwise, with what each leaves; and both runs from it.
function showStart(isOrder) {
  const { chosen: { block }, order, said } = page;
  const isWrong = said.startsWith('differs') && !said.includes('no start');
  $('both').disabled = !isOrder;
  $('witness').hidden = !isWrong;
  if (!isOrder) return;
  const named = parseStart(said);
  const start = chooseStart(block, order, said);
  const sides = [runBlock(block, start), runOrder(order, start)];
  const found = named ? [['', named.block, named.order]] : differences(...sides);
  const read = readFirst([...block.insts, block.exit], [...order.insts, order.exit, order.slot]);
  const from = (named?.registers ?? read.map(r => [r, start.regs[r]])).map(([r, word]) => `$${r} = ${hex(word)}`);
  const by = named ? 'The order is wrong from ' : "This page's own script finds the order wrong from ";
  const refuted = [by, ...from.flatMap((text, k) => [k ? ', ' : '', element('code', text)])];
  $('start').replaceChildren(...(found.length ? refuted : ["This page's own script finds no start from which they differ."]));
  const leaves = [['th', '', 'the block leaves', 'the order leaves'], ...found.slice(0, 3).map(cells => ['td', ...cells])];
  $('leaves').replaceChildren(...(found.length ? leaves.map(cells => row(...cells)) : []));
  const count = Math.max(...sides.map(side => side.rows.length));
  const both = Array.from({ length: count }, (_, k) => row('td', k + 1, ...sides.map(side => side.rows[k] ?? '')));
  $('rows').replaceChildren(row('th', '', 'the block, whose loads show at once', 'your order'), ...both);
  const common = isWrong ? 'that start' : from.join(', ') || 'any state';
  say('from', `Both from ${common}, word by word. This page's own script runs them, and no proof covers it.`);
}

// A row of a table; a cell is a text, or the line of a run with what it shows.
function row(tag, ...cells) {
  const made = element('tr', null);
  for (const cell of cells) {
    const put = element(tag, cell.line ?? String(cell));
    if (cell.line) put.append(element('div', cell.shows, cell.isStuck && 'stuck'));
    made.append(put);
  }
  return made;
}

function showBoth() {
  const isShown = $('runs').hidden;
  $('both').setAttribute('aria-expanded', String(isShown));
  $('runs').hidden = !isShown;
  if (isShown) $('runs').scrollIntoView({ block: 'nearest' });
}

// Where what is on the left isn't what is on the right, nothing of that is changed.
const isOpen = () => page.chosen !== null && !page.isDimmed && (page.chosen.number !== null || page.text === page.built);

function change(order, at, isFocused = true) {
  if (!isOpen()) return;
  page.past.push([keyOf(page.chosen), page.order, page.at]);
  setOrder(order, at, isFocused);
}

// The order that was before the last change.
function undoOrder() {
  const last = page.past.findLastIndex(([key]) => key === keyOf(page.chosen));
  if (last >= 0) setOrder(...page.past.splice(last, 1)[0].slice(1));
}

// A check text follows its order, which follows it.
function setOrder(order, at, isFocused = true) {
  const { chosen, mine } = page;
  Object.assign(page, { order, at, said: '', badLine: null });
  if (chosen.number === null) {
    page.built = pairText(chosen.block, order);
    putText(page.built);
  } else if (order === chosen.order) mine.delete(keyOf(chosen));
  else mine.set(keyOf(chosen), order);
  keep();
  showOrder();
  if (isFocused) focusOrder();
  judge();
}

// The line on which one stands becomes a field: Enter puts it in, Escape leaves it as it was, an empty one is taken out.
function editLine() {
  const item = $('order').querySelector('[tabindex="0"]');
  const { at, order } = page;
  const field = Object.assign(element('input', null), { value: item.textContent, spellcheck: false, ariaLabel: 'Line of the order' });
  item.draggable = false;
  item.replaceChildren(field);
  field.focus();
  field.select();
  const was = field.value;
  const end = (isKept, isFocused) => {
    if (!field.isConnected || order !== page.order) return;
    const line = field.value.trim().replace(/ +/g, ' ');
    field.onblur = null;
    field.remove();
    showOrder();
    if (isFocused) focusOrder();
    if (isKept && line !== was) change(withLine(order, at, line), at, isFocused);
  };
  // who leaves the field for something else stays there
  field.onblur = () => end(true, false);
  field.onkeydown = event => {
    event.stopPropagation();
    if (event.key === 'Enter' || event.key === 'Escape') end(event.key === 'Enter', true);
  };
}

// The line that is being edited is put in before its block goes away.
const keepLine = () => $('order').querySelector('input')?.onblur?.();

const CHANGES = {
  up: ({ insts, slot }, at) => {
    const to = at !== 'slot' ? at - 1 : slot === 'nop' ? -1 : insts.length;
    return to >= 0 ? [move(page.order, at, to), to] : null;
  },
  down: ({ insts, slot }, at) => {
    if (at === 'slot' || at === 'exit') return null;
    if (at < insts.length - 1) return [move(page.order, at, at + 1), at + 1];
    return slot === null ? null : [move(page.order, at, 'slot'), 'slot'];
  },
  'to-slot': ({ slot }, at) => (slot === null || typeof at !== 'number' ? null : [move(page.order, at, 'slot'), 'slot']),
  'add-nop': ({ insts }, at) => [addNop(page.order, insts[at] ? at : insts.length), insts[at] ? at : insts.length],
  remove: ({ insts, slot }, at) => {
    if (at === 'slot') return slot === 'nop' ? null : [withLine(page.order, 'slot', ''), 'slot'];
    return insts[at] === undefined ? null : [withLine(page.order, at, ''), Math.min(at, insts.length - 2)];
  },
  'to-plain': () => [page.chosen.plain, 0],
  'to-build': () => [page.chosen.order, 0],
};
const KEYS = { s: 'to-slot', n: 'add-nop', Delete: 'remove', Backspace: 'remove', Enter: 'edit', F2: 'edit' };

function apply(name) {
  if (!isOpen()) return;
  if (name === 'edit') return editLine();
  if (name === 'undo') return undoOrder();
  const changed = CHANGES[name](page.order, page.at);
  if (changed) change(...changed);
}

// A letter is the same key with Caps Lock.
const keyName = ({ key }) => (key.length === 1 ? key.toLowerCase() : key);

function orderKey(event) {
  const isControl = event.ctrlKey || event.metaKey;
  if (isControl && event.shiftKey) return;
  const name = event.altKey
    ? { ArrowUp: 'up', ArrowDown: 'down' }[event.key]
    : isControl ? { z: 'undo' }[keyName(event)] : KEYS[keyName(event)];
  const by = event.altKey ? undefined : { ArrowUp: -1, ArrowDown: 1 }[event.key];
  if (!name && !by) return;
  event.preventDefault();
  const places = placesOf(page.order);
  if (name) apply(name);
  else stand(places[Math.max(0, Math.min(places.length - 1, places.indexOf(page.at) + by))]);
}

function stand(place) {
  page.at = place;
  for (const item of $('order').children) item.tabIndex = item.dataset.place === String(place) ? 0 : -1;
  focusOrder();
}

const placeOf = item => (/^\d+$/.test(item.dataset.place) ? Number(item.dataset.place) : item.dataset.place);

// A ribbon from an instruction of the block to the same one of the order.
function showRibbon(item) {
  const lists = ['block', 'order'].map(id => [...$(id).children]);
  const textOf = it => it.textContent.replace('slot ', '');
  const alike = items => items.filter(it => textOf(it) === textOf(item));
  const isShown = item !== null && lists.some(items => items.includes(item)) && textOf(item) !== 'nop';
  const ends = isShown ? lists.map(items => alike(items)[alike(item.parentElement === $('block') ? lists[0] : lists[1]).indexOf(item)]) : [];
  for (const it of lists.flat()) it.classList.toggle('tied', ends.includes(it) && ends.every(Boolean));
  $('ribbon').replaceChildren();
  if (!isShown || !ends.every(Boolean)) return;
  const { left, top } = $('ribbon').getBoundingClientRect();
  const [a, b] = ends.map(it => it.getBoundingClientRect());
  const [x, u] = [a.right - left, b.left - left];
  const [y, z, v, w] = [a.top, a.bottom, b.top, b.bottom].map(at => at - top);
  const middle = (x + u) / 2;
  const line = `M ${x} ${y} C ${middle} ${y}, ${middle} ${v}, ${u} ${v} L ${u} ${w} C ${middle} ${w}, ${middle} ${z}, ${x} ${z} Z`;
  $('ribbon').append(svg('path', { d: line }));
}

function listenToOrder() {
  const list = $('order');
  for (const id of ['block', 'order']) {
    $(id).onmouseover = $(id).onfocusin = event => showRibbon(event.target.closest('li'));
    $(id).onmouseleave = () => showRibbon(null);
  }
  let from = null;
  list.onkeydown = orderKey;
  list.onclick = event => event.target.dataset.place && stand(placeOf(event.target));
  list.ondblclick = event => event.target.dataset.place && editLine();
  list.ondragstart = event => {
    from = placeOf(event.target);
    event.dataTransfer.setData('text/plain', event.target.textContent);
    event.dataTransfer.effectAllowed = 'move';
  };
  list.ondragover = event => {
    event.preventDefault();
    for (const item of list.children) item.classList.toggle('over', item === event.target);
  };
  list.ondrop = event => {
    event.preventDefault();
    if (from === null || !event.target.dataset.place) return;
    const onto = placeOf(event.target);
    let to = onto === 'exit' ? page.order.insts.length : onto;
    if (typeof from === 'number' && typeof to === 'number' && to > from) to--;
    change(move(page.order, from, to), to);
    from = null;
  };
  list.ondragend = showOrder;
  for (const name of [...Object.keys(CHANGES), 'edit', 'undo']) $(name).onclick = () => apply(name);
  $('both').onclick = showBoth;
  $('as-text').onclick = () => isOpen() && putText(pairText(page.chosen.block, page.order));
}

// ---- the machine
// The block of the next word is chosen, unless the machine only starts.
async function goTo(from, { most = 0, stop = 0, isFollowed = true } = {}) {
  if (!page.image) return;
  const { image } = page;
  const address = page.touched ?? 0x10000000;
  const view = await client.ask('machine', { image, from, most, stop, address }).catch(() => null);
  if (image !== page.image || !view || view.status !== 0) return;
  Object.assign(page, { before: page.view && view.words === page.view.words + 1 ? page.view : null, view, cursor: null });
  if (isFollowed && !$('steps').hidden) chooseAt(view.pc);
  showMachine();
}

function step() {
  const { view } = page;
  if (!view || view.next.status !== 4) return null;
  const at = reached(lineAt(view.pc), view.registers);
  if (at !== null && at < 0x6f000000) page.touched = at - (at % 4) - Math.min(16, at - (at % 4) - 0x10000000);
  if (at !== null) page.last = at;
  return goTo(view.words + 1);
}

// Steps at a speed, up to the end or the breakpoint; until it is pressed again.
let plays = 0;
async function play() {
  const mine = ++plays;
  page.isPlaying = !page.isPlaying;
  say('play', page.isPlaying ? 'Pause' : 'Play');
  while (page.isPlaying) {
    await new Promise(resolve => setTimeout(resolve, 1000 / Number($('speed').value)));
    if (mine === plays && page.isPlaying) await step();
    if (mine !== plays) return;
    page.isPlaying &&= page.view?.next.status === 4 && page.view.pc !== page.breakpoint;
  }
  say('play', 'Play');
}

const lineAt = pc => page.listing[(pc - 0x00400000) / 4]?.slice(20) ?? '';

function showListing() {
  if ($('steps').hidden) return;
  const list = $('listing');
  const here = page.view ? (page.view.pc - 0x00400000) / 4 : 0;
  const count = page.listing.length;
  const near = count <= LINES * 2 ? 0 : Math.max(0, Math.min(here - LINES / 2, count - LINES));
  const upTo = count <= LINES * 2 ? count : near + LINES;
  const begins = new Map(page.blocks.map(b => [b.address, b.number]));
  const { chosen, view } = page;
  const isIn = address => chosen?.number != null && chosen.address <= address && address < chosen.address + 4 * orderWords(chosen.order);
  const after = view ? view.target ?? (view.next.status === 4 ? view.pc + 4 : null) : null;
  list.replaceChildren(...page.listing.slice(near, upTo).map((_, k) => {
    const address = 0x00400000 + 4 * (near + k);
    const number = begins.get(address);
    const label = [String(number ?? '').padStart(4), address.toString(16).padStart(8, '0'), lineAt(address)].join(' ');
    const item = element('li', label, number !== undefined && 'block', address === view?.pc && 'here', isIn(address) && 'chosen',
      address === after && 'next', address === page.breakpoint && 'breakpoint');
    item.dataset.address = address;
    return Object.assign(item, { id: 'word-' + address, role: 'option' });
  }));
  list.querySelector('.here')?.scrollIntoView({ block: 'nearest' });
  pointAt(page.cursor ?? view?.pc ?? null);
}

// The word of the listing on which one stands: that of the next step, until arrows lead to another one.
function pointAt(address) {
  const item = address === null ? null : $('word-' + address);
  $('listing').querySelector('.cursor')?.classList.remove('cursor');
  item?.classList.add('cursor');
  $('listing').setAttribute('aria-activedescendant', item?.id ?? '');
  return item;
}

function moveCursor(by) {
  const to = (page.cursor ?? page.view?.pc ?? 0) + by;
  if (!$('word-' + to)) return;
  page.cursor = to;
  pointAt(to).scrollIntoView({ block: 'nearest' });
}

function clickWord(address) {
  page.cursor = address;
  chooseAt(address);
  page.breakpoint = page.breakpoint === address ? null : address;
  showMachine();
}

function showMachine() {
  const { view, before } = page;
  showListing();
  markNodes();
  const { next } = view;
  const lines = next.text.trimEnd().split('\n');
  const end = lines.pop();
  say('written', cut(lines.join('\n')));
  say('count', `${view.words} words ran` + (page.breakpoint === null ? '' : `; breakpoint ${hex(page.breakpoint)}`));
  $('ending').className = next.status === 3 ? 'stuck' : '';
  const endings = { 0: `The next word halts the machine: ${end}.`, 3: `The machine is stuck. ${RULES[end.slice(6)] ?? end}` };
  say('ending', endings[next.status] ?? '');
  showSpecial(view, before);
  $('registers').replaceChildren(...view.registers.map((word, r) => {
    const isLoading = view.loads === r && r > 0;
    const isChanged = before !== null && before.registers[r] !== word;
    const item = element('div', null, isChanged && 'changed', isLoading && 'loading');
    item.append(element('span', `$${r} ${NAMES[r]}`), wordText(word));
    item.title = isLoading ? `${word | 0}; a load is under way: ${view.loaded | 0} shows after the next word` : `${word | 0}`;
    return item;
  }));
  $('registers').classList.toggle('decimal', $('base').value !== 'hex');
  showPast(view);
  showMemory('stack', view.registers[29], view.stack.slice(0, 16), () => '');
  say('data-title', 'Data from ' + hex(view.address));
  showMemory('data', view.address, view.memory.slice(0, 16), at => nameAt(page.globals, at));
}

const wordText = word => ($('base').value === 'hex' ? word.toString(16).padStart(8, '0') : String(word | 0).padStart(11));

// The last words, one below the other: what a load gets shows one row later, and a branch leads away from below its slot.
function showPast(view) {
  const states = [...view.past, view];
  const rows = view.past.flatMap((before, k) => {
    const { does, shows, isLate, leap } = deed(lineAt(before.pc), before, states[k + 1], word => wordText(word).trim());
    const made = row('td', lineAt(before.pc), does, shows);
    made.cells[1].classList.toggle('loading', states[k + 1].loads > 0);
    made.cells[2].classList.toggle('loading', isLate);
    if (leap === null) return [made];
    return [made, Object.assign(row('td', `└─▶ ${hex(leap).slice(2)}`, '', ''), { className: 'leap' })];
  });
  $('past').replaceChildren(row('th', 'fetches', 'does', 'shows'), ...rows);
}

function showMemory(id, address, words, nameOf) {
  const line = (word, at) => `${at.toString(16).padStart(8, '0')}  ${wordText(word)}  ${nameOf(at)}`.trimEnd() + '\n';
  const isLast = at => page.last !== undefined && at <= page.last && page.last < at + 4;
  const shown = words.map((word, k) => [line(word, address + 4 * k), address + 4 * k]);
  $(id).replaceChildren(...shown.map(([text, at]) => (isLast(at) ? element('mark', text) : text)));
}

function showSpecial(view, before) {
  const changed = name => before !== null && before[name] !== view[name] && 'changed';
  const after = view.target === null ? hex((view.pc + 4) >>> 0) : `${hex(view.target)} (in a slot)`;
  const load = view.loads ? `$${view.loads} gets ${hex(view.loaded)}` : 'none';
  const cells = [['pc', hex(view.pc)], ['HI', hex(view.high), changed('high')], ['then', after], ['LO', hex(view.low), changed('low')],
    ['load', load, view.loads > 0 && 'loading'], ['mult, div', view.hold ? `wait ${view.hold}` : 'ready', view.hold > 0 && 'loading']];
  $('special').replaceChildren(...cells.map(([name, text, ...classes]) => {
    const item = element('div', null, ...classes);
    item.append(element('span', name), text);
    return item;
  }));
}

function listenToMachine() {
  $('step').onclick = step;
  $('back').onclick = () => goTo(Math.max(0, (page.view?.words ?? 0) - 1));
  $('play').onclick = play;
  $('base').onchange = () => page.view && showMachine();
  $('reset').onclick = () => { page.last = undefined; page.touched = null; goTo(0); };
  $('run').onclick = () => goTo((page.view?.words ?? 0) + 1, { most: SHORT_RUN, stop: page.breakpoint ?? 0 });
  $('listing').onclick = ({ target: { dataset: { address } } }) => address && clickWord(Number(address));
  $('steps').onkeydown = machineKey;
}

function machineKey(event) {
  if (event.target.closest('button, select, input') || event.altKey || event.ctrlKey || event.metaKey) return;
  const name = { ArrowRight: 'step', ' ': 'step', ArrowLeft: 'back', Home: 'reset', r: 'run', p: 'play' }[keyName(event)];
  const by = event.target === $('listing') ? { ArrowUp: -4, ArrowDown: 4 }[event.key] : undefined;
  if (!name && !by && event.key !== 'Enter') return;
  event.preventDefault();
  if (name) $(name).click();
  else if (by) moveCursor(by);
  else if (page.view) clickWord(page.cursor ?? page.view.pc);
}

// ---- examples, links, themes, tabs
// A text in place of the one that is there, so that undo brings that back: the browser's, which is too slow for a long text, or ours.
function putText(text) {
  const source = $('source');
  const focused = document.activeElement;
  source.focus();
  source.select();
  const isPut = text && text.length <= SHORT_TEXT && source.value.length <= SHORT_TEXT && document.execCommand('insertText', false, text);
  if (!isPut) {
    page.replaced = { text: source.value, by: text };
    source.value = text;
    typed();
  }
  source.setSelectionRange(0, 0);
  source.scrollTop = 0;
  if (focused === document.body) source.blur();
  else focused?.focus();
}

function typed() {
  if ($('source').value === page.text && page.tried !== null) return;
  page.text = $('source').value;
  Object.assign(page, { view: null, before: null, touched: null, last: undefined, isPlaying: false });
  if (page.isRunning) stop();
  showGutter();
  keep();
  clearTimeout(typed.later);
  typed.later = setTimeout(refresh, 120);
}

// The text outlives a reload, together with the link from which it came; and so do one's orders, and how the page looks.
function keep() {
  const { theme } = document.documentElement.dataset;
  const isPresent = document.documentElement.classList.contains('present');
  const all = { hash: location.hash, state: stateOf(), mine: [...page.mine], theme, isPresent };
  attempt(() => sessionStorage.setItem('mcc', JSON.stringify(all)));
}

const kept = () => attempt(() => JSON.parse(sessionStorage.getItem('mcc'))) ?? {};

function restoreLooks({ theme, isPresent }) {
  setTheme(theme ?? (matchMedia('(prefers-color-scheme: dark)').matches ? 'dark' : 'light'));
  if (isPresent) setPresent();
}

function listExamples(texts) {
  const select = $('examples');
  const groups = [['C programs', /\.c$/], ['Orders', /\.check$/]].map(([label, pattern]) => {
    const group = Object.assign(element('optgroup', null), { label });
    group.append(...Object.keys(texts).filter(name => pattern.test(name)).map(name => new Option(name.replace(/\.\w+$/, ''), name)));
    return group;
  });
  select.replaceChildren(new Option('choose', ''), ...groups);
  select.onchange = () => {
    openState({ c: texts[select.value] });
    select.value = '';
  };
}

// What a link carries: the text, the view, the function, the block (the one that is to be chosen where no answer came yet), one's order
// of it, and a goal.
function stateOf() {
  const { chosen, group, order, goal, text, wanted } = page;
  const state = { c: text, v: TABS.find(tab => !$(tab).hidden) };
  if (wanted.name) Object.assign(state, { f: wanted.name, b: wanted.number });
  else if (group && chosen?.number != null) Object.assign(state, { f: group.name, b: chosen.number });
  if (chosen && order && order !== chosen.order && chosen.number !== null) state.o = pairText(chosen.block, order);
  if (goal) state.g = `at most ${goal.words} words and same` + (goal.number === (chosen?.number ?? null) ? '' : ` in block ${goal.number}`);
  return state;
}

const hashOf = state => '#' + Object.entries(state).map(([name, value]) => `${name}=${encodeURIComponent(value)}`).join('&');

// The state of an address; an old one has a text alone. What no encoding has stands for itself, as in one that was typed.
function stateOfAddress() {
  const hash = location.hash.slice(1);
  const part = text => text.replace(/(%[0-9a-f]{2})+/gi, found => attempt(() => decodeURIComponent(found), found));
  return /^[a-z]=/.test(hash) ? Object.fromEntries(hash.split('&').map(it => [it[0], part(it.slice(2))])) : { c: part(hash) };
}

function openState({ c, v, f, b, o, g }) {
  const pair = o && parsePair(o);
  if (pair) page.mine.set(keyOf(pair), pair.order);
  page.wanted = { name: f, number: Number(b) };
  const [, words = '', number = b] = /(\d+)(?:.* in block (\d+))?/.exec(g ?? '') ?? [];
  setGoal(words, number === undefined ? null : Number(number));
  page.isOther = Boolean(c);
  if (c === page.text && page.groups.length) showFunctions();
  else if (c === page.text) tieGoal();
  else if (c) putText(c);
  if (TABS.includes(v)) chooseTab(isPair($('source').value) ? 'orders' : v);
}

// An exercise: an order of at most so many words that means its block, which is that of a number, or else the chosen one.
function setGoal(words, number = null) {
  page.goal = words === '' ? null : { words: Number(words), number, key: null };
  $('goal-words').value = words;
  showGoal();
}

// The goal knows its block once that is there.
function tieGoal() {
  const { goal, chosen, blocks } = page;
  if (goal && chosen && goal.key === null) {
    const block = blocks.find(b => b.number === goal.number) ?? chosen;
    Object.assign(goal, { number: block.number, key: keyOf(block) });
  }
  showGoal();
}

// Only the goal's own block is judged by it, also as a check text.
function showGoal() {
  const { goal, chosen, order, said } = page;
  $('goal').hidden = goal === null || goal.key === null || page.isDimmed;
  if ($('goal').hidden || !chosen) return;
  const isOwn = goal.key === keyOf(chosen) && [goal.number, null].includes(chosen.number);
  const isReached = isOwn && said.trim() === 'same' && orderWords(order) <= goal.words;
  const now = isReached ? 'Reached!' : `Now: ${orderWords(order)} words, ${said.split('\n')[0] || (lateVerdict ? 'judging ..' : 'no order')}.`;
  const where = isOwn ? '' : [null, chosen.number].includes(goal.number) ? 'of another block, ' : `of block ${goal.number}, `;
  Object.assign($('goal'), { className: isReached ? 'same' : '', textContent: `Goal: ${where}at most ${goal.words} words and same.${isOwn ? ' ' + now : ''}` });
}

// Back and Forward lead to what was there when one left; a link that is followed opens as it is. An entry of the browser's history has a
// number of its own, by which what was left is found.
const left = new Map();
let entry = null;

function nameEntry() {
  if (history.state === null) history.replaceState(Date.now(), '');
  entry = history.state;
}

function followAddress() {
  left.set(entry, stateOf());
  nameEntry();
  openState(left.get(entry) ?? stateOfAddress());
}

// A browser opens no address of 2 MiB.
async function copyLink() {
  const hash = hashOf(stateOf());
  if (hash.length > LONG_LINK) return say('state', 'too long for a link');
  history.replaceState(history.state, '', hash);
  keep();
  const isCopied = await navigator.clipboard?.writeText(location.href).then(() => true, () => false);
  say('state', isCopied ? 'link copied' : 'the address has it now');
}

function setTheme(theme) {
  document.documentElement.dataset.theme = theme;
  $('theme').textContent = theme === 'dark' ? 'Light' : 'Dark';
}

function setPresent() {
  $('present').setAttribute('aria-pressed', String(document.documentElement.classList.toggle('present')));
  if (page.group) showGraph();
  markNodes();
  showListing();
  follow();
}

const TABS = ['orders', 'steps', 'stages'];

function chooseTab(name) {
  for (const tab of TABS) {
    $('tab-' + tab).setAttribute('aria-selected', String(tab === name));
    $('tab-' + tab).tabIndex = tab === name ? 0 : -1;
    $(tab).hidden = tab !== name;
  }
  showListing();
  showStage();
  seeNode();
  if (client) keep();
}

function listenToTabs() {
  for (const [k, tab] of TABS.entries()) {
    $('tab-' + tab).onclick = () => chooseTab(tab);
    $('tab-' + tab).onkeydown = event => {
      const by = { ArrowRight: 1, ArrowLeft: -1 }[event.key];
      if (!by) return;
      const next = $('tab-' + TABS[(k + by + TABS.length) % TABS.length]);
      if (next.disabled) return;
      next.click();
      next.focus();
    };
  }
}

// The function of the line on which one stands is the one that is shown.
function followCaret() {
  const line = page.text.slice(0, $('source').selectionStart).split('\n').length;
  const k = page.groups.findIndex(g => g.lines && g.lines.from <= line && line <= g.lines.to);
  if (k >= 0 && page.groups[k] !== page.group) chooseGroup(k);
}

async function runOn() {
  if (!page.image) return;
  page.isRunning = true;
  $('run-on').hidden = true;
  $('stop').hidden = false;
  say('agree', 'running ..');
  const ran = await client.ask('runs', { text: page.text, image: page.image, steps: LONG_RUN }).catch(error => error);
  if (ran instanceof Error) say('agree', ran.message);
  else showRuns(ran.interp, ran.run);
  page.isRunning = false;
  $('stop').hidden = true;
}

// What was typed while something ran is answered after it, and what else waited is asked again.
async function stop() {
  $('stop').hidden = true;
  say('state', 'stopped');
  await client.stop();
  if (page.tried !== page.text) refresh();
  if (!page.chosen) return;
  judge();
  showParts();
  showStage();
  if (!page.view) goTo(0, { isFollowed: false });
}

async function main() {
  const last = kept();
  restoreLooks(last);
  $('theme').onclick = () => {
    setTheme(document.documentElement.dataset.theme === 'dark' ? 'light' : 'dark');
    keep();
  };
  $('present').onclick = () => {
    setPresent();
    keep();
  };
  onresize = () => { seeNode(); showListing(); };
  onbeforeprint = () => say('paper', page.text);
  onafterprint = () => say('paper', '');
  listenToTabs();
  listenToOrder();
  listenToMachine();
  $('graph').onkeydown = graphKey;
  const texts = JSON.parse($('example-texts').textContent);
  listExamples(texts);
  const source = $('source');
  source.oninput = typed;
  source.onscroll = follow;
  source.onkeyup = source.onclick = followCaret;
  source.onkeydown = sourceKey;
  $('plain').onchange = refresh;
  $('functions').onchange = () => chooseGroup(Number($('functions').value));
  $('stage').onchange = $('whole').onchange = showStage;
  $('link').onclick = copyLink;
  $('run-on').onclick = runOn;
  $('stop').onclick = stop;
  $('again').onclick = refresh;
  nameEntry();
  onhashchange = followAddress;
  $('goal-words').oninput = () => {
    setGoal($('goal-words').value, page.chosen?.number ?? null);
    tieGoal();
  };
  const wasm = Uint8Array.from(atob($('wasm').textContent.trim()), c => c.charCodeAt(0));
  client = new Client($('worker').textContent, wasm);
  const started = performance.now();
  try {
    await client.start();
  } catch (error) {
    say('state', NO_MEMORY64);
    $('fault').hidden = false;
    return say('fault', `${NO_MEMORY64} (${error.message})`);
  }
  document.documentElement.dataset.ready = (performance.now() - started).toFixed(0);
  const isSame = last.hash === location.hash;
  page.mine = new Map(isSame ? last.mine : []);
  const state = isSame ? last.state : stateOfAddress();
  openState({ ...state, c: state.c || texts['squares.c'] });
}

main();
