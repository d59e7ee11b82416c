// The page in a headless browser, from its file: node pages.mjs chromium|firefox PAGE [FOLDER for pictures]
import fs from 'node:fs';
import path from 'node:path';
import { pathToFileURL } from 'node:url';
import { Browser } from './browser.mjs';
import { Firefox } from './firefox.mjs';
import { functionsOf, globalsOf, parsePair } from '../model.mjs';
import { chooseStart, differences, parseStart, runBlock, runOrder } from '../runs.mjs';

const [, , name, file, pictures] = process.argv;
const address = pathToFileURL(path.resolve(file)).href;
const ENDLESS = 'int main(void) {\n    int i;\n    i = 0;\n    while (1) {\n        i = i + 1;\n        if (i < 0) { i = 0; }\n        i = i & 1023;\n    }\n}\n';
const text = id => `document.getElementById('${id}').textContent`;
const click = id => `document.getElementById('${id}').click()`;
const typed = value => `(() => { const s = document.getElementById('source'); s.value = ${JSON.stringify(value)};
  s.dispatchEvent(new Event('input')); })()`;
const choose = example => `(() => { const s = document.getElementById('examples'); s.value = '${example}'; s.onchange(); })()`;
const sleep = time => new Promise(resolve => setTimeout(resolve, time));
const READY = `document.querySelectorAll('#graph .node').length > 0 && ${text('verdict')} !== ''`;
let passed = 0, failed = 0;

const judge = (what, isSo, more = '') => {
  if (isSo) passed++;
  else {
    failed++;
    console.log(`pages: ${name}: ${what}`, more);
  }
};

async function stepTo(page, condition, most = 300) {
  for (let k = 0; k < most; k++) {
    if (await page.value(condition)) return true;
    const before = await page.value(text('count'));
    await page.value(click('step'));
    if (!(await page.until(`${text('count')} !== ${JSON.stringify(before)}`))) return false;
  }
  return false;
}

// A text of 1 MiB: 250 functions, with some 20,000 blocks.
function long() {
  const part = k => `    for (i = 0; i < n; i = i + 1) {\n        if (a[i & 15] < s) { s = s + i * ${k} - (n ^ m); } else { a[(i + m) & 15] = s; s = s - m; }\n`
    + `        /* nothing of this block is kept, but for one word of the array and the sum */\n        s = (s << 1) + (i & ${k}) - a[(i + 7) & 15] + (m | ${k});\n`
    + `        a[(s + i) & 15] = (a[i & 15] >> 2) + (s ^ n) - (m & 255) + (i << 3);\n    }\n`;
  const one = k => `int f${k}(int n, int m) {\n    int i;\n    int s;\n    s = 0;\n${part(k).repeat(11)}    return s;\n}\n`;
  let made = 'int a[16];\n';
  for (let k = 0; k < 250; k++) made += one(k);
  made += 'int main(void) {\n    int r;\n    r = f1(0, 3);\n    out(r);\n    return 0;\n}\n';
  return made + ' '.repeat((1 << 20) - made.length);
}

const contrast = `(() => {
  const light = c => { const [r, g, b] = c.match(/[\\d.]+/g).map(Number).map(v => v / 255).map(v => v <= 0.03928 ? v / 12.92 : ((v + 0.055) / 1.055) ** 2.4);
    return 0.2126 * r + 0.7152 * g + 0.0722 * b; };
  const ground = e => { for (; e; e = e.parentElement) { const c = getComputedStyle(e).backgroundColor; if (!/, 0\\)$/.test(c)) return c; } return 'rgb(255,255,255)'; };
  let least = [99, ''];
  for (const e of document.querySelectorAll('body *:not(#behind):not(#behind *):not(script):not(:disabled)')) {
    if (![...e.childNodes].some(n => n.nodeType === 3 && n.data.trim()) || !e.checkVisibility()) continue;
    const style = getComputedStyle(e);
    const [a, b] = [light(e instanceof SVGElement ? style.fill : style.color), light(ground(e))].sort((x, y) => y - x);
    const ratio = (a + 0.05) / (b + 0.05);
    if (ratio < least[0]) least = [ratio, e.tagName + '#' + e.id + '.' + e.className];
  }
  return least; })()`;

async function looks(page, name) {
  for (const theme of ['light', 'dark']) {
    if ((await page.value('document.documentElement.dataset.theme')) !== theme) await page.value(click('theme'));
    const [ratio, where] = await page.value(contrast);
    judge(`contrast of ${name}, ${theme}`, ratio >= 4.5, `${ratio} at ${where}`);
    const isWide = await page.value('document.documentElement.scrollWidth <= innerWidth && document.documentElement.scrollHeight <= innerHeight');
    judge(`${name} fits 1280 x 800, ${theme}`, isWide);
    if (pictures) await page.picture(path.join(pictures, `${name}-${theme}.png`));
  }
}

// All that can be reached by Tab and is seen, each with a number of its own.
const CONTROLS = `(() => {
  const all = [...document.querySelectorAll('a, button, select, input, textarea, summary, [tabindex]')];
  const seen = all.filter(e => e.tabIndex >= 0 && !e.disabled && e.checkVisibility());
  seen.forEach((e, k) => { e.dataset.control = k; });
  return seen.map(e => e.id || e.tagName + ' ' + e.textContent.slice(0, 20)); })()`;
const IS_SEEN = `(() => { const e = document.activeElement.closest('.editor') ?? document.activeElement; const style = getComputedStyle(e);
  return style.outlineStyle !== 'none' || e instanceof SVGElement; })()`;

// By the keyboard alone: Tab reaches each control, and keys choose a block, an order's line, a view, a word and its breakpoint.
async function byKeys(page) {
  const controls = await page.value(CONTROLS);
  await page.value(`document.getElementById('examples').focus()`);
  const reached = new Set();
  let isShown = true;
  for (let k = 0; k < controls.length; k++) {
    reached.add(Number(await page.value('document.activeElement.dataset.control ?? -1')));
    isShown &&= await page.value(IS_SEEN);
    await page.key('Tab');
  }
  judge('Tab reaches each control', reached.size === controls.length && !reached.has(-1), controls.filter((_, k) => !reached.has(k)));
  judge('in a few steps', controls.length < 40, controls);
  judge('what has the focus is seen', isShown);
  await page.value(`document.querySelector('#graph .node.chosen').focus()`);
  const title = await page.value(text('block-title'));
  await page.key('ArrowDown');
  await page.key('Enter');
  judge('arrows and Enter choose a block', await page.until(`${text('block-title')} !== ${JSON.stringify(title)}`));
  await page.value(`document.getElementById('tab-orders').focus()`);
  await page.key('ArrowRight');
  judge('an arrow chooses a view', await page.until(`document.activeElement.id === 'tab-steps' && !document.getElementById('steps').hidden`));
  await page.value(`document.getElementById('listing').focus()`);
  for (const key of ['ArrowRight', 'ArrowDown', 'ArrowDown', 'ArrowDown', 'Enter']) {
    await page.key(key);
    await page.until(`${text('count')}.startsWith('1 words')`);
  }
  judge('arrows lead to a word, Enter sets a breakpoint', await page.until(`${text('count')}.endsWith('breakpoint 0x00400010')`),
    await page.value(text('count')));
  await page.key('r');
  judge('R runs to it', await page.until(`document.querySelector('#listing .here.breakpoint') !== null`));
  await page.key('Home');
  judge('Home leads back to the start', await page.until(`${text('count')}.startsWith('0 words')`));
}

// A function of 30 blocks.
const WIDE = `int a[40];\nint main(void) {\n    int i;\n    int s;\n    s = 0;\n    for (i = 0; i < 20; i = i + 1) {\n${
  Array.from({ length: 8 }, (_, k) => `        if (a[i + ${k}] < s) { s = s + ${k}; } else { a[i] = s - ${k}; }\n`).join('')
}        while (s > 100) { s = s - 50; }\n    }\n    out(s);\n    return 0;\n}\n`;
const isInside = (inner, outer) => `(() => { const [a, b] = [document.querySelector('${inner}'), ${outer}].map(e => e.getBoundingClientRect());
  return a.width > 0 && a.left >= b.left - 1 && a.right <= b.right + 1 && a.top >= b.top - 1 && a.bottom <= b.bottom + 1; })()`;
const inPage = selector => isInside(selector, `({ getBoundingClientRect: () => ({ left: 0, top: 0, right: innerWidth, bottom: innerHeight }) })`);
const isCut = selector => `[...document.querySelectorAll('${selector}')].some(e => e.scrollWidth > e.clientWidth + 1)`;

// At three zooms, and for a class: nothing is cut, the verdict and the chosen block are in sight.
async function zooms(page) {
  await page.value(typed(WIDE));
  judge('a function of 30 blocks', await page.until(`document.querySelectorAll('#graph .node').length === 30`));
  judge('without a label that an edge crosses last', await page.value(`[...document.querySelectorAll('#graph .way')].every(e => !e.nextElementSibling?.matches('path')
    && getComputedStyle(e).paintOrder.startsWith('stroke'))`));
  judge('with an edge back, dashed', await page.value(`getComputedStyle(document.querySelector('#graph path.back')).strokeDasharray !== 'none'`));
  for (const zoom of [1, 1.25, 1.5]) {
    await page.zoom(zoom);
    for (const isPresent of [false, true]) {
      const how = `${zoom * 100} %${isPresent ? ', present' : ''}`;
      if (isPresent) await page.value(click('present'));
      for (const k of [0, 17, 29]) {
        await page.value(`document.querySelectorAll('#graph .node')[${k}].dispatchEvent(new Event('click'))`);
        await page.until(`${text('verdict')} === 'same'`);
        judge(`${how}: block ${k} in view`, await page.value(isInside('#graph .node.chosen', `document.querySelector('.drawing')`)));
      }
      judge(`${how}: the graph is readable`, await page.value(`document.querySelector('#graph .node.chosen text').getBoundingClientRect().height >= 12`));
      judge(`${how}: no instruction is cut`, !(await page.value(isCut('ol.words'))));
      judge(`${how}: verdict and tabs in sight`, (await page.value(inPage('#verdict'))) && (await page.value(inPage('#tab-stages'))));
      judge(`${how}: nothing runs out of the page`, await page.value('document.documentElement.scrollWidth <= innerWidth && document.documentElement.scrollHeight <= innerHeight'));
      judge(`${how}: all buttons of the head`, await page.value(inPage('#theme')));
      if (isPresent) judge(`${how}: code of 18 px`, await page.value(`getComputedStyle(document.querySelector('#order li')).fontSize === '18px' && !document.getElementById('left').checkVisibility()`));
    }
    await page.value(click('present'));
  }
  await page.zoom(1);
}

// A check text of one's own, lines that are edited, and a start that refutes an order.
async function ownOrders(page) {
  const own = (order, b) => `block\nlw $8,0($29)\n${b}\nlw $10,8($29)\nreturn\norder\n${order.join('\n')}\nreturn\nslot nop\n`;
  for (const b of ['sw $9,4($29)', 'sw $9,0($30)']) {
    const [a, c] = ['lw $8,0($29)', 'lw $10,8($29)'];
    for (const order of [[a, b, c], [a, c, b], [b, a, c], [b, c, a], [c, a, b], [c, b, a]]) {
      await page.value(`document.getElementById('verdict').textContent = ''`);
      await page.value(typed(own(order, b)));
      judge('a check text of one\'s own', await page.until(`${text('order')} === ${JSON.stringify([...order, 'return', 'slot nop'].join(''))}
        && ${text('verdict')} !== ''`), order);
      const isSame = b.endsWith('($29)') || order[1] === b && order[0] === a;
      judge('with its verdict', isSame === ((await page.value(text('verdict'))) === 'same'), [order, await page.value(text('verdict'))]);
    }
  }
  judge('without a graph', !(await page.value(`document.querySelector('.graph').checkVisibility()`)));
  await page.value(`document.querySelector('#order li[data-place="0"]').click()`);
  await page.key('Enter');
  await page.value(`document.querySelector('#order input').value = 'lw $8,4($29)'`);
  await page.key('Enter');
  judge('a line is edited', await page.until(`${text('verdict')}.startsWith('differs')`), await page.value(text('verdict')));
  judge('and the text follows', (await page.value(`document.getElementById('source').value`)).includes('order\nlw $8,4($29)\n'));
  await page.value(click('undo'));
  judge('undo brings the line back', await page.until(`document.querySelector('#order li').textContent !== 'lw $8,4($29)'`));
  await page.value(typed('block\naddu $8,$8,1\nreturn\norder\nreturn\nslot nop\n'));
  judge('a fault of a check text at its line', await page.until(`document.querySelector('#gutter .bad')?.textContent === '2' && !document.getElementById('fault').hidden`));
  judge('the message is bold', (await page.value(`document.querySelector('#fault b').textContent`)).includes('expected addu'));
  judge('what is on the right is dimmed, and says so', await page.value(`document.getElementById('right').matches('.stale') && document.getElementById('stale').checkVisibility()`));
  await page.value(typed('block\naddiu $8,$8,1\nreturn\norder\naddiu $8,$8,2\nreturn\nslot nop\n'));
  judge('a wrong order', await page.until(`${text('verdict')} === 'differs $8'`));
  judge('shows its start', (await page.until(`${text('start')}.includes('from $8 = 0x')`)) && (await page.value(text('leaves'))).includes('0x'), await page.value(text('start')));
  await page.value(click('both'));
  judge('and both runs', await page.until(`document.getElementById('rows').checkVisibility() && document.querySelectorAll('#rows tr').length === 4 && ${text('from')}.includes('no proof')`));
  for (const zoom of [1, 1.25, 1.5]) {
    await page.zoom(zoom);
    judge(`${zoom * 100} %: the wrong order and its start in sight`, (await page.value(inPage('#verdict'))) && (await page.value(inPage('#leaves'))));
    judge(`${zoom * 100} %: both runs aren't cut`, !(await page.value(isCut('.work'))));
    await page.value(`document.querySelector('.work').scrollTo(0, 9999)`);
    judge(`${zoom * 100} %: the verdict stays in sight`, await page.value(inPage('#verdict')));
  }
  await page.zoom(1);
  await page.value(click('both'));
}

// The machine: names of registers and globals, numbers, the last words, a speed, and the block at pc.
async function machine(page) {
  await page.value(typed('int first;\nunsigned char line[6];\nint a[4];\n\nint main(void) {\n    int i;\n    i = 0;\n    while (i < 3) {\n        a[i] = a[i + 1] + 7;\n'
    + '        i = i + 1;\n    }\n    first = 0 - a[0];\n    line[5] = 9;\n    out(first);\n    return 0;\n}\n'));
  await page.until(`${text('interp')}.startsWith('4294967289\\ndone 0')`);
  await page.value(click('tab-steps'));
  judge('a load under way', await stepTo(page, `document.querySelectorAll('#registers .loading').length === 1`));
  const late = `document.querySelector('#past tr:last-child td:nth-child(2)').textContent`;
  judge('is in the last words', /^\$\d+ gets /.test(await page.value(late)), await page.value(late));
  const register = /\$\d+/.exec(await page.value(late))[0];
  const count = await page.value(text('count'));
  await page.value(click('step'));
  await page.until(`${text('count')} !== '${count}'`);
  judge('and its value shows one row later', await page.value(`document.querySelector('#past tr:last-child td.loading:nth-child(3)').textContent.includes('${register} = ')`));
  judge('a branch leaves from below its slot', await stepTo(page, `document.querySelector('#past tr.leap:last-child') !== null`));
  judge('the chosen block follows', await page.value(`document.querySelector('#listing .here').matches('.chosen')`));
  judge('both names of a register', (await page.value(text('registers'))).includes('$29 sp'));
  judge('eight words at most', await page.value(`document.querySelectorAll('#past tr:not(.leap)').length <= 9`));
  for (const zoom of [1, 1.25, 1.5]) {
    await page.zoom(zoom);
    judge(`${zoom * 100} %: no word of the listing is cut`, !(await page.value(isCut('#listing'))) && !(await page.value(isCut('.values'))));
    await sleep(100);
    judge(`${zoom * 100} %: the next word is in sight`, (await page.value(inPage('#listing .here'))) && (await page.value(inPage('#tab-stages'))));
  }
  await page.zoom(1);
  await page.value(click('run'));
  judge('runs to the end', await page.until(`${text('ending')}.startsWith('The next word halts')`));
  await page.value(`(() => { const s = document.getElementById('base'); s.value = 'decimal'; s.onchange(); })()`);
  judge('the globals by name, in decimal', await page.until(`/10000000\\s+-7\\s+first\\n10000004.*line\\[0\\.\\.3\\]\\n10000008.*line\\[4\\.\\.5\\]\\n1000000c\\s+7\\s+a\\[0\\]/.test(${text('data')})`),
    await page.value(text('data')));
  await page.value(`(() => { const s = document.getElementById('base'); s.value = 'hex'; s.onchange(); document.getElementById('speed').value = '40'; })()`);
  await page.value(click('reset'));
  await page.until(`${text('count')}.startsWith('0 words')`);
  await page.value(click('play'));
  judge('plays by itself', await page.until(`parseInt(${text('count')}) > 5`));
  await page.value(click('play'));
  judge('and pauses', await page.until(`${text('play')} === 'Play'`));
  await page.value(typed('int a[4];\nint main(void) {\n    int i;\n    i = 7;\n    a[i * 100000] = 7;\n    return 0;\n}\n'));
  judge('stuck says why', await page.until(`${text('reason')}.includes("an address that isn't mapped") && ${text('reason')}.includes('sw ')`), await page.value(text('reason')));
  judge('wrong says why and where', await page.until(`${text('reason')}.startsWith("Wrong in main, line 5: the index 700000 is outside the array 'a' of length 4.")`), await page.value(text('reason')));
  judge('and marks the statement', (await page.value(`document.querySelector('#behind mark')?.textContent`)) === 'a');
  judge('beside wrong, in two outputs', (await page.value(text('interp'))).startsWith('wrong') && (await page.value(`document.getElementById('machine').checkVisibility()`)));
  await page.value(`document.querySelector('#reason button').click()`);
  judge('and leads to the word', await page.until(`document.querySelector('#listing .here')?.textContent.includes('sw ') && ${text('ending')}.includes('stuck')`));
  await page.value(click('tab-orders'));
  await page.value(typed('int main(void) {\n    out(1);\n    return 0;\n}\n'));
  judge('one output where both agree', await page.until(`${text('whose')} === 'Output of interpreter and machine' && !document.getElementById('machine').checkVisibility()`));
  judge('with colours', await page.value(`document.querySelectorAll('#behind .keyword').length === 4 && document.querySelector('#behind').textContent.startsWith('int main(void) {\\n')`));
  await page.value(`(() => { const s = document.getElementById('source'); s.focus(); s.setSelectionRange(16, 16); })()`);
  await page.key('Enter');
  judge('Enter indents', (await page.value(`document.getElementById('source').value`)).startsWith('int main(void) {\n    \n    out(1);'));
}

// A link carries the text, the function, the block, one's order of it, the view and a goal, which the page judges.
async function links(page, browser) {
  await page.value(choose('primes.c'));
  await page.until(`${text('interp')}.includes('29\\ndone 0') && document.querySelectorAll('#graph .node').length === 7`);
  await page.value(`document.querySelector('#graph [data-block="6"]').dispatchEvent(new Event('click'))`);
  await page.until(`${text('block-title')}.startsWith('Block 6') && ${text('verdict')} === 'same'`);
  await page.value(`document.querySelector('#order li').focus()`);
  await page.key('ArrowDown', { alt: true });
  await page.until(`${text('verdict')}.startsWith('differs')`);
  await page.value(`(() => { const g = document.getElementById('goal-words'); g.value = 9; g.oninput(); })()`);
  judge('a goal that isn\'t reached', await page.until(`/^Goal: at most 9 words and same\\. Now: 9 words, differs/.test(${text('goal')})`), await page.value(text('goal')));
  const order = await page.value(text('order'));
  await page.value(click('link'));
  const hash = await page.value('location.hash');
  const linked = await browser.open(address + hash);
  judge('a link carries block, order and goal', await linked.until(`${text('block-title')}.startsWith('Block 6') && ${text('verdict')}.startsWith('differs')
    && ${text('order')} === ${JSON.stringify(order)} && ${text('goal')}.startsWith('Goal: at most 9 words')`), hash);
  await linked.value(click('to-build'));
  judge('the page judges the goal', await linked.until(`${text('goal')}.endsWith('Reached!')`), await linked.value(text('goal')));
  await linked.value(`document.querySelector('#graph .node:not([data-block="6"])').dispatchEvent(new Event('click'))`);
  judge('at its own block', await linked.until(`${text('goal')} === 'Goal: of block 6, at most 9 words and same.'`), await linked.value(text('goal')));
  await linked.value(`document.querySelector('#graph [data-block="6"]').dispatchEvent(new Event('click'))`);
  await linked.until(`${text('goal')}.endsWith('Reached!')`);
  const sourceNow = await linked.value(`document.getElementById('source').value`);
  await linked.value(typed(sourceNow.replace('{', '{ i++;')));
  judge('and not under a fault', await linked.until(`${shown('fault')} && !${shown('goal')}`));
  await linked.value(typed(sourceNow));
  await linked.until(`${text('goal')}.endsWith('Reached!')`);
  await linked.reload();
  judge('a reload keeps all of it', await linked.until(`${text('block-title')}.startsWith('Block 6') && ${text('goal')}.endsWith('Reached!')`));
  const stages = await browser.open(`${address}#c=${encodeURIComponent('int main(void) {\n    out(42);\n    return 0;\n}\n')}&v=stages`);
  judge('a link carries its view', await stages.until(`document.getElementById('stage-text').checkVisibility() && ${text('stage-text')}.startsWith('function main')`));
  const steps = await browser.open(`${address}#c=${encodeURIComponent(sourceNow)}&f=main&b=6&v=steps`);
  judge('a link to the machine keeps its block', await steps.until(`${text('count')}.startsWith('0 words') && ${text('block-title')}.startsWith('Block 6,')`), await steps.value(text('block-title')));
  const raw = await browser.open(`${address}#c=int main(void) { out(7%3); return 0; }`);
  judge('a link that isn\'t encoded opens', await raw.until(`${text('interp')}.startsWith('1\\ndone 0')`), await raw.value(text('interp')));
  await raw.value(typed('int main(void) {\n    out(11);\n    return 0;\n}\n'));
  await raw.until(`${text('interp')}.startsWith('11\\ndone 0')`);
  await raw.value(`location.hash = 'c=' + encodeURIComponent('int main(void) {\\n    out(12);\\n    return 0;\\n}\\n')`);
  judge('another link opens', await raw.until(`${text('interp')}.startsWith('12\\ndone 0')`));
  await raw.value('history.back()');
  judge('Back leads to what was left', await raw.until(`${text('interp')}.startsWith('11\\ndone 0')`), await raw.value(text('interp')));
  await raw.value('history.forward()');
  judge('and Forward', await raw.until(`${text('interp')}.startsWith('12\\ndone 0')`), await raw.value(text('interp')));
  await raw.value(typed('int main(void) {\n    out(8);\n    return 0;\n}\n' + ' '.repeat(700_000)));
  await raw.until(`${text('interp')}.startsWith('8\\ndone 0')`);
  await raw.value(choose('squares.c'));
  await raw.until(`${text('interp')}.includes('16\\ndone 0')`);
  await raw.value(`document.getElementById('source').focus()`);
  await raw.value(`document.getElementById('source').dispatchEvent(new KeyboardEvent('keydown', { key: 'z', ctrlKey: true, cancelable: true }))`);
  judge('undo brings back a long text', await raw.until(`${text('interp')}.startsWith('8\\ndone 0') && document.getElementById('source').value.length > 700_000`));
  await raw.value(click('link'));
  judge('a text that is too long for a link', await raw.until(`${text('state')} === 'too long for a link' && location.hash.length < 200`), await raw.value(text('state')));
  const lesson = fs.readFileSync(new URL('../../docs/TEACHING.md', import.meta.url), 'utf8');
  const exercises = [...lesson.matchAll(/mcc\.html(#[^)\s]*)/g)].map(([, found]) => found);
  judge('six exercises of the lesson', exercises.length === 6, exercises.length);
  for (const exercise of exercises) {
    const opened = await browser.open(address + exercise);
    judge('an exercise opens, and is to do', await opened.until(`${text('goal')}.includes('Now: ')`), exercise);
  }
}

// What explains a verdict, as `mcc check --explain` prints it.
function starts() {
  const pair = parsePair('block\naddiu $8,$8,1\nreturn\norder\naddiu $8,$8,2\nreturn\nslot nop\n');
  const said = 'differs $8\nblock: ($8 + 1)\norder: ($8 + 2)\nthe order is wrong: it does otherwise from a start with\n  $8 = 0x1000003c\n  $31 = 0x1000001c\n'
    + '  block: $8 = 0x1000003d\n  order: $8 = 0x1000003e\n';
  const named = parseStart(said);
  judge('a start of an answer', JSON.stringify(named) === JSON.stringify({ registers: [[8, 0x1000003c], [31, 0x1000001c]], words: [], high: 0, low: 0, block: '$8 = 0x1000003d', order: '$8 = 0x1000003e' }), JSON.stringify(named));
  const start = chooseStart(pair.block, pair.order, said);
  const found = differences(runBlock(pair.block, start), runOrder(pair.order, start));
  judge('gives what the answer says', found.length === 1 && `${found[0][0]} = ${found[0][1]}` === named.block && `${found[0][0]} = ${found[0][2]}` === named.order, found);
  const early = parsePair('block\nlw $8,0($29)\naddu $9,$8,$8\nreturn\norder\nlw $8,0($29)\naddu $9,$8,$8\nreturn\nslot nop\n');
  judge('an early word is stuck', runOrder(early.order, chooseStart(early.block, early.order, '')).rows.at(-1).isStuck);
  judge('no start, no table', parseStart('no start that was tried tells them apart: the terms may tell too little') === null);
}

// The parts of a C text where there is much that isn't code, within seconds.
function parts() {
  const began = Date.now();
  const much = '/* nothing of this */\n   '.repeat(42_000);
  const named = functionsOf(`int a;\n${much}int b[3];\n${much}int main(void) {\n}\n${much}`).map(({ name, from, to }) => [name, from, to]);
  judge('a function behind 1 MiB of comments', JSON.stringify(named) === '[["main",84003,84004]]', JSON.stringify(named));
  judge('and one with them in its head', functionsOf(`int${much}f${much}(int n)${much}{ }`)[0]?.name === 'f');
  const globals = globalsOf(`int a${much}[010]; ${much}char b${much}; int c${much}(void) { int d; }`).map(g => [g.name, g.address - 0x10000000, g.count]);
  judge('globals among them, with an octal length', JSON.stringify(globals) === '[["a",0,8],["b",32,null]]', JSON.stringify(globals));
  judge('within 10 seconds', Date.now() - began < 10_000, Date.now() - began);
}

const BUSY = 'int a[4]; int main(void) { int i; i = 3; a[i] = 7; out(a[i]+1); while (1) { a[1] = a[1] ^ 1; } return 0; }';
const shown = id => `document.getElementById('${id}').checkVisibility()`;

// While the worker is busy, nothing stays that was said of another order or of another text.
async function waits(page) {
  await page.value(typed(BUSY));
  judge('a text that goes on', await page.until(`${shown('run-on')} && ${text('verdict')} === 'same'`));
  await page.value(click('run-on'));
  await page.value(`document.querySelector('#order li').click()`);
  for (let k = 0; k < 3; k++) await page.value(click('remove'));
  judge('no verdict of another order while it runs', await page.until(`${text('verdict')} === 'judging ..' && ${text('why')} === ''`), await page.value(text('verdict')));
  await page.value(`document.getElementById('whole').checked = false, document.getElementById('stage').value = 'rtl'`);
  await page.value(click('tab-stages'));
  await page.value(click('stop'));
  judge('the verdict comes after Stop', await page.until(`/^(differs|unclean)/.test(${text('verdict')})`), await page.value(text('verdict')));
  judge('and so does a stage', await page.until(`${text('stage-text')}.startsWith('function main')`), await page.value(text('stage-text')));
  await page.value(click('tab-orders'));
  await page.value(click('to-build'));

  await page.value(typed(`int a; int main(void) { while (1) { a = (a+1)*3%7${'+a*3%7'.repeat(150)}&7; } }`));
  judge('a slow text stands beside no other answer', await page.until(`${text('state')} === 'working ..' && ${text('interp')} === '' && ${shown('stale')}
    && document.getElementById('orders').inert`), await page.value(text('interp')));
  await page.value(click('stop'));
  judge('a build that is stopped can run again', await page.until(shown('again')));
  await page.value(click('again'));
  judge('and does', await page.until(`!${shown('again')} && ${shown('stop')}`));
  await page.value(click('stop'));
  await page.until(shown('again'));
}

// What is on the right is of the text on the left, or takes no change.
async function agrees(page) {
  const source = `document.getElementById('source').value`;
  await page.value(choose('squares.c'));
  await page.until(`${text('interp')}.includes('16\\ndone 0') && ${text('block-title')}.startsWith('Block 2,') && ${text('verdict')} === 'same'`);
  await page.value(`document.querySelector('#order li').focus()`);
  await page.key('ArrowDown', { alt: true });
  await page.until(`${text('verdict')} === 'differs mem'`);
  await page.value(click('as-text'));
  await page.until(`${text('block-title')} === 'A block of a check text' && ${text('verdict')} === 'differs mem'`);
  judge('a check text has no view of the program', await page.value(`document.getElementById('tab-steps').disabled && document.getElementById('tab-stages').disabled`));
  const right = (await page.value(source)).replace(/order\n(.*\n)(.*\n)/, 'order\n$2$1');
  await page.value(typed(right));
  judge('a check text is judged by its own order', await page.until(`${text('verdict')} === 'same' && ${text('state')} === 'same'`), await page.value(text('order')));
  await page.value(`document.querySelector('#order li').focus()`);
  await page.key('ArrowDown', { alt: true });
  judge('its order changes on the right', await page.until(`${text('verdict')} === 'differs mem' && ${text('state')} === 'differs mem'`), await page.value(text('state')));
  judge('and keeps the focus', await page.value(`document.activeElement.dataset.place === '1'`));
  // each answer is late: the right side is dimmed at once
  await page.value(`window.timer = setTimeout, window.setTimeout = (work, time) => timer(work, time === 700 ? 0 : time)`);
  await page.key('ArrowUp', { alt: true });
  judge('also where the answer is late', await page.until(`${text('verdict')} === 'same' && ${text('state')} === 'same' && document.activeElement.dataset.place === '0'`),
    await page.value('document.activeElement.outerHTML'));
  await page.value('window.setTimeout = timer');

  const fault = 'int main(void) {\n    int i;\n    i++;\n    return 0;\n}\n';
  await page.value(typed(fault));
  judge('a fault dims the right side', await page.until(`${shown('stale')} && ${shown('fault')}`));
  for (const name of ['down', 'add-nop', 'undo', 'to-plain', 'as-text']) await page.value(click(name));
  judge('which takes no change', (await page.value(source)) === fault && (await page.value(shown('fault'))), await page.value(source));
  judge('and no key', !(await page.value(`(document.querySelector('#order li').focus(), document.getElementById('order').contains(document.activeElement))`)));

  // a line that is edited
  await page.value(typed('int main(void) {\n    out(5);\n    return 0;\n}\n'));
  await page.until(`${text('interp')}.startsWith('5\\ndone 0') && ${text('verdict')} === 'same'`);
  judge('a program has its views', !(await page.value(`document.getElementById('tab-steps').disabled`)));
  await page.value(`document.querySelector('#order li').click()`);
  await page.value(click('edit'));
  await page.value(`document.querySelector('#order input').value = 'addu $9,$9,$9'`);
  await page.value(typed('int main(void) {\n    out(5);\n    return 0;\n}\n\n'));
  judge('outlives an answer', await page.until(`!document.querySelector('#order input') && document.querySelector('#order li').textContent === 'addu $9,$9,$9'`, 5));
  await page.value(click('to-build'));
  await page.value(`document.querySelector('#order li').click()`);
  await page.value(click('edit'));
  await page.value(`document.getElementById('source').focus()`);
  await page.until(`!document.querySelector('#order input') && ${text('verdict')} === 'same'`);
  judge('and a click away keeps the focus', await page.value(`document.activeElement.id === 'source'`));

  // the slot, and capital letters
  await page.value(typed('int a[4];\nint main(void) {\n    a[1] = a[0];\n    a[2] = a[3];\n    return 0;\n}\n'));
  await page.until(`${text('order')}.includes('slot ') && !${text('order')}.includes('slot nop') && ${text('verdict')} === 'same'`);
  await page.value(`document.querySelector('#order li.slot').click()`);
  await page.key('Delete');
  judge('Delete in the slot leaves a Nop', await page.until(`document.querySelector('#order li.slot').textContent === 'slot nop'`));
  await page.value(`document.querySelector('#order li').click()`);
  await page.key('N');
  judge('a capital letter is its key', await page.until(`document.querySelector('#order li').textContent === 'nop'`));
  await page.value(click('theme'));
  const theme = await page.value('document.documentElement.dataset.theme');
  const blocks = await page.value(`[...document.querySelectorAll('#graph .node')].length`);
  await page.reload();
  judge('a reload keeps order and theme', await page.until(`document.querySelector('#order li')?.textContent === 'nop' && document.documentElement.dataset.theme === '${theme}'`), blocks);
}

// An edit while a text runs, and Stop; a reload; an example over a text, and the way back.
async function losesNothing(page) {
  const good = 'int main(void) { out(41); return 3; }';
  const slow = `int a; int main(void) { while (1) { a = (a+1)*3%7${'+a*3%7'.repeat(150)}&7; } }`;
  for (const wait of [300, 0]) {
    await page.value(typed(slow));
    await page.until(`!document.getElementById('stop').hidden`, 30);
    await page.value(typed(good + ' '.repeat(wait)));
    await sleep(wait);
    await page.value(click('stop'));
    judge(`an edit ${wait} ms before Stop is answered`, await page.until(`${text('interp')}.includes('done 3')`), await page.value(text('state')));
  }
  for (const wait of [0, 100, 200]) {
    await page.value(typed(ENDLESS + ' '.repeat(wait)));
    await page.until(`!document.getElementById('run-on').hidden`, 60);
    await page.value(click('run-on'));
    await sleep(500);
    await page.value(click('stop'));
    await sleep(wait);
    await page.value(typed(good + ' '.repeat(wait)));
    judge(`an edit ${wait} ms after Stop is answered`, await page.until(`${text('interp')}.includes('done 3')`), await page.value(text('state')));
  }
  await page.value(typed(ENDLESS));
  await page.until(`!document.getElementById('run-on').hidden`, 60);
  await page.value(click('run-on'));
  await page.value(typed(good));
  judge('an edit ends a long run', await page.until(`${text('interp')}.includes('done 3')`));
  await page.value(choose('primes.c'));
  judge('an example', await page.until(`${text('interp')}.includes('29\\ndone 0')`));
  await page.value(`document.getElementById('source').focus(), document.execCommand('undo')`);
  judge('undo brings the text back', await page.until(`document.getElementById('source').value === ${JSON.stringify(good)}`),
    await page.value(`document.getElementById('source').value`));
  await page.until(`${text('interp')}.includes('done 3')`);
  await page.reload();
  judge('a reload keeps the text', await page.until(`${text('interp')}.includes('done 3')`));
}

async function main() {
  const browser = name === 'firefox' ? new Firefox() : new Browser();
  const late = new Promise(resolve => setTimeout(resolve, 120_000, null).unref());
  const page = await Promise.race([browser.open(address), late]).catch(() => null);
  if (page === null) {
    browser.child.kill('SIGKILL');
    console.log(`pages: skipped: ${name} doesn't start here\n0 passed, 0 failed`);
    process.exit(0);
  }
  judge('the page is ready', await page.until(READY));
  judge('nothing is asked of a server', (await page.asked()).every(url => url === address || url.startsWith('blob:') || url.startsWith('data:')), await page.asked());
  judge('both print the same', await page.until(`${text('agree')} === 'Both print the same.'`));
  judge('the interpreter prints', (await page.value(text('interp'))).startsWith('0\n1\n4\n9\n16\ndone 0'));
  console.log(`pages: ${name}: ready after ${await page.value('document.documentElement.dataset.ready')} ms; ${await page.value(text('state'))}`);
  await looks(page, 'orders');

  // a changed order changes its verdict: by the keyboard, and by dragging
  judge('RTL and terms of the block', await page.until(`${text('rtl')}.includes('goto 4') && ${text('terms')}.includes('guards:')`));
  await page.value(`document.querySelector('#order li').focus()`);
  judge('the order of the build is the block', (await page.value(text('verdict'))).startsWith('same'));
  await page.key('ArrowDown', { alt: true });
  judge('Alt+Down moves a line', await page.until(`document.activeElement.dataset.place === '1'`));
  await page.value(click('to-build'));
  judge('and back', await page.until(`${text('verdict')}.startsWith('same')`));
  await page.value(choose('load-moved-apart.check'));
  judge('an order of the examples', await page.until(`${text('block-title')} === 'A block of a check text' && ${text('verdict')} !== ''`));
  const before = await page.value(text('verdict'));
  for (const to of ['up', 'up', 'up', 'to-slot']) await page.value(click(to));
  await page.value(click('to-plain'));
  judge('the plain order means its block', await page.until(`${text('verdict')}.startsWith('same')`), before);
  await page.drag('#order li[data-place="0"]', '#order li.exit');
  judge('a dragged line changes the verdict', await page.until(`!${text('verdict')}.startsWith('same') && ${text('verdict')} !== ''`),
    await page.value(text('order')));
  judge('with both terms', /^block: .*\norder: /.test(await page.value(text('why'))), await page.value(text('why')));
  if (pictures) await page.picture(path.join(pictures, 'differs.png'));
  await page.value(choose('load-used-too-soon.check'));
  judge('an unclean order', await page.until(`${text('verdict')} === 'unclean U1'`));
  judge('with its rule in words', (await page.value(text('why'))).startsWith('an instruction reads or writes'));
  judge('and its two words marked', await page.until(`document.querySelectorAll('#order .broken').length === 2`));
  if (pictures) await page.picture(path.join(pictures, 'unclean.png'));

  // the machine, up to a load under way
  await page.value(typed('int a[4];\n\nint main(void) {\n    int i;\n    i = 3;\n    a[i] = 7;\n    out(a[i] + 1);\n    return 0;\n}\n'));
  judge('a text that is typed', await page.until(`${text('interp')}.startsWith('8\\ndone 0')`));
  await page.value(click('tab-steps'));
  judge('the machine steps to a load under way', await stepTo(page, `document.querySelectorAll('#registers .loading').length === 1`));
  await looks(page, 'machine');
  judge('and to its end', await stepTo(page, `${text('ending')}.startsWith('The next word halts')`));
  await page.value(click('reset'));
  judge('back to the start', await page.until(`${text('count')}.startsWith('0 words')`));
  await page.value(`document.querySelectorAll('#listing li')[8].click()`);
  await page.value(click('run'));
  judge('runs to the breakpoint', await page.until(`document.querySelector('#listing .here.breakpoint') !== null`));
  await page.value(click('tab-stages'));
  judge('the stages', await page.until(`${text('stage-text')}.startsWith('function main\\n  block 2\\n    i = 3')`));
  await page.value(`(() => { document.getElementById('whole').checked = true; const s = document.getElementById('stage'); s.value = 'listing'; s.onchange(); })()`);
  judge('of all functions', await page.until(`${text('stage-text')}.startsWith('start\\n  block 0 (calls main)')`));
  await looks(page, 'stages');
  await page.value(click('tab-orders'));
  await page.value(`document.querySelector('#graph [data-block="2"]').dispatchEvent(new Event('click'))`);
  judge('a block marks the line of its exit', await page.until(`document.querySelector('#gutter .left')?.textContent === '7'`));

  // a fault at its place
  await page.value(typed('int main(void) {\n    int i = 0;\n    i++;\n    return 0;\n}\n'));
  judge('a fault is shown', await page.until(`!document.getElementById('fault').hidden`));
  judge('at its place', (await page.value(`document.querySelector('#gutter .bad')?.textContent`)) === '3'
    && (await page.value(`document.querySelector('#behind mark')?.textContent`)).startsWith('+'));
  judge('with its hint', (await page.value(text('fault'))).includes('i = i + 1'), await page.value(text('fault')));
  await looks(page, 'fault');

  // a program that never ends, and one that is stopped
  await page.value(typed(ENDLESS));
  judge('an endless program tells so', await page.until(`!document.getElementById('run-on').hidden`));
  await page.value(click('run-on'));
  await page.until(`!document.getElementById('stop').hidden`);
  await page.value(click('stop'));
  judge('and is stopped', await page.until(`${text('state')} === 'stopped'`));
  await page.value(typed('int main(void) {\n    out(5);\n    return 0;\n}\n'));
  judge('the page works on', await page.until(`${text('interp')}.startsWith('5\\ndone 0')`));

  starts();
  parts();
  await waits(page);
  await agrees(page);
  await ownOrders(page);
  await zooms(page);
  await machine(page);
  await losesNothing(page);
  await links(page, browser);

  // long texts, and texts that are too much
  await page.value(typed(long()));
  const began = Date.now();
  await page.value(`document.getElementById('verdict').textContent = ''`);
  judge('1 MiB is built', await page.until(`/^blocks/.test(${text('state')}) && ${READY}`, 60), await page.value(text('state')));
  const seconds = (Date.now() - began) / 1000;
  console.log(`pages: ${name}: 1 MiB is built and drawn after ${seconds} s; ${await page.value(text('state'))}`);
  judge('within 5 seconds on an idle machine, 20 beside other work', seconds < 20, seconds);

  const deep = n => 'int main(void) { int x; x = 1; ' + '{'.repeat(n) + '}'.repeat(n) + ' out(' + '('.repeat(n) + '1' + ')'.repeat(n) + '); return 0; }';
  for (const [what, value] of [['the deepest nest', deep(120)], ['a deeper one', deep(100_000)], ['20 MiB', ' '.repeat(20 << 20)],
    ['bytes', String.fromCharCode(...Array.from({ length: 4000 }, (_, k) => (k * 7919) % 251))]]) {
    await page.value(`document.getElementById('state').textContent = ''`);
    await page.value(typed(value));
    judge(`${what} has an answer`, await page.until(`!['', 'working ..'].includes(${text('state')})`, 60));
  }
  await page.value(typed('int main(void) {\n    out(6);\n    return 0;\n}\n'));
  judge('the page lives', await page.until(`${text('interp')}.startsWith('6\\ndone 0')`));

  const linked = await browser.open(address + '#' + encodeURIComponent('int main(void) {\n    out(42);\n    return 0;\n}\n'));
  judge('a link opens its text', await linked.until(`${text('interp')}.startsWith('42\\ndone 0')`));
  const keyed = await browser.open(address);
  judge('a page for the keyboard', await keyed.until(READY));
  await byKeys(keyed);
  const wrong = [...(await page.wrong()), ...(await linked.wrong()), ...(await keyed.wrong())];
  judge('no error on the console', wrong.length === 0, wrong);
  await browser.close();
  console.log(`${passed} passed, ${failed} failed`);
}

main().catch(error => {
  console.log('pages:', error.message);
  console.log(`${passed} passed, ${failed + 1} failed`);
  process.exit(1);
});
