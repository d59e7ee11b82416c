// Takes pictures of web/mcc.html, each light and dark: the first view, a wrong order with the start that refutes it, the machine at a
// load under way, and a function of 30 blocks. page-*.png and machine-*.png stay here, for README.md and docs/WEB.md.
//
//     node docs/pictures/page.mjs [FOLDER]    all of them go to FOLDER, if it is given, and none stays here; needs chromium
//
// What it draws depends on the fonts that are installed, so no check compares it.
import fs from 'node:fs';
import path from 'node:path';
import { fileURLToPath, pathToFileURL } from 'node:url';
import { Browser } from '../../web/testing/browser.mjs';

const here = path.dirname(fileURLToPath(import.meta.url));
const folder = process.argv[2] ?? here;
const isKept = name => folder !== here || name === 'page' || name === 'machine';
const text = id => `document.getElementById('${id}').textContent`;
const WIDE = `int a[40];\n\nint main(void) {\n    int i;\n    int s;\n    s = 0;\n    for (i = 0; i < 20; i = i + 1) {\n${
  Array.from({ length: 8 }, (_, k) => `        if (a[i + ${k}] < s) { s = s + ${k}; }\n        else { a[i] = s - ${k}; }\n`).join('')
}        while (s > 100) { s = s - 50; }\n    }\n    out(s);\n    return 0;\n}\n`;

fs.mkdirSync(folder, { recursive: true });
const browser = new Browser();
const page = await browser.open(pathToFileURL(path.resolve(here, '../../web/mcc.html')).href);
const click = id => page.value(`document.getElementById('${id}').click()`);
const wait = async (what, expression) => {
  if (!(await page.until(expression, 60))) throw new Error(`no ${what}`);
};
const typed = value => page.value(`(() => { const s = document.getElementById('source'); s.value = ${JSON.stringify(value)};
  s.dispatchEvent(new Event('input')); s.blur(); })()`);
const chooseBlock = number => page.value(`document.querySelector('#graph [data-block="${number}"]').dispatchEvent(new Event('click'))`);

async function take(name) {
  for (const theme of isKept(name) ? ['light', 'dark'] : []) {
    if ((await page.value('document.documentElement.dataset.theme')) !== theme) await click('theme');
    await new Promise(resolve => setTimeout(resolve, 300));
    await page.picture(path.join(folder, `${name}-${theme}.png`));
  }
}

await wait('page', `document.querySelectorAll('#graph .node').length > 0 && ${text('verdict')} !== ''`);
await take('first');

// The block with a store in a loop, and an order of it that is wrong.
await typed(await page.value(`JSON.parse(${text('example-texts')})['primes.c']`));
await wait('graph', `document.querySelectorAll('#graph .node').length === 7 && ${text('interp')}.includes('29')`);
await chooseBlock(6);
await wait('block 6', `${text('block-title')}.startsWith('Block 6') && ${text('verdict')} === 'same'`);
await page.value(`document.querySelector('#order li').focus()`);
await page.key('ArrowDown', { alt: true });
await wait('wrong order', `${text('verdict')}.startsWith('differs') && ${text('start')} !== ''`);
await take('page');

// The machine, with a load and a branch among its last words.
await click('tab-steps');
const isThere = `document.querySelector('#past .loading + td') && document.querySelectorAll('#registers .loading').length === 1
  && document.querySelector('#past .leap')`;
for (let k = 0; k < 400 && !(await page.value(isThere)); k++) {
  const before = await page.value(text('count'));
  await click('step');
  await wait('step', `${text('count')} !== ${JSON.stringify(before)}`);
}
await take('machine');

await click('tab-orders');
await typed(WIDE);
await wait('30 blocks', `document.querySelectorAll('#graph .node').length === 30`);
await chooseBlock(20);
await wait('block 20', `${text('block-title')}.startsWith('Block 20') && ${text('verdict')} === 'same'`);
await take('graph');
await browser.close();
