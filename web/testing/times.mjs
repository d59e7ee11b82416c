// How long the page's module and the program take for the examples and a text of some 1,000 lines, in milliseconds, the least of
// nine times. The program's times have the start of its process.
//
//     node web/testing/times.mjs [PAGE] [MCC]    web/mcc.html and crates/mcc/out/mcc, if they are left out
//
// Before node 24 it takes --experimental-wasm-memory64 behind `node`.
import { spawnSync } from 'node:child_process';
import fs from 'node:fs';
import os from 'node:os';
import path from 'node:path';
import zlib from 'node:zlib';
import { Mcc } from '../mcc.mjs';
import { bytesOf } from './module.mjs';

const top = name => new URL(`../../${name}`, import.meta.url).pathname;
const [, , page = top('web/mcc.html'), program = top('crates/mcc/out/mcc')] = process.argv;
const missing = [page, program].find(name => !fs.existsSync(name));
if (missing) {
  console.error(`times: ${missing} isn't there`);
  process.exit(1);
}
const DATA = top('examples/programs/');
const room = fs.mkdtempSync(path.join(os.tmpdir(), 'mcc-times-'));
const [source, image] = ['program.c', 'program.image'].map(name => path.join(room, name));
const STEPS = 1_000_000;

// A text of functions with a loop each, of some 1,000 lines.
const long = () => {
  const one = k => `int f${k}(int n) {\n    int i;\n    int s = n;\n    for (i = 0; i < 10; i = i + 1) {\n        if (s & 1) {\n            s = s * 3 + ${k};\n`
    + '        } else {\n            s = s >> 1;\n        }\n        s = s & 65535;\n    }\n    return s;\n}\n';
  const count = 72;
  const calls = Array.from({ length: count }, (_, k) => `    r = f${k}(r);\n`).join('');
  return Array.from({ length: count }, (_, k) => one(k)).join('') + `int main(void) {\n    int r = 7;\n${calls}    out(r);\n    return 0;\n}\n`;
};

function least(work) {
  const times = Array.from({ length: 9 }, () => {
    const began = performance.now();
    work();
    return performance.now() - began;
  });
  return Math.min(...times).toFixed(1);
}

const ran = (...words) => spawnSync(program, words, { stdio: 'ignore' });
const texts = fs.readdirSync(DATA).filter(name => name.endsWith('.c')).map(name => [name, fs.readFileSync(path.join(DATA, name), 'latin1')]);
const generated = long();
texts.push([`${generated.split('\n').length - 1} lines`, generated]);

const wasm = bytesOf(page);
console.log(`${fs.statSync(page).size} bytes, the module ${wasm.length}, ${zlib.deflateSync(wasm, { level: 9 }).length} compressed`);
const began = performance.now();
const mcc = new Mcc(new WebAssembly.Module(wasm));
console.log(`ready after ${(performance.now() - began).toFixed(0)} ms in node`);
console.log('| Text | interp | build | list | run |\n|---|---|---|---|---|');
for (const [name, text] of texts) {
  const bytes = new TextEncoder().encode(text);
  fs.writeFileSync(source, text);
  const built = mcc.build(bytes).image;
  ran('build', source, image);
  const pairs = [
    [() => mcc.interp(bytes, STEPS), () => ran('interp', source)],
    [() => mcc.build(bytes), () => ran('build', source, image)],
    [() => mcc.list(built), () => ran('list', image)],
    [() => mcc.run(built, STEPS), () => ran('run', image)],
  ];
  console.log(`| ${name} | ${pairs.map(([here, there]) => `${least(here)}, ${least(there)}`).join(' | ')} |`);
}
fs.rmSync(room, { recursive: true });
