// Answers the words of mcc's command line by the module of a page: node serve.mjs PAGE FILE. It writes to FILE the port at which it
// listens, and a key, without which it answers nobody. Beside it `mcc` stands for the program, and hands its words on; so tests/run
// runs its cases on the module.
import crypto from 'node:crypto';
import fs from 'node:fs';
import net from 'node:net';
import path from 'node:path';
import { mccOf } from './module.mjs';

const [, , page, file] = process.argv;
const key = crypto.randomUUID();
const mcc = mccOf(page);
const STEPS = 100_000_000;

function wordsOf(words) {
  const options = { depth: 256, steps: STEPS, plain: false, explain: false, stage: '', function: '' };
  const files = [];
  for (let k = 1; k < words.length; k++) {
    const name = words[k].slice(2);
    if (['--plain', '--explain'].includes(words[k])) options[name] = true;
    else if (['--stage', '--function'].includes(words[k])) options[name] = words[++k];
    else if (words[k].startsWith('--')) options[name] = Number(words[++k]);
    else files.push(words[k]);
  }
  return { command: words[0], files, options };
}

function answer(words, folder) {
  const { command, files, options } = wordsOf(words);
  const [file, image] = files.map(name => path.resolve(folder, name));
  const bytes = fs.readFileSync(file);
  switch (command) {
    case 'check': return options.explain ? mcc.explain(bytes) : mcc.check(bytes);
    case 'show': return mcc.show(bytes, options.stage, options.function);
    case 'interp': return mcc.interp(bytes, options.steps, options.depth);
    case 'run': return mcc.run(bytes, options.steps);
    case 'list': return mcc.list(bytes);
    case 'build': {
      const built = mcc.build(bytes, options.plain, options.depth);
      if (built.image) fs.writeFileSync(image, built.image);
      return built;
    }
    default: throw new Error(`the module has no ${command}`);
  }
}

// The program names its file where the module has a name of its own.
function told({ status, text, why = '' }, words, folder) {
  const named = lines => lines.replace(/^(program\.c|program\.image|order\.check)(?=:\d+:\d+:|: in function|: error:)/m, wordsOf(words).files[0]);
  return status === 1 ? { status, out: '', err: named(text) } : { status, out: text, err: named(why) };
}

// A line with the status and the length of standard output's bytes, and these before those of standard error.
function send(stream, { status, out, err }) {
  stream.end(`${status} ${Buffer.byteLength(out)}\n${out}${err}`);
}

const server = net.createServer(stream => {
  let asked = '';
  stream.setEncoding('utf8').on('data', text => {
    asked += text;
    if (!asked.endsWith('\0\n')) return;
    const [said, folder, ...words] = asked.slice(0, -2).split('\0');
    if (said !== key) return stream.destroy();
    try {
      send(stream, told(answer(words, folder), words, folder));
    } catch (error) {
      send(stream, { status: 99, out: '', err: String(error) + '\n' });
    }
  });
});
server.listen(0, '127.0.0.1', () => fs.writeFileSync(file, `${server.address().port} ${key}\n`));
