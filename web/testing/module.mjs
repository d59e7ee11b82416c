// The module of a built page.
import fs from 'node:fs';
import zlib from 'node:zlib';
import { Mcc } from '../mcc.mjs';

export function bytesOf(file) {
  const [, text] = /<script type="application\/octet-stream" id="wasm">([^<]*)<\/script>/.exec(fs.readFileSync(file, 'latin1'));
  return zlib.inflateSync(Buffer.from(text, 'base64'));
}

export const mccOf = file => new Mcc(new WebAssembly.Module(bytesOf(file)));
