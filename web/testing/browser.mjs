// A headless Chromium, driven over its pipe: pages, what runs in them, what they asked for and what went wrong in them.
import { spawn } from 'node:child_process';
import fs from 'node:fs';
import os from 'node:os';
import path from 'node:path';

// The codes that Chromium wants of keys which do something by themselves.
const CODES = { Tab: 9, Enter: 13, ' ': 32, End: 35, Home: 36, ArrowLeft: 37, ArrowUp: 38, ArrowRight: 39, ArrowDown: 40, Delete: 46 };
// A page behind another one has timers as quick as those of the page in front.
const FLAGS = ['--headless=new', '--no-sandbox', '--disable-gpu', '--disable-dev-shm-usage', '--no-first-run', '--remote-debugging-pipe',
  '--disable-background-timer-throttling', '--disable-renderer-backgrounding', '--disable-backgrounding-occluded-windows'];

export class Browser {
  constructor(command = 'chromium') {
    this.room = fs.mkdtempSync(path.join(os.tmpdir(), 'mcc-browser-'));
    this.child = spawn(command, [...FLAGS, `--user-data-dir=${this.room}`], { stdio: ['ignore', 'ignore', 'ignore', 'pipe', 'pipe'] });
    [, , , this.input, this.output] = this.child.stdio;
    this.count = 0;
    this.waiting = new Map();
    this.listeners = [];
    let rest = '';
    this.output.setEncoding('utf8').on('data', text => {
      const parts = (rest + text).split('\0');
      rest = parts.pop();
      for (const part of parts) this.receive(JSON.parse(part));
    });
  }

  receive(message) {
    const asked = this.waiting.get(message.id);
    if (!asked) {
      for (const listener of this.listeners) listener(message);
      return;
    }
    this.waiting.delete(message.id);
    if (message.error) asked.reject(new Error(message.error.message));
    else asked.resolve(message.result);
  }

  send(method, params = {}, sessionId = undefined) {
    return new Promise((resolve, reject) => {
      this.waiting.set(++this.count, { resolve, reject });
      this.input.write(JSON.stringify({ id: this.count, method, params, sessionId }) + '\0');
    });
  }

  async open(address, { width = 1280, height = 800 } = {}) {
    const { targetId } = await this.send('Target.createTarget', { url: 'about:blank' });
    const { sessionId } = await this.send('Target.attachToTarget', { targetId, flatten: true });
    const page = new Page(this, sessionId);
    for (const domain of ['Page', 'Runtime', 'Log', 'Network']) await page.send(domain + '.enable');
    await page.send('Emulation.setDeviceMetricsOverride', { width, height, deviceScaleFactor: 1, mobile: false });
    await page.send('Page.navigate', { url: address });
    return page;
  }

  async close() {
    const ended = new Promise(resolve => this.child.once('exit', resolve));
    await this.send('Browser.close').catch(() => {});
    await ended;
    fs.rmSync(this.room, { recursive: true, force: true, maxRetries: 5, retryDelay: 200 });
  }
}

// What each browser's pages have.
export class Waiting {
  // Waits until an expression holds, and tells whether it did.
  async until(expression, seconds = 20) {
    for (const end = Date.now() + seconds * 1000; Date.now() < end;) {
      if (await this.value(expression).catch(() => false)) return true;
      await new Promise(resolve => setTimeout(resolve, 50));
    }
    return false;
  }
}

class Page extends Waiting {
  constructor(browser, session) {
    super();
    Object.assign(this, { browser, session, requests: [], errors: [] });
    browser.listeners.push(({ method, params, sessionId }) => {
      if (sessionId !== session) return;
      if (method === 'Network.requestWillBeSent') this.requests.push(params.request.url);
      if (method === 'Runtime.exceptionThrown') this.errors.push(params.exceptionDetails.exception?.description ?? params.exceptionDetails.text);
      if (method === 'Log.entryAdded' && params.entry.level === 'error') this.errors.push(params.entry.text);
      if (method === 'Runtime.consoleAPICalled' && params.type === 'error') this.errors.push(JSON.stringify(params.args));
    });
  }

  send(method, params) {
    return this.browser.send(method, params, this.session);
  }

  async value(expression) {
    const { result, exceptionDetails } = await this.send('Runtime.evaluate', { expression, awaitPromise: true, returnByValue: true });
    if (exceptionDetails) throw new Error(exceptionDetails.exception?.description ?? exceptionDetails.text);
    return result.value;
  }

  // What was asked for, and what went wrong.
  async asked() {
    return this.requests;
  }

  async wrong() {
    return this.errors;
  }

  async key(key, { alt = false, code = key } = {}) {
    const text = key === 'Enter' ? '\r' : key.length === 1 ? key : undefined;
    const words = { key, code, text, modifiers: alt ? 1 : 0, windowsVirtualKeyCode: CODES[key] };
    await this.send('Input.dispatchKeyEvent', { type: text ? 'keyDown' : 'rawKeyDown', ...words });
    await this.send('Input.dispatchKeyEvent', { type: 'keyUp', ...words, text: undefined });
  }

  // The browser's zoom, in a window of 1280 x 800.
  async zoom(by) {
    const [width, height] = [1280, 800].map(length => Math.round(length / by));
    await this.send('Emulation.setDeviceMetricsOverride', { width, height, deviceScaleFactor: by, mobile: false });
  }

  async reload() {
    await this.send('Page.reload');
  }

  async mouse(type, x, y) {
    await this.send('Input.dispatchMouseEvent', { type, x, y, button: 'left', buttons: type === 'mouseReleased' ? 0 : 1, clickCount: 1 });
  }

  async drag(from, to) {
    const spot = selector => this.value(`(() => { const r = document.querySelector(${JSON.stringify(selector)}).getBoundingClientRect();
      return [r.x + r.width / 2, r.y + r.height / 2]; })()`);
    const [[x, y], [u, v]] = [await spot(from), await spot(to)];
    await this.mouse('mousePressed', x, y);
    for (let k = 1; k <= 8; k++) await this.mouse('mouseMoved', x + ((u - x) * k) / 8, y + ((v - y) * k) / 8);
    await this.mouse('mouseReleased', u, v);
  }

  async picture(file) {
    const { data } = await this.send('Page.captureScreenshot', { format: 'png' });
    fs.writeFileSync(file, Buffer.from(data, 'base64'));
  }
}
