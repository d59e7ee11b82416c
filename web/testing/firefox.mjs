// A headless Firefox, driven by Marionette over its TCP port, as browser.mjs drives Chromium.
import { spawn } from 'node:child_process';
import fs from 'node:fs';
import net from 'node:net';
import os from 'node:os';
import path from 'node:path';
import { Waiting } from './browser.mjs';

const FLAGS = ['--headless', '--no-remote', '--marionette', '--remote-allow-system-access', '--profile'];
const KEYS = {
  Tab: '\uE004', Enter: '\uE007', End: '\uE010', Home: '\uE011', ArrowLeft: '\uE012', ArrowUp: '\uE013', ArrowRight: '\uE014',
  ArrowDown: '\uE015', Delete: '\uE017',
};
const ALT = '\uE00A';
export class Firefox {
  constructor(command = 'firefox-esr') {
    this.room = fs.mkdtempSync(path.join(os.tmpdir(), 'mcc-firefox-'));
    fs.writeFileSync(path.join(this.room, 'user.js'), 'user_pref("marionette.port", 0);\nuser_pref("browser.shell.checkDefaultBrowser", false);\n');
    this.child = spawn(command, [...FLAGS, this.room], { stdio: 'ignore', env: { ...process.env, HOME: this.room } });
    this.count = 0;
    this.waiting = new Map();
  }

  // The port is in a file of the profile, once it is open.
  async port() {
    const file = path.join(this.room, 'MarionetteActivePort');
    for (let k = 0; k < 1200; k++) {
      const text = fs.existsSync(file) ? fs.readFileSync(file, 'utf8') : '';
      if (text) return Number(text);
      await new Promise(resolve => setTimeout(resolve, 100));
    }
    throw new Error('Firefox opens no port');
  }

  async start() {
    this.stream = net.connect(await this.port(), '127.0.0.1');
    let rest = Buffer.alloc(0);
    this.stream.on('data', part => {
      rest = Buffer.concat([rest, part]);
      for (let at = rest.indexOf(58); at > 0; at = rest.indexOf(58)) {
        const end = at + 1 + Number(rest.toString('latin1', 0, at));
        if (rest.length < end) return;
        this.receive(JSON.parse(rest.toString('utf8', at + 1, end)));
        rest = rest.subarray(end);
      }
    });
    await this.send('WebDriver:NewSession', {});
  }

  receive(message) {
    if (!Array.isArray(message)) return;
    const [, id, error, result] = message;
    const { resolve, reject } = this.waiting.get(id);
    this.waiting.delete(id);
    if (error) reject(new Error(error.message));
    else resolve(result);
  }

  send(name, words) {
    return new Promise((resolve, reject) => {
      this.waiting.set(++this.count, { resolve, reject });
      const text = JSON.stringify([0, this.count, name, words]);
      this.stream.write(`${Buffer.byteLength(text)}:${text}`);
    });
  }

  async open(address, { width = 1280, height = 800 } = {}) {
    if (!this.stream) await this.start();
    const { handle } = await this.send('WebDriver:NewWindow', { type: 'tab' });
    await this.send('WebDriver:SwitchToWindow', { handle });
    await this.send('WebDriver:Navigate', { url: address });
    const page = new Page(this, address);
    const [across, down] = await page.value('[outerWidth - innerWidth, outerHeight - innerHeight]');
    await this.send('WebDriver:SetWindowRect', { width: width + across, height: height + down });
    return page;
  }

  async close() {
    const ended = new Promise(resolve => this.child.once('exit', resolve));
    await this.send('Marionette:Quit', { flags: ['eForceQuit'] }).catch(() => {});
    await ended;
    fs.rmSync(this.room, { recursive: true, force: true, maxRetries: 5, retryDelay: 200 });
  }
}

class Page extends Waiting {
  constructor(browser, address) {
    super();
    Object.assign(this, { browser, address });
  }

  async value(expression) {
    const { value } = await this.browser.send('WebDriver:ExecuteScript', { script: `return (${expression})`, args: [], sandbox: null });
    return value;
  }

  async asked() {
    return [this.address, ...(await this.value(`performance.getEntriesByType('resource').map(entry => entry.name)`))];
  }

  // The errors of pages from files, as the browser's own console has them.
  async wrong() {
    await this.browser.send('Marionette:SetContext', { value: 'chrome' });
    const errors = await this.value(`Services.console.getMessageArray().filter(m => m instanceof Ci.nsIScriptError
      && !(m.flags & Ci.nsIScriptError.warningFlag) && /^(file|blob):/.test(m.sourceName)).map(m => m.errorMessage)`);
    await this.browser.send('Marionette:SetContext', { value: 'content' });
    return errors;
  }

  async key(key, { alt = false } = {}) {
    const value = KEYS[key] ?? key;
    const held = alt ? [ALT, value] : [value];
    const actions = [...held.map(v => ({ type: 'keyDown', value: v })), ...held.reverse().map(v => ({ type: 'keyUp', value: v }))];
    await this.browser.send('WebDriver:PerformActions', { actions: [{ type: 'key', id: 'keys', actions }] });
  }

  // A window as small as the page's at this zoom of 1280 x 800.
  async zoom(by) {
    const [across, down] = await this.value('[outerWidth - innerWidth, outerHeight - innerHeight]');
    await this.browser.send('WebDriver:SetWindowRect', { width: Math.round(1280 / by) + across, height: Math.round(800 / by) + down });
  }

  async reload() {
    await this.browser.send('WebDriver:Refresh', {});
  }

  // Marionette's mouse starts no dragging, so the events are the script's.
  async drag(from, to) {
    await this.value(`(() => {
      const [a, b] = [${JSON.stringify(from)}, ${JSON.stringify(to)}].map(s => document.querySelector(s));
      const dataTransfer = new DataTransfer();
      const send = (at, type) => at.dispatchEvent(new DragEvent(type, { bubbles: true, cancelable: true, dataTransfer }));
      send(a, 'dragstart'); send(b, 'dragover'); send(b, 'drop'); send(a, 'dragend');
    })()`);
  }

  async picture(file) {
    const { value } = await this.browser.send('WebDriver:TakeScreenshot', { full: false });
    fs.writeFileSync(file, Buffer.from(value, 'base64'));
  }
}
