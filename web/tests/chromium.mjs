// Drives a headless Chromium by its debugging pipe: opens a page, runs scripts in it, and notes what it asks of the network.
import { spawn } from 'node:child_process';
import { existsSync, mkdtempSync, rmSync, writeFileSync } from 'node:fs';
import { tmpdir } from 'node:os';
import { join } from 'node:path';

const PROGRAMS = [process.env.CHROMIUM, '/usr/bin/chromium', '/usr/bin/chromium-browser', '/usr/bin/google-chrome'];
export const chromium = PROGRAMS.find(it => it && existsSync(it)) || '';

const sleep = time => new Promise(done => setTimeout(done, time));

export async function openPage(url, { width = 1440, height = 900, isDark = false } = {}) {
  const folder = mkdtempSync(join(tmpdir(), 'page-'));
  const words = ['--headless=new', '--no-sandbox', '--disable-gpu', '--disable-dev-shm-usage', '--no-first-run', '--disable-background-networking',
    '--disable-component-update', '--remote-debugging-pipe', `--user-data-dir=${folder}`, `--window-size=${width},${height}`, 'about:blank'];
  const browser = spawn(chromium, words, { stdio: ['ignore', 'ignore', 'ignore', 'pipe', 'pipe'] });
  const waiting = new Map(), faults = [], requests = [], dialogs = [];
  let next = 1, rest = '', session;
  const send = (method, params = {}, sessionId = session) => new Promise(done => {
    const id = next++;
    waiting.set(id, done);
    browser.stdio[3].write(`${JSON.stringify({ id, method, params, sessionId })}\0`);
  });
  // Where the browser dies, so does the test: nothing more would come.
  let isClosing = false;
  browser.once('exit', (status, signal) => {
    if (isClosing) return;
    console.log(`wrong: the browser ended by itself, with ${signal || status}`);
    process.exit(1);
  });
  browser.stdio[4].on('data', data => {
    const parts = (rest + data).split('\0');
    rest = parts.pop();
    for (const part of parts) {
      const it = JSON.parse(part);
      if (it.id) {
        waiting.get(it.id)(it);
        waiting.delete(it.id);
      } else if (it.method === 'Runtime.exceptionThrown') faults.push(it.params.exceptionDetails.exception?.description || it.params.exceptionDetails.text);
      else if (it.method === 'Network.requestWillBeSent') requests.push(it.params.request.url);
      else if (it.method === 'Log.entryAdded' && it.params.entry.level === 'error') faults.push(it.params.entry.text);
      else if (it.method === 'Page.javascriptDialogOpening') {
        dialogs.push(it.params.message);
        send('Page.handleJavaScriptDialog', { accept: true });
      }
    }
  });
  const { result: { targetInfos } } = await send('Target.getTargets', {}, undefined);
  const target = targetInfos.find(it => it.type === 'page');
  ({ result: { sessionId: session } } = await send('Target.attachToTarget', { targetId: target.targetId, flatten: true }, undefined));
  for (const it of ['Runtime.enable', 'Page.enable', 'Network.enable', 'Log.enable', 'DOM.enable', 'Accessibility.enable']) await send(it);
  await send('Emulation.setDeviceMetricsOverride', { width, height, deviceScaleFactor: 1, mobile: false });
  await send('Emulation.setEmulatedMedia', { features: [{ name: 'prefers-color-scheme', value: isDark ? 'dark' : 'light' }] });
  await send('Page.navigate', { url });

  const evaluate = async expression => {
    const { result, error } = await send('Runtime.evaluate', { expression, awaitPromise: true, returnByValue: true });
    if (error || result.exceptionDetails) throw new Error(error ? error.message : result.exceptionDetails.exception?.description || result.exceptionDetails.text);
    return result.result.value;
  };
  const until = async (expression, time = 60000) => {
    for (const start = Date.now(); Date.now() - start < time; await sleep(50)) {
      const it = await evaluate(expression).catch(() => null);
      if (it) return it;
    }
    throw new Error(`waited ${time / 1000} s for: ${expression}`);
  };
  const press = async (key, { shift = false, code = key, keyCode = 0, text } = {}) => {
    const event = { key, code, windowsVirtualKeyCode: keyCode, modifiers: shift ? 8 : 0, text };
    await send('Input.dispatchKeyEvent', { type: 'keyDown', ...event });
    await send('Input.dispatchKeyEvent', { type: 'keyUp', ...event });
  };
  return {
    send, evaluate, until, press, sleep, faults, requests, dialogs,
    shot: async name => writeFileSync(name, Buffer.from((await send('Page.captureScreenshot', { format: 'png' })).result.data, 'base64')),
    pdf: async name => writeFileSync(name, Buffer.from((await send('Page.printToPDF', { printBackground: true })).result.data, 'base64')),
    close: async () => {
      isClosing = true;
      const gone = new Promise(done => browser.once('exit', done));
      browser.kill();
      await Promise.race([gone, sleep(5000)]);
      rmSync(folder, { recursive: true, force: true, maxRetries: 5, retryDelay: 200 });
    },
  };
}
