// page.mjs PAGE.html [FOLDER]: the page in a headless Chromium. Pictures of it come into FOLDER, where one is named.
import { createServer } from 'node:http';
import { readFileSync, writeFileSync, mkdtempSync, rmSync } from 'node:fs';
import { tmpdir } from 'node:os';
import { join, resolve } from 'node:path';
import { pathToFileURL } from 'node:url';
import { families, readAnswer } from '../src/answer.mjs';
import { SPEC, textOf } from '../src/page.mjs';
import { runProgram } from '../src/program.mjs';
import { structure } from '../src/structure.mjs';
import { access } from './access.mjs';
import { check, examples, finish, partOf, same, TOP } from './checks.mjs';
import { openPage } from './chromium.mjs';

const [path, shots] = process.argv.slice(2), page = readFileSync(path, 'utf8'), url = pathToFileURL(resolve(path)).href;
const module = new WebAssembly.Module(partOf(page, 'module'));
const WAIT = 240000;
const browser = await openPage(url), { evaluate, press, until } = browser;
const wait = what => until(what, WAIT);
const quoted = text => JSON.stringify(text);
const head = `document.querySelector('#verdict h2').textContent`;
const settled = `!document.body.classList.contains('stale') && ${head}`;
const open = tab => evaluate(`document.getElementById('tab-${tab}').click()`);
const write = (id, text) => evaluate(`{ const it = document.getElementById('${id}'); it.value = ${quoted(text)}; it.dispatchEvent(new Event('input')); }`);
const show = async name => {
  await evaluate(`{ const it = document.getElementById('examples'); it.value = ${quoted(name)}; it.dispatchEvent(new Event('change')); }`);
  return wait(settled);
};
const count = selector => evaluate(`document.querySelectorAll(${quoted(selector)}).length`);
const shot = name => shots ? browser.shot(join(shots, `${name}.png`)) : null;
const drop = (name, bytes) => evaluate(`{
  const data = new DataTransfer();
  data.items.add(new File([Uint8Array.from(atob(${quoted(Buffer.from(bytes).toString('base64'))}), it => it.charCodeAt(0))], ${quoted(name)}));
  dispatchEvent(new DragEvent('drop', { dataTransfer: data, cancelable: true }));
}`);
const parts = {};

parts.start = async () => {
  await wait(`${head}.includes('refused')`);
  await wait(`document.querySelectorAll('#findings .card.bad').length === 2`);
  await shot('findings');
  same(await count('#tabs [role=tab]'), 8, 'tabs');
  same(await count('.andor td.fails'), 5, 'cells that fail');
  // A mend by its button, and its undoing.
  await evaluate(`document.querySelector('.mends .act').click()`);
  await wait(`document.querySelectorAll('#findings .card.bad').length === 1`);
  check((await evaluate('document.getElementById("text").value')).includes('    Cancelled = Yes    | F;\n'), 'a row is put in');
  await evaluate('document.execCommand("undo")');
  await wait(`document.querySelectorAll('#findings .card.bad').length === 2`);
};

// Each example: what is told is drawn, the picture has all states, and each message of the scenario is in the trace.
parts.examples = async () => {
  const listed = await evaluate('[...document.querySelectorAll("#examples option")].map(it => it.value)');
  same(listed.length, examples().length, 'the menu has the examples');
  let cards = 0, tables = 0, drawn = 0, told = 0;
  for (const it of examples()) {
    await open('findings');
    await show(it.name);
    const got = await runProgram(module, ['explain', SPEC], { [SPEC]: it.text }), answer = readAnswer(textOf(got.output), got.status, SPEC);
    const members = answer.findings.filter(other => other.members).reduce((sum, other) => sum + other.members.length, 0);
    same([await count('#findings .card.bad'), await count('#findings .card.note'), await count('#findings .card.fault'), await count('#findings .member')],
      [answer.findings.length, answer.notes.length, answer.faults.length, members], `the findings of ${it.name}`);
    same(await count('#findings .others'), families(answer.findings).filter(other => other.length > 1).length, `the families of ${it.name}`);
    cards += answer.findings.length;
    tables += members;
    const spec = structure(it.text), states = state => 1 + state.children.reduce((sum, child) => sum + states(child), 0);
    await open('states');
    same(await count('#states-picture g.state'), states(spec.top), `the picture of ${it.name}`);
    drawn += states(spec.top);
    if (answer.status === 0 && it.events) {
      await open('simulate');
      const lines = it.events.split('\n').filter(line => line.trim() && !line.trim().startsWith('#')).length;
      await wait(`document.querySelector('#trace-note').textContent || document.querySelector('#trace .fault')`);
      const fault = await count('#trace .fault');
      check(fault || await count('#trace > ol > li') === lines, `the trace of ${it.name}`);
      check(!(await evaluate('document.querySelector("#trace-note").textContent')).includes('not to be trusted'), `the states of ${it.name}`);
      told += lines;
    }
  }
  console.log(`page: ${cards} findings with ${tables} tables, ${drawn} states and ${told} event lines are drawn`);
};

// The report is what the program writes.
parts.report = async () => {
  await show('cruise_control/cruise_control.rsml');
  const it = examples().find(other => other.name === 'cruise_control/cruise_control.rsml');
  await open('report');
  for (const command of ['check', 'format', 'migrate', 'explain']) {
    const got = await runProgram(module, [command, SPEC], { [SPEC]: it.text });
    await evaluate(`[...document.querySelectorAll('#report-tools [aria-pressed]')].find(it => it.textContent === '${command}').click()`);
    await wait(`document.getElementById('raw').textContent === ${quoted(textOf(got.output))}`);
    check(true, command);
  }
};

// A scenario: steps, play, a message by the form, a fault of an event line.
parts.simulate = async () => {
  await show('cruise_control/cruise_control.rsml');
  await open('simulate');
  await wait(`document.querySelectorAll('#trace > ol > li').length === 31`);
  for (let k = 0; k < 8; k++) await evaluate(`document.querySelector('[data-tool="One round on"]').click()`);
  same(await count('#sim-picture .taken'), 1, 'a move is marked');
  check(await count('#sim-picture .active') > 3, 'active states are marked');
  await shot('simulate');
  const step = `document.querySelector('#sim-tools b').textContent`, before = await evaluate(step);
  await evaluate(`document.querySelector('[data-tool="Play"]').click()`);
  await wait(`${step} !== ${quoted(before)}`);
  await evaluate(`document.querySelector('[data-tool="Pause"]')?.click()`);
  await evaluate(`document.querySelector('#sender form[data-receive="Memory"] button').click()`);
  await wait(`document.querySelectorAll('#trace > ol > li').length === 32`);
  check((await evaluate('document.getElementById("events").value')).trimEnd().endsWith('Memory Stored_Speed=100'), 'a message is appended');
  await write('events', 'Wheel Speed=80\n');
  await wait(`document.querySelector('#trace .fault')`);
  check((await evaluate(`document.querySelector('#trace .fault').textContent`)).includes('Wheel has Speed=0..300 Sensor=Plausible|Implausible, in this order'), 'a fault of an event line in words');
  same(await evaluate(`document.querySelector('#events-gutter .bad').textContent`), '!1', 'a fault at its line');
};

// The pages for those who read.
parts.reading = async () => {
  await show('infusion_pump/infusion_pump.rsml');
  await open('matrix');
  check(await count('#matrix table') > 3, 'the matrix');
  await shot('matrix');
  await open('requirements');
  same(await count('#requirements table:first-of-type tbody tr') > 10, true, 'the table of requirements');
  await shot('requirements');
  await open('review');
  for (const it of ['Verdict', 'States', 'Matrix', 'Requirements', 'Trace', 'Report', 'Text', 'Event file'])
    check(await evaluate(`[...document.querySelectorAll('#paper section > h3')].some(it => it.textContent === '${it}')`), `the review has ${it}`);
  check(await evaluate(`/[0-9a-f]{64}/.test(document.querySelector('#paper .sums').textContent)`), 'the review has checksums');
  same(await count('#paper button'), 0, 'no button stands on paper');
  await shot('review');
  await browser.send('Emulation.setEmulatedMedia', { media: 'print' });
  same(await evaluate(`['header', '#left', '#tabs', '#verdict', '#findings'].filter(it => getComputedStyle(document.querySelector(it)).display !== 'none')`), [], 'what is not printed');
  if (shots) await browser.pdf(join(shots, 'review.pdf'));
  await browser.send('Emulation.setEmulatedMedia', { media: '' });
};

// Keys: the tabs, F8, and no trap in the text.
parts.keys = async () => {
  await show('alerter.rsml');
  await evaluate(`document.getElementById('tab-review').focus()`);
  await press('Home', { keyCode: 36 });
  same(await evaluate('document.activeElement.id'), 'tab-findings', 'Home at the tabs');
  await press('ArrowRight', { keyCode: 39 });
  same(await evaluate('document.activeElement.id'), 'tab-states', 'an arrow at the tabs');
  await press('F8', { keyCode: 119 });
  await wait(`document.getElementById('cursor').textContent.startsWith('line 40,')`);
  await press('F8', { keyCode: 119 });
  await wait(`document.getElementById('cursor').textContent.startsWith('line 54,')`);
  await press('Tab', { keyCode: 9 });
  check(await evaluate('document.activeElement.id !== "text"'), 'Tab leaves the text');
};

// The first three steps of the guide, as a new user takes them: the text, the answer, the scenario, the mistake, the exercise.
parts.guide = async () => {
  const file = name => readFileSync(join(TOP, 'examples', 'guide', name), 'utf8');
  const raw = async command => {
    await open('report');
    await evaluate(`[...document.querySelectorAll('#report-tools [aria-pressed]')].find(it => it.textContent === '${command}').click()`);
  };
  for (const step of ['01_states', '02_input', '03_tables']) {
    await evaluate(`document.getElementById('examples').value = ''`);
    await open('findings');
    await write('events', '');
    await write('text', file(`${step}.rsml`));
    await wait(`${settled}.includes('certified')`);
    await write('events', file(`${step}.events`));
    await raw('check');
    await wait(`document.getElementById('raw').textContent === ${quoted(file(`${step}.report`))}`);
    await raw('simulate');
    await wait(`document.getElementById('raw').textContent === ${quoted(file(`${step}.trace`))}`);
    await open('simulate');
    await wait(`document.querySelectorAll('#trace > ol > li').length > 0`);
    const mistake = `${step.slice(0, 2)}_mistake`;
    await write('text', file(`${mistake}.rsml`));
    await raw('check');
    await wait(`document.getElementById('raw').textContent === ${quoted(file(`${mistake}.report`))}`);
    await open('findings');
    await wait(settled);
    check(await count('#findings .card.bad, #findings .card.fault') > 0, `the mistake of ${step} is told`);
    if (step === '01_states') {
      await evaluate(`[...document.querySelectorAll('.card.fault .act')].find(it => it.textContent === 'Write Shut').click()`);
      await wait(`${settled}.includes('certified')`);
      check(true, 'the name is mended by its button');
    }
    await write('text', file(`${step.slice(0, 2)}_solution.rsml`));
    await raw('check');
    await wait(`document.getElementById('raw').textContent === ${quoted(file(`${step.slice(0, 2)}_solution.report`))}`);
    check(true, step);
  }
};

// Bad input: each is told in the page.
parts.bad = async () => {
  await open('findings');
  await drop('bad.rsml', [...Buffer.from('specification A;\n# '), 0xff, 10]);
  await wait(`${settled} && document.querySelector('#findings .notice')`);
  check((await evaluate(`document.querySelector('#findings .notice').textContent`)).includes('not UTF-8'), 'a file that is not UTF-8');
  check((await evaluate(`document.querySelector('#verdict p').textContent`)).includes('fault utf8 byte 19'), 'the program gets the very bytes');
  await drop('returns.rsml', Buffer.from('specification A;\r\nstate A;\r\n'));
  await wait(`${settled}.includes('A is certified')`);
  check((await evaluate(`document.querySelector('#findings .notice').textContent`)).includes('carriage returns'), 'a file with carriage returns');
  await drop('mark.rsml', [0xef, 0xbb, 0xbf, ...Buffer.from('specification A;state A;')]);
  await wait(`${settled} && document.querySelector('#verdict p').textContent.includes('fault character byte 0')`);
  await drop('long.rsml', Buffer.alloc(1048577, 32));
  await wait(`${settled}.includes('too long')`);
  check(true, 'a text that is too long');
  const lamp = readFileSync(join(TOP, 'examples', 'lamp.rsml'), 'utf8'), filler = `${'# a long comment, which the program has to read and the page has to show'.padEnd(99)}\n`;
  await drop('large.rsml', Buffer.from(lamp + filler.repeat(Math.floor((1048576 - lamp.length) / 100))));
  await wait(`${settled}.includes('Lamp is certified')`);
  check(true, 'a text of a megabyte');
  await drop('huge.rsml', Buffer.alloc(17 * 1048576, 32));
  await wait(`document.getElementById('told').textContent.includes('not opened')`);
  await drop('empty.rsml', Buffer.alloc(0));
  await wait(`${settled} && document.querySelector('#verdict p').textContent.includes('fault syntax token 1')`);
};

// A run that takes long: each two of many inputs of a wide range are compared.
parts.long = async () => {
  const names = Array.from({ length: 11 }, (_, k) => `H${k}`), pairs = names.flatMap((a, i) => names.slice(i + 1).map(b => [a, b]));
  const rows = (by, cell, turned) => pairs.map(([a, b], k) => `${turned ? `${b} - ${a}` : `${a} - ${b}`} < ${200 + by * k} | ${cell};`).join('\n');
  await write('text', `specification Long;
range Feet 0 .. 60000;
${names.map(it => `input ${it} : Feet = 0;`).join('\n')}
event Tick;
receive Heights (${names.join(', ')}) raise Tick;
state Long one {
  default Apart;
  state Apart;
  move Apart -> Apart on Tick when {
${rows(7, 'T', false)}
  };
  stay Apart on Tick when {
${rows(5, 'F', true)}
  };
}
`);
  const stop = `[...document.querySelectorAll('#engine button')].find(it => it.textContent === 'Stop')`;
  const isBusy = await until(`${stop} || !document.body.classList.contains('stale')`, WAIT);
  if (await evaluate(`!!${stop}`)) {
    await evaluate(`${stop}.click()`);
    await wait(`document.querySelector('#verdict').textContent.includes('the run was stopped')`);
    check(isBusy, 'a long run can be stopped');
  } else check(false, 'the long run was not long');
  await show('lamp.rsml');
  check((await evaluate(head)).includes('Lamp is certified'), 'the program is there after a stop');
};

// A page whose module is broken, and one without it, tell so.
parts.broken = async () => {
  const folder = mkdtempSync(join(tmpdir(), 'broken-'));
  const broken = { cut: it => it.slice(0, it.length / 2 | 0), other: () => Buffer.from('H4sIAAAAAAAAA0tKLAIAqo7vTQMAAAA=', 'base64').toString('base64') };
  for (const [name, change] of Object.entries(broken)) {
    const file = join(folder, `${name}.html`);
    writeFileSync(file, page.replace(/(<script id="module" type="application\/octet-stream">)([^<]*)/, (_, tag, text) => tag + change(text)));
    await browser.send('Page.navigate', { url: pathToFileURL(file).href });
    await wait(`document.querySelector('#engine.dead')?.textContent.includes('could not be loaded')`);
    await wait(`document.querySelector('#verdict').textContent.includes('No answer')`);
    check(true, name);
  }
  rmSync(folder, { recursive: true });
  await browser.send('Page.navigate', { url });
  await wait(settled);
};

// No request leaves the page, whatever is tried: a server counts.
parts.network = async () => {
  let asked = 0;
  const server = createServer((_, answer) => {
    asked++;
    answer.end();
  });
  await new Promise(done => server.listen(0, '127.0.0.1', done));
  const to = `http://127.0.0.1:${server.address().port}/`;
  const refused = await evaluate(`(async () => {
    const to = ${quoted(to)}, found = [], tag = (name, given) => document.body.append(Object.assign(document.createElement(name), given));
    document.addEventListener('securitypolicyviolation', event => found.push(event.effectiveDirective));
    await fetch(to).catch(() => found.push('fetch'));
    try { const it = new XMLHttpRequest(); it.open('GET', to, false); it.send(); } catch { found.push('XMLHttpRequest'); }
    try { new WebSocket(to.replace('http', 'ws')); new EventSource(to); } catch { found.push('WebSocket'); }
    navigator.sendBeacon(to, 'x');
    tag('img', { src: to }); tag('script', { src: to }); tag('link', { rel: 'stylesheet', href: to }); tag('iframe', { src: to }); tag('object', { data: to });
    tag('audio', { src: to }); tag('script', { textContent: 'window.isIn = true' });
    const form = document.createElement('form'); form.action = to; document.body.append(form); form.submit();
    const worker = new Worker(URL.createObjectURL(new Blob(['fetch(' + JSON.stringify(to) + ').then(() => postMessage(1), () => postMessage(0))'])));
    found.push(await new Promise(done => { worker.onmessage = it => done(it.data ? 'open' : 'worker'); setTimeout(() => done('silent'), 30000); }));
    await new Promise(done => setTimeout(done, 500));
    return [...new Set(found)];
  })()`);
  for (const it of ['fetch', 'XMLHttpRequest', 'worker', 'img-src', 'script-src-elem', 'style-src-elem', 'frame-src', 'form-action'])
    check(refused.includes(it), `${it} is refused: ${refused}`);
  check(await evaluate('window.isIn === undefined'), 'no script can be put into the page');
  same(asked, 0, 'requests that left the page');
  server.close();
  browser.faults.length = 0;
  await browser.send('Page.navigate', { url });
  await wait(settled);
};

parts.access = () => access(browser, { open, show, wait, check, same, shot });

const chosen = process.env.PARTS ? process.env.PARTS.split(',') : Object.keys(parts);
try {
  await wait(settled);
  for (const it of chosen) {
    const from = Date.now();
    await parts[it]().catch(error => check(false, `${it}: ${error.message}`));
    console.log(`page: ${it}, ${((Date.now() - from) / 1000).toFixed(1)} s`);
  }
  const outside = browser.requests.filter(it => !/^(file|blob|data):/.test(it) && !it.startsWith('http://127.0.0.1:'));
  same(outside, [], 'requests of the page');
  same(browser.faults.filter(it => !/could not be loaded/.test(it)), [], 'faults that the browser tells');
} finally {
  await browser.close();
}
finish('page');
