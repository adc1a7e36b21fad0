// Starts the page: the tabs, the program, the first example.
import { $, make } from './elements.mjs';
import { askVersion, fillAbout } from './about.mjs';
import { readAnswer } from './answer.mjs';
import { paint, setText } from './editor.mjs';
import { STOPPED, lose, run, showIdle, showTime, start, stop } from './engine.mjs';
import { listenForFiles, mayLeave } from './files.mjs';
import { addFindings } from './findings.mjs';
import { SPEC, announce, on, page, specFile, textOf } from './page.mjs';
import { addReport } from './report.mjs';
import { addReview, printReview } from './review.mjs';
import { sha256 } from './sha256.mjs';
import { setEvents } from './scenario.mjs';
import { addSimulate } from './simulate.mjs';
import { addStates } from './states.mjs';
import { structure } from './structure.mjs';
import { addTab, listenAtTabs, openTab } from './tabs.mjs';
import { addTables } from './tables.mjs';

// How long a run goes on for a text that was changed since, and how long the page waits for the next key, in milliseconds.
const PATIENCE = 1500, PAUSE = 250;
let running = null, timer;

// Runs `explain` on the text, and again where it was changed meanwhile.
async function analyse() {
  if (running) {
    running.isOld = true;
    if (performance.now() - running.from > PATIENCE) stop();
    return;
  }
  const mine = running = { from: performance.now(), isOld: false }, text = page.text;
  const got = await run(['explain', SPEC], { [SPEC]: specFile() });
  running = null;
  if (mine.isOld || text !== page.text) {
    analyse();
    return;
  }
  page.got = got;
  page.isStale = false;
  page.answer = got.failed ? null : readAnswer(textOf(got.output), got.status, SPEC);
  page.spec = null;
  try {
    if (!got.failed) page.spec = structure(text);
  } catch { /* the program tells what is wrong */ }
  document.body.classList.remove('stale');
  if (got.failed === STOPPED) showIdle('stopped'); else if (!got.failed) showTime(got.took);
  paint();
  announce('answer');
}

function textChanged() {
  document.body.classList.add('stale');
  if (!page.bytes) page.notice = '';
  clearTimeout(timer);
  timer = setTimeout(analyse, page.got ? PAUSE : 0);
}

async function unpacked(id) {
  const bytes = Uint8Array.from(atob($(id).textContent.trim()), it => it.charCodeAt(0));
  return new Uint8Array(await new Response(new Blob([bytes]).stream().pipeThrough(new DecompressionStream('gzip'))).arrayBuffer());
}

function choose(name) {
  const it = page.data.files[name];
  setEvents(it.events || '');
  setText(it.text, name.split('/').pop());
}

function listExamples() {
  const option = it => make('option', { value: it.name }, it.label);
  $('examples').append(...page.data.groups.map(it => make('optgroup', { label: it.label }, it.files.map(option))));
  let last = '';
  $('examples').onchange = event => {
    if (!mayLeave()) {
      event.target.value = last;
      return;
    }
    choose(last = event.target.value);
  };
  return name => {
    $('examples').value = last = name;
    choose(name);
  };
}

// The boundary between the text and the answers can be moved, by keys too.
function listenAtSplit() {
  const split = $('split'), move = width => {
    const share = Math.round(Math.max(15, Math.min(80, 100 * width / innerWidth)));
    $('left').style.width = `${share}%`;
    split.setAttribute('aria-valuenow', share);
    dispatchEvent(new Event('resize'));
  };
  split.onpointerdown = event => {
    split.setPointerCapture(event.pointerId);
    split.onpointermove = it => move(it.clientX);
  };
  split.onpointerup = () => { split.onpointermove = null; };
  split.onkeydown = event => {
    const by = { ArrowLeft: -30, ArrowRight: 30 }[event.key];
    if (by) move($('left').offsetWidth + by);
  };
}

async function begin() {
  addFindings();
  addStates();
  addSimulate();
  addTables();
  addReport();
  addReview();
  addTab({ id: 'notation', label: 'Notation', show() {} });
  listenAtTabs();
  listenAtSplit();
  listenForFiles();
  on('text', textChanged);
  $('print').onclick = printReview;
  $('about-open').onclick = () => $('about').showModal();
  addEventListener('keydown', event => { if (event.key === 'Escape') $('tip').hidden = true; });
  openTab('findings');
  try {
    const [data, module] = await Promise.all([unpacked('data'), unpacked('module')]);
    page.data = JSON.parse(textOf(data));
    page.moduleSum = sha256(module);
    start(module, $('worker').textContent);
  } catch (error) {
    lose(`The program could not be loaded: ${error.message}`);
    page.data ||= { files: { none: { text: '' } }, groups: [], about: '', claim: '', toolchain: '', object: '', module: { size: 0 } };
  }
  const show = listExamples(), wanted = new URLSearchParams(location.hash.slice(1)), name = wanted.get('example');
  show(name in page.data.files ? name : Object.keys(page.data.files)[0]);
  const tab = wanted.get('tab');
  if (tab && $(`tab-${tab}`)) openTab(tab);
  await askVersion();
  fillAbout();
}
begin();
