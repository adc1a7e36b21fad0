// The tab of what the program writes, byte for byte.
import { $, button, copyButton, download, make } from './elements.mjs';
import { run } from './engine.mjs';
import { EVENTS, SPEC, eventFile, on, page, specFile, textOf } from './page.mjs';
import { isRunnable } from './scenario.mjs';
import { addTab, openedTab, refreshTab } from './tabs.mjs';

// The commands, with the ends of the names of files that hold what they write.
const COMMANDS = { explain: 'explained', check: 'report', simulate: 'trace', format: 'rsml', migrate: 'rsml' };
let command = 'explain', got = null;

function showTools() {
  const choose = it => {
    command = it;
    show();
  };
  const save = () => {
    if (got && got.output) download(`${page.name.replace(/\.rsml$/, '')}.${COMMANDS[command]}`, got.output);
  };
  $('report-tools').replaceChildren(
    make('span', { class: 'group', role: 'group', 'aria-label': 'Command' },
      Object.keys(COMMANDS).map(it => button(it, () => choose(it), { 'aria-pressed': String(it === command) }))),
    copyButton('Copy', () => $('raw').textContent), button('Save', save));
}

async function show() {
  if (openedTab() !== 'report') return;
  showTools();
  const asked = command, { text, events } = page, words = asked === 'simulate' ? [asked, SPEC, EVENTS] : [asked, SPEC];
  const hasIt = asked === 'explain' && page.got && !page.isStale;
  const mine = hasIt ? page.got : await run(words, { [SPEC]: specFile(), [EVENTS]: eventFile() });
  if (asked !== command || text !== page.text || events !== page.events) return;
  got = mine;
  $('raw').textContent = got.failed || textOf(got.output);
  const isReport = asked === 'simulate' && !isRunnable();
  $('raw-status').textContent = got.failed ? ''
    : `Status ${got.status}, ${got.output.length.toLocaleString('en')} bytes${isReport ? '; it is not certified, so this is the report' : ''}.`;
}

export function addReport() {
  addTab({ id: 'report', label: 'Report', show });
  on('answer', () => refreshTab('report'));
  on('trace', () => refreshTab('report'));
}
