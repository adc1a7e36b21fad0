// The tab of the scenario: an event file, its trace, the states after each round, and a form for each message.
import { $, button, copyButton, download, make, tell } from './elements.mjs';
import { spans } from './answer.mjs';
import { activeIn } from './instances.mjs';
import { eventFile, on, page } from './page.mjs';
import { arrowKey, noMarks, picture, placePicture } from './picture.mjs';
import { appendEvent, eventsChanged, isRunnable, setEvents, simulate, stepAt } from './scenario.mjs';
import { senderForms } from './sender.mjs';
import { elementChoices, reveal, zoomButtons } from './states.mjs';
import { addTab, openTab, openedTab } from './tabs.mjs';
import { csv, markdown, plural } from './texts.mjs';
import { eventFault, eventLines, traceTable } from './trace.mjs';

const box = $('events');
const MOST_CELLS = 60, PAUSE = 200, PACE = 900;
let zoom = 0, scale = 1, player = null, timer;

export const currentTraceTable = () => traceTable(page.trace || { events: [] }, page.steps, eventLines(page.events));

// Goes to a step, and shows the element of an array in which something is done.
function toStep(at) {
  const step = stepAt(at), moved = step && (step.takes.find(it => it.verb === 'move') || step.takes[0]);
  if (moved) reveal(moved.component);
  show();
}

function stopPlaying() {
  clearInterval(player);
  player = null;
}

function playOn() {
  if (page.step >= page.steps.length - 1 || openedTab() !== 'simulate') {
    stopPlaying();
    show();
  } else toStep(page.step + 1);
}

function play() {
  if (player) stopPlaying();
  else {
    if (page.step >= page.steps.length - 1) stepAt(0);
    player = setInterval(playOn, PACE);
  }
  show();
}

function showTools(step) {
  const last = page.steps.length - 1, isFirst = page.step <= 0, isLast = page.step >= last, host = $('sim-tools');
  const focused = document.activeElement && document.activeElement.dataset.tool;
  const tool = (name, sign, act, isOff) => button(sign, act, { 'aria-label': name, title: name, disabled: isOff, 'data-tool': name });
  const set = value => {
    zoom = value;
    show();
  };
  const slider = make('input', {
    type: 'range', min: 0, max: Math.max(0, last), 'aria-label': 'Round', 'data-tool': 'slider', oninput: event => toStep(+event.target.value),
  });
  slider.value = page.step;
  const said = !step || !step.event ? 'before the first event' : `event ${step.event}, round ${step.round}: ${step.events.join(' ')}`;
  host.replaceChildren(
    make('span', { class: 'group', role: 'group', 'aria-label': 'Rounds' },
      tool('To the start', '|◀', () => toStep(0), isFirst),
      tool('One round back', '◀', () => toStep(page.step - 1), isFirst),
      tool(player ? 'Pause' : 'Play', player ? '❚❚' : '▶', play, last < 1),
      tool('One round on', '▶▏', () => toStep(page.step + 1), isLast),
      tool('To the end', '▶|', () => toStep(last), isLast)),
    slider, make('b', { 'aria-live': player ? 'off' : 'polite' }, said),
    zoomButtons(set, () => zoom || scale), ...(page.spec ? elementChoices(page.spec, show) : []));
  // The buttons are new; who was at one is at it again.
  const again = focused && host.querySelector(`[data-tool="${focused}"]:not([disabled])`);
  if (again) again.focus();
}

function showCells(step) {
  const changed = new Set((step ? step.changed : []).map(([cell]) => cell)), rows = step ? spans([...step.cells]) : [];
  const cell = ([name, value, first]) => make('li', { class: changed.has(first) ? 'changed' : '' },
    changed.has(first) && make('span', { title: 'changed by this event' }, '✱ '), `${name} = `, make('b', {}, value));
  const more = rows.length > MOST_CELLS ? [make('li', {}, `and ${rows.length - MOST_CELLS} more`)] : [];
  $('sim-cells').replaceChildren(...rows.slice(0, MOST_CELLS).map(cell), ...more);
}

// The numbers beside the event file, with a sign at the event that is shown and at a fault.
function showGutter(step, fault) {
  const own = box.value.split('\n'), numbers = new Map(eventLines(box.value).map((it, k) => [it.line, k + 1]));
  box.rows = own.length + 1;
  box.cols = Math.max(20, ...own.map(it => it.length + 2));
  const number = k => {
    if (fault && fault.line === k) return make('span', { class: 'bad' }, `!${k}`);
    return step && step.event && step.event === numbers.get(k) ? make('span', { class: 'here' }, `▸${k}`) : String(k);
  };
  $('events-gutter').replaceChildren(...own.flatMap((_, k) => [number(k + 1), '\n']));
}

function roundElement(step, isNow) {
  const place = path => path.split('.').slice(1).join('.') || path;
  const does = it => it.verb === 'move' ? make('b', {}, `${it.source} → ${it.target.join('.')}`) : `stays ${it.source}`;
  const takes = step.takes.map(it => make('li', { class: it.verb }, `${place(it.component)}: `, does(it)));
  const sends = step.sends.map(it => make('li', { class: 'sent' }, 'sends ', make('b', {}, it)));
  return make('div', { class: isNow ? 'round now' : 'round' },
    make('span', { class: 'dim' }, `round ${step.round}: ${step.events.join(' ')}`),
    takes.length + sends.length ? make('ul', {}, takes, sends) : make('span', { class: 'dim' }, ' nothing'));
}

function eventElement(event, step) {
  const own = page.steps.filter(it => it.event === event.number), isNow = step && step.event === event.number;
  const go = () => toStep(page.steps.indexOf(own.at(-1)));
  return make('li', { class: isNow ? 'now' : '' },
    button(`${event.number}  ${event.receive}`, go, { class: 'event', 'aria-current': isNow ? 'step' : null }),
    own.map(it => roundElement(it, it === step)));
}

function showTrace(step, fault) {
  const host = $('trace'), empty = (...words) => host.replaceChildren(make('p', { class: 'empty' }, ...words));
  $('trace-note').textContent = '';
  if (!isRunnable()) {
    const isRefused = page.answer && page.answer.status === 1;
    empty(isRefused ? 'A specification is run only once it is certified: else an event might have two answers, or none. '
      : 'The specification does not read yet. ', button('To the findings', () => openTab('findings'), { class: 'act' }));
    return;
  }
  const { events, cut } = page.trace || { events: [], cut: 0 }, wrong = page.steps.find(it => it.wrong);
  const items = events.map(it => eventElement(it, step));
  if (fault) items.push(make('li', { class: 'fault' }, make('b', {}, fault.said), fault.hint && make('p', {}, fault.hint)));
  if (items.length) host.replaceChildren(make('ol', {}, items)); else empty('Send a message by a form, or write event lines.');
  const now = host.querySelector('.now');
  if (now) now.scrollIntoView({ block: 'nearest' });
  $('trace-note').textContent = [plural(events.length, 'event'), cut ? `and ${cut.toLocaleString('en')} more that are not shown` : '',
    wrong ? `the picture is not to be trusted: ${wrong.wrong}` : ''].filter(Boolean).join(', ');
}

function marksAt(step) {
  const marks = noMarks();
  marks.active = activeIn(page.spec, step.children);
  for (const it of step.takes) {
    if (it.verb === 'move') marks.taken.add(arrowKey(it.component, it.source, it.target[0]));
    else marks.stays.add(`${it.component}.${it.source}`);
  }
  return marks;
}

function showPicture(step) {
  const host = $('sim-picture');
  if (!page.spec || !step) {
    host.replaceChildren();
    return;
  }
  const when = step.event ? `after event ${step.event}, round ${step.round}` : 'before the first event';
  scale = placePicture(host, picture(page.spec, page.shown, marksAt(step), 'sim', `The states ${when}. The trace tells the same.`), zoom);
}

function send(line) {
  appendEvent(line);
  tell(`Sent ${line}`);
  simulate().then(() => { $('events-box').scrollTop = $('events-box').scrollHeight; });
}

function show() {
  if (openedTab() !== 'simulate') return;
  const step = stepAt(page.step), fault = page.trace && eventFault(page.spec, page.trace, box.value);
  showTools(step);
  showCells(step);
  showGutter(step, fault);
  showTrace(step, fault);
  senderForms($('sender'), page.spec, page.steps.at(-1), send);
  showPicture(step);
}

function listen() {
  box.oninput = () => {
    eventsChanged();
    clearTimeout(timer);
    timer = setTimeout(simulate, PAUSE);
  };
  addEventListener('resize', show);
  addEventListener('keydown', event => {
    const by = { ArrowRight: 1, ArrowLeft: -1 }[event.key], isWith = event.ctrlKey || event.altKey || event.metaKey;
    if (!by || isWith || openedTab() !== 'simulate' || event.target.matches('input, select, textarea, [role=tab], [role=separator]')) return;
    event.preventDefault();
    toStep(page.step + by);
  });
}

export function addSimulate() {
  addTab({ id: 'simulate', label: 'Simulate', show });
  on('answer', simulate);
  on('trace', show);
  listen();
  const clear = () => {
    setEvents('');
    simulate();
  };
  $('events-tools').append(button('Clear', clear), button('Save', () => download(`${page.name.replace(/\.rsml$/, '')}.events`, eventFile())));
  $('trace-tools').append(
    copyButton('Copy as Markdown', () => markdown(currentTraceTable())), copyButton('Copy as CSV', () => csv(currentTraceTable())));
}
