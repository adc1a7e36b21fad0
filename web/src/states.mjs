// The tab of the states: their picture with what was found in it, the same as a list, and as a text for Mermaid.
import { $, button, copyButton, make } from './elements.mjs';
import { goTo } from './editor.mjs';
import { readLabel } from './answer.mjs';
import { isDrawn } from './cards.mjs';
import { guardTable, transitionText } from './guards.mjs';
import { activeIn, firstChildren, instancesOf } from './instances.mjs';
import { mermaid } from './mermaid.mjs';
import { on, page } from './page.mjs';
import { arrowKey, noMarks, picture, placePicture } from './picture.mjs';
import { addTab, openedTab, refreshTab } from './tabs.mjs';

let zoom = 0, scale = 1;

// Buttons for the size of a picture, which `set` is told: 0 is as large as fits.
export function zoomButtons(set, get) {
  const by = factor => () => set(Math.min(3, Math.max(0.2, get() * factor)));
  return make('span', { class: 'group', role: 'group', 'aria-label': 'Size of the picture' },
    button('−', by(0.8), { 'aria-label': 'Smaller' }), button('Fit', () => set(0)), button('+', by(1.25), { 'aria-label': 'Larger' }));
}

// A choice of the element that is shown, for each array of states.
export function elementChoices(spec, redraw) {
  const found = [];
  (function walk(state, path) {
    for (const child of state.children) {
      const place = `${path}.${child.name}`, at = Math.min(page.shown.get(place) || 1, child.size);
      if (child.size > 1) found.push(make('label', {}, `${child.name} `, make('select', {
        onchange: event => {
          page.shown.set(place, +event.target.value);
          redraw();
        },
      }, instancesOf(child).map((_, k) => make('option', { value: k + 1, selected: at === k + 1 }, `${k + 1} of ${child.size}`)))));
      walk(child, child.size ? `${place}[${at}]` : place);
    }
  })(spec.top, spec.top.name);
  return found;
}

// Shows the elements of arrays that a path goes through.
export function reveal(path) {
  for (const it of path.matchAll(/\[(\d+)\]/g)) page.shown.set(path.slice(0, it.index), +it[1]);
}

function markTaken(marks, said) {
  const it = readLabel(said);
  if (!it) return;
  if (it.verb === 'move') marks.taken.add(arrowKey(it.component, it.source, it.target[0])); else marks.stays.add(`${it.component}.${it.source}`);
}

// What a finding shows in the picture: its group, the states of its world, the transitions of its chains.
export function marksOf(spec, findings, chosen) {
  const marks = noMarks();
  for (const it of chosen ? [chosen] : findings) if (it.members) marks.found.set(it.group, it.said);
  if (!chosen) return marks;
  if (!chosen.members) {
    const steps = chosen.kind === 'loop' ? chosen.chain : [...chosen.meet, ...chosen.chains.flatMap(it => it.steps)];
    steps.forEach(it => markTaken(marks, it.said));
    return marks;
  }
  const children = firstChildren(spec);
  for (const row of chosen.whole) {
    const it = /^in (.*)\.([^.]+)$/.exec(row);
    if (it && children.has(it[1])) children.set(it[1], it[2]);
  }
  marks.active = activeIn(spec, children);
  if (chosen.kind === 'two') chosen.members.forEach(it => markTaken(marks, it.said));
  return marks;
}

function nameOf(it) {
  if (it.members) return `${it.kind === 'none' ? 'gap' : 'contradiction'}: ${it.group} on ${it.event}`;
  return it.kind === 'loop' ? `loop: ${it.event}` : `clash: ${it.one}, ${it.two} after ${it.after}`;
}

// The states and their transitions as nested lists, for those who do not see the picture.
function stateList(state, marks, path) {
  const signs = [marks.found.has(path) && 'finding', marks.active.has(path) && 'active'].filter(Boolean);
  const place = (words, line) => button(words, () => goTo(line), { class: 'place' });
  const pathOf = child => {
    const inside = `${path}.${child.name}`;
    return child.size ? `${inside}[${page.shown.get(inside) || 1}]` : inside;
  };
  const transition = it => make('li', {}, place(transitionText(it), it.line), make('pre', {}, guardTable(it.guard)));
  return make('li', {}, place(state.name + (state.size ? ` [1 to ${state.size}]` : ''), state.line),
    { one: ' one of:', all: ' all of:' }[state.kind], signs.length ? make('b', {}, ` ${signs.join(', ')}`) : null,
    state.children.length > 0 && make('ul', {}, state.children.map(child => stateList(child, marks, pathOf(child)))),
    state.transitions.length > 0 && make('details', {},
      make('summary', {}, `Transitions of ${state.name}`), make('ol', {}, state.transitions.map(transition))));
}

const LEGEND = '! a finding · ● active in its world · thick arrows: enabled together, or of its chain · ↻ a stay of these · dashed: side by side';

// A choice of the finding that is shown.
function findingChoice(findings) {
  const choose = event => {
    page.finding = findings[event.target.value] || null;
    if (page.finding && page.finding.group) reveal(page.finding.group);
    show();
  };
  return make('label', {}, 'Finding ', make('select', { onchange: choose }, make('option', { value: '' }, `all ${findings.length}`),
    findings.map((it, k) => make('option', { value: k, selected: it === page.finding }, nameOf(it)))));
}

function show() {
  if (openedTab() !== 'states') return;
  const { spec } = page, tools = $('states-tools'), host = $('states-picture');
  if (!spec) {
    tools.replaceChildren();
    host.replaceChildren(make('p', { class: 'empty' }, 'The text does not read as a specification yet.'));
    $('states-more').replaceChildren();
    return;
  }
  const findings = page.answer ? page.answer.findings.filter(isDrawn) : [];
  // After a change of the text the same finding is looked for.
  if (page.finding && !findings.includes(page.finding)) page.finding = findings.find(it => nameOf(it) === nameOf(page.finding)) || null;
  const marks = marksOf(spec, findings, page.finding);
  const set = value => {
    zoom = value;
    show();
  };
  const choice = findings.length ? [findingChoice(findings)] : [];
  tools.replaceChildren(zoomButtons(set, () => zoom || scale), ...choice, ...elementChoices(spec, show), copyButton('Copy as Mermaid', () => mermaid(spec)));
  const said = page.finding ? `The states, with ${nameOf(page.finding)}.` : `The states of ${spec.name}.`;
  scale = placePicture(host, picture(spec, page.shown, marks, 'states', `${said} They follow as a list.`), zoom);
  const list = make('ul', {}, stateList(spec.top, marks, spec.top.name)), wasOpen = Boolean($('states-more').querySelector('details.list[open]'));
  $('states-more').replaceChildren(make('p', {}, LEGEND),
    make('details', { class: 'list', open: wasOpen }, make('summary', {}, 'The states as a list'), list));
}

export function addStates() {
  addTab({ id: 'states', label: 'States', show });
  on('answer', () => refreshTab('states'));
  on('finding', () => { if (page.finding && page.finding.group) reveal(page.finding.group); });
  addEventListener('resize', () => refreshTab('states'));
}
