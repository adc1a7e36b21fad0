// The verdict above the tabs, and the tab of the findings.
import { $, button, inline, make } from './elements.mjs';
import { cards } from './cards.mjs';
import { announce, on, page } from './page.mjs';
import { addTab, countAt, openTab, refreshTab } from './tabs.mjs';
import { CERTIFIED, LIMIT, verdictOf } from './verdict.mjs';

function showVerdict() {
  const { kind, mark, head, more } = verdictOf(page.got, page.answer), box = $('verdict'), { answer } = page;
  box.className = kind;
  box.replaceChildren(make('span', { class: 'mark', 'aria-hidden': 'true' }, mark),
    make('div', {}, make('h2', {}, inline(head)), make('p', {}, inline(more))));
  if (page.got && page.got.failed) box.append(button('Run it again', () => announce('text')));
  const hasFaults = answer && answer.faults.length > 0, count = answer ? (hasFaults ? answer.faults : answer.findings).length : 0;
  countAt('findings', count, hasFaults ? 'faults' : 'findings', 'bad');
}

function chips(answer) {
  const said = 'the longest chain of events that this one can set off', most = 12;
  const length = it => it.length === 'endless' ? make('b', {}, 'without end') : ['of ', make('b', {}, it.length)];
  const chain = it => make('li', { title: said }, `${it.event}: chain `, length(it));
  return make('ul', { class: 'chips', 'aria-label': 'Groups and chains of events' },
    make('li', {}, make('b', {}, answer.groups), ' groups'), answer.chains.slice(0, most).map(chain),
    answer.chains.length > most && make('li', {}, `and ${answer.chains.length - most} more`));
}

function show() {
  const { answer, got } = page, panel = $('findings');
  if (!answer) {
    panel.replaceChildren(make('p', { class: 'empty' }, got && got.failed ? `There is no answer: ${got.failed}.` : 'The text is being read.'));
    return;
  }
  panel.replaceChildren();
  if (page.notice) panel.append(make('p', { class: 'notice' }, page.notice));
  if (answer.chains.length) panel.append(chips(answer));
  panel.append(...cards(answer));
  if (answer.status === 0) panel.append(make('div', { class: 'empty' }, make('h3', {}, 'Nothing was found'),
    make('p', {}, CERTIFIED, ' ', button('Simulate', () => openTab('simulate'), { class: 'act' })), make('p', {}, LIMIT)));
}

// Opens the card of a line.
function showWanted() {
  openTab('findings');
  const card = $('findings').querySelector(`[data-line="${page.wanted}"]`);
  if (!card) return;
  for (let it = card.parentElement.closest('details'); it; it = it.parentElement.closest('details')) it.open = true;
  card.scrollIntoView({ block: 'start' });
  card.querySelector('button').focus({ preventScroll: true });
}

export function addFindings() {
  addTab({ id: 'findings', label: 'Findings', show });
  on('answer', () => {
    showVerdict();
    refreshTab('findings');
  });
  on('wanted', showWanted);
}
