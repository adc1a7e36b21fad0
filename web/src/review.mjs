// The tab with all of it on paper: contents, verdict, checksums, findings, picture, matrix, requirements, trace, report and text.
import { $, button, make, tableElement } from './elements.mjs';
import { cards, isDrawn } from './cards.mjs';
import { matrix } from './matrix.mjs';
import { SPEC, eventFile, on, page, specFile, textOf } from './page.mjs';
import { picture } from './picture.mjs';
import { requirements, requirementTables } from './requirements.mjs';
import { sha256 } from './sha256.mjs';
import { currentTraceTable } from './simulate.mjs';
import { marksOf } from './states.mjs';
import { addTab, openTab, refreshTab } from './tabs.mjs';
import { CERTIFIED, LIMIT, verdictOf } from './verdict.mjs';

const pre = text => make('pre', { tabindex: 0 }, text);

function numbered(text) {
  const lines = text.replace(/\n$/, '').split('\n'), wide = String(lines.length).length;
  return lines.map((line, k) => `${String(k + 1).padStart(wide)}  ${line}`).join('\n');
}

function sumTable() {
  const { got, trace, traceGot } = page, rows = [];
  const add = (name, content) => {
    const bytes = typeof content === 'string' ? new TextEncoder().encode(content) : content;
    rows.push([name, bytes.length.toLocaleString('en'), sha256(bytes)]);
  };
  add(`Specification ${page.name}`, specFile());
  if (got && got.output) add('What explain writes of it', got.output);
  if (trace) add('Event file', eventFile());
  if (trace && traceGot.output) add('What simulate writes', traceGot.output);
  rows.push(['Module of the program', page.data.module.size.toLocaleString('en'), page.moduleSum]);
  return tableElement({ title: 'Checksums', head: ['What', 'Bytes', 'SHA-256'], rows }, { class: 'plain sums' });
}

function verdictParts() {
  const { answer } = page, verdict = verdictOf(page.got, answer), now = new Date().toISOString().slice(0, 16).replace('T', ' ');
  return [
    make('p', {}, make('b', {}, `${verdict.head}. `), verdict.more),
    answer && answer.status === 0 ? make('p', {}, CERTIFIED) : '',
    make('p', {}, LIMIT), make('p', {}, page.data.claim), make('p', {}, `${page.version || page.data.about} · ${now} UTC`), sumTable(),
  ];
}

function statesParts() {
  const { answer, spec } = page, found = answer ? answer.findings.filter(isDrawn) : [];
  const svg = picture(spec, page.shown, marksOf(spec, found, null), 'paper', `The states of ${spec.name}`);
  return [make('div', { class: 'fitted' }, svg)];
}

// The sections, each with its title.
function sections() {
  const { answer, spec, got, trace } = page, found = [['Verdict', verdictParts()]];
  if (answer && answer.findings.length + answer.faults.length + answer.notes.length) found.push(['Findings', cards(answer, true)]);
  if (spec) {
    const traced = requirements(page.text, spec);
    found.push(['States', statesParts()], ['Matrix', matrix(spec).map(it => tableElement(it))]);
    if (traced.rows.length) found.push(['Requirements', requirementTables(traced).map(it => tableElement(it))]);
  }
  if (trace && trace.events.length) found.push(['Trace', [tableElement(currentTraceTable())]]);
  if (got && got.output) {
    const words = make('p', {}, `What “rsml explain ${SPEC}” writes, with status ${got.status}:`);
    found.push(['Report', [words, pre(textOf(got.output))]]);
  }
  found.push(['Text', [pre(numbered(page.text))]]);
  if (trace) found.push(['Event file', [pre(numbered(page.events))]]);
  return found;
}

// On paper there are no buttons: what acts is left out, and a place is a text. Headings are one level lower than beside it.
function putOnPaper(paper) {
  for (const it of paper.querySelectorAll('article > h3')) it.replaceWith(make('h4', {}, ...it.childNodes));
  for (const it of paper.querySelectorAll('.act, .picture')) it.remove();
  for (const it of paper.querySelectorAll('button')) it.replaceWith(make('span', { class: 'place' }, it.textContent));
}

function show() {
  if (!page.data) return;
  const paper = $('paper'), all = sections(), idOf = title => `paper-${title.toLowerCase().replace(/\W+/g, '-')}`;
  const link = title => make('a', {
    href: `#${idOf(title)}`,
    onclick: event => {
      event.preventDefault();
      $(idOf(title)).scrollIntoView();
    },
  }, title);
  paper.replaceChildren(
    make('h2', {}, `Review of ${(page.answer && page.answer.name) || page.name}`),
    make('nav', { 'aria-label': 'Contents' }, make('ol', {}, all.map(([title]) => make('li', {}, link(title))))),
    ...all.map(([title, parts]) => make('section', { id: idOf(title) }, make('h3', {}, title), parts)));
  putOnPaper(paper);
}

export function printReview() {
  openTab('review');
  print();
}

export function addReview() {
  addTab({ id: 'review', label: 'Review', show });
  $('review-tools').append(button('Print, or save as PDF', printReview, { class: 'act' }));
  // Who prints by the browser's menu gets the same.
  addEventListener('beforeprint', show);
  on('answer', () => refreshTab('review'));
  on('trace', () => refreshTab('review'));
}
