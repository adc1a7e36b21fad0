// Findings, faults and notes as cards: the world, the tables of the members, the chains, and what mends.
import { button, inline, make } from './elements.mjs';
import { goTo, put } from './editor.mjs';
import { families, readLabel, spans } from './answer.mjs';
import { guardTable } from './guards.mjs';
import { components } from './instances.mjs';
import { nameMend, rowMend } from './mends.mjs';
import { announce, page } from './page.mjs';
import { openTab } from './tabs.mjs';
import { plural } from './texts.mjs';

const KINDS = { none: 'gap', two: 'contradiction', loop: 'loop', clash: 'clash', fault: 'fault', note: 'note' };

export const placeButton = (it, label = `line ${it.line}`) => button(label, () => goTo(it.line, it.column), { class: 'place' });

// A phrase. A macro has its table behind it, to be opened.
function phraseCell(phrase, value) {
  const name = /\bmacro ([\p{XID_Start}_][\p{XID_Continue}]*)/u.exec(phrase), macro = name && page.spec && page.spec.macros[name[1]];
  const shown = !macro ? phrase : make('details', { class: 'macro' },
    make('summary', {}, phrase), make('pre', {}, guardTable(macro.rows)), placeButton({ line: macro.line, column: 1 }));
  return make('th', { scope: 'row' }, shown, value !== null && make('small', {}, ` is ${value}`));
}

// The value that the world has for what a phrase of one cell speaks of, where the phrase does not say it itself.
function valueIn(phrase, finding) {
  const it = /^((?:previous )?[\p{XID_Start}_][\p{XID_Continue}]*)(\[[^\]]*\])?\s*(?:=|!=|<=|>=|<|>)/u.exec(phrase);
  if (!it) return null;
  const index = it[2] === '[this]' ? (/\[\d+\]/.exec(finding.group) || [''])[0] : it[2] || '';
  const cell = finding.world.find(([name]) => name === it[1] + index);
  return cell && !phrase.endsWith(` = ${cell[1]}`) ? cell[1] : null;
}

// What one cell of a table asks for: as words, as a sign, and how it looks.
function cellOf(cell) {
  if (cell === '.') return { said: 'asks for nothing', sign: '·', kind: 'dot' };
  if (cell.endsWith('!')) return { said: `asks for ${cell[0]}, fails`, sign: [cell[0], make('sup', {}, '✗')], kind: 'fails' };
  return { said: `asks for ${cell}, met`, sign: cell, kind: 'met' };
}

// A member's table. A cell that fails has a cross, and a column that holds has a tick: no colour says anything alone.
function memberTable(member, finding) {
  if (!member.rows.length) return make('p', { class: 'always' }, member.holds || 'always');
  const columns = member.rows[0].cells.map((_, k) => k), holds = k => member.rows.every(row => !row.cells[k].endsWith('!'));
  const cell = (it, k) => {
    const { said, sign, kind } = cellOf(it);
    return make('td', { class: holds(k) ? `${kind} holds` : kind, title: said },
      make('span', { 'aria-hidden': 'true' }, sign), make('span', { class: 'heard' }, said));
  };
  const heads = columns.map(k => make('th', { scope: 'col' },
    holds(k) ? '✓' : String(k + 1), make('span', { class: 'heard' }, holds(k) ? ' holds' : ' does not hold')));
  return make('table', { class: 'andor' },
    make('caption', { class: 'heard' }, `The table of ${member.said}`),
    make('thead', {}, make('tr', {}, make('td'), heads)),
    make('tbody', {}, member.rows.map(row => make('tr', {}, phraseCell(row.phrase, valueIn(row.phrase, finding)), row.cells.map(cell)))));
}

function memberBox(member, finding) {
  const isEnabled = member.holds !== '' && member.holds !== 'no column holds', label = readLabel(member.said);
  const name = label ? [`${label.verb} `, make('b', {}, label.source, label.target && ` → ${label.target.join('.')}`)] : make('b', {}, member.said);
  return make('section', { class: `member ${isEnabled ? 'enabled' : ''}` },
    make('h4', {}, make('span', { title: member.said }, name), placeButton(member),
      make('span', { class: 'state' }, isEnabled ? '✓ enabled' : 'not enabled')),
    memberTable(member, finding));
}

function worldLine(finding) {
  if (!finding.world.length) return make('p', { class: 'dim' }, 'in every world');
  const all = page.spec ? components(page.spec) : new Map();
  return make('ul', { class: 'world', 'aria-label': 'In this world' },
    spans(finding.world).map(([name, value, first]) => make('li', { class: all.has(first) ? 'state' : '' }, `${name} = `, make('b', {}, value))));
}

function mendBox(finding) {
  if (!finding.mends.length) return null;
  // While the text is changed, the places are those of the text before.
  const add = mend => {
    const change = page.isStale ? null : rowMend(page.text, mend);
    if (change) put(change);
  };
  return make('section', { class: 'mends' },
    make('h4', {}, finding.mends.length > 1 ? 'Either of these rows would mend it. Which one is meant?' : 'This row would mend it:'),
    make('ul', {}, finding.mends.map(mend => make('li', {},
      make('code', {}, mend.row), ' in the table at ', placeButton(mend, `${mend.line}:${mend.column}`), ' ',
      button('Add this row', () => add(mend), { class: 'act' })))));
}

const steps = list => make('ol', { class: 'chain' }, list.map(it => make('li', {}, it.said, ' ', placeButton(it))));

function titleOf(it) {
  if (!it.members) return it.said;
  const count = it.count === 'no' ? 'No' : it.count[0].toUpperCase() + it.count.slice(1), are = it.what.endsWith('s') ? 'are' : 'is';
  return [`${count} ${it.what} ${are} enabled in `, make('code', {}, it.group), it.event && [' on ', make('code', {}, it.event)]];
}

function bodyOf(it) {
  if (it.members) return [worldLine(it), make('div', { class: 'members' }, it.members.map(member => memberBox(member, it))), mendBox(it)];
  if (it.kind === 'loop') return steps(it.chain);
  return [
    make('p', {}, 'Both would be reacted to in one round:'), steps(it.meet),
    it.chains.map(chain => [make('p', {}, 'A chain to ', make('code', {}, chain.to), ':'), steps(chain.steps)]),
  ];
}

const hintsOf = it => it.hints.map(hint => make('p', { class: 'hint' }, inline(hint)));

// Whether the picture of the states can show it: findings of sends and functions have no place there.
export const isDrawn = it => !it.members || !/^(send|function) /.test(it.group);

function findingCard(it) {
  const showIt = () => {
    page.finding = it;
    announce('finding');
    openTab('states');
  };
  return make('article', { class: `card bad ${it.kind}`, 'data-line': it.line },
    make('h3', {}, make('span', { class: 'kind' }, KINDS[it.kind]), make('span', {}, titleOf(it)), placeButton(it),
      page.spec && isDrawn(it) && button('picture', showIt, { class: 'place picture', title: 'Show it in the picture of the states' })),
    bodyOf(it), hintsOf(it));
}

// A fault or a note, at its line of the source.
function toldCard(it) {
  const mend = it.kind === 'fault' && nameMend(page.text, it), isCaret = line => /^\s*\^+\s*$/.test(line);
  return make('article', { class: `card ${it.kind}`, 'data-line': it.line },
    make('h3', {}, make('span', { class: 'kind' }, KINDS[it.kind]), make('span', {}, inline(it.said)), placeButton(it)),
    it.source.length ? make('pre', { class: 'source' }, it.source.map(line => isCaret(line) ? make('b', {}, `${line}\n`) : `${line}\n`)) : null,
    hintsOf(it),
    mend && button(['Write ', make('code', {}, mend.by)], () => page.isStale || put(mend), { class: 'act' }));
}

// The same finding in other elements of an array.
function otherElements(others, isPaper) {
  const named = others.slice(0, 6).map(it => it.group).join(', ') + (others.length > 6 ? ', …' : '');
  return make('details', { class: 'others', open: isPaper },
    make('summary', {}, `The same in ${plural(others.length, 'more element')}: ${named}`), isPaper ? null : others.map(findingCard));
}

// All that was told, as elements; on paper everything is open.
export function cards(answer, isPaper = false) {
  const shown = answer.faults.map(toldCard);
  for (const [first, ...others] of families(answer.findings)) {
    const card = findingCard(first);
    if (others.length) card.append(otherElements(others, isPaper));
    shown.push(card);
  }
  if (answer.notes.length) shown.push(make('details', { class: 'notes', open: isPaper || answer.notes.length < 4 },
    make('summary', {}, plural(answer.notes.length, 'note')), answer.notes.map(toldCard)));
  return [...shown, ...answer.others.map(it => make('p', { class: 'hint' }, it))];
}
