// The tabs for those who read: the matrix of states and events, and the table of requirements. Each table can be copied.
import { $, copyButton, make, tableElement } from './elements.mjs';
import { placeButton } from './cards.mjs';
import { matrix } from './matrix.mjs';
import { on, page } from './page.mjs';
import { requirements, requirementTables } from './requirements.mjs';
import { addTab, countAt, refreshTab } from './tabs.mjs';
import { csv, markdown } from './texts.mjs';

const HOW_TO_READ = 'What each state does on each event: its guard in short, behind the colon where it goes, or that it stays, and behind the stroke '
  + 'what it raises. A dash: it does not react. Paths go without the name of the top state. The transitions of the states around a state compete '
  + 'with its own and stand in the table of those.';
const UNREAD = () => make('p', { class: 'empty' }, 'The text does not read as a specification yet.');

function copies(tables) {
  const all = write => () => tables.map(it => `${it.title}\n\n${write(it)}`).join('\n');
  return make('div', { class: 'tools' },
    copyButton('Copy as Markdown', all(markdown)), copyButton('Copy as CSV', all(csv)));
}

function showMatrix() {
  const panel = $('matrix');
  if (!page.spec) {
    panel.replaceChildren(UNREAD());
    return;
  }
  const tables = matrix(page.spec);
  panel.replaceChildren(copies(tables),
    make('p', { class: 'hint' }, HOW_TO_READ), ...tables.map(it => wide(it.title, it)));
}

const HOW_TO_TRACE = 'A line “# R5: what is required” before the specification lists a requirement. A comment “# R5” before a declaration, a state or '
  + 'a transition says that this meets it, and so does what follows up to a blank line or the next comment; a comment behind one on its line '
  + 'speaks of that alone. What stands inside a state, a send or a function has the requirements of that where it names none itself.';

const placeOf = it => placeButton(it, `${it.line}:${it.column}`);
// A table that may be wider than the panel: it can be moved by keys.
const wide = (title, table) => make('div', { class: 'wide', tabindex: 0, role: 'group', 'aria-label': title }, tableElement(table));

// The cells of the table with buttons that lead to the text.
function withPlaces(table, found) {
  if (!found.rows.length) return table;
  const line = it => make('div', {}, placeOf(it), ` ${it.label.replace('->', '→')}`);
  const places = it => it.places.length ? it.places.map(line) : make('b', { class: 'lacking' }, 'nothing names it');
  return { ...table, rows: found.rows.map((it, k) => [it.id, table.rows[k][1], places(it)]) };
}

function showRequirements() {
  const panel = $('requirements');
  if (!page.spec) {
    panel.replaceChildren(UNREAD());
    return;
  }
  const found = requirements(page.text, page.spec), tables = requirementTables(found);
  const [main, ...others] = tables;
  panel.replaceChildren(copies(tables), make('p', { class: 'hint' }, HOW_TO_TRACE),
    found.rows.length ? wide(main.title, withPlaces(main, found)) : make('p', { class: 'empty' }, 'No comment names a requirement.'),
    ...others.map(it => tableElement({ ...it, rows: found.unnamed.map(other => [placeOf(other), other.label]) })));
}

export function addTables() {
  addTab({ id: 'matrix', label: 'Matrix', show: showMatrix });
  addTab({ id: 'requirements', label: 'Requirements', show: showRequirements });
  on('answer', () => {
    const { rows } = page.spec ? requirements(page.text, page.spec) : { rows: [] };
    countAt('requirements', rows.filter(it => !it.places.length).length, 'requirements that nothing names');
    refreshTab('matrix', 'requirements');
  });
}
