// Guards in short, for tables and diagrams that are read by people.

const OPPOSITE = { '=': '≠', '!=': '=', '<': '≥', '>': '≤', '<=': '>', '>=': '<' };
const SIGN = { '!=': '≠', '<=': '≤', '>=': '≥' };
const RELATION = / (=|!=|<=|>=|<|>) (?!.* (?:=|!=|<=|>=|<|>) )/;

// A phrase, or what it says where it is to be false. Paths go without the name of the top state.
function phraseText(phrase, isTrue) {
  if (!isTrue && /^(some|every|function) /.test(phrase)) return `not (${phraseText(phrase, true)})`;
  const bare = phrase.replace(/^(macro|function) /, '').replace(/\bin [^.\s]+\./, 'in ');
  const text = RELATION.test(bare) ? bare.replace(RELATION, (_, it) => ` ${isTrue ? SIGN[it] || it : OPPOSITE[it]} `) : bare;
  return isTrue || text !== bare || RELATION.test(bare) ? text : `not ${bare}`;
}

// The columns of a guard as texts, one for each; of `always` there are none.
export function columnsOf(guard) {
  if (!guard || !guard.length) return [];
  return guard[0].cells.map((_, k) => {
    const parts = guard.filter(row => row.cells[k] !== '.').map(row => phraseText(row.phrase, row.cells[k] === 'T'));
    return parts.join(' and ') || 'always';
  });
}

// A guard in one line. A long one has only its first column, and says how many more there are.
export function guardText(guard, most = Infinity) {
  const columns = columnsOf(guard);
  if (columns.length < 2) return columns[0] || 'always';
  const whole = columns.map(it => it.includes(' and ') ? `(${it})` : it).join(' or ');
  if (whole.length <= most) return whole;
  const first = columns[0].length > most ? `${columns[0].slice(0, most)}…` : columns[0];
  return `${first}, or ${columns.length - 1} more ${columns.length === 2 ? 'column' : 'columns'}`;
}

// A guard as it is written, with its bars under one another.
export function guardTable(guard) {
  if (!guard) return 'always';
  const wide = Math.max(...guard.map(row => row.phrase.length));
  return guard.map(row => `${row.phrase.padEnd(wide)} | ${row.cells.join(' ')}`).join('\n');
}

export const referenceText = it => it.name + (it.index === null ? '' : `[${it.index}]`);

// `move Off -> On on Tick`, with the events that it raises.
export function transitionText(it) {
  const raised = it.raises.length ? ` raise ${it.raises.map(referenceText).join(', ')}` : '';
  return `${it.verb} ${it.source}${it.target ? ` -> ${it.target.join('.')}` : ''} on ${referenceText(it.event)}${raised}`;
}
