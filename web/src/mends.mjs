// Changes of a text that mend what was told of it: `{ from, to, by }`, or null where there is nothing to change.
import { isCode, offsetOf, tokens } from './tokens.mjs';

// Puts a row into the table of the member at this place, in the layout of the rows that are there.
export function rowMend(text, mend) {
  const list = tokens(text, offsetOf(text, mend.line, mend.column)).filter(isCode);
  const when = list.findIndex(it => it.text === 'when');
  if (when < 0 || !list[when + 1] || list[when + 1].text !== '{') return null;
  const open = list[when + 1].at, close = list.slice(when).find(it => it.text === '}');
  if (!close) return null;
  const inside = text.slice(open + 1, close.at), [phrase, cells] = mend.row.split(/\s*\|\s*/);
  if (!inside.includes('\n')) {
    const to = close.at, from = open + 1 + inside.trimEnd().length;
    return { from, to, by: ` ${mend.row}; ` };
  }
  const bars = inside.split('\n').filter(line => line.includes('|')), indent = /^\s*/.exec(bars[0] || '  ')[0];
  const bar = Math.max(0, ...bars.map(line => line.indexOf('|') - indent.length - 1));
  const from = text.lastIndexOf('\n', close.at) + 1;
  return { from, to: from, by: `${indent}${phrase.padEnd(bar)} | ${cells};\n` };
}

// Writes the name that a hint proposes in place of the one at the fault.
export function nameMend(text, fault) {
  const hint = fault.hints.map(it => /^did you mean `(.*)`\?$/.exec(it)).find(Boolean);
  if (!hint) return null;
  const from = offsetOf(text, fault.line, fault.column), [word] = tokens(text, from, 1);
  return word && word.kind === 'name' ? { from, to: from + word.text.length, by: hint[1] } : null;
}
