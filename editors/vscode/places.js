// What the lines of `rsml explain` tell an editor: entries at places, and the edits that would mend them. Nothing here needs an editor.
'use strict';

const MEMBER = /^case \d+( |$)|^\S+ \d+ (move|stay) /;

// The entries of what `explain` wrote of the file of this name. An entry is a place with what is said there, whether that is a note, the
// members that are told behind it, and all lines behind it as text. A place with the word `error: ` or `note: ` begins an entry; of
// programs older than the word `error: `, each place does but for those of members.
function entriesOf(output, file) {
  const here = `# ${file}:`;
  const lines = output.split('\n').filter(line => line.startsWith('# '));
  const placeOf = line => (line.startsWith(here) ? /^(\d+):(\d+): (error: |note: )?(.*)$/.exec(line.slice(here.length)) : null);
  const hasWord = lines.some(line => (placeOf(line) || [])[3] === 'error: ');
  const entries = [];
  for (const line of lines) {
    const found = placeOf(line);
    const last = entries[entries.length - 1];
    if (!found) {
      if (last) last.text += `\n${line.slice(2)}`;
      continue;
    }
    const place = { line: Number(found[1]), column: Number(found[2]), said: found[4] };
    if (found[3] || !(hasWord || MEMBER.test(place.said))) {
      entries.push({ ...place, isNote: found[3] === 'note: ', members: [], text: '' });
    } else if (last) {
      last.members.push(place);
      last.text += `\n${place.line}:${place.column} ${place.said}`;
    }
  }
  return entries;
}

// What would mend an entry: a name in place of the one that stands there, or one more row in the table of a transition or case.
function mendsOf(entry) {
  const names = [...entry.text.matchAll(/did you mean `([^`]+)`\?/g)].map(found => ({ name: found[1] }));
  const rows = [...entry.text.matchAll(/the row `([^`]+)`, added to the table at (\d+):(\d+), would mend this/g)];
  return [...names, ...rows.map(found => ({ row: found[1], line: Number(found[2]), column: Number(found[3]) }))];
}

// Where a row goes into the first table behind an offset of a text, and what is to be put there: null where there is no table.
function rowEdit(text, offset, row) {
  // (comments may hold any word and any brace)
  const code = text.replace(/#[^\n]*/g, comment => ' '.repeat(comment.length));
  const when = /\bwhen\s*\{/g;
  when.lastIndex = offset;
  const found = when.exec(code);
  const shut = found ? code.indexOf('}', when.lastIndex) : -1;
  if (shut < 0) return null;
  const inside = code.slice(when.lastIndex, shut);
  const first = inside.split('\n').slice(1).find(line => line.includes('|'));
  if (first === undefined) return { offset: shut, text: `${/\s$/.test(inside) ? '' : ' '}${row}; ` };
  const [phrase, cells] = row.split(/ *\| */);
  const indent = /^\s*/.exec(first)[0];
  const width = first.indexOf('|') - indent.length - 1;
  return { offset: text.lastIndexOf('\n', shut) + 1, text: `${indent}${phrase.padEnd(width)} | ${cells};\n` };
}

module.exports = { entriesOf, mendsOf, rowEdit };
