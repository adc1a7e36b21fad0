// Which requirements the text names, and where. An id is a word like R5, REQ-12 or SRS_4.2 in a comment.
//
// - A line `# R5: TEXT` before the specification's first word lists R5. Where ids are listed, only words with their letters are ids.
// - A comment on lines of its own names its ids for what stands behind it, up to a blank line or the next such comment.
// - A comment behind something, on the line where it begins or ends, names its ids for that alone.
// - What stands inside something has the ids of that, where it has none of its own.
import { placesIn, tokens } from './tokens.mjs';

const ID = /(?<![\p{L}\p{N}_-])([A-Z]{1,8}(?:[-_][A-Z]{1,8})*[-_]?)(\d+(?:\.\d+)*[a-z]?)(?![\p{L}\p{N}_])/gu;
const LISTED = /^#\s*([A-Z]{1,8}(?:[-_][A-Z]{1,8})*[-_]?\d+(?:\.\d+)*[a-z]?)\s*[:.]\s+(.*)$/;
const TRACED = new Set(['transition', 'case', 'macro', 'function', 'send', 'state', 'input', 'event', 'receive', 'constant', 'range', 'enumeration']);

// The ids that the comment at the head lists, with their texts; lines that are set in belong to the one before.
function listed(comments) {
  const found = new Map();
  let last = null;
  for (const it of comments) {
    const head = LISTED.exec(it.text), more = /^#\s{3,}(\S.*)$/.exec(it.text);
    if (head) found.set(last = head[1], head[2]);
    else if (last && more) found.set(last, `${found.get(last)} ${more[1]}`);
    else last = null;
  }
  return found;
}

function idsIn(text, letters) {
  return [...text.matchAll(ID)].filter(it => !letters.size || letters.has(it[1])).map(it => it[0]);
}

// All items with those inside them, in the order of the text.
function flat(items, outer = null) {
  return items.flatMap(it => [{ ...it, item: it, outer }, ...flat(it.inside, it)]);
}

// Returns the ids that each item names itself.
function ownIds(text, items, comments, letters) {
  const place = placesIn(text), own = new Map(items.map(it => [it.item, new Set()]));
  const isAlone = it => /^[ \t]*$/.test(text.slice(text.lastIndexOf('\n', it.at - 1) + 1, it.at));
  const starts = new Map(), ends = new Map();
  for (const it of items) {
    const from = place(it.from).line, to = place(it.to - 1).line;
    if (!starts.has(from)) starts.set(from, it);
    ends.set(to, it);
  }
  const lines = text.split('\n'), codeLine = k => k < lines.length && lines[k].trim() !== '' && !/^\s*#/.test(lines[k]);
  for (const comment of comments) {
    const ids = idsIn(comment.text, letters), line = place(comment.at).line;
    if (!ids.length) continue;
    if (!isAlone(comment)) {
      const it = starts.get(line) || ends.get(line);
      if (it) ids.forEach(id => own.get(it.item).add(id));
      continue;
    }
    // Over further comment lines of the same block, and then line by line.
    let at = line;
    while (/^\s*#/.test(lines[at] || '')) at++;
    const block = [];
    for (; codeLine(at); at++) if (starts.has(at + 1)) block.push(starts.get(at + 1));
    const first = block[0];
    for (const it of block) if (it === first || it.outer === first.outer) ids.forEach(id => own.get(it.item).add(id));
  }
  return own;
}

// Returns `rows`, one for each requirement, with `places`: what names it; and `unnamed`: the transitions and cases that name none.
export function requirements(text, spec) {
  const list = tokens(text), comments = list.filter(it => it.kind === 'comment');
  const head = list.find(it => it.kind !== 'space' && it.kind !== 'comment'), before = comments.filter(it => head && it.at < head.at);
  const texts = listed(before), letters = new Set([...texts.keys()].map(id => id.replace(/\d.*$/, '')));
  const items = flat(spec.items).filter(it => TRACED.has(it.kind));
  const own = ownIds(text, items, comments.filter(it => !before.includes(it)), letters);
  const places = new Map([...texts.keys()].map(id => [id, []])), whole = new Map();
  for (const it of items) {
    const ids = own.get(it.item).size ? own.get(it.item) : (it.outer && whole.get(it.outer)) || new Set();
    whole.set(it.item, ids);
    for (const id of own.get(it.item)) places.set(id, [...(places.get(id) || []), it.item]);
  }
  const unnamed = items.filter(it => ['transition', 'case'].includes(it.kind) && !whole.get(it.item).size).map(it => it.item);
  const traced = items.filter(it => ['transition', 'case'].includes(it.kind)).length;
  const number = id => id.replace(/\d+/g, it => it.padStart(8, '0'));
  const rows = [...places].map(([id, found]) => ({ id, text: texts.get(id) ?? null, places: found }))
    .sort((a, b) => number(a.id) < number(b.id) ? -1 : 1);
  return { rows, unnamed, traced, isListed: texts.size > 0 };
}

// The same as tables.
export function requirementTables({ rows, unnamed, traced, isListed }) {
  const where = it => `${it.line}:${it.column} ${it.label}`;
  const found = [{
    title: 'Requirements', head: ['Requirement', 'Text', 'Where'],
    rows: rows.map(it => [it.id, it.text ?? (isListed ? 'not listed at the head' : ''), it.places.map(where).join('\n') || 'nothing names it']),
  }];
  if (rows.length) found.push({
    title: `${unnamed.length} of ${traced} transitions and cases name no requirement`, head: ['Place', 'What'],
    rows: unnamed.map(it => [`${it.line}:${it.column}`, it.label]),
  });
  return found;
}
