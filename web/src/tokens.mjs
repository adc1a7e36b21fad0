// Splits a text into the tokens of the notation, with the white space and the comments between them.

const TOKEN =
  /([ \t\r\n]+)|(#[^\n]*)|([\p{XID_Start}_][\p{XID_Continue}]*)|([0-9]+)|(->|\.\.|!=|<=|>=|[;{},.=<>[\]():+|-])|(.)/suy;
const KINDS = ['space', 'comment', 'name', 'number', 'mark', 'other'];

export const DECLARING = new Set(
  'array bus constant enumeration event function input macro range receive send specification state'.split(' '));
export const OTHER_WORDS = new Set(
  'all always default every in move of on one previous quiet raise some stay this when'.split(' '));

// Returns the tokens from the offset `from` on, at most so many. Each has its text, its offset `at` and its kind.
export function tokens(text, from = 0, most = Infinity) {
  const found = [];
  TOKEN.lastIndex = from;
  while (TOKEN.lastIndex < text.length && found.length < most) {
    const at = TOKEN.lastIndex, it = TOKEN.exec(text);
    found.push({ text: it[0], at, kind: KINDS[it.slice(1).findIndex(part => part !== undefined)] });
  }
  return found;
}

export const isCode = token => token.kind !== 'space' && token.kind !== 'comment';

// Returns a function that gives the line and the column of an offset, both from 1; columns count characters.
export function placesIn(text) {
  const starts = [0];
  for (let at = text.indexOf('\n'); at >= 0; at = text.indexOf('\n', at + 1)) starts.push(at + 1);
  return offset => {
    let low = 0, high = starts.length;
    while (high - low > 1) {
      const middle = (low + high) >> 1;
      if (starts[middle] <= offset) low = middle; else high = middle;
    }
    return { line: low + 1, column: [...text.slice(starts[low], offset)].length + 1 };
  };
}

// Returns the offset of a line and a column.
export function offsetOf(text, line, column) {
  let at = 0;
  for (let k = 1; k < line; k++) {
    const next = text.indexOf('\n', at);
    if (next < 0) return text.length;
    at = next + 1;
  }
  for (let k = 1; k < column && at < text.length; k++) at += text.codePointAt(at) > 0xffff ? 2 : 1;
  return at;
}
