// The editor: a text area over a coloured copy of its text, with line numbers and marks where something was told.
import { $ } from './elements.mjs';
import { DECLARING, OTHER_WORDS, offsetOf, tokens } from './tokens.mjs';
import { announce, page } from './page.mjs';

const box = $('text');
// Longer texts are shown without colours.
const COLOURED = 300000;
const escaped = text => text.replace(/[&<>"]/g, it => `&#${it.charCodeAt(0)};`);

// What is marked at each line: `{ kind, columns, said }`.
function marks() {
  const found = new Map();
  const add = (it, kind) => {
    const mark = found.get(it.line) || { kind, columns: new Set(), said: [] };
    if (kind === 'bad') mark.kind = 'bad';
    mark.columns.add(it.column);
    mark.said.push(it.said);
    found.set(it.line, mark);
  };
  if (page.isStale || !page.answer) return found;
  for (const it of [...page.answer.faults, ...page.answer.findings]) add(it, 'bad');
  for (const it of page.answer.notes) add(it, 'note');
  return found;
}

function colourOf(token) {
  if (token.text === 'T' || token.text === 'F') return token.text;
  if (token.kind === 'name') return DECLARING.has(token.text) ? 'declaring' : OTHER_WORDS.has(token.text) ? 'word' : '';
  return { comment: 'comment', number: 'number', mark: 'mark' }[token.kind] || '';
}

// The lines of the coloured copy, as HTML.
function colouredLines(text, found) {
  const lines = [];
  let html = '', column = 1;
  const finish = () => {
    const mark = found.get(lines.length + 1), kind = [mark && mark.kind, here === lines.length + 1 && 'here'].filter(Boolean).join(' ');
    lines.push(`<span class="line ${kind}">${html || ' '}</span>`);
    html = '';
    column = 1;
  };
  for (const token of tokens(text)) {
    if (token.kind === 'space') {
      for (const it of token.text) if (it === '\n') finish(); else { html += it; column++; }
      continue;
    }
    const colour = colourOf(token), mark = found.get(lines.length + 1);
    const shown = colour ? `<span class="${colour}">${escaped(token.text)}</span>` : escaped(token.text);
    html += mark && mark.columns.has(column) ? `<u>${shown}</u>` : shown;
    column += [...token.text].length;
  }
  finish();
  return lines;
}

let here = 0;
export function paint() {
  const text = box.value, found = marks();
  $('paint').innerHTML = text.length > COLOURED ? escaped(text) : colouredLines(text, found).join('');
  let numbers = '', count = 1;
  for (let at = text.indexOf('\n'); at >= 0; at = text.indexOf('\n', at + 1)) count++;
  for (let k = 1; k <= count; k++) {
    const mark = found.get(k);
    numbers += mark ? `<span class="${mark.kind}" data-line="${k}" title="${escaped(mark.said.join('\n'))}">${k}</span>\n` : `${k}\n`;
  }
  $('gutter').innerHTML = numbers;
}

// Shows another text. `bytes` are those of its file.
export function setText(text, name, bytes = null) {
  box.value = text;
  page.name = name;
  page.bytes = bytes;
  page.saved = box.value;
  page.finding = null;
  page.shown.clear();
  $('filename').textContent = name;
  $('cursor').textContent = '';
  $('editor').scrollTop = 0;
  changed();
}

export const isChanged = () => box.value !== page.saved;
export function markSaved() { page.saved = box.value; }

// Puts in a change so that the browser can undo it.
export function put({ from, to, by }) {
  box.focus({ preventScroll: true });
  box.setSelectionRange(from, to);
  if (!document.execCommand('insertText', false, by)) {
    box.setRangeText(by, from, to, 'end');
    page.bytes = null;
    changed();
  }
}

// Goes to a place and selects the word there.
export function goTo(line, column = 1) {
  const from = offsetOf(box.value, line, column), [word] = tokens(box.value, from, 1);
  box.focus({ preventScroll: true });
  box.setSelectionRange(from, from + (word && word.kind !== 'space' ? word.text.length : 0));
  const editor = $('editor'), height = parseFloat(getComputedStyle(box).lineHeight), top = (line - 1) * height;
  if (top < editor.scrollTop + height || top > editor.scrollTop + editor.clientHeight - 3 * height) editor.scrollTop = top - editor.clientHeight / 3;
  here = line;
  paint();
  document.body.classList.add('at-text');
}

function changed() {
  page.text = box.value;
  page.isStale = true;
  here = 0;
  paint();
  announce('text');
}

function insert(text) { document.execCommand('insertText', false, text); }

box.oninput = () => {
  page.bytes = null;
  changed();
};

// A new line begins below the one before, two further in behind a brace; a closing brace goes two back.
box.onkeydown = event => {
  const { selectionStart: from, selectionEnd: to, value } = box;
  if (from !== to || event.ctrlKey || event.metaKey || event.isComposing) return;
  const line = value.slice(value.lastIndexOf('\n', from - 1) + 1, from);
  if (event.key === 'Enter') {
    event.preventDefault();
    insert(`\n${/^ */.exec(line)[0]}${/\{\s*$/.test(line) ? '  ' : ''}`);
  } else if (event.key === '}' && /^ {2,}$/.test(line)) {
    event.preventDefault();
    box.setSelectionRange(from - 2, from);
    insert('}');
  }
};

document.addEventListener('selectionchange', () => {
  if (document.activeElement !== box) return;
  const before = box.value.slice(0, box.selectionStart).split('\n');
  $('cursor').textContent = `line ${before.length}, column ${[...before.at(-1)].length + 1}`;
});

// F8 goes to the next place where something was told, with Shift to the last one.
addEventListener('keydown', event => {
  if (event.key !== 'F8' || !page.answer) return;
  event.preventDefault();
  const told = [...page.answer.faults, ...page.answer.findings, ...page.answer.notes].sort((a, b) => a.line - b.line || a.column - b.column);
  if (event.shiftKey) told.reverse();
  const line = here || box.value.slice(0, box.selectionStart).split('\n').length;
  const next = told.find(it => event.shiftKey ? it.line < line : it.line > line) || told[0];
  if (next) goTo(next.line, next.column);
});

$('gutter').onclick = event => {
  const { line } = event.target.dataset;
  if (!line) return;
  page.wanted = +line;
  announce('wanted');
};
