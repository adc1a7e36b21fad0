// Small things for all that is shown: elements, texts with code in them, what is copied and what is saved.

export const $ = id => document.getElementById(id);

function filled(it, given, kids) {
  for (const [name, value] of Object.entries(given))
    if (name.startsWith('on')) it[name] = value;
    else if (value !== false && value !== null && value !== undefined) it.setAttribute(name, value === true ? '' : value);
  it.append(...kids.flat(Infinity).filter(kid => kid !== null && kid !== undefined && kid !== false));
  return it;
}

export const make = (tag, given = {}, ...kids) => filled(document.createElement(tag), given, kids);
export const draw = (tag, given = {}, ...kids) => filled(document.createElementNS('http://www.w3.org/2000/svg', tag), given, kids);

// Words with `code` in them.
export const inline = words => words.split('`').map((part, k) => k % 2 ? make('code', {}, part) : part);

export const button = (label, onclick, given = {}) => make('button', { type: 'button', onclick, ...given }, label);

// A table with a caption. Each cell is a text or elements; a text may have several lines.
export function tableElement(table, given = {}) {
  const isText = cell => !(cell instanceof Node || Array.isArray(cell));
  const lines = cell => isText(cell) ? String(cell).split('\n').flatMap((line, k) => k ? [make('br'), line] : [line]) : cell;
  const row = ([first, ...others]) => make('tr', {}, make('th', { scope: 'row' }, lines(first)), others.map(cell => make('td', {}, lines(cell))));
  return make('table', { class: 'plain', ...given },
    make('caption', {}, table.title),
    make('thead', {}, make('tr', {}, table.head.map(it => make('th', { scope: 'col' }, it)))),
    make('tbody', {}, table.rows.map(row)));
}

// Says something to those who hear the page and do not see it, and shows it for a while.
let timer;
export function tell(words) {
  $('told').textContent = words;
  clearTimeout(timer);
  timer = setTimeout(() => { $('told').textContent = ''; }, 6000);
}

// A button that copies what `text` gives. Where the browser refuses, the text is shown to be copied by hand.
export function copyButton(label, text) {
  return button(label, async () => {
    try {
      await navigator.clipboard.writeText(text());
      tell('Copied.');
    } catch {
      const box = make('textarea', { readonly: true, rows: 12, cols: 80, 'aria-label': 'Text to copy' }, text());
      const dialog = make('dialog', { class: 'copy' }, make('p', {}, 'The browser does not let a page copy here. Copy the text by hand:'), box,
        make('form', { method: 'dialog' }, make('button', {}, 'Close')));
      dialog.onclose = () => dialog.remove();
      document.body.append(dialog);
      dialog.showModal();
      box.select();
    }
  });
}

export function download(name, content, type = 'text/plain') {
  const link = make('a', { href: URL.createObjectURL(new Blob([content], { type })), download: name });
  link.click();
  setTimeout(() => URL.revokeObjectURL(link.href), 1000);
}
