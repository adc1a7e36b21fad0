// Opens, drops, saves, and lays out. What a file holds is given to the program byte for byte until the text is changed here.
import { $, download, tell } from './elements.mjs';
import { run } from './engine.mjs';
import { isChanged, markSaved, put, setText } from './editor.mjs';
import { MOST_BYTES, SPEC, announce, page, specFile, textOf } from './page.mjs';
import { setEvents, simulate } from './scenario.mjs';
import { openTab } from './tabs.mjs';

// A longer file is not taken: the program would tell no more than that it is too long.
const MOST_OPENED = 16 * MOST_BYTES;

// What is to be said of the bytes of a file that the editor cannot show as they are.
export function noticeOf(bytes) {
  try {
    new TextDecoder('utf-8', { fatal: true }).decode(bytes);
  } catch {
    return 'The file is not UTF-8. The program was given its very bytes; here each byte that is none stands as �, and a change of the text makes '
      + 'these signs part of it.';
  }
  if (bytes.length > MOST_BYTES) return `The file has ${bytes.length.toLocaleString('en')} bytes, and a specification at most 1,048,576.`;
  if (bytes.includes(13)) return 'The file has carriage returns. The program was given its very bytes; once the text is changed here, its lines '
    + 'end with line feeds alone.';
  return '';
}

export const mayLeave = () => !isChanged() || confirm('The text was changed and not saved. Leave it?');

export async function openFiles(files) {
  for (const file of files) {
    if (file.size > MOST_OPENED) {
      tell(`${file.name} has ${file.size.toLocaleString('en')} bytes and is not opened here.`);
      continue;
    }
    const bytes = new Uint8Array(await file.arrayBuffer());
    if (/\.events$/i.test(file.name)) {
      setEvents(textOf(bytes), bytes);
      simulate();
      openTab('simulate');
      tell(`Opened the event file ${file.name}.`);
    } else if (mayLeave()) {
      page.notice = noticeOf(bytes);
      setEvents('');
      setText(textOf(bytes), file.name, bytes);
      tell(`Opened ${file.name}.${page.notice ? ` ${page.notice}` : ''}`);
    }
  }
}

function save() {
  download(/\.rsml$/.test(page.name) ? page.name : `${page.name}.rsml`, specFile());
  markSaved();
}

async function layOutText() {
  const text = page.text, got = await run(['format', SPEC], { [SPEC]: specFile() });
  if (text !== page.text) return;
  if (got.failed || got.status !== 0) {
    openTab('findings');
    return;
  }
  if (text.includes('#') && !confirm('format keeps no comments. Go on? Undo brings them back.')) return;
  put({ from: 0, to: text.length, by: textOf(got.output) });
}

export function listenForFiles() {
  $('open').onclick = () => $('file').click();
  $('file').onchange = async event => {
    await openFiles(event.target.files);
    event.target.value = '';
  };
  $('save').onclick = save;
  $('format').onclick = layOutText;
  addEventListener('dragover', event => {
    event.preventDefault();
    document.body.classList.add('dragged');
  });
  addEventListener('dragleave', () => document.body.classList.remove('dragged'));
  addEventListener('drop', event => {
    event.preventDefault();
    document.body.classList.remove('dragged');
    openFiles([...event.dataTransfer.files]);
  });
  addEventListener('beforeunload', event => { if (isChanged()) event.preventDefault(); });
}
