// What this page is, what is proved and what is not, and by which checksums a reader knows the program again.
import { $, make } from './elements.mjs';
import { run } from './engine.mjs';
import { page, textOf } from './page.mjs';

// A program that has the command tells its version and the sum of its definitions.
export async function askVersion() {
  const got = await run(['version'], {});
  if (!got.failed && got.status === 0) page.version = textOf(got.output).trim().split('\n').join(', ');
}

const WHAT = 'This file holds the program rsml, compiled to WebAssembly, with the examples. Nothing is loaded and nothing is sent: the browser is '
  + 'told to refuse every connection of this page, and the page stores nothing. Keep the file and open it anywhere.';
const PROVED = 'The program is written in Rattle, which is Rust with contracts, and each of its functions is proved to meet its contract: what it '
  + 'certifies is complete and free of contradiction, what it refuses is not, and the trace that it writes is the only run. docs/proved.md of '
  + 'the repository has all of it.';
const NOT_PROVED = 'How the code was compiled to WebAssembly, the C code that gives it a heap and files, the browser, and all that this page makes of '
  + 'what the program writes: tables, pictures, steps, the matrix, the table of requirements. The lines behind “#” are tested and not proved. '
  + 'Under Report stands what the program writes, as it is.';

export function fillAbout() {
  const { data } = page, line = (name, value) => [make('dt', {}, name), make('dd', {}, value)];
  $('about-text').replaceChildren(
    make('p', {}, WHAT), make('h3', {}, 'What is proved'), make('p', {}, PROVED), make('p', {}, data.claim),
    make('h3', {}, 'What is not'), make('p', {}, NOT_PROVED), make('h3', {}, 'By what it is known'),
    make('dl', {}, page.version ? line('Program', page.version) : line('Program', data.about), line('Toolchain', data.toolchain),
      line('Object file', data.object), line('Module', `${data.module.size.toLocaleString('en')} bytes, SHA-256 ${page.moduleSum}`)));
}
