// What the tests share: they count what holds, and tell what does not.
import { readFileSync, readdirSync, statSync } from 'node:fs';
import { join, relative } from 'node:path';
import { gunzipSync } from 'node:zlib';

export const TOP = join(import.meta.dirname, '..', '..');
let right = 0, wrong = 0;

export function check(holds, said) {
  if (holds) right++;
  else {
    wrong++;
    console.log(`wrong: ${said}`);
  }
  return holds;
}

export function same(got, wanted, said) {
  const [a, b] = [got, wanted].map(it => JSON.stringify(it));
  return check(a === b, `${said}: ${String(a).slice(0, 300)}, wanted ${String(b).slice(0, 300)}`);
}

export function finish(name, more = '') {
  console.log(`${name}: ${right} right, ${wrong} wrong${more}`);
  process.exitCode = wrong || !right ? 1 : 0;
}

// The texts of examples/: their names, and their event files where there are any.
export function examples() {
  const found = [];
  (function walk(folder) {
    for (const name of readdirSync(folder).sort()) {
      const path = join(folder, name);
      if (statSync(path).isDirectory()) walk(path);
      else if (name.endsWith('.rsml')) {
        let events = null;
        try { events = readFileSync(path.replace(/\.rsml$/, '.events'), 'utf8'); } catch { /* it has none */ }
        found.push({ name: relative(join(TOP, 'examples'), path), path, text: readFileSync(path, 'utf8'), events });
      }
    }
  })(join(TOP, 'examples'));
  return found;
}

// The part of a page with this id, unpacked.
export function partOf(page, id) {
  const it = new RegExp(`<script id="${id}" type="application/octet-stream">([^<]*)</script>`).exec(page);
  return gunzipSync(Buffer.from(it[1], 'base64'));
}
