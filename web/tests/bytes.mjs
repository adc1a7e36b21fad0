#!/usr/bin/env node
// bytes.mjs MODULE.wasm [PROGRAM]: whether the module writes what PROGRAM writes, byte for byte and with the same status, on all texts of
// examples/ and tests/. Without PROGRAM it is compared with the answers that are stored in tests/. The last line says on how many.
import { execFileSync, spawnSync } from 'node:child_process';
import { mkdtempSync, readFileSync, rmSync, writeFileSync } from 'node:fs';
import { tmpdir } from 'node:os';
import { join, resolve } from 'node:path';
import { runProgram } from '../src/program.mjs';

const [modulePath, programPath] = process.argv.slice(2);
const module = new WebAssembly.Module(readFileSync(modulePath));
const runs = JSON.parse(execFileSync('python3', [join(import.meta.dirname, 'cases.py')], { maxBuffer: 1 << 30 }));
const bytesOf = text => Buffer.from(text, 'base64');

function native(words, files) {
  const folder = mkdtempSync(join(tmpdir(), 'bytes-'));
  for (const [name, bytes] of Object.entries(files)) writeFileSync(join(folder, name), bytes);
  const got = spawnSync(resolve(programPath), words, { cwd: folder, maxBuffer: 1 << 30 });
  rmSync(folder, { recursive: true });
  return { status: got.status, output: got.stdout };
}

let same = 0, different = 0;
const texts = new Set();
for (const it of runs) {
  const files = Object.fromEntries(Object.entries(it.files).map(([name, text]) => [name, bytesOf(text)]));
  const wanted = programPath ? native(it.words, files) : it.answer && { status: it.status, output: bytesOf(it.answer) };
  if (!wanted) continue;
  const got = await runProgram(module, it.words, files).catch(error => ({ status: String(error), output: Buffer.alloc(0) }));
  const isStored = !it.answer || (it.status === got.status && bytesOf(it.answer).equals(Buffer.from(got.output)));
  if (got.status === wanted.status && wanted.output.equals(Buffer.from(got.output)) && isStored) same++;
  else {
    different++;
    console.log(`${it.of}: \`${it.words.join(' ')}\` has status ${got.status} and ${got.output.length} bytes, wanted ${wanted.status} and ${wanted.output.length}`);
  }
  Object.values(it.files).forEach(text => texts.add(text));
}
if (different) console.log(`${different} runs differ.`);
else console.log(`${same} runs over ${texts.size} texts of examples/ and tests/ wrote the same bytes with the same status.`);
process.exitCode = different || !same ? 1 : 0;
