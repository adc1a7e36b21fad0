// reading.mjs PAGE.html: each line that the program of a page writes on examples/ and tests/ is read, in both forms of the head lines; each
// run is followed, and the states that are worked out here agree with each transition that is taken; and what mends does so.
import { execFileSync } from 'node:child_process';
import { readFileSync } from 'node:fs';
import { join } from 'node:path';
import { families, readAnswer } from '../src/answer.mjs';
import { nameMend, rowMend } from '../src/mends.mjs';
import { EVENTS, SPEC, textOf } from '../src/page.mjs';
import { runProgram } from '../src/program.mjs';
import { structure } from '../src/structure.mjs';
import { eventLines, readTrace, stepsOf, traceTable } from '../src/trace.mjs';
import { check, finish, partOf, same } from './checks.mjs';

const module = new WebAssembly.Module(partOf(readFileSync(process.argv[2], 'utf8'), 'module'));
const cases = JSON.parse(execFileSync('python3', [join(import.meta.dirname, 'cases.py')], { maxBuffer: 1 << 30 }));
const run = async (words, files) => {
  const got = await runProgram(module, words, files);
  return { status: got.status, text: textOf(got.output) };
};
const counts = { texts: 0, findings: 0, faults: 0, notes: 0, tables: 0, rounds: 0, takes: 0, mends: 0 };

// How many comment lines what was read stands for. Before the lines of a world stands one with `where`.
function linesOf(answer) {
  const own = it => 1 + it.hints.length + (it.source ? it.source.length : 0) + (it.chain ? it.chain.length : 0)
    + (it.meet ? it.meet.length + it.chains.reduce((sum, chain) => sum + 1 + chain.steps.length, 0) : 0)
    + (it.members ? (it.world.length ? 1 : 0) + it.world.length + it.mends.length + it.members.reduce((sum, member) => sum + 1 + member.rows.length + (member.holds ? 1 : 0), 0) : 0);
  return [...answer.faults, ...answer.findings, ...answer.notes].reduce((sum, it) => sum + own(it), answer.others.length);
}

// The other form: with `error: ` at each head, or without.
function otherForm(text, answer) {
  const heads = new Set([...answer.faults, ...answer.findings].flatMap(it => [`# ${SPEC}:${it.line}:${it.column}: ${it.said}`, `# ${SPEC}:${it.line}:${it.column}: error: ${it.said}`]));
  return text.split('\n').map(line => !heads.has(line) ? line : line.includes(': error: ') ? line.replace(': error: ', ': ') : line.replace(/^(# \S+:\d+:\d+: )/, '$1error: ')).join('\n');
}

async function readText(name, bytes) {
  const { status, text } = await run(['explain', SPEC], { [SPEC]: bytes });
  if (status > 2) return null;
  counts.texts++;
  const answer = readAnswer(text, status, SPEC), comments = text.split('\n').filter(line => line.startsWith('# '));
  same(linesOf(answer), comments.length, `the comment lines of ${name}`);
  same(readAnswer(otherForm(text, answer), status, SPEC), answer, `both forms of ${name}`);
  same(answer.findings.length, answer.refused, `the findings of ${name}`);
  check(status !== 2 || (answer.fault && answer.faults.length), `a fault of ${name}`);
  const groups = answer.findings.filter(it => it.members);
  same(answer.worlds.length, groups.length, `the worlds of ${name}`);
  for (const it of groups) {
    check(it.members.every(member => member.rows.length ? member.holds : /^always|holds?$/.test(member.holds)), `the tables of ${it.said} of ${name}`);
    counts.tables += it.members.length;
  }
  same(families(answer.findings).flat().length, answer.findings.length, `the families of ${name}`);
  counts.findings += answer.findings.length;
  counts.faults += answer.faults.length;
  counts.notes += answer.notes.length;
  if (status !== 2) {
    try { structure(textOf(bytes)); } catch (error) { check(false, `the structure of ${name}: ${error.message}`); }
  }
  return answer;
}

const put = (text, { from, to, by }) => text.slice(0, from) + by + text.slice(to);

async function tryMends(name, text, answer) {
  for (const it of answer.findings.filter(other => other.members)) for (const mend of it.mends) {
    const after = await run(['explain', SPEC], { [SPEC]: put(text, rowMend(text, mend)) }), again = readAnswer(after.text, after.status, SPEC);
    check(after.status < 2 && !again.findings.some(other => other.group === it.group && other.event === it.event), `the row ${mend.row} in ${name}`);
    counts.mends++;
  }
  for (const it of answer.faults.slice(0, 1)) {
    const mend = nameMend(text, it);
    if (!mend) continue;
    const after = await run(['explain', SPEC], { [SPEC]: put(text, mend) }), again = readAnswer(after.text, after.status, SPEC);
    check(!again.faults.some(other => other.line === it.line && other.column === it.column && other.said === it.said), `the name ${mend.by} in ${name}`);
    counts.mends++;
  }
}

async function follow(name, text, events) {
  const { status, text: written } = await run(['simulate', SPEC, EVENTS], { [SPEC]: text, [EVENTS]: events });
  if (status !== 0 && status !== 3) return;
  const spec = structure(textOf(text)), lines = eventLines(textOf(events)), trace = readTrace(written), steps = stepsOf(spec, trace, lines);
  const count = pattern => (written.match(pattern) || []).length;
  same([trace.events.length, steps.length - 1, steps.flatMap(it => it.takes).length, steps.flatMap(it => it.sends).length],
    [count(/^event /gm), count(/^ {2}round /gm), count(/^ {4}take /gm), count(/^ {4}send /gm)], `the trace of ${name}`);
  same(status === 0 ? trace.end : trace.fault !== '', status === 0 ? trace.events.length : true, `the end of the trace of ${name}`);
  const wrong = steps.find(it => it.wrong);
  check(!wrong, `the states of ${name}: ${wrong && wrong.wrong}`);
  same(traceTable(trace, steps, lines).rows.length, trace.events.length, `the table of the trace of ${name}`);
  counts.rounds += steps.length - 1;
  counts.takes += count(/^ {4}take /gm);
}

// With no memory left the program says so, and writes nothing.
async function runWithoutMemory() {
  const { exports: it } = await WebAssembly.instantiate(module, {});
  const put = text => {
    const bytes = Buffer.from(text), at = it.room(BigInt(bytes.length + 1));
    new Uint8Array(it.memory.buffer, Number(at), bytes.length).set(bytes);
    return [at, BigInt(bytes.length)];
  };
  for (const word of ['rsml', 'check', SPEC]) it.word(...put(word));
  it.file(...put(SPEC), ...put('specification A; state A;'));
  for (let power = 31n; power >= 4n;) if (!it.room(1n << power)) power--;
  same([it.run(), Number(it.output_size())], [7, 0], 'a run without memory');
}
await runWithoutMemory();

const seen = new Set();
for (const it of cases) {
  const [spec, events] = it.words.slice(1), command = it.words[0];
  if (!['check', 'explain', 'simulate'].includes(command) || !it.files[spec]) continue;
  const bytes = Buffer.from(it.files[spec], 'base64'), key = it.files[spec];
  if (!seen.has(key)) {
    seen.add(key);
    const answer = await readText(it.of, bytes);
    if (answer && it.of.startsWith('examples/')) await tryMends(it.of, textOf(bytes), answer);
  }
  if (command === 'simulate' && it.files[events]) await follow(it.of, bytes, Buffer.from(it.files[events], 'base64'));
}
finish('reading', ` (${Object.entries(counts).map(([name, n]) => `${n} ${name}`).join(', ')})`);
