// The parts of the page that need no browser and no program, on small texts.
import { createHash } from 'node:crypto';
import { check, examples, finish, same } from './checks.mjs';
import { guardText } from '../src/guards.mjs';
import { activeIn, components, firstCells, firstChildren } from '../src/instances.mjs';
import { layOut } from '../src/layout.mjs';
import { matrix } from '../src/matrix.mjs';
import { nameMend, rowMend } from '../src/mends.mjs';
import { mermaid } from '../src/mermaid.mjs';
import { requirements, requirementTables } from '../src/requirements.mjs';
import { sha256 } from '../src/sha256.mjs';
import { structure } from '../src/structure.mjs';
import { csv, markdown } from '../src/texts.mjs';
import { isCode, offsetOf, placesIn, tokens } from '../src/tokens.mjs';
import { eventFault, eventLines } from '../src/trace.mjs';

// Tokens: together they are the text, and places and offsets invert each other.
for (const { name, text } of examples()) {
  same(tokens(text).map(it => it.text).join(''), text, `the tokens of ${name}`);
  const place = placesIn(text);
  check(tokens(text).filter(isCode).every(it => offsetOf(text, place(it.at).line, place(it.at).column) === it.at), `the places of ${name}`);
}
same(tokens('a..b # c\n->😀').map(it => it.kind), ['name', 'mark', 'name', 'space', 'comment', 'space', 'mark', 'other'], 'kinds');
same(placesIn('é😀x\ny')(4), { line: 1, column: 4 }, 'a column counts characters');

// Structure and instances.
const cabin = examples().find(it => it.name === 'guide/cabin.rsml').text, spec = structure(cabin);
same([...components(spec).keys()], ['Cabin.Door[1]', 'Cabin.Door[1].Working', 'Cabin.Door[2]', 'Cabin.Door[2].Working', 'Cabin.Lamp'], 'components');
same([...firstCells(spec)], [['Lever[1]', 'Locked'], ['Lever[2]', 'Locked'], ['Sensor[1]', 'Good'], ['Sensor[2]', 'Good'], ['Inside', '100'], ['Outside', '100']], 'cells');
same([...activeIn(spec, firstChildren(spec).set('Cabin.Door[1]', 'Failed'))], ['Cabin', 'Cabin.Door[1]', 'Cabin.Door[1].Failed', 'Cabin.Door[2]', 'Cabin.Door[2].Working',
  'Cabin.Door[2].Working.Shut', 'Cabin.Lamp', 'Cabin.Lamp.Green'], 'active states');

// Guards.
const rows = (...lines) => lines.map(it => ({ phrase: it.split(' | ')[0], cells: it.split(' | ')[1].split(' ') }));
same(guardText(null), 'always', 'always');
same(guardText(rows('A = B | T F', 'macro M | F .')), '(A = B and not M) or A ≠ B', 'two columns');
same(guardText(rows('Speed - previous Speed >= 5 | F')), 'Speed - previous Speed < 5', 'a comparison turned round');
same(guardText(rows('some k of 3 : X[k] = Y | F', 'in Top.A.B | T')), 'not (some k of 3 : X[k] = Y) and in A.B', 'a quantifier, and a path');
same(guardText(rows('function F = X | F')), 'not (F = X)', 'a function');
same(guardText(rows('A = B | . .')), 'always or always', 'columns of dots');

// The matrix, and the text for Mermaid.
const lamp = matrix(spec).find(it => it.title === 'Cabin.Lamp');
same(lamp.head, ['Lamp', 'Changed'], 'the head of the matrix');
same(lamp.rows[0], ['Green (at first)', 'Told = Some_Open: → Red\nnot (Told = Some_Open): → Green'], 'a row of the matrix');
same(matrix(spec).find(it => it.title === 'Cabin.Door[1 to 2]').rows[0][1], 'Sensor[this] ≠ Good: → Failed / Changed', 'an array is told once');
const drawing = mermaid(spec);
check(drawing.startsWith('stateDiagram-v2\n  state "Cabin" as Cabin {\n'), 'the head for Mermaid');
check(drawing.includes('    --\n') && drawing.includes('[*] --> Cabin_Lamp_Green\n'), 'parallel states and defaults for Mermaid');
check(drawing.includes('Cabin_Door_Failed --> Cabin_Door_Working : Turned[this] [Sensor[this] = Good]\n'), 'a move for Mermaid');
same(drawing.split('{').length, drawing.split('}').length, 'braces for Mermaid');
for (const it of examples()) {
  const found = structure(it.text), lines = mermaid(found).trim().split('\n').slice(1), ids = lines.map(line => / as (\S+)/.exec(line)).filter(Boolean).map(match => match[1]);
  same(new Set(ids).size, ids.length, `the names for Mermaid of ${it.name} are different`);
  const targets = lines.map(line => /^\s*(\S+) --> (\S+)/.exec(line)).filter(Boolean).flatMap(match => match.slice(1)).filter(id => id !== '[*]');
  check(targets.every(id => ids.includes(id)), `the arrows for Mermaid of ${it.name} are between its states`);
}

// Requirements.
const traced = `# A lamp.
# R1: It is lit by the lever,
#     and only by it.
# R2: It is dark at first.
# R3: Nobody wrote this down.
specification Lamp;
event Tick;  # R2
receive Set () raise Tick;
# R1
state Lamp one {
  default Off;
  state Off;
  state On;
  # R2, R4
  move Off -> On on Tick when always;
  move On -> Off on Tick when always;

  stay Off on Tick when always;
  # Not UTF8 and no R9.
  stay On on Tick when always;  # R1
}
`;
const found = requirements(traced, structure(traced)), labels = id => found.rows.find(it => it.id === id).places.map(it => it.label);
same(found.rows.map(it => it.id), ['R1', 'R2', 'R3', 'R4', 'R9'], 'requirements');
same(found.rows[0].text, 'It is lit by the lever, and only by it.', 'the text of a requirement');
same(labels('R1'), ['state Lamp', 'Lamp 4 stay On'], 'where R1 is named');
same(labels('R2'), ['event Tick', 'Lamp 1 move Off -> On', 'Lamp 2 move On -> Off'], 'where R2 is named');
same(labels('R3'), [], 'what nothing names');
same(found.unnamed.map(it => it.label), [], 'what stands inside has the requirements of that');
const bare = traced.replace('# R1\nstate', 'state');
same(requirements(bare, structure(bare)).unnamed.map(it => it.label), ['Lamp 3 stay Off'], 'a blank line ends what a comment speaks of');
same(requirementTables(found)[0].rows[2], ['R3', 'Nobody wrote this down.', 'nothing names it'], 'the table of requirements');
const pump = examples().find(it => it.name === 'infusion_pump/infusion_pump.rsml').text;
same(requirements(pump, structure(pump)).rows.filter(it => !it.places.length).map(it => it.id), [], 'each requirement of the infusion pump is named');

// Tables as texts.
const table = { title: 'T', head: ['a', 'b'], rows: [['x|y', 'say "no",\nor not']] };
same(markdown(table), '| a | b |\n| --- | --- |\n| x\\|y | say "no",<br>or not |\n', 'Markdown');
same(csv(table), 'a,b\r\nx|y,"say ""no"",\nor not"\r\n', 'comma-separated values');

// Event lines and their faults.
same(eventLines('# one\n\n# two\nA X=1\nB\n').map(it => [it.line, it.words, it.remarks]), [[4, 'A X=1', ['two']], [5, 'B', []]], 'event lines');
same(eventFault(spec, { fault: 'fault line 1 E4' }, 'Air Inside=3').hint, 'Air has Inside=0..110 Outside=0..110, in this order', 'what a line wants');
same(eventFault(spec, { fault: 'fault line 1 E3' }, 'Crew Lever=Locked').hint, 'Crew has an index from 1 to 2', 'what an index wants');
same(eventFault(spec, { fault: '' }, ''), null, 'no fault');

// Mends.
const put = (text, { from, to, by }) => text.slice(0, from) + by + text.slice(to);
const one = 'x { move A -> B on E when { P = Q | T; }; }', many = 'move A -> B on E when {\n    P = Q    | T F;\n    Long = Q | . F;\n  };\n';
same(put(one, rowMend(one, { line: 1, column: 5, row: 'R = S | F' })), 'x { move A -> B on E when { P = Q | T; R = S | F; }; }', 'a row in a line');
same(put(many, rowMend(many, { line: 1, column: 1, row: 'R = S | . F' })), 'move A -> B on E when {\n    P = Q    | T F;\n    Long = Q | . F;\n    R = S    | . F;\n  };\n', 'a row below others');
same(rowMend('stay A on E when always;', { line: 1, column: 1, row: 'R = S | F' }), null, 'there is no table');
same(nameMend('in Upp', { line: 1, column: 4, hints: ['did you mean `Up`?'] }), { from: 3, to: 6, by: 'Up' }, 'a name');

// Checksums, as node works them out.
for (const size of [0, 1, 55, 56, 63, 64, 65, 119, 120, 1000, 70000]) {
  const bytes = Uint8Array.from({ length: size }, (_, k) => k * 7);
  same(sha256(bytes), createHash('sha256').update(bytes).digest('hex'), `the checksum of ${size} bytes`);
}

// The layout: children lie inside their state and apart from one another.
const measure = words => 7 * words.length;
for (const it of examples()) {
  const top = structure(it.text).top;
  let isRight = true;
  (function walk(box) {
    for (const child of box.children) {
      isRight &&= child.x >= 0 && child.y >= 0 && child.x + child.w <= box.w && child.y + child.h <= box.h;
      for (const other of box.children)
        if (other !== child) isRight &&= child.x + child.w <= other.x || other.x + other.w <= child.x || child.y + child.h <= other.y || other.y + other.h <= child.y;
      walk(child);
    }
    for (const arrow of box.arrows) isRight &&= [...(arrow.points || []), ...(arrow.loop ? [arrow.loop] : [])].flat().every(Number.isFinite);
  })(layOut(top, top.name, new Map(), measure));
  check(isRight, `the layout of ${it.name}`);
}
finish('units');
