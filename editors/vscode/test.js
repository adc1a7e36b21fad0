// Tests of the extension with a stand-in for the editor: node test.js PROGRAM. The last line is `N answers right, M wrong`.
'use strict';
const { execFileSync } = require('child_process');
const fs = require('fs');
const Module = require('module');
const os = require('os');
const path = require('path');

const program = process.argv[2];
const examples = path.join(__dirname, '..', '..', 'examples');
let right = 0;
let wrong = 0;
function same(what, found, wanted) {
  if (JSON.stringify(found) === JSON.stringify(wanted)) right += 1;
  else {
    wrong += 1;
    console.log(`${what}: ${JSON.stringify(found)}, wanted ${JSON.stringify(wanted)}`);
  }
}

// What the extension uses of the editor.
class Position {
  constructor(line, character) { Object.assign(this, { line, character }); }
  translate(lines, characters) { return new Position(this.line + lines, this.character + characters); }
}
class Range {
  constructor(start, end) { Object.assign(this, { start, end }); }
  intersection(other) { return this.start.line <= other.end.line && other.start.line <= this.end.line ? this : undefined; }
}
class Document {
  constructor(name, text) { Object.assign(this, { uri: name, languageId: 'rsml', version: 1, text }); }
  get lines() { return this.text.split('\n'); }
  get lineCount() { return this.lines.length; }
  getText() { return this.text; }
  lineAt(line) { return { text: this.lines[line] }; }
  offsetAt(at) { return this.lines.slice(0, at.line).reduce((sum, line) => sum + line.length + 1, 0) + at.character; }
  positionAt(offset) { const before = this.text.slice(0, offset).split('\n'); return new Position(before.length - 1, before[before.length - 1].length); }
  getWordRangeAtPosition(at) {
    const word = /^[\p{L}\d_]+/u.exec(this.lines[at.line].slice(at.character));
    return word ? new Range(at, at.translate(0, word[0].length)) : undefined;
  }
}
const handlers = {};
const told = new Map();
const shown = [];
let setting = program;
const handler = name => act => { handlers[name] = act; return { dispose() {} }; };
const vscode = {
  Position,
  Range,
  Location: class { constructor(uri, range) { Object.assign(this, { uri, range }); } },
  Diagnostic: class { constructor(range, message, severity) { Object.assign(this, { range, message, severity }); } },
  DiagnosticRelatedInformation: class { constructor(location, message) { Object.assign(this, { location, message }); } },
  DiagnosticSeverity: { Error: 0, Information: 2 },
  CodeAction: class { constructor(title) { this.title = title; } },
  CodeActionKind: { QuickFix: 'quickfix' },
  WorkspaceEdit: class {
    insert(uri, at, text) { this.change = { start: at, end: at, text }; }
    replace(uri, range, text) { this.change = { ...range, text }; }
  },
  window: { showErrorMessage: text => shown.push(text) },
  workspace: {
    getConfiguration: () => ({ get: () => setting }),
    onDidOpenTextDocument: handler('open'),
    onDidChangeTextDocument: handler('change'),
    onDidCloseTextDocument: handler('close'),
    textDocuments: [],
  },
  languages: {
    createDiagnosticCollection: () => ({ set: (uri, marks) => told.set(uri, marks), delete: uri => told.delete(uri) }),
    registerCodeActionsProvider: (_, provider) => { handlers.actions = provider; },
  },
};
const load = Module._load;
Module._load = (name, ...rest) => (name === 'vscode' ? vscode : load(name, ...rest));
const { entriesOf, mendsOf, rowEdit } = require('./places');
const { activate } = require('./extension');

const until = async is => { for (let turn = 0; turn < 1200 && !is(); turn += 1) await new Promise(done => setTimeout(done, 50)); };
const example = name => fs.readFileSync(path.join(examples, name), 'utf8');
const brief = marks => (marks || []).map(it => [it.range.start.line + 1, it.range.start.character + 1, it.severity, it.message.split('\n')[0], it.relatedInformation.length]);
const actions = (document, mark) => handlers.actions.provideCodeActions(document, mark.range);
const applied = (document, { start, end, text }) => document.text.slice(0, document.offsetAt(start)) + text + document.text.slice(document.offsetAt(end));
async function marksOf(name, text) {
  const document = new Document(name, text);
  told.delete(name);
  handlers.open(document);
  await until(() => told.has(name));
  return { document, marks: told.get(name) };
}
function verdict(text) {
  const folder = fs.mkdtempSync(path.join(os.tmpdir(), 'rsml-'));
  fs.writeFileSync(path.join(folder, 'it.rsml'), text);
  try {
    return execFileSync(program, ['check', 'it.rsml'], { cwd: folder, encoding: 'utf8' }).trim().split('\n').pop();
  } catch (error) {
    return error.stdout.trim().split('\n').pop();
  } finally {
    fs.rmSync(folder, { recursive: true });
  }
}

function testPlaces() {
  const finding = ['two transitions are enabled in A on E', 'where', 'A 3 move X -> Y', 'A 4 stay X'];
  const lines = word => `refused 1\n# a b.rsml:3:5: ${word}${finding[0]}\n#   where\n# a b.rsml:3:5: ${finding[2]}\n# a b.rsml:7:5: ${finding[3]}\n# a b.rsml:1:2: note: n\n#   x\n`;
  for (const word of ['', 'error: ']) {
    const entries = entriesOf(lines(word), 'a b.rsml');
    same('entries', entries.map(it => [it.line, it.column, it.said, it.isNote, it.members.length]), [[3, 5, finding[0], false, 2], [1, 2, 'n', true, 0]]);
  }
  same('a fault and what it means', mendsOf(entriesOf('fault S2 A\n# a:1:2: `A` is not declared\n#   did you mean `B`?\n', 'a')[0]), [{ name: 'B' }]);
  same('a row in a line', rowEdit('move A -> B on E when { X = Y | T; };', 0, 'Z = W | F'), { offset: 35, text: 'Z = W | F; ' });
  same('a row in a table', rowEdit('stay A # when { }\n  on E when {\n    X = Yes | T F; # |\n  };', 0, 'Z = W | F F'), { offset: 55, text: '    Z = W   | F F;\n' });
  same('a row, and no table', rowEdit('stay A on E when always;', 0, 'Z = W | F'), null);
}

async function testEditor() {
  activate({ subscriptions: [] });
  const { document, marks } = await marksOf('alerter', example('alerter.rsml'));
  same('findings', brief(marks), [
    [40, 3, 0, 'two transitions are enabled in Alerter.Alerting on Tick', 2],
    [54, 3, 0, 'no transition is enabled in Alerter.Held on Tick', 4],
  ]);
  const mends = actions(document, marks[0]);
  same('their mends', mends.map(it => it.title), [
    'Add the row Cancelled = Yes | F to the table at 45:3',
    'Add the row Selected = Far | . F to the table at 40:3',
  ]);
  same('what is left with each', mends.map(it => verdict(applied(document, it.edit.change))), ['refused 1', 'refused 1']);

  const typing = await marksOf('typing', example('alerter_mended.rsml').replace('Selected = Captured', 'Selected = Captred'));
  same('a fault', brief(typing.marks).length, 1);
  const [word] = actions(typing.document, typing.marks[0]);
  same('its mend', [word.title, verdict(applied(typing.document, word.edit.change))], ['Write Captured', 'certified']);
  typing.document.text = applied(typing.document, word.edit.change);
  typing.document.version = 2;
  handlers.change({ document: typing.document });
  await until(() => told.get('typing').length === 0);
  same('nothing is left', brief(told.get('typing')), []);
  handlers.close(typing.document);
  same('a closed document', told.has('typing'), false);

  const wide = 'specification L;\nevent \u{1D400}\u{1D401}; receive B () raise Tikk;\nstate L;';
  same('a place behind wide characters', brief((await marksOf('wide', wide)).marks).map(it => it.slice(0, 2)), [[2, wide.indexOf('Tikk') - 16]]);
  const unseen = await marksOf('unseen', example('guide/16_unseen.rsml'));
  same('notes', [unseen.marks.length > 0, unseen.marks.every(it => it.severity === 2)], [true, true]);

  setting = path.join(__dirname, 'none');
  told.delete('none');
  await marksOf('none', 'specification L;');
  same('no program', [told.get('none').length, shown.length, /no answer/.test(shown[0])], [0, 1, true]);
}

testPlaces();
testEditor().then(() => {
  console.log(`${right} answers right, ${wrong} wrong`);
  process.exit(wrong ? 1 : 0);
});
