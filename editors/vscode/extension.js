// Tells the faults, findings and notes of a specification while it is written, and offers the edits that would mend them. All of it is
// what `rsml explain` writes of the text in the editor.
'use strict';
const { execFile } = require('child_process');
const fs = require('fs');
const os = require('os');
const path = require('path');
const vscode = require('vscode');
const { entriesOf, mendsOf, rowEdit } = require('./places');

const PAUSE = 300;

// The program that the setting names; without that the file rsml of the repository or release that this folder lies in; without that
// rsml on the path.
function program() {
  const named = vscode.workspace.getConfiguration('rsml').get('program');
  const beside = path.join(fs.realpathSync(__dirname), '..', '..', 'rsml');
  return named || (fs.existsSync(beside) ? beside : 'rsml');
}

// Explains a text. Gives the process, so that it can be stopped, and calls back with the status, what was written, and what went wrong.
function explain(text, done) {
  const room = fs.mkdtempSync(path.join(os.tmpdir(), 'rsml-'));
  fs.writeFileSync(path.join(room, 'text.rsml'), text);
  // (the repository's ./rsml is not to build for an hour here)
  const env = { RSML_PROGRAM: 'released', ...process.env };
  return execFile(program(), ['explain', 'text.rsml'], { cwd: room, env, maxBuffer: 1 << 28 }, (error, output, said) => {
    fs.rmSync(room, { recursive: true, force: true });
    if (!error || !error.killed) done(error ? error.code : 0, output, said.trim() || (error ? error.message : ''));
  });
}

function activate(context) {
  const told = vscode.languages.createDiagnosticCollection('rsml');
  // Of each document: what was told, each with its entry; and what waits or runs.
  const marks = new Map();
  const under = new Map();
  let complaint = '';

  // (columns of the program are characters, those of the editor 16-bit units)
  const position = (document, place) => {
    const line = Math.min(place.line, document.lineCount) - 1;
    return new vscode.Position(line, [...document.lineAt(line).text].slice(0, place.column - 1).join('').length);
  };
  const range = (document, place) => {
    const at = position(document, place);
    return document.getWordRangeAtPosition(at) || new vscode.Range(at, at.translate(0, 1));
  };

  const mark = (document, entry) => {
    const severity = entry.isNote ? vscode.DiagnosticSeverity.Information : vscode.DiagnosticSeverity.Error;
    const text = entry.members.length ? entry.said + entry.text : entry.said;
    const it = new vscode.Diagnostic(range(document, entry), text, severity);
    it.source = 'rsml';
    it.relatedInformation = entry.members.map(
      member => new vscode.DiagnosticRelatedInformation(new vscode.Location(document.uri, range(document, member)), member.said),
    );
    return it;
  };

  const stop = document => {
    const { timer, child } = under.get(document.uri.toString()) || {};
    clearTimeout(timer);
    if (child) child.kill();
    under.delete(document.uri.toString());
  };
  const look = document => {
    if (document.languageId !== 'rsml') return;
    stop(document);
    const name = document.uri.toString();
    const { version } = document;
    const child = explain(document.getText(), (status, output, said) => {
      if (document.version !== version || document.isClosed) return;
      under.delete(name);
      const isAnswer = status === 0 || status === 1 || status === 2;
      const found = isAnswer ? entriesOf(output, 'text.rsml').map(entry => ({ entry, mark: mark(document, entry) })) : [];
      marks.set(name, found);
      told.set(document.uri, found.map(it => it.mark));
      const trouble = isAnswer ? '' : `rsml has no answer (status ${status}): ${said || output.trim()}`;
      if (trouble && trouble !== complaint) vscode.window.showErrorMessage(trouble);
      complaint = trouble;
    });
    under.set(name, { child });
  };
  const lookLater = document => {
    if (document.languageId !== 'rsml') return;
    stop(document);
    under.set(document.uri.toString(), { timer: setTimeout(() => look(document), PAUSE) });
  };
  const forget = document => {
    stop(document);
    marks.delete(document.uri.toString());
    told.delete(document.uri);
  };

  const action = (document, found, mend) => {
    const title = mend.name ? `Write ${mend.name}` : `Add the row ${mend.row} to the table at ${mend.line}:${mend.column}`;
    const it = new vscode.CodeAction(title, vscode.CodeActionKind.QuickFix);
    it.diagnostics = [found.mark];
    it.edit = new vscode.WorkspaceEdit();
    if (mend.name) {
      it.edit.replace(document.uri, found.mark.range, mend.name);
      return it;
    }
    const edit = rowEdit(document.getText(), document.offsetAt(position(document, mend)), mend.row);
    if (!edit) return null;
    it.edit.insert(document.uri, document.positionAt(edit.offset), edit.text);
    return it;
  };
  const provider = {
    provideCodeActions: (document, asked) =>
      (marks.get(document.uri.toString()) || [])
        .filter(found => found.mark.range.intersection(asked))
        .flatMap(found => mendsOf(found.entry).map(mend => action(document, found, mend)))
        .filter(it => it),
  };

  context.subscriptions.push(
    told,
    vscode.workspace.onDidOpenTextDocument(look),
    vscode.workspace.onDidChangeTextDocument(event => lookLater(event.document)),
    vscode.workspace.onDidCloseTextDocument(forget),
    vscode.languages.registerCodeActionsProvider('rsml', provider, { providedCodeActionKinds: [vscode.CodeActionKind.QuickFix] }),
    { dispose: () => under.forEach(({ timer, child }) => (clearTimeout(timer), child && child.kill())) },
  );
  vscode.workspace.textDocuments.forEach(look);
}

module.exports = { activate };
