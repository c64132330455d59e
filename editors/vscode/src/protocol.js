// What the protocol of language servers says, as VS Code has it, and the other way round.

import * as vscode from "vscode";

export const position = ({ line, character }) => ({ line, character });
export const range = ({ start, end }) => ({ start: position(start), end: position(end) });
export const identifier = (document) => ({ uri: document.uri.toString() });

const rangeOf = ({ start, end }) => new vscode.Range(start.line, start.character, end.line, end.character);

export const editsOf = (edits = []) => edits.map((it) => new vscode.TextEdit(rangeOf(it.range), it.newText));

export function diagnosticOf({ range, message, severity, code, source }) {
  return Object.assign(new vscode.Diagnostic(rangeOf(range), message, severity - 1), { code, source });
}

export function completionOf({ label, kind, detail, textEdit }) {
  const made = new vscode.CompletionItem(label, kind - 1);
  return Object.assign(made, { detail, insertText: textEdit.newText, range: rangeOf(textEdit.range) });
}

export function hoverOf({ contents }) {
  return new vscode.Hover(new vscode.MarkdownString(contents.value));
}

/** Returns an action, with those of the `diagnostics` that it is about. */
export function actionOf({ title, kind, edit, isPreferred, diagnostics: about = [] }, document, diagnostics) {
  const made = new vscode.CodeAction(title, vscode.CodeActionKind.Empty.append(kind));
  made.edit = new vscode.WorkspaceEdit();
  made.edit.set(document.uri, editsOf(edit.changes[document.uri.toString()]));
  made.isPreferred = isPreferred;
  const told = about.map(diagnosticOf);
  made.diagnostics = diagnostics.filter((one) => told.some((other) => other.code === one.code && other.range.isEqual(one.range)));
  return made;
}
