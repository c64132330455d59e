// Formatting without Python's server: the canonical form, if it says all that the score says.

import * as vscode from "vscode";

const COMMENTS = new Set(["comment", "headerComment"]);
// The codes of warnings about what the canonical form leaves out or ends otherwise.
const CHANGING = new Set(["W2", "W3", "W4", "W5", "W9"]);

/** Returns why the canonical form of a score would lose something: a sentence, or nothing if it would not. */
function lossOf(score) {
  if (score.isTooLong) return "it is too long";
  const message = score.compiled.messages.find((it) => it.kind !== "warning" || CHANGING.has(it.code));
  if (message) return `line ${message.line} has ${message.code}, ${message.text}`;
  const comment = [...score.tree].find((it) => COMMENTS.has(it.kind));
  return comment && `line ${score.rangeOf(comment.begin, comment.end).start.line + 1} has a comment, which the canonical form has not`;
}

/** Returns the edit that makes a score canonical; none if something would be lost, which it tells. */
export function canonicalEdits(score) {
  const loss = lossOf(score);
  if (loss !== undefined) {
    vscode.window.showWarningMessage(`The score stays as it is: ${loss}`);
    return [];
  }
  const { canonical } = score.compiled;
  const end = score.positionAt(score.text.length);
  return canonical === score.text ? [] : [new vscode.TextEdit(new vscode.Range(0, 0, end.line, end.character), canonical)];
}
