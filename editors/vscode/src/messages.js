// Messages as VS Code shows them.

import * as vscode from "vscode";

/** Returns the messages of a score; of one that is too long only that it is. */
export function diagnosticsOf(score) {
  if (score.isTooLong) return [new vscode.Diagnostic(new vscode.Range(0, 0, 0, 0), "a score of more than 1,000,000 bytes is not read here", vscode.DiagnosticSeverity.Information)];
  return score.findings().map((it) => diagnosticOf(score, it));
}

function diagnosticOf(score, { kind, code, text, help, begin, end }) {
  const [from, to] = [begin, end].map((it) => score.positionAt(it));
  const { Warning, Error } = vscode.DiagnosticSeverity;
  const words = help ? `${text}\n${help}` : text;
  const made = new vscode.Diagnostic(new vscode.Range(from.line, from.character, to.line, to.character), words, kind === "warning" ? Warning : Error);
  return Object.assign(made, { code, source: "gregorio-chant" });
}
