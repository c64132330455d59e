"""Tries the mode for emacs: its colours, and with eglot the messages of a score, a repair,
formatting, the outline and completion."""
from __future__ import annotations

import json
import os
import shutil
import subprocess
import unittest
from pathlib import Path
from typing import Any

from pages import block, for_this_place
from support import FAULTY, InFolder

SCORE = "name: a: b;\n% b\n%%\n(c4) <i>K</i>$<(f.[x]|viS1|g) %c\ny(;) <sp>R/</sp>(::) a:(f)\n"
# The colours at places of this score, by line and column from 1.
FACES = {
    (1, 1): "variable-name",
    (1, 7): None,
    (2, 3): "comment",
    (3, 1): "preprocessor",
    (4, 2): "type",
    (4, 6): "keyword",
    (4, 9): None,
    (4, 15): "builtin",
    (4, 17): "constant",
    (4, 19): "preprocessor",
    (4, 23): "function-name",
    (4, 28): "constant",
    (4, 32): "comment",
    (5, 3): "keyword",
    (5, 10): "string",
    (5, 22): None,
    (5, 25): "constant",
}
SHOW = """
(require 'json)
(defvar shown nil)
(defun show (what it) (push (json-encode (list what it (buffer-string))) shown))
(defun finish () (let ((lines (reverse shown))) (with-temp-file "shown" (dolist (it lines) (insert it "\\n")))) (kill-emacs 0))
"""
COLOURS = (
    SHOW
    + """
(find-file "a.gabc")
(font-lock-ensure)
(dolist (it '(%s))
  (goto-char (point-min)) (forward-line (1- (car it))) (forward-char (1- (cadr it)))
  (let ((face (get-text-property (point) 'face)))
    (show (vconcat it) (if (consp face) (car face) face))))
(show "mode" (list major-mode comment-start compile-command))
(compilation-start "gregorio-chant check --quiet --output-format lines a.gabc" nil (lambda (_) "*listed*"))
(while (process-live-p (get-buffer-process "*listed*")) (accept-process-output nil 0.05))
(with-current-buffer "*listed*"
  (compilation--ensure-parse (point-max))
  (goto-char (point-min))
  (compilation-next-error 1)
  (show "listed" (buffer-substring (line-beginning-position) (line-end-position))))
(finish)
"""
)
TRIAL = (
    SHOW
    + """
(require 'package)
(package-initialize)
(unless (require 'eglot nil t) (kill-emacs 77))
(require 'flymake)
(require 'imenu)
(setq last-nonmenu-event t eglot-stay-out-of nil make-backup-files nil)
(fset 'completing-read (lambda (_ items &rest _) (let ((it (car items))) (if (consp it) (car it) it))))
(defun told () (mapcar (lambda (it) (vector (line-number-at-pos (flymake-diagnostic-beg it)) (car (split-string (flymake-diagnostic-text it) "\\n")))) (flymake-diagnostics)))
(defun await (count)
  (let ((end (+ (float-time) 60)))
    (while (and (< (float-time) end) (/= count (length (flymake-diagnostics))))
      (accept-process-output nil 0.05) (flymake-start)))
  (told))
(defun write-line (text)
  (goto-char (point-min)) (forward-line 2) (delete-region (point) (line-end-position)) (insert text)
  (eglot--signal-textDocument/didChange))
(find-file "a b.gabc")
(run-hooks 'post-command-hook)
(show "opened" (await 1))
(write-line "(c4)   Ky>(f)ri(g)")
(await 1)
(goto-char (flymake-diagnostic-beg (car (flymake-diagnostics))))
(eglot-code-actions (point) (1+ (point)) nil t)
(eglot--signal-textDocument/didChange)
(show "repaired" (await 0))
(eglot-format-buffer)
(show "formatted" nil)
(show "outline" (vconcat (seq-filter #'stringp (flatten-tree (eglot-imenu)))))
(write-line "(c4) <sp>")
(show "completed" (seq-take (all-completions "" (nth 2 (eglot-completion-at-point))) 2))
(finish)
"""
)


@unittest.skipUnless(
    shutil.which("emacs") and shutil.which("gregorio-chant"),
    "there is no emacs, or no gregorio-chant on the path",
)
class Emacs(InFolder):
    maxDiff = None

    def run_emacs(self, trial: str) -> list[Any]:
        self.put("init.el", for_this_place(block("docs/EDITORS.md", "editor: emacs")))
        self.put("trial.el", trial)
        ran = subprocess.run(
            ["emacs", "--batch", "-l", "init.el", "-l", "trial.el"],
            env={**os.environ, "HOME": str(self.room)},
            stdin=subprocess.DEVNULL,
            capture_output=True,
            timeout=300,
            check=False,
        )
        if ran.returncode == 77:
            self.skipTest("there is no eglot")
        self.assertEqual(ran.returncode, 0, ran.stderr.decode())
        return [json.loads(it) for it in Path("shown").read_text(encoding="utf-8").split("\n")[:-1]]

    def test_colours(self) -> None:
        self.put("a.gabc", SCORE)
        *faces, mode, listed = self.run_emacs(
            "(setq gabc-server-command nil)"
            + COLOURS % " ".join(f"({line} {column})" for line, column in FACES)
        )
        told = {
            (place[0], place[1]): face and face.removeprefix("font-lock-").removesuffix("-face")
            for place, face, _ in faces
        }
        self.assertEqual(
            {place: {"comment-delimiter": "comment"}.get(it, it) for place, it in told.items()},
            FACES,
        )
        self.assertEqual(
            mode[1],
            ["gabc-mode", "% ", "gregorio-chant check --quiet --output-format lines a.gabc"],
        )
        self.assertTrue(listed[1].startswith("a.gabc:4:22: error: E1: "), listed[1])

    def test_eglot(self) -> None:
        self.put("a b.gabc", FAULTY)
        shown = self.run_emacs(TRIAL)
        _, names, _ = shown.pop(3)
        self.assertLessEqual({"name: Kyrie", "1. Ky>ri", "Ky>ri"}, set(names))
        head = "name: Kyrie;\n%%\n"
        self.assertEqual(
            shown,
            [
                ["opened", [[3, "gregorio-chant [E1]: character left out of the notes"]], FAULTY],
                ["repaired", None, f"{head}(c4)   Ky$>(f)ri(g)\n"],
                ["formatted", None, f"{head}(c4) Ky$>(f)ri(g)\n"],
                ["completed", ["ae", "oe"], f"{head}(c4) <sp>\n"],
            ],
        )


if __name__ == "__main__":
    unittest.main()
