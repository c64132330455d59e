;;; gabc-mode.el --- Chant scores in GABC  -*- lexical-binding: t; -*-

;; License: MIT
;; Package-Requires: ((emacs "27.1"))

;;; Commentary:

;; Colours, comments and messages of chant scores.  Where eglot is there and
;; `gabc-server-command' is on the path, a language server serves each score.

;;; Code:

(require 'compile)

(defgroup gabc nil
  "Chant scores in GABC."
  :group 'text)

(defcustom gabc-server-command '("gregorio-chant" "server")
  "The command of the language server; nil for none."
  :type '(repeat string))

(defconst gabc--notes
  '((nil "-?[a-npA-NP][vVsoOwWqrR=~<>.'_0-9]*" 0 font-lock-constant-face)
    (nil "[cf]b?[1-5]\\(?:@[cf]b?[1-5]\\)?" 0 font-lock-type-face)
    (nil "[`^,;:]+" 0 font-lock-keyword-face)
    (nil "\\[[^]\n]*\\]?" 0 font-lock-preprocessor-face)
    (nil "|[^|)\n]*|?" 0 font-lock-function-name-face))
  "What stands in notes, the last one first: pattern, group and face.")

(defun gabc--in-headers-p (position)
  "Return whether POSITION stands before the line that begins with %%."
  (save-excursion
    (goto-char position)
    (beginning-of-line)
    (not (or (looking-at "%%") (re-search-backward "^%%" nil t)))))

(defun gabc--match-header (limit)
  "Find the name of a header up to LIMIT."
  (let (found)
    (while (and (not found) (re-search-forward "^\\([^:%;\n]+\\):" limit t))
      (setq found (save-match-data (gabc--in-headers-p (match-beginning 0)))))
    found))

(defun gabc--match-notes (limit)
  "Find notes in brackets up to LIMIT, in the score."
  (let (found)
    (while (and (not found) (re-search-forward "(\\([^()\n]*\\))" limit t))
      (setq found (save-match-data (not (gabc--in-headers-p (match-beginning 0))))))
    found))

(defun gabc--in-notes (rule)
  "Return the anchored rule of font-lock for a RULE of `gabc--notes'."
  `(,(nth 1 rule)
    (progn (goto-char (match-beginning 1)) (match-end 1))
    (goto-char (match-end 0))
    (0 ,(nth 3 rule) t)))

(defconst gabc-font-lock-keywords
  `(("^%%" 0 font-lock-preprocessor-face t)
    (gabc--match-header 1 font-lock-variable-name-face)
    (gabc--match-notes . ,(mapcar #'gabc--in-notes gabc--notes))
    ("\\$[][(){}<>%$]" . font-lock-builtin-face)
    ("<\\(v\\|sp\\|alt\\)>\\([^<\n]*\\)</\\1>" 2 font-lock-string-face)
    ("</?[a-z]+>" . font-lock-keyword-face))
  "Colours of scores.")

(defvar gabc-mode-syntax-table
  (let ((table (make-syntax-table)))
    (modify-syntax-entry ?% "<" table)
    (modify-syntax-entry ?\n ">" table)
    (modify-syntax-entry ?\" "." table)
    (modify-syntax-entry ?$ "/" table)
    table)
  "Syntax of scores: a % begins a comment, and a $ escapes.")

(defconst gabc--message
  '(gregorio-chant "^\\(.+?\\):\\([0-9]+\\):\\([0-9]+\\): \\(?:\\(warning\\)\\|error\\|fatal\\): [A-Za-z0-9-]+: " 1 2 3 (4))
  "A message of gregorio-chant or gregorio-canonical.")

(add-to-list 'compilation-error-regexp-alist-alist gabc--message)
(add-to-list 'compilation-error-regexp-alist 'gregorio-chant)

;;;###autoload
(define-derived-mode gabc-mode text-mode "GABC"
  "Major mode for chant scores in GABC."
  (setq-local comment-start "% ")
  (setq-local comment-start-skip "%+[ \t]*")
  (setq-local font-lock-defaults '(gabc-font-lock-keywords))
  (when buffer-file-name
    (setq-local compile-command
                (concat "gregorio-chant check --quiet --output-format lines "
                        (shell-quote-argument (file-name-nondirectory buffer-file-name)))))
  (when (and gabc-server-command
             (executable-find (car gabc-server-command))
             (require 'eglot nil t))
    (eglot-ensure)))

(with-eval-after-load 'eglot
  (defvar eglot-server-programs)
  (add-to-list 'eglot-server-programs
               (cons 'gabc-mode (lambda (&rest _) gabc-server-command))))

(declare-function eglot-ensure "eglot")

;;;###autoload
(add-to-list 'auto-mode-alist '("\\.gabc\\'" . gabc-mode))

(provide 'gabc-mode)
;;; gabc-mode.el ends here
