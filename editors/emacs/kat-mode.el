;;; kat-mode.el --- Modes for the files of kat  -*- lexical-binding: t; -*-

;;; Commentary:
;; Made by editors/generate.py.

;;; Code:

(defvar kat-syntax-table
  (let ((table (make-syntax-table)))
    (modify-syntax-entry ?_ "_" table)
    (modify-syntax-entry ?# "<" table)
    (modify-syntax-entry ?\n ">" table)
    (dolist (symbol '(?! ?* ?+ ?- ?. ?= ?< ?> ?& ?| ?^ ?:) table)
      (modify-syntax-entry symbol "." table)))
  "Comments, names and symbols of the files of kat.")

(defconst kat-name-after "[ \t\n]+\\(\\_<[[:alpha:]_]\\(?:\\sw\\|\\s_\\)*\\)"
  "The name after a word that defines it.")

(define-derived-mode kat-base-mode prog-mode "kat files"
  "What the modes for the files of kat share."
  :syntax-table kat-syntax-table
  (setq-local comment-start "# ")
  (setq-local comment-start-skip "#+ *")
  (setq-local comment-end ""))

(defvar kat-font-lock-keywords
  `((,(concat (regexp-opt '("prog" "term") 'symbols) kat-name-after) 2 font-lock-function-name-face)
    (,(regexp-opt '("test" "action" "var" "prog" "term" "hyp" "rounds" "width" "goal") 'symbols) . font-lock-keyword-face)
    (,(regexp-opt '("equal" "below" "triple") 'symbols) . font-lock-builtin-face)
    (,(regexp-opt '("skip" "abort" "assert" "if" "else" "while") 'symbols) . font-lock-keyword-face)
    (,(regexp-opt '("true" "false") 'symbols) . font-lock-constant-face)
    (,(regexp-opt '("!=" "&&" ":=" "<=" "==" ">=" "||" "!" "*" "+" "-" "." "<" "=" ">" "^")) . font-lock-variable-name-face))
  "What `kat-mode' highlights.")

;;;###autoload
(define-derived-mode kat-mode kat-base-mode "kat"
  "Mode for KAT problem files."
  (setq font-lock-defaults '(kat-font-lock-keywords)))

;;;###autoload
(add-to-list 'auto-mode-alist '("\\.kat\\'" . kat-mode))

(defvar gkat-font-lock-keywords
  `((,(regexp-opt '("test" "action") 'symbols) . font-lock-keyword-face)
    (,(regexp-opt '("equal") 'symbols) . font-lock-builtin-face)
    (,(regexp-opt '("true" "false") 'symbols) . font-lock-constant-face)
    (,(regexp-opt '("&&" "||" "!" "+" "." "^")) . font-lock-variable-name-face))
  "What `gkat-mode' highlights.")

;;;###autoload
(define-derived-mode gkat-mode kat-base-mode "gkat"
  "Mode for guarded KAT files."
  (setq font-lock-defaults '(gkat-font-lock-keywords)))

;;;###autoload
(add-to-list 'auto-mode-alist '("\\.gkat\\'" . gkat-mode))

(defvar katflow-font-lock-keywords
  `((,(concat (regexp-opt '("graph" "block") 'symbols) kat-name-after) 2 font-lock-function-name-face)
    (,(regexp-opt '("sort" "fun" "var" "graph" "block" "cut" "rounds" "split" "match" "where" "back" "keeping" "names") 'symbols) . font-lock-keyword-face)
    (,(regexp-opt '("equal") 'symbols) . font-lock-builtin-face)
    (,(regexp-opt '("goto" "if" "else" "return" "abort" "assert") 'symbols) . font-lock-keyword-face)
    (,(regexp-opt '("true" "false") 'symbols) . font-lock-constant-face)
    (,(regexp-opt '("u8" "u16" "u32" "u64") 'symbols) . font-lock-type-face)
    (,(regexp-opt '("s8" "s16" "s32" "s64" "slt" "sle" "sgt" "sge") 'symbols) . font-lock-builtin-face)
    (,(regexp-opt '("!=" "&&" ":=" "<=" "==" ">=" "||" "!" "*" "+" "-" "<" ">")) . font-lock-variable-name-face))
  "What `katflow-mode' highlights.")

;;;###autoload
(define-derived-mode katflow-mode kat-base-mode "katflow"
  "Mode for KAT flow graphs files."
  (setq font-lock-defaults '(katflow-font-lock-keywords)))

;;;###autoload
(add-to-list 'auto-mode-alist '("\\.flow\\'" . katflow-mode))

(defvar kat-language-server
  (list (expand-file-name "../../tools/lsp.py" (file-name-directory (or load-file-name buffer-file-name default-directory))))
  "The command of the language server, tools/lsp.py of this checkout.")

(defvar eglot-server-programs)
(with-eval-after-load 'eglot
  (add-to-list 'eglot-server-programs (cons '(kat-mode gkat-mode katflow-mode) (lambda (&rest _) kat-language-server))))

(provide 'kat-mode)
;;; kat-mode.el ends here
