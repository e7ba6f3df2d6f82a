#!/usr/bin/env python3
"""Writes the files for editors from languages.json.

    editors/generate.py            writes vim/, emacs/ and the grammars and package.json of vscode/
    editors/generate.py --check    ends with 1 if a file of these is not what would be written

Words are keywords of docs/language.md and docs/flow.md by what they do; editors/tests compares them with these pages and
with the sources of the readers. Of a word of `definers`, the name after it is highlighted as what it defines.
"""

import json
import re
import sys
from pathlib import Path

HERE = Path(__file__).resolve().parent
TABLE = HERE / "languages.json"
PUNCTUATION = frozenset("()[]{},;")
MADE_BY = "Made by editors/generate.py."
# A name as most of them are; docs/language.md has the exact rule. \w is Unicode's in each editor but Vim.
NAME = r"[^\W\d]\w*"
# What the kinds of words are called by each editor.
VIM = {"declaration": "Keyword", "question": "Keyword", "statement": "Statement", "constant": "Boolean", "sort": "Type",
       "function": "Function"}
EMACS = {"declaration": "keyword", "question": "builtin", "statement": "keyword", "constant": "constant", "sort": "type",
         "function": "builtin"}
VSCODE = {"declaration": "keyword.other.declaration", "question": "keyword.other.question", "statement": "keyword.control",
          "constant": "constant.language", "sort": "storage.type", "function": "support.function"}

EMACS_FILE = r""";;; kat-mode.el --- Modes for the files of kat  -*- lexical-binding: t; -*-

;;; Commentary:
;; {made_by}

;;; Code:

(defvar kat-syntax-table
  (let ((table (make-syntax-table)))
    (modify-syntax-entry ?_ "_" table)
    (modify-syntax-entry ?# "<" table)
    (modify-syntax-entry ?\n ">" table)
    (dolist (symbol '(?! ?* ?+ ?- ?. ?= ?< ?> ?& ?| ?^ ?:) table)
      (modify-syntax-entry symbol "." table)))
  "Comments, names and symbols of the files of kat.")

(defconst kat-name-after "[ \t\n]+\\(\\_<[[:alpha:]_]\\(?:\\sw\\|\\s_\\)*\\)"
  "The name after a word that defines it.")

(define-derived-mode kat-base-mode prog-mode "kat files"
  "What the modes for the files of kat share."
  :syntax-table kat-syntax-table
  (setq-local comment-start "# ")
  (setq-local comment-start-skip "#+ *")
  (setq-local comment-end ""))

{modes}
(defvar kat-language-server
  (list (expand-file-name "../../tools/lsp.py" (file-name-directory (or load-file-name buffer-file-name default-directory))))
  "The command of the language server, tools/lsp.py of this checkout.")

(defvar eglot-server-programs)
(with-eval-after-load 'eglot
  (add-to-list 'eglot-server-programs (cons '({kinds}) (lambda (&rest _) kat-language-server))))

(provide 'kat-mode)
;;; kat-mode.el ends here
"""
EMACS_MODE = r"""(defvar {kind}-font-lock-keywords
  `({rows})
  "What `{kind}-mode' highlights.")

;;;###autoload
(define-derived-mode {kind}-mode kat-base-mode "{kind}"
  "Mode for {title} files."
  (setq font-lock-defaults '({kind}-font-lock-keywords)))

;;;###autoload
(add-to-list 'auto-mode-alist '("\\.{extension}\\'" . {kind}-mode))
"""


def languages() -> dict[str, dict]:
    """The table."""
    return json.loads(TABLE.read_text(encoding="utf-8"))


def operators(language: dict) -> list[str]:
    """The symbols that compute or compare, longest first, so that each is found whole."""
    return sorted((it for it in language["symbols"] if it not in PUNCTUATION), key=lambda it: (-len(it), it))


def filetype(name: str) -> str:
    """The name of a language among those of all languages of an editor, where `flow` may have another meaning."""
    return name if name.endswith("kat") else f"kat{name}"


def vim_syntax(name: str, language: dict) -> str:
    """A syntax file of Vim."""
    kind, symbols = filetype(name), r"\|".join(vim_quoted(it) for it in operators(language))
    lines = [f'" {language["title"]} (.{language["extension"]}). {MADE_BY}', 'if exists("b:current_syntax")', "  finish", "endif",
             "syntax case match", rf"syntax match {kind}Number /\<\d\+\>/",
             f"syntax match {kind}Operator /{symbols}/"]
    lines += [rf"syntax match {kind}Defined /\(\<{it}\s\+\)\@<=\K\k*/" for it in language["definers"]]
    lines += [f"syntax keyword {kind}{group.capitalize()} {' '.join(words)}" for group, words in language["words"].items() if words]
    lines += [f"syntax match {kind}Comment /#.*/ contains=@Spell"]
    linked = {"Number": "Number", "Operator": "Operator", "Defined": "Identifier", "Comment": "Comment",
              **{group.capitalize(): VIM[group] for group, words in language["words"].items() if words}}
    lines += [f"highlight default link {kind}{group} {link}" for group, link in linked.items()]
    return "\n".join([*lines, f'let b:current_syntax = "{kind}"', ""])


def vim_quoted(symbol: str) -> str:
    """A pattern of Vim for a symbol."""
    return re.sub(r"([.*^$~/\[\]\\])", r"\\\1", symbol)


def vim_filetypes(table: dict[str, dict]) -> str:
    """Which files have which type in Vim."""
    lines = [f'" {MADE_BY}']
    lines += [f"autocmd BufNewFile,BufRead *.{it['extension']} set filetype={filetype(name)}" for name, it in table.items()]
    return "\n".join([*lines, ""])


def vim_plugin(language: dict) -> str:
    """How Vim treats comments of a language."""
    return "\n".join([f'" {language["title"]}. {MADE_BY}', 'if exists("b:did_ftplugin")', "  finish", "endif",
                      "let b:did_ftplugin = 1", r"setlocal comments=:# commentstring=#\ %s",
                      'let b:undo_ftplugin = "setlocal comments< commentstring<"', ""])


def emacs_words(words: list[str]) -> str:
    """A list of Emacs."""
    return f"'({' '.join(json.dumps(it) for it in words)})"


def emacs_mode(name: str, language: dict) -> str:
    """A mode of Emacs."""
    rows = [f"(,(regexp-opt {emacs_words(words)} 'symbols) . font-lock-{EMACS[group]}-face)"
            for group, words in language["words"].items() if words]
    if language["definers"]:
        rows.insert(0, f"(,(concat (regexp-opt {emacs_words(language['definers'])} 'symbols) kat-name-after)"
                       " 2 font-lock-function-name-face)")
    rows.append(f"(,(regexp-opt {emacs_words(operators(language))}) . font-lock-variable-name-face)")
    return EMACS_MODE.format(kind=filetype(name), rows="\n    ".join(rows), **language)


def emacs(table: dict[str, dict]) -> str:
    """The file of modes for Emacs."""
    modes = "\n".join(emacs_mode(name, language) for name, language in table.items())
    return EMACS_FILE.format(made_by=MADE_BY, modes=modes, kinds=" ".join(f"{filetype(name)}-mode" for name in table))


def vscode_grammar(name: str, language: dict) -> str:
    """A TextMate grammar."""
    kind, patterns = filetype(name), [{"name": f"comment.line.number-sign.{filetype(name)}", "match": "#.*$"}]
    if language["definers"]:
        scopes = f"{VSCODE['declaration']}.{kind}", f"entity.name.function.{kind}"
        patterns.append({"match": rf"\b({'|'.join(language['definers'])})\s+({NAME})",
                         "captures": {str(k): {"name": scope} for k, scope in enumerate(scopes, 1)}})
    patterns += [{"name": f"{VSCODE[group]}.{kind}", "match": rf"\b({'|'.join(words)})\b"}
                 for group, words in language["words"].items() if words]
    patterns += [{"name": f"constant.numeric.{kind}", "match": r"\b[0-9]+\b"}, {"name": f"variable.other.{kind}", "match": NAME},
                 {"name": f"keyword.operator.{kind}", "match": "|".join(re.escape(it) for it in operators(language))}]
    return json_text({"comment": MADE_BY, "name": language["title"], "scopeName": f"source.{kind}", "patterns": patterns})


def vscode_package(table: dict[str, dict]) -> str:
    """The description of the extension."""
    kinds = {filetype(name): language for name, language in table.items()}
    server = {"type": "array", "items": {"type": "string"}, "default": [],
              "description": "The command of the language server, in words. By default python3 with tools/lsp.py of the checkout that "
                             "has this extension."}
    named = [{"id": kind, "aliases": [it["title"]], "extensions": [f".{it['extension']}"],
              "configuration": "./language-configuration.json"} for kind, it in kinds.items()]
    grammars = [{"language": kind, "scopeName": f"source.{kind}", "path": f"./syntaxes/{kind}.tmLanguage.json"} for kind in kinds]
    return json_text({
        "name": "kat", "displayName": "kat", "version": "0.1.0", "publisher": "kat",
        "description": f"Files of the prover kat. {MADE_BY}", "engines": {"vscode": "^1.67.0"},
        "categories": ["Programming Languages"], "main": "./extension.js",
        "activationEvents": [f"onLanguage:{kind}" for kind in kinds],
        "contributes": {"languages": named, "grammars": grammars,
                        "configuration": {"title": "kat", "properties": {"kat.server": server}}}})


def json_text(value: object) -> str:
    return json.dumps(value, indent=2) + "\n"


def files() -> dict[str, str]:
    """The files, by their names below editors/."""
    table = languages()
    made = {"vim/ftdetect/kat.vim": vim_filetypes(table), "emacs/kat-mode.el": emacs(table),
            "vscode/package.json": vscode_package(table),
            "vscode/language-configuration.json": json_text({
                "comments": {"lineComment": "#"}, "brackets": [["{", "}"], ["[", "]"], ["(", ")"]]})}
    for name, language in table.items():
        made[f"vim/syntax/{filetype(name)}.vim"] = vim_syntax(name, language)
        made[f"vim/ftplugin/{filetype(name)}.vim"] = vim_plugin(language)
        made[f"vscode/syntaxes/{filetype(name)}.tmLanguage.json"] = vscode_grammar(name, language)
    return made


def main(words: list[str]) -> int:
    if words not in ([], ["--check"]):
        print(__doc__.partition("\n\n")[2], file=sys.stderr)
        return 2
    stale = []
    for name, text in files().items():
        path = HERE / name
        if words and (not path.is_file() or path.read_text(encoding="utf-8") != text):
            stale.append(name)
        elif not words:
            path.parent.mkdir(parents=True, exist_ok=True)
            path.write_text(text, encoding="utf-8")
    if stale:
        print(f"editors/generate.py: not what the table gives, so run it: {', '.join(stale)}")
    return int(bool(stale))


if __name__ == "__main__":
    sys.exit(main(sys.argv[1:]))
