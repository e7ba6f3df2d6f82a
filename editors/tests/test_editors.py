"""Tests of the files for editors: the table has the words and symbols of the pages and of the readers, and each editor that is
installed highlights them as the table says."""

import json
import re
import shutil
import subprocess
import sys
import tempfile
import unittest
from pathlib import Path

EDITORS = Path(__file__).resolve().parent.parent
TOP = EDITORS.parent
sys.path.insert(0, str(EDITORS))

import generate  # noqa: E402

TABLE = generate.languages()
READERS = {"kat": TOP / "crates/text_parser/src/terminal.rt", "flow": TOP / "crates/flow_syntax/src/terminal.rt"}
SECONDS = 60


def skip(test: unittest.TestCase, why: str) -> None:
    """Skips a test with a line that says why."""
    print(f"editors/tests: skipped {test.id().split('.')[-2]}, since {why}")
    test.skipTest(why)


def words_of(name: str) -> set[str]:
    return {word for words in TABLE[name]["words"].values() for word in words}


def keywords_on(page: str) -> set[str]:
    """The keywords that a page of docs/ lists."""
    text = (TOP / "docs" / page).read_text(encoding="utf-8")
    return set(re.search(r"(?:cannot be declared: |The keywords are )`([a-z0-9 ]+)`", text)[1].split())


def strings_of(name: str) -> set[str]:
    """The words and symbols in the code of a reader, without its comments."""
    code = re.sub(r"//.*", "", READERS[name].read_text(encoding="utf-8"))
    pairs = {first + second for first, second in re.findall(r"\(b'(.)', b'(.)'\) =>", code)}
    single = re.findall(r"^\s*b'(\W)' =>", code, re.MULTILINE)
    return {*re.findall(r'"([a-z][a-z0-9]*)"', code), *re.findall(r'\("(\W+)",', code), *single, *pairs}


def sample(name: str) -> list[tuple[str, int, str]]:
    """Lines, the place of a word in each, and the kind of word that it is there."""
    language = TABLE[name]
    found = [(f"  {word};", 2, kind) for kind, words in language["words"].items() for word in words]
    found += [(f"{word} good ;", len(word) + 1, "defined") for word in language["definers"]]
    found += [(f"  {it} x", 2, "operator") for it in generate.operators(language)]
    a_word = language["words"]["declaration"][0]
    return [*found, (f"x # {a_word}", 5, "comment"), (f"{a_word}ing", 1, "name"), (f"not_{a_word}", 5, "name"),
            ("x 12", 2, "number")]


class Words(unittest.TestCase):
    def test_words_are_those_of_the_pages(self) -> None:
        self.assertEqual(words_of("kat"), keywords_on("language.md"))
        self.assertEqual(words_of("flow"), keywords_on("flow.md"))

    def test_words_and_symbols_are_those_of_the_readers(self) -> None:
        for name in READERS:
            with self.subTest(name):
                self.assertEqual({*words_of(name), *TABLE[name]["symbols"]}, strings_of(name))

    def test_guarded_programs_have_words_and_symbols_of_problem_files(self) -> None:
        for part, whole in ((words_of("gkat"), words_of("kat")), (set(TABLE["gkat"]["symbols"]), set(TABLE["kat"]["symbols"]))):
            self.assertLess(part, whole)


class Made(unittest.TestCase):
    def test_files_are_what_the_table_gives(self) -> None:
        self.assertEqual(generate.main(["--check"]), 0)

    def test_no_other_file_is_beside_them(self) -> None:
        beside = [it for part in ("vim", "emacs", "vscode") for it in (EDITORS / part).rglob("*")]
        written = {str(it.relative_to(EDITORS)) for it in beside if it.is_file()}
        self.assertEqual(written - set(generate.files()), {"vscode/extension.js"})


class Vim(unittest.TestCase):
    # What is named otherwise than its kind.
    GROUPS = {"name": ""}

    def groups(self, name: str, lines: list[tuple[str, int, str]], room: Path) -> list[str]:
        file, output = room / f"file.{TABLE[name]['extension']}", room / "groups"
        file.write_text("".join(f"{line}\n" for line, _, _ in lines))
        script = [f"set runtimepath^={EDITORS}/vim", "filetype plugin on", "syntax on", f"edit {file}",
                  "let found = [&filetype, &commentstring]"]
        places = [(at, column + 1) for at, (_, column, _) in enumerate(lines, 1)]
        script += [f"call add(found, synIDattr(synID({at}, {column}, 1), 'name'))" for at, column in places]
        (room / "script.vim").write_text("\n".join([*script, f"call writefile(found, '{output}')", "qall!", ""]))
        subprocess.run(["vim", "-Nu", "NONE", "-i", "NONE", "-n", "-es", "-S", room / "script.vim"], timeout=SECONDS, check=True,
                       stdin=subprocess.DEVNULL, stdout=subprocess.DEVNULL)
        return output.read_text().split("\n")[:-1]

    def test_words_have_their_groups(self) -> None:
        if not shutil.which("vim") or "+syntax" not in subprocess.run(["vim", "--version"], capture_output=True, text=True).stdout:
            skip(self, "there is no vim with syntax files")
        for name in TABLE:
            with self.subTest(name), tempfile.TemporaryDirectory() as room:
                kind, lines = generate.filetype(name), sample(name)
                expected = [kind, "# %s", *(self.GROUPS.get(it, kind + it.capitalize()) for _, _, it in lines)]
                self.assertEqual(self.groups(name, lines, Path(room)), expected)


class Emacs(unittest.TestCase):
    FACES = {**{kind: f"font-lock-{face}-face" for kind, face in generate.EMACS.items()}, "defined": "font-lock-function-name-face",
             "operator": "font-lock-variable-name-face", "comment": "font-lock-comment-face", "name": "nil", "number": "nil"}

    def emacs(self, *words: str) -> str:
        ended = subprocess.run(["emacs", "-Q", "--batch", *words], timeout=SECONDS, capture_output=True, text=True)
        self.assertEqual((ended.returncode, ended.stderr), (0, ""))
        return ended.stdout

    def setUp(self) -> None:
        if not shutil.which("emacs"):
            skip(self, "there is no emacs")

    def test_words_have_their_faces(self) -> None:
        for name in TABLE:
            with self.subTest(name), tempfile.TemporaryDirectory() as room:
                file, lines = Path(room) / f"file.{TABLE[name]['extension']}", sample(name)
                file.write_text("".join(f"{line}\n" for line, _, _ in lines))
                places = " ".join(f"({at} . {column})" for at, (_, column, _) in enumerate(lines))
                faces = self.emacs("-l", str(EDITORS / "emacs/kat-mode.el"), str(file), "--eval", f"""(progn (font-lock-ensure)
                    (princ (format "%s\\n" major-mode))
                    (dolist (place '({places})) (goto-char (point-min)) (forward-line (car place))
                    (princ (format "%s\\n" (get-text-property (+ (point) (cdr place)) 'face)))))""")
                expected = [f"{generate.filetype(name)}-mode", *(self.FACES[it] for _, _, it in lines)]
                self.assertEqual(faces.split("\n")[:-1], expected)

    def test_it_is_compiled_without_a_warning(self) -> None:
        with tempfile.TemporaryDirectory() as room:
            shutil.copy(EDITORS / "emacs/kat-mode.el", room)
            self.emacs("--eval", "(setq byte-compile-error-on-warn t byte-compile-verbose nil)", "--eval",
                       f'(unless (byte-compile-file "{room}/kat-mode.el") (kill-emacs 1))')


class VSCode(unittest.TestCase):
    SCOPES = {**generate.VSCODE, "defined": "entity.name.function", "operator": "keyword.operator",
              "comment": "comment.line.number-sign", "name": "variable.other", "number": "constant.numeric"}

    def scopes(self, patterns: list[dict], line: str) -> dict[int, str]:
        """The scope of each part of a line by its column: at each place the first pattern that matches earliest."""
        found, at = {}, 0
        while hits := [hit for hit in (re.compile(it["match"]).search(line, at) for it in patterns) if hit]:
            first = min(hits, key=lambda it: it.start())
            pattern = next(it for it in patterns if it["match"] == first.re.pattern)
            for group, scope in pattern.get("captures", {"0": pattern}).items():
                found[first.start(int(group))] = scope["name"]
            at = first.end()
        return found

    def test_words_have_their_scopes(self) -> None:
        for name in TABLE:
            kind = generate.filetype(name)
            patterns = json.loads((EDITORS / f"vscode/syntaxes/{kind}.tmLanguage.json").read_text())["patterns"]
            for line, column, word in sample(name):
                with self.subTest(name, line=line):
                    found = self.scopes(patterns, line)
                    start = max(it for it in found if it <= column)
                    self.assertEqual(found[start], f"{self.SCOPES[word]}.{kind}")

    def test_the_extension_speaks_with_the_server(self) -> None:
        if not shutil.which("node"):
            skip(self, "there is no node")
        words = ["node", EDITORS / "tests/vscode_stub.js", EDITORS / "vscode/extension.js", sys.executable, TOP / "tools/lsp.py"]
        ended = subprocess.run(words, timeout=SECONDS, capture_output=True, text=True)
        self.assertEqual((ended.returncode, ended.stderr), (0, ""))
        found = json.loads(ended.stdout)
        self.assertEqual((found["fault"], found["answer"], found["closed"]),
                         ([["Syntax", 0, 1, 14, 1, 15]], [["equal", 2, 1, 0, 1, 4]], []))
        self.assertEqual(found["hover"]["contents"]["value"], "test b, declared in line 1\n\n```kat\ntest b;\n```")
        self.assertEqual(found["definition"], {"uri": "file:///problem.kat", "range": {"places": [0, 5, 0, 6]}})
        self.assertEqual((found["nothing"], found["errors"]), (None, []))


if __name__ == "__main__":
    unittest.main()
