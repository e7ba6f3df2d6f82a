"""Tests of the language server: what it says over its pipes, and how it reads texts."""

from __future__ import annotations

import os
import re
import stat
import subprocess
import sys
import tempfile
import time
import unittest
from pathlib import Path
from typing import Any

sys.path.insert(0, str(Path(__file__).resolve().parent))

from lsp_client import SECONDS, TOOLS, Client  # noqa: E402

from language_server import answers, messages, refusals, texts  # noqa: E402
from refusal_table import SENTENCES  # noqa: E402

TOP = TOOLS.parent
LOOP = "test b;\naction p;\nterm loop = (b.p)*.!b;\n"
# A program that answers in the words of kat, but takes its time for a text with the word `slow`, and notes its number.
STUB = """#!/bin/sh
[ "$1" != --program ] || exit 7
echo $$ >> {room}/started
! grep -q slow "$2" || exec sleep 1000
echo "kat 2 equal"
"""


def place(line: int, start: int, end: int) -> dict[str, Any]:
    return {"start": {"line": line, "character": start}, "end": {"line": line, "character": end}}


FAULTS = (("test b;\ngoal equal b, ;\n", "Syntax", place(1, 14, 15)),
          ("test b;\r\ngoal equal c, b;", "UnknownName", place(1, 11, 12)),
          ("test b; goal equal b, b", "Syntax", place(0, 22, 23)),
          ("action p;\n\ngoal equal !p, 1;", "Sort", place(2, 12, 13)),
          ("test b; goal equal b ? b;", "BadToken", place(0, 21, 22)),
          ("# none\ntest long_name;\n", "NoGoal", place(1, 14, 15)),
          ("", "NoGoal", place(0, 0, 0)))
TERMS, PROGRAM = "test b, c; action p, q; ", "var x; prog P { "
SLIPS = ((TERMS, "hyp p.q = q.p;", "is `0`"),
         (TERMS, "goal b.p <= p.c;", "`equal`, `below`"),
         (TERMS, "hyp {b} p {c};", "`hyp triple`"),
         ("", "action p q;", "may be missing"),
         (TERMS, "term t = b;p;", "*and then*"),
         (TERMS, "term t = (b.p)*!b;", "may be missing"),
         (TERMS, "term t = ~b;", "negates"),
         (TERMS, "goal equal b <= c;", "`goal below"),
         (PROGRAM, "if (x = 1) { } }", "`==` compares"),
         (PROGRAM, "x := x + 1 }", "`;` may be missing"),
         (PROGRAM, "if (x == 1) then { } }", "without `then`"),
         (PROGRAM, "x++; }", "`x := x + 1;`"),
         (PROGRAM, "if b & !c { } }", "`&&`"),
         (PROGRAM, "x := x / 2; }", "no division"),
         (PROGRAM, "// no comment", "no division"),
         ("", "\ufefftest b;", "byte order mark"))


def is_running(number: int) -> bool:
    """Whether a process is still there some time after it was ended; it is until its parent or the system has noticed."""
    end = time.monotonic() + SECONDS
    while time.monotonic() < end:
        try:
            os.kill(number, 0)
        except ProcessLookupError:
            return False
        time.sleep(0.01)
    return True


class WithKat(unittest.TestCase):
    """Tests with the program that the script kat runs; one server serves them in turn."""

    client: Client

    @classmethod
    def setUpClass(cls) -> None:
        cls.client = Client("--seconds", str(SECONDS))
        cls.addClassCleanup(cls.client.kill)
        cls.client.begin(textDocument={"hover": {"contentFormat": ["plaintext"]}})

    @classmethod
    def tearDownClass(cls) -> None:
        status = cls.client.end()
        if status:
            raise AssertionError(f"the server ended with {status}")

    def codes(self, name: str, text: str) -> list[tuple[str, dict[str, Any]]]:
        return [(it["code"], it["range"]) for it in self.client.found(name, text)]

    def example(self, name: str) -> list[dict[str, Any]]:
        return self.client.found(name, (TOP / "examples" / name).read_text())

    def test_a_goal_that_holds_is_equal(self) -> None:
        found = self.client.found("holds.kat", LOOP + "goal equal loop, b.p.loop + !b;\n")
        self.assertEqual([(it["code"], it["range"], it["severity"]) for it in found],
                         [("equal", place(3, 0, 4), answers.INFORMATION)])

    def test_each_goal_has_its_answer(self) -> None:
        found = self.client.found("both.kat", LOOP + "goal equal loop, p.loop; # no\ngoal equal loop, b.p.loop + !b;\n")
        self.assertEqual([(it["code"], it["range"]) for it in found], [("different", place(3, 0, 4)), ("equal", place(4, 0, 4))])
        self.assertEqual(found[0]["message"], f"{answers.OF_TERMS}\n0: !b\nleft relates the ends, right does not")

    def test_a_fault_is_at_its_token(self) -> None:
        for text, code, where in FAULTS:
            with self.subTest(text):
                self.assertEqual(self.codes("fault.kat", text), [(code, where)])

    def test_a_fault_has_a_sentence(self) -> None:
        said = SENTENCES
        for text, expected in (("test b;\ngoal equal b, ;", f"Syntax: {said['Syntax']}"),
                               ("test b", f"Syntax: {answers.TOO_EARLY}"),
                               ("goal equal b, 1;", f"UnknownName: {said['UnknownName']}")):
            with self.subTest(text):
                self.assertEqual([it["message"] for it in self.client.found("sentence.kat", text)], [expected])

    def test_a_common_slip_has_a_hint(self) -> None:
        for beginning, slip, expected in SLIPS:
            with self.subTest(slip):
                self.assertIn(expected, self.client.found("slip.kat", beginning + slip)[0]["message"])

    def test_columns_count_units_of_utf_16(self) -> None:
        text = "# \U0001d70b\ntest \u03b2, \U00010400; goal equal \u03b2, \U00010400, ;"
        self.assertEqual(self.codes("wide.kat", text), [("Syntax", place(1, 28, 29))])

    def test_a_fault_is_reported_once(self) -> None:
        self.assertEqual(self.codes("once.kat", "goal equal 1, 1; goal equal 1, 0; test 5;"), [("Syntax", place(0, 39, 40))])

    def test_a_goal_may_be_refused_beside_another(self) -> None:
        text = "test b; goal equal b, c; goal equal b, b;"
        self.assertEqual(self.codes("beside.kat", text), [("UnknownName", place(0, 22, 23)), ("equal", place(0, 25, 29))])

    def test_at_most_64_goals_are_decided(self) -> None:
        found = self.client.found("many.kat", "goal equal 1, 1;\n" * 66)
        self.assertEqual([it["code"] for it in found], ["equal"] * 64 + ["TooMany"])
        self.assertEqual(found[64]["range"], place(64, 0, 4))

    def test_programs(self) -> None:
        self.assertEqual([it["code"] for it in self.example("holds/loop-peeled.kat")], ["equal"])
        different = self.example("fails/assignment-hoisted.kat")[0]
        explained, ends = ((TOP / f"examples/fails/assignment-hoisted.{it}").read_text() for it in ("explain", "100.try"))
        self.assertEqual(different["message"], f"{answers.OF_STORES}\n{ends}{explained}".rstrip("\n"))

    def test_programs_that_no_store_tells_apart(self) -> None:
        different, = self.example("fails/counted-to-ten.kat")
        explained = (TOP / "examples/fails/counted-to-ten.explain").read_text()
        self.assertEqual(different["message"], f"{answers.OF_PROGRAMS}\n{explained}".rstrip("\n"))

    def test_flow_graphs(self) -> None:
        self.assertEqual([it["code"] for it in self.example("flow/loop-rotated.flow")], ["equal"])
        different = self.example("flow/loop-rotated-unmarked.flow")[0]
        self.assertEqual(different["code"], "different")
        self.assertTrue(different["message"].startswith(f"{answers.OF_GRAPHS}\n0: !(load(m, q) == 0), load(m, p) == 0,"))

    def test_flow_graphs_that_are_refused(self) -> None:
        fault, = self.example("flow/unknown-block.flow")
        self.assertEqual(fault["code"], "UnknownName")
        question, = self.example("flow/uncut-loop.flow")
        text = texts.Text((TOP / "examples/flow/uncut-loop.flow").read_text(), "flow")
        self.assertEqual((question["code"], question["range"]), ("UncutLoop", answers.goal_range(text, 0)))

    def test_guarded_programs(self) -> None:
        self.assertEqual([it["code"] for it in self.example("guarded/nested-loops.gkat")], ["equal"])
        self.assertEqual([it["code"] for it in self.example("guarded/loop-runs-once.gkat")], ["different"])
        self.assertEqual(self.codes("hidden.gkat", "test b; equal c, b;"), [("UnknownName", place(0, 14, 15))])

    def test_every_refused_example_has_its_word(self) -> None:
        for path in sorted((TOP / "examples/refused").glob("*.kat")):
            expected = path.with_suffix(".out").read_text().split()[1]
            try:
                text = path.read_bytes().decode()
            except UnicodeDecodeError:
                # An editor sends no such text.
                continue
            with self.subTest(path.name):
                found = [it["code"] for it in self.client.found(path.name, text)]
                # A second goal is no fault here: each goal is decided.
                self.assertEqual(found, ["equal"] * 2 if expected == "TwoGoals" else [expected])

    def test_the_newest_text_is_the_one_that_counts(self) -> None:
        uri = self.client.open("typed.kat", "test b; goal equal b, ;")
        for version in range(2, 9):
            self.client.change(uri, "test b; goal equal b, " + "b" * version, version)
        self.client.change(uri, "test b; goal equal b, b;", 9)
        self.assertEqual([it["code"] for it in self.client.diagnostics(uri, 9)], ["equal"])

    def test_hover_says_what_a_name_is(self) -> None:
        uri = self.client.open("names.kat", "test b, c;\naction p;\nprog P {\n  p;\n}\nterm t = b.p; goal equal t, P;")
        for line, character, expected in ((0, 8, "test c, declared in line 1\ntest b, c;"),
                                          (3, 2, "action p, declared in line 2\naction p;"),
                                          (5, 28, "program P, declared in line 3\nprog P {\n  p;\n}"),
                                          (5, 25, "term t, declared in line 6\nterm t = b.p;"),
                                          (5, 26, "term t, declared in line 6\nterm t = b.p;")):
            with self.subTest(expected):
                contents = self.client.at("hover", uri, line, character)["contents"]
                self.assertEqual(contents, {"kind": "plaintext", "value": expected})
        for line, character in ((0, 1), (4, 0), (5, 40), (90, 0)):
            self.assertIsNone(self.client.at("hover", uri, line, character))

    def test_names_of_blocks_belong_to_their_graph(self) -> None:
        lines = ("var u64 x;", "graph f { block x { goto y; }", "  block y { return x; } }", "graph g { block y { return x; } }",
                 "equal f, g;")
        uri = self.client.open("blocks.flow", "\n".join(lines))
        for line, character, expected in ((1, 25, place(2, 8, 9)), (3, 16, place(3, 16, 17)), (2, 19, place(0, 8, 9)),
                                          (1, 16, place(1, 16, 17)), (4, 9, place(3, 6, 7))):
            with self.subTest(line=line, character=character):
                self.assertEqual(self.client.at("definition", uri, line, character), {"uri": uri, "range": expected})

    def test_a_closed_document_has_no_diagnostics(self) -> None:
        uri = self.client.open("closed.kat", "goal")
        self.client.diagnostics(uri)
        self.client.notify("textDocument/didClose", {"textDocument": {"uri": uri}})
        self.assertEqual(self.client.diagnostics(uri), [])


class Protocol(unittest.TestCase):
    def setUp(self) -> None:
        self.client = Client()
        self.addCleanup(self.client.kill)

    def code(self, method: str, params: Any = None) -> int:
        return self.client.ask(method, params)["error"]["code"]

    def test_requests_in_the_wrong_order(self) -> None:
        self.assertEqual(self.code("textDocument/hover"), messages.NOT_INITIALIZED)
        self.assertTrue(self.client.begin()["capabilities"]["hoverProvider"])
        self.assertEqual(self.code("no/such"), messages.METHOD_NOT_FOUND)
        self.assertEqual(self.code("textDocument/hover", {}), messages.INVALID_PARAMS)
        self.assertEqual(self.code("textDocument/hover", {"textDocument": {"uri": "file:///none"}}), messages.INVALID_PARAMS)
        self.client.ask("shutdown")
        self.assertEqual(self.code("textDocument/hover", {}), messages.INVALID_REQUEST)
        self.client.notify("exit")
        self.assertEqual(self.client.closed(), 0)

    def test_exit_before_shutdown(self) -> None:
        self.client.begin()
        self.client.notify("exit")
        self.assertEqual(self.client.closed(), 1)

    def test_the_end_of_the_stream_ends_the_server(self) -> None:
        self.client.begin()
        self.assertEqual(self.client.closed(), 1)

    def test_what_is_no_message(self) -> None:
        self.client.begin()
        for body in (b"{", b"[]", b"\xff"):
            self.client.write(b"Content-Length: %d\r\nContent-Type: any\r\n\r\n%b" % (len(body), body))
            self.assertEqual(self.client.awaited(lambda it: True)["error"]["code"], messages.PARSE_ERROR)
        for method in ("textDocument/didChange", "textDocument/didOpen", "no/such"):
            self.client.notify(method, {"textDocument": {}})
        self.assertEqual(self.client.end(), 0)

    def test_what_has_no_header(self) -> None:
        self.client.begin()
        self.client.write(b"no header\r\n\r\n")
        self.assertEqual(self.client.awaited(lambda it: True)["error"]["code"], messages.PARSE_ERROR)
        self.assertEqual(self.client.closed(), 1)

    def test_markdown_is_for_clients_that_read_it(self) -> None:
        self.client.begin()
        contents = self.client.at("hover", self.client.open("names.kat", "test b;"), 0, 5)["contents"]
        self.assertEqual(contents, {"kind": "markdown", "value": "test b, declared in line 1\n\n```kat\ntest b;\n```"})
        self.assertEqual(self.client.end(), 0)


class LongDecisions(unittest.TestCase):
    def setUp(self) -> None:
        folder = tempfile.TemporaryDirectory()
        self.addCleanup(folder.cleanup)
        self.room, stub = Path(folder.name), Path(folder.name) / "kat"
        stub.write_text(STUB.format(room=self.room))
        stub.chmod(stub.stat().st_mode | stat.S_IXUSR)

    def client(self, seconds: float) -> Client:
        client = Client("--kat", str(self.room / "kat"), "--seconds", str(seconds))
        self.addCleanup(client.kill)
        client.begin()
        return client

    def started(self, count: int) -> list[int]:
        """The numbers of the processes that were started, when there are as many."""
        end, numbers = time.monotonic() + SECONDS, []
        while len(numbers) < count and time.monotonic() < end:
            numbers = [int(it) for it in (self.room / "started").read_text().split()] if (self.room / "started").is_file() else []
            time.sleep(0.01)
        return numbers

    def test_a_long_decision_ends_with_its_time(self) -> None:
        client = self.client(0.5)
        found = client.found("slow.kat", "test slow; goal equal slow, slow;")
        self.assertEqual([(it["code"], it["message"]) for it in found], [("none", "no answer within 0.5 seconds")])
        self.assertFalse(is_running(self.started(1)[0]))
        self.assertEqual(client.end(), 0)

    def test_a_newer_text_ends_it(self) -> None:
        client = self.client(SECONDS)
        uri = client.open("slow.kat", "test slow; goal equal slow, slow;")
        first = self.started(1)[0]
        waiting = client.awaited(lambda it: it.get("method") == "textDocument/publishDiagnostics")["params"]["diagnostics"]
        self.assertEqual([it["code"] for it in waiting], ["undecided"])
        # While it is decided the server answers.
        self.assertIn("test slow", client.at("hover", uri, 0, 6)["contents"]["value"])
        client.change(uri, "test b; goal equal b, b;", 2)
        self.assertEqual([it["code"] for it in client.diagnostics(uri, 2)], ["equal"])
        self.assertFalse(is_running(first))
        self.assertEqual(client.end(), 0)

    def test_the_end_of_the_server_ends_it(self) -> None:
        for end in ("end", "closed"):
            client = self.client(SECONDS)
            (self.room / "started").unlink(missing_ok=True)
            client.open("slow.kat", "test slow; goal equal slow, slow;")
            number = self.started(1)[0]
            getattr(client, end)()
            self.assertFalse(is_running(number))

    def test_without_a_program_it_says_so(self) -> None:
        client = Client("--kat", str(self.room / "none"))
        self.addCleanup(client.kill)
        client.begin()
        uri = client.open("any.kat", "goal equal 1, 1;")
        shown = client.awaited(lambda it: it.get("method") == "window/showMessage")
        self.assertIn("none is no program", shown["params"]["message"])
        self.assertEqual(client.diagnostics(uri), [])
        # It is found when it is there, without a new server, and that there was none is said once.
        client.change(uri, "goal equal 1, 1; ", 2)
        self.assertEqual(client.diagnostics(uri, 2), [])
        (self.room / "none").symlink_to(self.room / "kat")
        client.change(uri, "goal equal 1, 1;", 3)
        self.assertEqual([it["code"] for it in client.diagnostics(uri, 3)], ["equal"])
        self.assertEqual(client.end(), 0)


class Texts(unittest.TestCase):
    TEXT = "# \U0001d70b\u0301\r\ntest \u03b2\u0301; # test c;\ngoal equal \u03b2\u0301, 1;\rgoal below 0, \u03b2\u0301;"

    def test_places_and_characters_are_inverse(self) -> None:
        text = texts.Text(self.TEXT, "kat")
        ends = {it.start() + 1 for it in re.finditer("\r\n", self.TEXT)}
        for at in set(range(len(self.TEXT) + 1)) - ends:
            self.assertEqual(text.character(text.place(at)), at)

    def test_bytes_are_characters(self) -> None:
        text = texts.Text(self.TEXT, "kat")
        for at in range(len(self.TEXT) + 1):
            self.assertEqual(text.character_of_byte(len(self.TEXT[:at].encode())), at)

    def test_a_text_with_one_goal_keeps_its_places(self) -> None:
        text = texts.Text(self.TEXT, "kat")
        self.assertEqual([token.text for token, _ in text.goals], ["goal", "goal"])
        for number in (0, 1):
            alone = text.with_goal(number)
            self.assertEqual((len(alone), alone.count(b"goal")), (len(text.bytes), 1))
            self.assertTrue(all(a in (b, 32) for a, b in zip(alone, text.bytes)))

    def test_names_are_those_of_the_prover(self) -> None:
        found = texts.tokens_of("_a1 \u03b2\u0301x:=!=1a&&&\n#c\n\u00b2 a\u03b2=1\u03b2 \u03b2x1 x\u0301y1")
        self.assertEqual([it.text for it in found],
                         ["_a1", "\u03b2\u0301x", ":=", "!=", "1", "a", "&&", "&", "\u00b2", "a\u03b2", "=", "1", "\u03b2", "\u03b2x1",
                          "x\u0301y1"])

    def test_texts_that_end_too_early(self) -> None:
        for language in texts.KINDS:
            for words in ("test", "test b", "term t = ", "prog P {", "fun u8", "fun u8 f(", "graph g { block", "var u64", "goal",
                          "equal", "}", "goto"):
                text = texts.Text(words, language)
                self.assertLessEqual(len(text.definitions), 1)
                self.assertLessEqual(len(text.goals), 1)

    def test_each_word_of_a_refusal_has_a_sentence(self) -> None:
        sections = [it for page in ("language.md", "commands.md") for it in (TOP / "docs" / page).read_text().split("\n## ")]
        row = re.compile(r"^\|(?: \d+ \|)? `([A-Z]\w+)(?: N)?` \|", re.MULTILINE)
        words = {word for section in sections if "| word |" in section for word in row.findall(section)}
        self.assertLessEqual(words, set(SENTENCES))

    def test_refusals_are_read(self) -> None:
        self.assertEqual(refusals.read("refused: Syntax 31\n"), ("Syntax", 31))
        self.assertEqual(refusals.read("refused: NoGoal\n"), ("NoGoal", None))
        self.assertIsNone(refusals.read("kat 2 equal\n"))


if __name__ == "__main__":
    unittest.main()
