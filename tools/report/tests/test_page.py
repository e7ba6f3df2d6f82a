"""The whole page, and how it works in headless Chromium where that is installed."""

import tempfile
import unittest
from html.parser import HTMLParser
from pathlib import Path

from report.command import cases_of, groups_of, main
from report.prover import TOP, Kat, found_program
from report.tests.browser import Browser, found_browser

EXAMPLES = TOP / "examples"
FILES = ("holds/program-unswitched.kat", "fails/assignment-hoisted.kat", "fails/unswitched-loop.kat", "flow/lock-forgotten.flow",
         "flow/state-machine.flow", "refused/missing-comma.kat", "fails/invariant-lost.kat", "guarded/choice-exchanged.gkat",
         "guarded/loop-runs-once.gkat")
MOST_BYTES = 200_000
EMPTY = {"meta", "br", "wbr"}


class Tags(HTMLParser):
    """Checks that elements are closed in order, and that no address is in the page."""

    def __init__(self) -> None:
        super().__init__()
        self.open: list[str] = []
        self.faults: list[str] = []
        self.count: dict[str, int] = {}

    def handle_starttag(self, tag: str, attrs: list) -> None:
        self.count[tag] = self.count.get(tag, 0) + 1
        if tag not in EMPTY:
            self.open.append(tag)
        for name, value in attrs:
            if name in ("src", "href") and not str(value).startswith("#"):
                self.faults.append(f"{tag} {name} {value}")
        if tag == "th" and "scope" not in dict(attrs):
            self.faults.append("th without scope")

    def handle_startendtag(self, tag: str, attrs: list) -> None:
        self.count[tag] = self.count.get(tag, 0) + 1

    def handle_endtag(self, tag: str) -> None:
        if not self.open or self.open.pop() != tag:
            self.faults.append(f"</{tag}>")


def page_of(folder: Path, *names: str) -> Path:
    made = folder / "report.html"
    main([*(str(EXAMPLES / name) for name in names), "-o", str(made)], "")
    return made


class Pages(unittest.TestCase):
    def test_each_example_is_small_whole_and_alone(self) -> None:
        with tempfile.TemporaryDirectory() as folder:
            for name in FILES:
                text = page_of(Path(folder), name).read_text("utf-8")
                self.assertLess(len(text.encode()), MOST_BYTES, name)
                tags = Tags()
                tags.feed(text)
                self.assertEqual((tags.faults, tags.open), ([], []), name)
                self.assertNotIn("http", text)
                self.assertEqual(tags.count.get("svg", 0), text.count('role="img"'))

    def test_choices_of_cuts(self) -> None:
        files = [Path(f"find-{k}.flow") for k in (10, 2, 0)] + [Path("a-b.flow"), Path("plain.flow")]
        groups = {name: [file.name for file in group] for name, group in groups_of(files).items()}
        self.assertEqual(groups, {"find": ["find-0.flow", "find-2.flow", "find-10.flow"], "a-b": ["a-b.flow"], "plain": ["plain.flow"]})

    def test_a_folder_has_a_section_for_each_function(self) -> None:
        with tempfile.TemporaryDirectory() as folder:
            for name, source in (("f-0", "search-loop-late"), ("f-1", "search-loop"), ("g-0", "uncut-loop")):
                text = (EXAMPLES / "flow" / f"{source}.flow").read_text("utf-8")
                (Path(folder) / f"{name}.flow").write_text(text, "utf-8")
            (Path(folder) / "f-0.evidence").write_text("kat 1 different\n", "utf-8")
            (Path(folder) / "f-1.evidence").write_text("kat 2 equal\n", "utf-8")
            main([folder, "-o", f"{folder}/report.html"], "")
            text = (Path(folder) / "report.html").read_text("utf-8")
            self.assertEqual(text.count("<section"), 2)
            self.assertIn("f (f-1.flow)", text)
            self.assertIn("refused: UncutLoop", text)


    def test_a_folder_of_validate_has_a_folder_for_each_file_and_step(self) -> None:
        with tempfile.TemporaryDirectory() as folder:
            for place in ("a\u02ccll/0", "\u02c8n1sub\u02c82f\u02c8name\u02ccll/0", "\u02c8n1sub\u02c82f\u02c8name\u02ccll/3"):
                Path(folder, place).mkdir(parents=True)
                text = (EXAMPLES / "flow/search-loop.flow").read_text("utf-8")
                Path(folder, place, "find-0.flow").write_text(text, "utf-8")
            cases = list(cases_of(Kat(found_program(), 60), Path(folder), 10))
        self.assertEqual([case.title for case in cases], ["a.ll: find (find-0.flow)", "1sub/name.ll, step 0: find (find-0.flow)",
                                                          "1sub/name.ll, step 3: find (find-0.flow)"])

    def test_guarded_programs_are_shown_as_they_are_written(self) -> None:
        with tempfile.TemporaryDirectory() as folder:
            text = page_of(Path(folder), "guarded/nested-loops.gkat").read_text("utf-8")
        self.assertIn("goal <code>equal (p . q^[c])^[b], p . (q +[c] p)^[b || c] +[b] 1</code>", text)
        self.assertEqual(text.count("<svg"), 2)
        self.assertIn("What belongs together", text)
        self.assertNotIn("The sides are not shown", text)


@unittest.skipUnless(found_browser(), "Chromium is not installed")
class InBrowser(unittest.TestCase):
    folder: "tempfile.TemporaryDirectory[str]"
    page: Path
    browser: Browser

    @classmethod
    def setUpClass(cls) -> None:
        cls.folder = tempfile.TemporaryDirectory()
        cls.page = page_of(Path(cls.folder.name), *FILES)
        cls.browser = Browser(found_browser() or "")
        cls.browser.open(cls.page)

    @classmethod
    def tearDownClass(cls) -> None:
        cls.browser.close()
        cls.folder.cleanup()

    def setUp(self) -> None:
        self.browser.size(1200, 800)
        self.browser.scheme("light")

    def states(self) -> list[str]:
        return self.browser.value("[...document.querySelectorAll('.at')].map(it => it.textContent)")

    def test_no_width_overflows(self) -> None:
        for width in (390, 700, 1200, 1600):
            self.browser.size(width, 800)
            self.assertEqual(self.browser.value("document.documentElement.scrollWidth"), width)

    def test_dark_and_light_differ(self) -> None:
        color = "getComputedStyle(document.body).backgroundColor"
        light = self.browser.value(color)
        self.browser.scheme("dark")
        self.assertNotEqual(self.browser.value(color), light)

    def test_keys_and_buttons_step(self) -> None:
        self.browser.open(self.page)
        self.browser.value("document.querySelector('.stepper').scrollIntoView({block: 'center'})")
        self.assertEqual(self.states()[0], "state 0 of 1")
        self.browser.key("ArrowRight")
        self.assertEqual(self.states()[0], "state 1 of 1")
        self.browser.key("ArrowRight")
        self.assertEqual(self.states()[0], "state 1 of 1")
        self.browser.key("ArrowLeft")
        self.assertEqual(self.states()[0], "state 0 of 1")
        self.browser.value("document.querySelectorAll('.stepper')[1].scrollIntoView({block: 'center'})")
        self.browser.value("document.querySelectorAll('.stepper')[1].querySelectorAll('button')[3].click()")
        self.assertEqual(self.states()[:2], ["state 0 of 1", "state 2 of 2"])
        self.browser.key("ArrowLeft")
        self.assertEqual(self.states()[:2], ["state 0 of 1", "state 1 of 2"])

    def test_places_are_marked_in_code_and_graph(self) -> None:
        self.browser.open(self.page)
        marked = "[...document.querySelector('section.steps').querySelectorAll('.line.%s code')].map(it => it.textContent.trim())"
        self.assertEqual(self.browser.value(marked % "stop"), ["sum := sum + i;"])
        self.assertEqual(self.browser.value(marked % "now"), ["i := i + 1;"])
        nodes = "document.querySelector('section.steps').querySelectorAll('svg .node[data-s=x]').length"
        self.assertEqual(self.browser.value(nodes), 1)
        self.assertEqual(self.browser.value("document.querySelector('section.steps .line.stop .sign').textContent"), "✖")

    def test_everything_has_a_name(self) -> None:
        self.assertEqual(self.browser.value("[...document.querySelectorAll('svg, [role=region], button')].filter(it => "
                                            "!(it.getAttribute('aria-label') || it.querySelector('title'))).length"), 0)
        doubles = "(ids => ids.length - new Set(ids).size)([...document.querySelectorAll('[id]')].map(it => it.id))"
        self.assertEqual(self.browser.value(doubles), 0)


if __name__ == "__main__":
    unittest.main()
