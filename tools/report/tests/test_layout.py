"""The layout of graphs, by layers and by Graphviz where it is installed."""

import shutil
import unittest

from report.flows import read_flow
from report.graphs import Walk, drawing_of_graph, drawing_of_program
from report.layout import Box, Layout, Link, crossings, layout_of, turned_links
from report.machines import Seen
from report.problems import read_problem
from report.tests.test_texts import FLOW

BOXES = {name: Box(60 + 10 * k, 30) for k, name in enumerate(("entry", "head", "body", "far", "last"))}
LINKS = [Link("entry", "head"), Link("head", "body", "true"), Link("head", "last", "false"), Link("body", "head"), Link("body", "body"),
         Link("body", "far"), Link("far", "last"), Link("entry", "last")]


class Layouts(unittest.TestCase):
    def check(self, layout: Layout) -> None:
        """Boxes are apart and in the picture, and each link leads from its box to its box."""
        places = [(name, layout.nodes[name], box) for name, box in BOXES.items()]
        for k, (one, at, box) in enumerate(places):
            self.assertTrue(box.width / 2 <= at.x <= layout.size.width and box.height / 2 <= at.y <= layout.size.height, one)
            for other, there, size in places[:k]:
                apart = abs(at.x - there.x) >= (box.width + size.width) / 2 or abs(at.y - there.y) >= (box.height + size.height) / 2
                self.assertTrue(apart, (one, other))
        for link, curve in zip(LINKS, layout.curves):
            self.assertEqual(len(curve) % 3, 1)
            for name, end in ((link.source, curve[0]), (link.target, curve[-1])):
                at, box = layout.nodes[name], BOXES[name]
                self.assertTrue(abs(end.x - at.x) <= box.width / 2 + 2 and abs(end.y - at.y) <= box.height / 2 + 2, link)
        self.assertLess(layout.nodes["entry"].y, layout.nodes["head"].y)

    def test_layers(self) -> None:
        self.check(layout_of(BOXES, LINKS, uses_graphviz=False))

    @unittest.skipUnless(shutil.which("dot"), "Graphviz is not installed")
    def test_graphviz(self) -> None:
        self.check(layout_of(BOXES, LINKS))

    def test_one_node(self) -> None:
        self.assertEqual(set(layout_of({"a": Box(40, 20)}, [], uses_graphviz=False).nodes), {"a"})

    def test_back_edges_are_turned(self) -> None:
        self.assertEqual(turned_links(list(BOXES), LINKS), {3, 4})

    def test_crossings(self) -> None:
        self.assertEqual(crossings([["a", "b"], ["c", "d"]], {"a": ["d"], "b": ["c"], "c": [], "d": []}), 1)


class Graphs(unittest.TestCase):
    def test_a_program(self) -> None:
        text = "var x; prog P { x := 1; x := 2; while x < 9 { if x == 3 { abort; } x := x + 1; } } goal equal P, P;"
        drawing = drawing_of_program(text, read_problem(text).programs["P"][0])
        self.assertEqual([node.lines for node in drawing.nodes.values()],
                         [["start"], ["x := 1", "x := 2"], ["x < 9"], ["x == 3"], ["abort"], ["x := x + 1"], ["end"]])
        self.assertIn(Link("n2", "end", "false"), drawing.links)
        self.assertIn(Link("n5", "n2"), drawing.links)

    def test_a_walk_through_a_loop(self) -> None:
        graph = read_flow(FLOW).graphs["g"]
        drawing = drawing_of_graph(FLOW, graph)
        walk = Walk(drawing)
        head, body = graph.blocks["head"], graph.blocks["body"]
        path = walk.path([Seen(head.heading), Seen(head.jump.span, True), Seen(body.heading), Seen(body.jump.span, True), Seen(head.heading)])
        self.assertEqual(path.nodes, ["head", "body", "head"])
        self.assertEqual([drawing.links[k] for k in path.links], [Link("head", "body", "true"), Link("body", "head", "true")])


if __name__ == "__main__":
    unittest.main()
