"""Pictures: each is one XML document with what it has to show; the command `draw` over reports, names and marks."""
import contextlib
import io
import os
import random
import re
import shutil
import subprocess
import sys
import tempfile
import time
import unittest
import xml.etree.ElementTree as xml
from pathlib import Path
from unittest import mock

from mdt import Node, parse_tree
from mdt.__main__ import main
from mdt.diagrams import arcs_svg, graph_svg, orders_svg
from mdt.pictures import DIRECTED_MEANING, MEANING, letters, tree_dot, tree_svg
from mdt.rings import ring_order
from mdt.svg import MARKED

SVG = "{http://www.w3.org/2000/svg}"
NESTED = "S(R(0,P(1,4),2,3;0-1,1-2,2-3),5)"
DIRECTED = "O(4,R(0,S(1,5),2;0>1,1>2,2>1,2>0),3)"
BROWSER = shutil.which("chromium")


def texts(svg):
    return [element.text for element in xml.fromstring(svg).iter(SVG + "text")]


def titles(svg):
    return [element.text for element in xml.fromstring(svg).iter(SVG + "title")]


def box(svg):
    return [float(x) for x in xml.fromstring(svg).get("viewBox").split()]


def random_cotree(r, leaves, kind):
    if len(leaves) == 1:
        return Node("leaf", leaves[0])
    node = Node(kind)
    cuts = sorted(r.sample(range(1, len(leaves)), min(len(leaves), r.randrange(2, 6)) - 1))
    for begin, end in zip([0] + cuts, cuts + [len(leaves)]):
        node.children.append(random_cotree(r, leaves[begin:end], "series" if kind == "parallel" else "parallel"))
    return node


def chain(depth):
    text = "0"
    for v in range(1, depth + 1):
        text = "%s(%s,%d)" % ("SP"[v % 2], text, v)
    return parse_tree(text)


class Trees(unittest.TestCase):
    def test_a_quotient_is_drawn_in_its_node(self):
        svg = tree_svg(parse_tree(NESTED), legend=False)
        self.assertEqual(sorted(texts(svg)), sorted(["S", "5", "R", "0", "A", "2", "3", "A", "P", "1", "4"]))
        self.assertIn("prime, 5 vertices: 0 1 4 2 3", titles(svg))
        self.assertEqual(box(svg)[:2], [0, 0])
        self.assertIn(MEANING["prime"], texts(tree_svg(parse_tree(NESTED))))
        self.assertEqual(parse_tree(NESTED)._repr_svg_(), svg)

    def test_directed_trees(self):
        tree = parse_tree(DIRECTED, directed=True)
        svg = tree_svg(tree, legend=False)
        self.assertEqual(sorted(texts(svg)), sorted("O 4 A 3 A R 0 A 2 A S 1 5".split()))
        self.assertIn("order, 6 vertices: 4 0 1 5 2 3", titles(svg))
        self.assertEqual((svg.count("marker-end"), svg.count("marker-start")), (3, 1))
        for kind in ("series", "order", "prime"):
            self.assertIn(DIRECTED_MEANING[kind], texts(tree_svg(tree)))
        dot = tree_dot(tree)
        self.assertIn("0>1 1>2 2>1 2>0", dot)
        self.assertEqual((dot.count("ordering=out"), dot.count(" -- ")), (1, 8))

    def test_names_and_marks(self):
        tree = parse_tree("R(0,1,2,3;0-1,1-2,2-3)")
        svg = tree_svg(tree, {0: "<a>", 1: "a name that is far too long", 2: "&", 3: "d"}.get, {0, 3}, legend=False)
        self.assertEqual(svg.count(MARKED), 2)
        self.assertIn("a name that is far too long", titles(svg))
        self.assertIn("<a>", texts(svg))
        self.assertEqual(tree_dot(tree, {0, 3}).count(MARKED), 2)
        self.assertEqual(tree_dot(tree).count(" -- "), 4)
        self.assertEqual(tree.to_dot({0}).count(MARKED), 1)

    def test_sizes(self):
        for tree, width, height in [
            (random_cotree(random.Random(5), list(range(100)), "series"), 1100, 1600),
            (chain(40), 320, 1800),
            (Node("leaf", 0), 400, 120),
        ]:
            x, y, wide, high = box(tree_svg(tree))
            self.assertLess(wide, width)
            self.assertLess(high, height)
        self.assertEqual(texts(tree_svg(None)), ["empty"])

    def test_2000_leaves_take_about_a_second(self):
        r = random.Random(9)
        prime = Node("prime")
        prime.children = [Node("leaf", v) for v in range(2000)]
        prime.pairs = sorted({(i, j) for j in range(2000) for i in r.sample(range(2000), 3) if i < j})
        for tree in [random_cotree(r, list(range(2000)), "series"), chain(1999), prime]:
            for draw in (tree_svg, graph_svg):
                begin = time.process_time()
                xml.fromstring(draw(tree))
                self.assertLess(time.process_time() - begin, 5)

    def test_rings(self):
        order = ring_order(6, [(0, 3), (3, 1), (1, 5), (5, 2), (2, 4), (0, 4)])
        self.assertIn(order, ([0, 3, 1, 5, 2, 4], [0, 4, 2, 5, 1, 3]))
        self.assertEqual([letters(i) for i in (0, 25, 26, 51, 52, 701, 702)], ["A", "Z", "AA", "AZ", "BA", "ZZ", "AAA"])


class Diagrams(unittest.TestCase):
    def test_graphs(self):
        svg = graph_svg(parse_tree(NESTED), marked={1})
        self.assertEqual(sorted(texts(svg)), ["0", "1", "2", "3", "4", "5"])
        self.assertEqual(svg.count(MARKED), 1)
        edges = [path.get("d").count("M") for path in xml.fromstring(svg).iter(SVG + "path")]
        self.assertEqual(edges, [10])
        self.assertLess(box(graph_svg(chain(39)))[2], 2000)
        svg = graph_svg(parse_tree(DIRECTED, directed=True))
        self.assertEqual((svg.count("marker-end"), svg.count("marker-start")), (15, 3))
        order = "O(%s)" % ",".join(map(str, range(40)))
        svg = graph_svg(parse_tree("O(%s,P(40,41))" % order[2:-1], directed=True))
        self.assertEqual(svg.count("marker-end"), 41 * 40 // 2)

    def test_arcs_and_orders(self):
        svg = arcs_svg([(0, 1), (2, 1), (2, 3)])
        self.assertEqual((svg.count("marker-end"), sorted(texts(svg))), (3, ["0", "1", "2", "3"]))
        svg = arcs_svg([(0, 1), (0, 4), (3, 4), (3, 2), (1, 2), (1, 0)], numbered=True)
        self.assertEqual(sorted(texts(svg)), sorted("0 1 2 3 4 1 2 3 4 5 6".split()))
        svg = orders_svg([[0, 1, 2], [2, 0, 1]])
        self.assertEqual(sorted(texts(svg)), ["0", "0", "1", "1", "2", "2"])
        for svg in (arcs_svg([]), orders_svg([[], []]), graph_svg(None)):
            xml.fromstring(svg)


class Command(unittest.TestCase):
    def setUp(self):
        folder = tempfile.TemporaryDirectory()
        self.addCleanup(folder.cleanup)
        self.folder = Path(folder.name)

    def file(self, name, content):
        path = self.folder / name
        path.write_text(content, encoding="utf-8")
        return str(path)

    def draw(self, *words):
        out, err = io.StringIO(), io.StringIO()
        with mock.patch.object(sys, "argv", ["mdt", "draw", *words]), contextlib.redirect_stdout(out), \
                contextlib.redirect_stderr(err):
            try:
                status = main()
            except SystemExit as end:
                status = end.code
        return status, out.getvalue(), err.getvalue()

    def session(self):
        return self.file("session", "mdt cograph\nt S(0,1)\nok S(0,1,2)\nno p4 0 1 2 3\nok S(0,2)\nend\n")

    def test_lines(self):
        report = self.file("report", "mdt tree\nt 7\nt S(0,1)\nend\n")
        self.assertEqual(texts(self.draw("--no-legend", report)[1]), ["7"])
        directed = self.file("directed", "mdt dtree\nt O(1,0)\nend\n")
        self.assertEqual(texts(self.draw("--no-legend", directed)[1]), ["O", "1", "0"])
        self.assertEqual(self.draw("--graph", directed)[1].count("marker-end"), 1)
        self.assertEqual(texts(self.draw("--no-legend", "--line", "3", report)[1]), ["S", "0", "1"])
        self.assertIn(" -- ", self.draw("--dot", "--line", "3", report)[1])
        self.assertEqual(self.draw("--all", report)[1].count("<svg"), 2)
        names = self.file("names", "0 ann\n\n1 bob lee\n")
        named = self.draw("--no-legend", "--line", "3", "--names", names, report)[1]
        self.assertEqual(texts(named), ["S", "ann", "bob lee"])
        self.assertEqual(self.draw("--line", "3", "--mark", "1", "--no-legend", report)[1].count(MARKED), 1)
        self.assertEqual(self.draw("--graph", "--line", "3", report)[1].count("<circle"), 3)

    def test_orientations_and_models(self):
        compare = self.file("compare", "mdt compare\nyes 0>1\nno 0>1 0>2 1>0\nend\n")
        self.assertEqual(self.draw("--orientation", compare)[1].count("marker-end"), 1)
        self.assertEqual(self.draw("--orientation", "--line", "3", compare)[1].count("marker-end"), 3)
        permute = self.file("permute", "mdt permute\nno c 0>1 0>2 1>0\nyes 0 1 / 1 0\nend\n")
        self.assertEqual(self.draw("--permutation", permute)[1].count("marker-end"), 3)
        self.assertEqual(texts(self.draw("--permutation", "--line", "3", permute)[1]), ["0", "0", "1", "1"])

    def test_words_that_fit_nothing(self):
        report = self.file("report", "mdt tree\nt S(0,1)\nend\n")
        compare = self.file("compare", "mdt compare\nyes\nend\n")
        for words, status, told in [
            (["--mark", "a", report], 2, "vertices are numbers"),
            (["--mark-line", "x", report], 2, "a report, a colon"),
            (["--mark-line", "x:y", report], 2, "a report, a colon"),
            (["--mark", "5", report], 1, "no vertex 5"),
            (["--mark-line", report + ":9", report], 1, "no line 9"),
            (["--line", "9", report], 1, "no line 9"),
            (["--line", "1", report], 1, "nothing of this kind"),
            ([compare], 1, "nothing of this kind"),
            (["--session", report], 1, "no tree for each edit"),
            (["--names", report, report], 1, "line 1 isn't a number"),
            ([sys.executable], 1, "line 1"),
            ([str(self.folder / "absent")], 1, "No such file"),
        ]:
            end, out, err = self.draw(*words)
            self.assertEqual((end, out), (status, ""), words)
            self.assertIn(told, err)

    def test_sessions(self):
        script = self.file("script", "+v 2 0 1\n+v 3 2\nbegin\n-v 1\ncommit\n")
        page = self.draw("--session", "--script", script, self.session())[1]
        captions = re.findall("<figcaption>(.*?)</figcaption>", page)
        self.assertEqual(captions, ["line 2: the first graph", "line 3: +v 2 0 1: ok", "line 4: +v 3 2: no p4 0 1 2 3",
                                    "line 5: begin; -v 1; commit: ok"])
        self.assertEqual(page.count(MARKED), 4)
        session = self.file("threshold", "mdt threshold\nt S(0,1)\nok P(S(0,1),2)\nno edit 2 2k2 0 1 2 3\nend\n")
        page = self.draw("--session", "--script", script, session)[1]
        self.assertIn("line 4: +v 3 2: no edit 2 2k2 0 1 2 3", page)
        self.assertEqual(page.count(MARKED), 4)
        for mode, line, edges in [("cograph", "p4 2 0 3 1", 3), ("trivial", "c4 0 2 1 3", 4),
                                  ("threshold", "2k2 0 2 1 3", 2)]:
            page = self.draw("--session", self.file("barred", "mdt %s\n%s\nend\n" % (mode, line)))[1]
            self.assertIn("<figcaption>line 2: %s</figcaption>" % line, page)
            drawn = re.search(' d="(M[^"]*)"', page).group(1)
            self.assertEqual((drawn.count("M"), page.count("<circle") >= 4), (edges, True), page)
        self.assertNotIn("http://", page.replace("http://www.w3.org/2000/svg", ""))

    @unittest.skipUnless(BROWSER, "no browser chromium")
    def test_keys(self):
        page = self.draw("--session", self.session())[1]
        keys = "".join('document.dispatchEvent(new KeyboardEvent("keydown", {key: "%s"}));seen.push(now);' % key
                       for key in ("ArrowRight", " ", "ArrowLeft", "End", "ArrowRight", "Home", "ArrowLeft"))
        shown = 'document.title = seen.join() + " " + document.querySelectorAll(".now").length;'
        path = self.file("page.html", page.replace("</script>", "const seen = [now];%s%s</script>" % (keys, shown)))
        it = subprocess.run([BROWSER, "--headless", "--no-sandbox", "--disable-gpu", "--dump-dom",
                             "--user-data-dir=" + str(self.folder / "user"), "file://" + path],
                            capture_output=True, text=True, timeout=120, env={**os.environ, "HOME": str(self.folder)})
        self.assertEqual(re.search("<title>(.*?)</title>", it.stdout).group(1), "0,1,2,1,3,3,0,0 1")


if __name__ == "__main__":
    unittest.main()
