"""What the program answers for graphs of Python, and what it writes, read back. It is found on PATH or by MDT."""
import doctest
import os
import random
import subprocess
import sys
import tempfile
import unittest
from pathlib import Path
from unittest import mock

import mdt
from mdt import program
from mdt.graphs import numbered, numbered_digraph
from mdt.reports import MODES, OF_GRAPHS, join

try:
    import networkx
except ImportError:
    networkx = None

README = Path(__file__).resolve().parents[1] / "README.md"
EXAMPLES = README.parents[1] / "examples"
NAMED = [("ann", "bob"), ("bob", "cem"), ("cem", "dan"), ("bob", "eve")]


def has_program():
    try:
        return bool(program.program())
    except mdt.MdtError:
        return False


def random_edges(r, n):
    density = r.random()
    return {(u, v) for v in range(n) for u in range(v) if r.random() < density}


def edges_of(tree):
    return {tuple(sorted(pair)) for pair in tree.edges()} if tree else set()


class SageGraph:
    """A graph that has of Sage's interface what the package asks for."""

    def __init__(self, vertices, edges, directed=False):
        self.vertices, self.edges, self.directed = vertices, edges, directed

    def is_directed(self):
        return self.directed

    def vertex_iterator(self):
        return iter(self.vertices)

    def edge_iterator(self, labels=True):
        return ((u, v, None) if labels else (u, v) for u, v in self.edges)


class Numbered(unittest.TestCase):
    def test_graph6(self):
        for n, edges, line in [
            (0, [], b"?\n"), (1, [], b"@\n"), (2, [(0, 1)], b"A_\n"),
            (5, [(0, 2), (0, 4), (1, 3), (3, 4)], b"DQc\n"), (63, [], b"~??~" + 326 * b"?" + b"\n"),
        ]:
            self.assertEqual(numbered(edges, range(n)).graph6(), line)

    def test_graphs(self):
        self.assertEqual(numbered(NAMED, ["zoe"]).vertices, ["ann", "bob", "cem", "dan", "eve", "zoe"])
        self.assertEqual(numbered([(2, 1), (1, 2)]), ([1, 2], {(0, 1)}))
        self.assertEqual(numbered([("b", 1), (1, "a")]).vertices, ["b", 1, "a"])
        self.assertEqual(numbered(SageGraph([3, 1, 2], [(1, 3)])), ([1, 2, 3], {(0, 2)}))
        for graph in [[(1, 1)], [(1, 2, 3)], SageGraph([], [], directed=True)]:
            with self.assertRaises(ValueError):
                numbered(graph)
        with self.assertRaises(TypeError):
            numbered(7)

    def test_directed(self):
        for n, arcs, line in [
            (0, [], b"&?\n"), (1, [], b"&@?\n"), (2, [(1, 0)], b"&AG\n"), (2, [(1, 0), (0, 1), (1, 0)], b"&AW\n"),
            (5, [(0, 2), (0, 4), (3, 1), (3, 4)], b"&DI?AO?\n"), (63, [], b"&~??~" + 662 * b"?" + b"\n"),
        ]:
            self.assertEqual(numbered_digraph(arcs, range(n)).digraph6(), line)
        self.assertEqual(numbered_digraph(SageGraph([3, 1, 2], [(3, 1)], directed=True)), ([1, 2, 3], {(2, 0)}))
        for graph in [[(1, 1)], [(1, 2, 3)], SageGraph([], [])]:
            with self.assertRaises(ValueError):
                numbered_digraph(graph)

    @unittest.skipIf(networkx is None, "networkx isn't installed")
    def test_networkx(self):
        graph = networkx.path_graph(3)
        graph.add_node(9)
        self.assertEqual(numbered(graph), ([0, 1, 2, 9], {(0, 1), (1, 2)}))
        self.assertRaises(ValueError, numbered, networkx.DiGraph())
        self.assertEqual(numbered_digraph(networkx.DiGraph([(1, 0)])), ([0, 1], {(1, 0)}))
        self.assertRaises(ValueError, numbered_digraph, networkx.Graph())


class WithoutProgram(unittest.TestCase):
    def test_errors(self):
        with mock.patch.dict(os.environ, {"MDT": "/no/such/program"}):
            self.assertRaises(mdt.MdtError, mdt.tree, [(0, 1)])
        with mock.patch.dict(os.environ, {"MDT": "", "PATH": ""}):
            self.assertRaises(mdt.MdtError, mdt.tree, [(0, 1)])
        self.assertRaises(ValueError, mdt.session, [], "tree")


@unittest.skipUnless(has_program(), "no program mdt on PATH or in MDT")
class Answers(unittest.TestCase):
    def test_named(self):
        self.assertEqual(str(mdt.tree(NAMED)), "R(P(ann,eve),bob,cem,dan;0-1,1-2,2-3)")
        self.assertIsNone(mdt.tree([]))
        self.assertEqual(mdt.orient(NAMED[:3]),
                         mdt.Orientation([("ann", "bob"), ("cem", "bob"), ("cem", "dan")]))
        cycle = [(i, (i + 1) % 5) for i in range(5)]
        chain = mdt.orient(cycle)
        self.assertFalse(chain)
        self.assertEqual((chain.of, chain.arcs[0], chain.arcs[-1]), ("graph", (0, 1), (1, 0)))
        self.assertEqual(mdt.permutation_model([(i, (i + 1) % 6) for i in range(6)]).of, "complement")
        model = mdt.permutation_model(NAMED, ["zoe"])
        self.assertEqual(sorted(model.first), sorted(model.second))
        for u in model.first:
            for v in model.first:
                before = [order.index(u) < order.index(v) for order in (model.first, model.second)]
                self.assertEqual(before[0] != before[1], (u, v) in NAMED or (v, u) in NAMED)

    def test_trees_denote_their_graphs(self):
        r = random.Random(7)
        for n in [0, 1, 2, 3, 5, 8, 13, 20, 62, 63, 64]:
            edges = random_edges(r, n)
            tree = mdt.tree(edges, range(n))
            self.assertEqual(sorted(tree.leaves()) if tree else [], list(range(n)))
            self.assertEqual(edges_of(tree), edges)
            arcs = edges | {(v, u) for u, v in random_edges(r, n)}
            tree = mdt.directed_tree(arcs, range(n))
            self.assertEqual(sorted(tree.leaves()) if tree else [], list(range(n)))
            self.assertEqual(set(tree.edges()) if tree else set(), arcs)

    @unittest.skipIf(networkx is None, "networkx isn't installed")
    def test_networkx(self):
        graph = networkx.les_miserables_graph()
        tree = mdt.tree(graph)
        self.assertEqual(set(tree.leaves()), set(graph))
        self.assertEqual(edges_of(tree), {tuple(sorted(pair)) for pair in graph.edges()})

    def test_session(self):
        with mdt.session(NAMED[:3], "cograph") as session:
            session.remove_vertex("ann")
        self.assertEqual([line.what for line in session.lines], ["p4"])
        self.assertEqual(sorted(session.lines[0].vertices), ["ann", "bob", "cem", "dan"])
        self.assertEqual((session.answers, session.tree), ([], None))
        with mdt.session(NAMED[:2], "cograph") as session:
            session.add_vertex("dan", ["cem"])
            session.add_vertex("dan", ["ann", "cem"])
            session.add_edge("ann", "nobody")
            session.remove_edge("dan", "dan")
        self.assertEqual([(line.what, line.reason) for line in session.answers],
                         [("refused", "p4"), ("applied", None), ("refused", "vertex"), ("refused", "same")])
        self.assertEqual(session.answers[2].vertices, ["nobody"])
        self.assertEqual(str(session.tree), "S(P(ann,cem),P(bob,dan))")
        with mdt.session(NAMED[:1], "edit") as session:
            session.undo()
            with session.group():
                session.add_vertex("dan", ["bob"])
                session.add_edge("ann", "bob")
            with session.group():
                session.remove_edge("ann", "bob")
                self.assertRaises(ValueError, session.undo)
                self.assertRaises(ValueError, session.group().__enter__)
            with self.assertRaises(KeyError):
                with session.group():
                    raise KeyError("x")
            session.undo()
        self.assertEqual([(line.what, line.edit, line.reason) for line in session.answers],
                         [("refused", None, "undo"), ("refused", 2, "edge-there"), ("applied", None, None),
                          ("applied", None, None)])
        self.assertEqual(str(session.tree), "S(ann,bob)")
        with mdt.session(NAMED[:2], "threshold") as session:
            session.add_vertex("dan")
            session.add_edge("ann", "dan")
            session.add_vertex("eve", ["dan"])
            with session.group():
                session.add_vertex("eve", ["ann", "cem"])
        self.assertEqual([(line.what, line.edit, line.reason) for line in session.answers],
                         [("applied", None, None), ("refused", None, "p4"), ("refused", None, "2k2"),
                          ("refused", 1, "c4")])
        self.assertEqual(session.answers[3].vertices, ["ann", "bob", "cem", "eve"])
        self.assertEqual(str(session.tree), "P(S(P(ann,cem),bob),dan)")
        with mdt.session([("ann", "bob"), ("cem", "dan")], "trivial") as session:
            session.add_edge("ann", "cem")
        self.assertEqual((session.answers[0].reason, str(session.tree)), ("p4", "P(S(ann,bob),S(cem,dan))"))
        for graph, mode, what in [([("ann", "bob"), ("cem", "dan")], "threshold", "2k2"),
                                  ([(i, (i + 1) % 4) for i in range(4)], "trivial", "c4")]:
            with mdt.session(graph, mode) as session:
                session.undo()
            self.assertEqual([line.what for line in session.lines], [what])
            self.assertEqual((sorted(session.lines[0].vertices), session.tree),
                             (sorted({v for pair in graph for v in pair}), None))
        with mdt.session([], "quiet") as session:
            session.add_vertex("x")
        self.assertEqual(str(session.tree), "x")
        with self.assertRaises(KeyError):
            with mdt.session([], "edit") as session:
                raise KeyError("x")
        self.assertEqual(session.lines, [])

    def test_faults(self):
        with self.assertRaises(mdt.MdtError) as caught:
            mdt.tree([], range(16_385))
        error = caught.exception
        self.assertEqual((error.status, error.file, error.kind, error.line), (3, "graph", "TooManyVertices", 1))
        for call in (mdt.orient, mdt.directed_tree):
            with self.assertRaises(mdt.MdtError) as caught:
                call([], range(4097))
            self.assertEqual(caught.exception.kind, "TooManyVertices")
        with self.assertRaises(mdt.MdtError) as caught:
            with mdt.session([], "edit") as session:
                session.add_vertex("last", range(16_384))
        self.assertEqual((caught.exception.file, caught.exception.kind), ("script", "NameTooLarge"))
        with self.assertRaises(mdt.MdtError) as caught:
            mdt.check("tree", "g6", "/no/such/file", "/no/such/file")
        self.assertEqual((caught.exception.status, caught.exception.kind), (4, "ReadFault"))
        self.assertRaises(mdt.MdtError, mdt.check, "tree", "png", "x", "y")


    @unittest.skipUnless(README.is_file(), "no README beside the tests")
    def test_what_the_readme_shows(self):
        failed, tried = doctest.testfile(str(README), module_relative=False)
        self.assertEqual(failed, 0)
        self.assertGreater(tried, 5)
        self.assertEqual(doctest.testmod(mdt).failed, 0)


@unittest.skipUnless(has_program() and EXAMPLES.is_dir(), "no program mdt, or no examples beside the package")
class Reports(unittest.TestCase):
    def setUp(self):
        folder = tempfile.TemporaryDirectory()
        self.addCleanup(folder.cleanup)
        self.folder = Path(folder.name)

    def file(self, name, content):
        path = self.folder / name
        path.write_bytes(content)
        return str(path)

    def test_each_mode_is_read_and_checked(self):
        script = self.file("script", b"+e 0 1\n-e 0 1\n+e 0 0\n+e 0 99\n+v 50 0 1\n-v 50\n+v 0\nundo\n"
                           b"begin\n+v 50\n+v 51\ncommit\nundo\nbegin\n-v 0\n-v 0\ncommit\n")
        for path in sorted(EXAMPLES.iterdir()):
            if path.name in ("all.g6", "truncated.g6") or path.suffix not in (".g6", ".col"):
                continue
            form = "g6" if path.suffix == ".g6" else "dimacs"
            for mode in MODES:
                if mode != "dtree":
                    self.read_and_check(mode, form, [str(path)] + ([] if mode in OF_GRAPHS else [script]))
        self.read_and_check("dtree", None, [self.file("digraphs", b">>digraph6<<&BP_\n&BCo\n\n&AW\n&?\n&@?\n")])

    def read_and_check(self, mode, form, inputs):
        report = self.file("report", program.run([mode] + ([form] if form else []) + inputs))
        self.assertEqual(list(mdt.read_report(report))[-1].what, "end")
        self.assertIsNone(mdt.check(mode, form, *inputs, report))
        with self.assertRaises(mdt.Rejected) as caught:
            mdt.check(mode, form, *inputs, self.file("short", Path(report).read_bytes()[:-1]))
        self.assertEqual(caught.exception.line, Path(report).read_bytes().count(b"\n"))

    def test_pieces_are_joined_to_the_report_of_all(self):
        r = random.Random(11)
        lines = []
        for _ in range(40):
            n = r.randrange(20)
            lines.append(numbered(random_edges(r, n), range(n)).graph6())
        whole = program.run(["tree", "g6", self.file("graphs", b"".join(lines))])
        pieces = [program.run(["tree", "g6", self.file("piece", b"".join(lines[k:k + 10]))]) for k in range(0, 40, 10)]
        written = []
        join([("piece", piece.splitlines(keepends=True)) for piece in pieces], written.append, 40)
        self.assertEqual(b"".join(written), whole)

    def test_commands(self):
        graph = str(EXAMPLES / "cycle5.g6")
        report = self.file("report", program.run(["permute", "g6", graph]))
        cut = self.file("cut", b"mdt tree\nt 0\n")
        session = [str(EXAMPLES / "cograph5.g6"), self.file("script", b"-e 3 4\n+v 5 0 1\n")]
        barred = self.file("barred", program.run(["trivial", "g6", *session]))
        for words, status, out in [
            (["verify", "permute", graph, report], 0, "accepted\n"),
            (["verify", "trivial", *session, barred], 0, "accepted\n"),
            (["verify", "threshold", *session, barred], 1, "rejected line 1\n"),
            (["verify", "tree", graph, report], 1, "rejected line 1\n"),
            (["verify", "edit", graph, report], 2, ""),
            (["report", report], 0, "chain of the graph 1\nlines 3\nlines: chain 1\nlines: end 1\nlines: head 1\n"),
            (["join", report, report, "--lines", "2"], 0, None),
            (["join", report, "--lines", "2"], 1, None),
            (["report", cut], 1, ""),
            (["draw", "--mark", "a", report], 2, ""),
            (["draw", "--help"], 0, None),
            ([], 2, ""),
        ]:
            it = subprocess.run([sys.executable, "-m", "mdt", *words], capture_output=True, text=True,
                                cwd=os.getcwd(), env={**os.environ, "PYTHONPATH": str(Path(mdt.__file__).parents[1])})
            self.assertEqual(it.returncode, status, (words, it.stderr))
            self.assertNotIn("Traceback", it.stderr)
            if out is not None:
                self.assertEqual(it.stdout, out)


if __name__ == "__main__":
    unittest.main()
