"""The second opinion: over reports that stand here, beside all modules of small graphs, and beside `mdt check` over
altered reports of the program."""
import random
import subprocess
import tempfile
import unittest
from itertools import combinations, permutations
from pathlib import Path

from mdt import DirectedNode, MdtError, Node, program
from mdt.graphs import numbered, numbered_digraph
from mdt.inputs import InputFault, read_digraph6, read_graphs, read_script
from mdt.reports import MODES
from mdt.verify import SESSIONS, first_wrong_line, has_bar, is_bar, is_tree_of, limit_of

ALTERED = 12  # how many altered reports are tried of each report


def has_program():
    try:
        return bool(program.program())
    except MdtError:
        return False


def random_graph(r, n):
    density = r.choice([0.2, 0.5, 0.8])
    graph = {v: set() for v in range(n)}
    for u, v in combinations(range(n), 2):
        if r.random() < density:
            graph[u].add(v)
            graph[v].add(u)
    return graph


def random_cograph(r, n):
    """Two cographs side by side, all edges between them or none."""
    def edges(names):
        if len(names) < 2:
            return set()
        cut = r.randrange(1, len(names))
        left, right = names[:cut], names[cut:]
        across = {(u, v) for u in left for v in right} if r.random() < 0.5 else set()
        return across | edges(left) | edges(right)

    graph = {v: set() for v in range(n)}
    for u, v in edges(list(range(n))):
        graph[u].add(v)
        graph[v].add(u)
    return graph


def random_trivial(r, n):
    """A trivially perfect graph: each vertex of a rooted forest is adjacent to those above it."""
    names = r.sample(range(n), n)
    above = {}
    for place, v in enumerate(names):
        parent = r.choice(names[:place] + [None])
        above[v] = set() if parent is None else above[parent] | {parent}
    return {v: above[v] | {u for u in above if v in above[u]} for v in range(n)}


def random_threshold(r, n):
    """A threshold graph: each vertex is adjacent to all before it, or to none of them."""
    graph = {}
    for v in r.sample(range(n), n):
        graph[v] = set(graph) if r.random() < 0.5 else set()
        for u in graph[v]:
            graph[u].add(v)
    return graph


def all_graphs(n):
    """Each graph on n vertices."""
    pairs = list(combinations(range(n), 2))
    for number in range(2 ** len(pairs)):
        edges = {pair for place, pair in enumerate(pairs) if number >> place & 1}
        yield {v: {u for u in range(n) if (u, v) in edges or (v, u) in edges} for v in range(n)}


def random_digraph(r, n):
    """Directed graphs in the places of the vertices of one, with vertices numbered at random."""
    def arcs(names):
        if len(names) < 2:
            return set()
        cuts = sorted(r.sample(range(1, len(names)), r.randrange(1, min(4, len(names)))))
        parts = [names[a:b] for a, b in zip([0] + cuts, cuts + [len(names)])]
        kind = r.choice("psor")
        across = {(u, v) for (i, one), (j, two) in permutations(enumerate(parts), 2)
                  if kind == "s" or kind == "o" and i < j or kind == "r" and r.random() < 0.5 for u in one for v in two}
        return across.union(*map(arcs, parts))

    graph = {v: set() for v in range(n)}
    for u, v in arcs(r.sample(range(n), n)):
        graph[u].add(v)
    return graph


def graph6(graph):
    return numbered([(u, v) for u in graph for v in graph[u]], graph).graph6()


def digraph6(graph):
    return numbered_digraph([(u, v) for u in graph for v in graph[u]], graph).digraph6()


def random_script(r, n):
    lines, in_group = [], False
    for _ in range(r.randrange(10)):
        word = r.choice(["+e", "-e", "+v", "-v", "commit" if in_group else "begin", "undo"])
        if word in ("begin", "commit", "undo"):
            if word != "undo" or not in_group:
                lines.append(word + "\n")
                in_group = word == "begin"
            continue
        count = 2 if word in ("+e", "-e") else 1
        names = [r.randrange(n + 2) for _ in range(count + (r.randrange(n + 1) if word == "+v" else 0))]
        lines.append("%s %s\n" % (word, " ".join(map(str, names))))
    return "".join(lines + ["commit\n"] * in_group).encode()


def altered(r, report):
    """A report with one change that may or may not turn it wrong."""
    lines = report.splitlines(keepends=True)
    at = r.randrange(len(lines))
    what = r.randrange(8)
    if what == 0:
        del lines[at]
    elif what == 1:
        lines.insert(at, lines[r.randrange(len(lines))])
    elif what == 2:
        lines[at] = lines[r.randrange(len(lines))]
    elif what == 3:
        return report[:r.randrange(len(report) + 1)]
    elif what == 4:
        return report + r.choice([b"\n", b"end\n", b"x", b" "])
    elif what == 5:
        words = lines[at].split(b" ")
        r.shuffle(words)
        lines[at] = b" ".join(words)
    elif what == 6:
        words = lines[at][:-1].split(b" ")
        lines[at] = b" ".join(words[:1] + words[:0:-1]) + b"\n"
    else:
        text = bytearray(lines[at])
        text[r.randrange(len(text))] = r.choice(b"0123456789,();-> PSOR\n")
        lines[at] = bytes(text)
    return b"".join(lines)


def is_trivially_perfect(graph):
    """Whether each component has a vertex that is adjacent to all others of it, and the rest of it is so again."""
    left, waiting = set(graph), [set(graph)]
    while waiting:
        left = waiting.pop()
        if not left:
            continue
        part, reached = set(), {min(left)}
        while reached != part:
            part = reached
            reached = part.union(*(graph[v] & left for v in part))
        centre = [v for v in part if part <= graph[v] | {v}]
        if not centre:
            return False
        waiting += [left - part, part - {centre[0]}]
    return True


def is_threshold(graph):
    """Whether vertices that are adjacent to all left, or to none of them, can be taken off one by one."""
    left = set(graph)
    while left:
        off = [v for v in left if graph[v] & left in (set(), left - {v})]
        if not off:
            return False
        left.discard(off[0])
    return True


def is_module(graph, some):
    return all(len({(v in graph[u], u in graph[v]) for u in some}) == 1 for v in graph if v not in some)


def strong_modules(graph):
    """All strong modules: modules that overlap no module, found among all sets of vertices."""
    sets = [set(some) for size in range(1, len(graph) + 1) for some in combinations(graph, size)]
    modules = [some for some in sets if is_module(graph, some)]
    return [one for one in modules if not any(one & two and one - two and two - one for two in modules)]


def tree_of(graph, node_of=None):
    """The tree of a graph with vertices, or of a directed graph, from all its strong modules."""
    node_of = node_of or graph_node
    nodes = {}
    for module in sorted(strong_modules(graph), key=len):
        inside = [one for one in nodes if one < module and not any(one < two < module for two in nodes)]
        inside.sort(key=min)
        node, inside = node_of(graph, module, inside)
        node.children = [nodes[one] for one in inside]
        nodes[frozenset(module)] = node
    return nodes[frozenset(graph)]


def graph_node(graph, module, inside):
    """The node of a strong module of a graph, without children, and the strong modules that they have."""
    if not inside:
        return Node("leaf", min(module)), []
    pairs = [(i, j) for (i, one), (j, two) in combinations(enumerate(inside), 2) if min(two) in graph[min(one)]]
    whole = len(inside) * (len(inside) - 1) // 2
    node = Node("parallel" if not pairs else "series" if len(pairs) == whole else "prime")
    node.pairs = pairs if node.kind == "prime" else []
    return node, inside


def directed_node(graph, module, inside):
    """The same of a directed graph. A node is of order where all pairs of children have one arc, and each child arcs to
    another number of them."""
    if not inside:
        return DirectedNode("leaf", min(module)), []

    def pairs_of(children):
        return [(i, j) for (i, one), (j, two) in permutations(enumerate(children), 2) if min(two) in graph[min(one)]]

    pairs, most = pairs_of(inside), len(inside) * (len(inside) - 1)
    heads = [sum(i == tail for tail, _ in pairs) for i in range(len(inside))]
    if not pairs:
        return DirectedNode("parallel"), inside
    if len(pairs) == most:
        return DirectedNode("series"), inside
    if all((j, i) not in pairs for i, j in pairs) and len(set(heads)) == len(heads) and 2 * len(pairs) == most:
        return DirectedNode("order"), [inside[i] for i in sorted(range(len(inside)), key=lambda i: -heads[i])]
    node = DirectedNode("prime")
    node.pairs = pairs
    return node, inside


class Definitions(unittest.TestCase):
    def test_reports(self):
        for mode, graph, script, lines, wrong in [
            ("tree", b"DhO\n", b"", ["t R(P(0,4),1,2,3;0-1,1-2,2-3)"], None),
            ("tree", b"DhO\n", b"", ["t R(0,4,1,2,3;0-1,1-2,2-3)"], 2),
            ("tree", b"DhO\n", b"", [], 2),
            ("tree", b"DhO\n", b"", ["t R(P(0,4),1,2,3;0-1,1-2,2-3)", "end"], 4),
            ("tree", b"@\nA?\nA_\n\nBw\r\nBg", b"",
             ["t 0", "t P(0,1)", "t S(0,1)", "t S(0,1,2)", "t S(P(0,2),1)"], None),
            ("tree", b"?\n", b"", ["t empty"], None),
            ("tree", b"c queen\np col 3 4\ne 1 2\ne 2 1\ne 2 3\ne 3 2\n", b"", ["t S(P(1,3),2)"], None),
            ("compare", b"Dhc\n", b"", ["no 0>1 2>1 2>3 4>3 4>0 1>0"], None),
            ("compare", b"Dhc\n", b"", ["no 0>1 0>4 3>4 3>2 1>2 1>0"], None),
            ("compare", b"Dhc\n", b"", ["no 0>1 1>2 1>0"], 2),
            ("compare", b"Dhc\n", b"", ["no 1>2 3>2 3>4 0>4 0>1 2>1"], 2),
            ("compare", b"Bw\n", b"", ["yes 0>1 1>2 2>0"], 2),
            ("compare", b"Ch\nBw\n?\n", b"", ["yes 0>1 2>1 2>3", "yes 0>1 0>2 1>2", "yes"], None),
            ("permute", b"Ch\nEhEG\nDhc\n?\nA?\n", b"",
             ["yes 0 2 1 3 / 1 0 3 2", "no c 0>2 0>3 0>4 1>4 2>4 2>5 2>0", "no g 0>1 2>1 2>3 4>3 4>0 1>0", "yes /",
              "yes 0 1 / 0 1"], None),
            ("edit", b"DhO\n", b"+e 0 4\n-v 3\n+v 3 0 1 2 4\n",
             ["t R(P(0,4),1,2,3;0-1,1-2,2-3)", "ok R(S(0,4),1,2,3;0-1,1-2,2-3)", "ok S(P(S(0,4),2),1)",
              "ok S(P(S(0,4),2),1,3)"], None),
            ("edit", b"Bg\n", b"+e 7 7\n+v 0 9\n+v 0\n-e 0 2\n+e 0 1\n",
             ["t S(P(0,2),1)", "no same", "no vertex 9", "no taken 0", "no edge-absent", "no edge-there"], None),
            ("cograph", b"Cg\n", b"+e 2 3\n+e 1 3\n",
             ["t P(S(P(0,2),1),3)", "no p4 0 1 2 3", "ok S(P(0,2,3),1)"], None),
            ("cograph", b"Cg\n", b"+e 2 3\n+e 1 3\n",
             ["t P(S(P(0,2),1),3)", "no p4 3 2 1 0", "ok S(P(0,2,3),1)"], 3),
            ("cograph", b"Ch\n", b"-v 0\n", ["p4 0 1 2 3"], None),
            ("quiet", b"Cg\n", b"+e 2 3\n+e 1 3\n", ["no p4 0 1 2 3", "ok", "t S(P(0,2,3),1)"], None),
            ("edit", b"Bg\n", b"undo\n+e 0 2\nundo\nundo\n",
             ["t S(P(0,2),1)", "no undo", "ok S(0,1,2)", "ok S(P(0,2),1)", "no undo"], None),
            ("edit", b"Bg\n", b"begin\n+e 0 2\n-v 1\n+e 0 2\ncommit\nbegin\ncommit\nundo\n",
             ["t S(P(0,2),1)", "no edit 3 edge-there", "ok S(P(0,2),1)", "ok S(P(0,2),1)"], None),
            ("edit", b"Bg\n", b"begin\n+e 0 2\n-v 1\ncommit\nundo\n",
             ["t S(P(0,2),1)", "ok S(0,2)", "ok S(0,2,1)"], 4),
            ("cograph", b"Cg\n", b"begin\n+e 1 3\n-e 0 1\n+e 2 3\n-e 1 3\n+e 0 1\ncommit\n",
             ["t P(S(P(0,2),1),3)", "no edit 5 p4 0 1 2 3"], None),
            ("cograph", b"Cg\n", b"begin\n+e 2 3\n-e 2 3\ncommit\n", ["t P(S(P(0,2),1),3)", "ok P(S(P(0,2),1),3)"], 3),
            ("quiet", b"Cg\n", b"begin\n+e 1 3\n+e 2 3\ncommit\nundo\n", ["ok", "ok", "t P(S(P(0,2),1),3)"], None),
            ("trivial", b"Cl\n", b"", ["c4 0 1 2 3"], None), ("trivial", b"Cl\n", b"-v 0\n", ["c4 0 1 2 3"], None),
            ("trivial", b"Cl\n", b"", ["c4 0 3 2 1"], 2), ("trivial", b"Cl\n", b"", ["c4 1 2 3 0"], 2),
            ("trivial", b"Cl\n", b"", ["p4 0 1 2 3"], 2), ("trivial", b"Cl\n", b"", ["t S(P(0,2),P(1,3))"], 2),
            ("trivial", b"Ch\n", b"", ["p4 0 1 2 3"], None), ("trivial", b"Ch\n", b"", ["p4 3 2 1 0"], 2),
            ("trivial", b"C`\n", b"", ["t P(S(0,1),S(2,3))"], None), ("trivial", b"Cd\n", b"", ["p4 0 1 2 3"], 2),
            ("trivial", b"C`\n", b"", ["2k2 0 1 2 3"], 2), ("threshold", b"C`\n", b"", ["t P(S(0,1),S(2,3))"], 2),
            ("threshold", b"C`\n", b"", ["2k2 0 1 2 3"], None), ("threshold", b"C`\n", b"", ["2k2 1 0 2 3"], 2),
            ("threshold", b"C`\n", b"", ["2k2 0 1 3 2"], 2), ("threshold", b"C`\n", b"", ["2k2 2 3 0 1"], 2),
            ("threshold", b"Cl\n", b"", ["c4 0 1 2 3"], None), ("threshold", b"?\n", b"", ["t empty"], None),
            ("threshold", b"?\n", b"+v 0\n", ["t empty", "ok 0"], None),
            ("trivial", b"Bg\n", b"begin\n+v 3\n+v 4 0 2\n+e 0 2\ncommit\n",
             ["t S(P(0,2),1)", "no edit 2 c4 0 1 2 4"], None),
            ("threshold", b"Bg\n", b"begin\ncommit\nundo\nundo\n",
             ["t S(P(0,2),1)", "ok S(P(0,2),1)", "ok S(P(0,2),1)", "no undo"], None),
        ]:
            report = "".join(line + "\n" for line in ["mdt " + mode, *lines, "end"]).encode()
            self.assertEqual(first_wrong_line(mode, read_graphs(graph), read_script(script), report), wrong,
                             (mode, graph, lines))
        script = b"+v 3\n+e 0 3\n+v 4 3\n+v 4 0 2\n+v 4 0 1 2 3\n"
        rows = ["t S(P(0,2),1)", "ok P(S(P(0,2),1),3)", "no p4 2 1 0 3", "no 2k2 0 1 3 4", "no c4 0 1 2 4",
                "ok S(P(S(P(0,2),1),3),4)"]
        trivial = [*rows[:3], "ok P(S(P(0,2),1),S(3,4))", "no taken 4", "no taken 4"]
        group = b"begin\n+v 3\n+v 4 3\ncommit\nundo\nbegin\n+v 3\n+e 1 3\ncommit\nundo\nbegin\n+e 0 2\n+e 0 1\ncommit\n"
        refused = ["t S(P(0,2),1)", "no edit 2 2k2 0 1 3 4", "no undo", "ok S(P(0,2,3),1)", "ok S(P(0,2),1)",
                   "no edit 2 edge-there"]
        for mode, script, lines, wrong in [
            ("threshold", script, rows, None),
            ("threshold", script, [*rows[:3], "no 2k2 1 2 3 4", *rows[4:]], None),
            ("threshold", script, [*rows[:2], "no p4 3 0 1 2", *rows[3:]], 4),
            ("threshold", script, [*rows[:3], "no 2k2 3 4 0 1", *rows[4:]], 5),
            ("threshold", script, [*rows[:3], "no 2k2 0 1 2 4", *rows[4:]], 5),
            ("threshold", script, [*rows[:3], "ok P(S(P(0,2),1),S(3,4))", *rows[4:]], 5),
            ("threshold", script, [*rows[:4], "no c4 0 4 2 1", rows[5]], 6),
            ("threshold", script, [*rows[:4], "no p4 0 1 2 4", rows[5]], 6),
            ("threshold", script, rows[:5], 7),
            ("trivial", script, trivial, None), ("trivial", script, rows, 5),
            ("threshold", group, refused, None),
            ("threshold", group, [refused[0], "no 2k2 0 1 3 4", *refused[2:]], 3),
            ("threshold", group, [refused[0], "no edit 1 2k2 0 1 3 4", *refused[2:]], 3),
            ("trivial", group, refused, 3),
            ("trivial", group, [refused[0], "ok P(S(P(0,2),1),S(3,4))", "ok S(P(0,2),1)", *refused[3:]], None),
        ]:
            report = "".join(line + "\n" for line in ["mdt " + mode, *lines, "end"]).encode()
            self.assertEqual(first_wrong_line(mode, read_graphs(b"Bg\n"), read_script(script), report), wrong,
                             (mode, script, lines))
        for graph, lines, wrong in [
            (b"&DI?AO?\n", ["t R(0,1,2,3,4;0>2,0>4,3>1,3>4)"], None),
            (b"&BP_\n&BCo\n&AG\n&AW\n&?\n&@?\n",
             ["t R(0,1,2;0>1,1>2,2>0)", "t O(2,1,0)", "t O(1,0)", "t S(0,1)", "t empty", "t 0"], None),
            (b"&BCo\n", ["t O(0,1,2)"], 2), (b"&BCo\n", ["t O(2,O(1,0))"], 2), (b"&BCo\n", ["t O(2,1,0)", "t 0"], 3),
            (b"&A?\n&AO\n&BP?\n&BC?\n", ["t P(0,1)", "t O(0,1)", "t R(0,1,2;0>1,1>2)", "t P(O(1,0),2)"], None),
            (b"&BC?\n", ["t P(2,O(1,0))"], 2), (b"&AW\n", ["t S(1,0)"], 2), (b"&AO\n", ["t R(0,1;0>1)"], 2),
            (b">>digraph6<<&CI`?\n\n&DSYON?\r\n",
             ["t R(O(1,0),2,3;0>1,1>2)", "t O(4,R(0,1,2;0>1,1>2,2>0),3)"], None),
            (b"&CI`?\n", ["t R(1,0,2,3;1>0,0>2,1>2,2>3)"], 2),
            (b"&CQdG\n", ["t R(0,1,2,3;0>1,1>2,2>3)"], 2), (b"&CQdG\n", ["t R(0,1,2,3;0>1,1>0,1>2,2>1,2>3,3>2)"], None),
        ]:
            report = "".join(line + "\n" for line in ["mdt dtree", *lines, "end"]).encode()
            self.assertEqual(first_wrong_line("dtree", read_digraph6(graph), [], report), wrong, (graph, lines))
        self.assertEqual(first_wrong_line("tree", [], [], b""), 1)
        self.assertEqual(first_wrong_line("tree", [], [], b"mdt tree\nend"), 2)

    def test_bars_beside_degrees_and_classes(self):
        degrees = {"p4": [1, 1, 2, 2], "c4": [2, 2, 2, 2], "2k2": [1, 1, 1, 1]}
        for graph in all_graphs(4):
            for kind, wanted in degrees.items():
                found = [names for names in permutations(graph) if is_bar(graph, kind, list(names))]
                self.assertEqual(len(found), sorted(map(len, graph.values())) == wanted, (graph, kind))
        for n in range(6):
            for graph in all_graphs(n):
                self.assertEqual(has_bar(graph, "trivial"), not is_trivially_perfect(graph), graph)
                self.assertEqual(has_bar(graph, "threshold"), not is_threshold(graph), graph)

    def test_trees_beside_all_modules(self):
        r = random.Random(3)
        for number in range(120):
            n = 1 + number % 6
            graph = random_cograph(r, n) if number % 2 else random_graph(r, n)
            others = [random_graph(r, n) for _ in range(6)]
            right = str(tree_of(graph))
            for tree in map(tree_of, [graph, *others]):
                self.assertEqual(is_tree_of(graph, tree), str(tree) == right)

    def test_directed_trees_beside_all_modules(self):
        r = random.Random(4)
        for number in range(120):
            n = 1 + number % 6
            graph = random_digraph(r, n)
            others = [random_digraph(r, n) for _ in range(6)]
            right = str(tree_of(graph, directed_node))
            for tree in [tree_of(one, directed_node) for one in [graph, *others]]:
                self.assertEqual(is_tree_of(graph, tree), str(tree) == right)

    def test_sparse6(self):
        path = read_graphs(b":Fa@x^\n")[0]
        self.assertEqual(path, {0: {1, 2}, 1: {0, 2}, 2: {0, 1}, 3: set(), 4: set(), 5: {6}, 6: {5}})
        edge, none = {0: {1}, 1: {0}}, {0: set(), 1: set()}
        self.assertEqual(read_graphs(b">>sparse6<<:An\n:A\nA_\n"), [edge, none, edge])

    def test_limits(self):
        for content in (b"~@?@\n", b":~@?@\n", b"p edge 4096 0\n"):
            with self.assertRaises(InputFault) as caught:
                read_graphs(content, limit=limit_of("compare"))
            self.assertEqual(caught.exception.kind, "TooManyVertices")
        self.assertEqual(len(read_graphs(b":~@?@\n")[0]), 4097)

    def test_faulty_files(self):
        for content, kind, line in [
            (b";Fa@x^\n", "OtherFormat", 1), (b"@\nB!\n", "BadByte", 2), (b"~?\n", "Truncated", 1),
            (b"~??}\n", "BadSize", 1), (b"~C?@\n", "TooManyVertices", 1), (b"DhO\nDQ\n", "Truncated", 2),
            (b"A__\n", "TrailingBytes", 1), (b"A`\n", "BadPadding", 1),
            (b":\n", "Truncated", 1), (b"@\n:AN\n", "Loop", 2), (b":~C?@\n", "TooManyVertices", 1),
            (b"p edge 2 1\ne 1 3\n", "VertexOutOfRange", 2), (b"p edge 2 1\ne 2 2\n", "Loop", 2),
            (b"c x y\n", "NoProblemLine", 2), (b"p edge 1 0\np edge 1 0\n", "SecondProblemLine", 2),
            (b"e 1 2\n", "EdgeBeforeProblem", 1), (b"p edge x 0\n", "BadNumber", 1), (b"q x\n", "UnknownLine", 1),
            (b"p edge 16384 0\n", "TooManyVertices", 1), (b"p edge 3\n", "FieldCount", 1),
        ]:
            with self.assertRaises(InputFault, msg=content) as caught:
                read_graphs(content)
            self.assertEqual((caught.exception.kind, caught.exception.line), (kind, line), content)
        for content, kind, line in [
            (b"&@_\n", "Loop", 1), (b"DQc\n", "OtherFormat", 1), (b"&?\n&\n", "Truncated", 2), (b"&>\n", "BadByte", 1),
            (b"&~?\n", "Truncated", 1), (b"&~??}\n", "BadSize", 1), (b"&~@?@\n", "TooManyVertices", 1),
            (b"&BC\n", "Truncated", 1), (b"&BCo?\n", "TrailingBytes", 1), (b"&A@\n", "BadPadding", 1),
            (b"&A`\n", "Loop", 1), (b">>digraph6<<>>digraph6<<&?\n", "OtherFormat", 1),
        ]:
            with self.assertRaises(InputFault, msg=content) as caught:
                read_digraph6(content)
            self.assertEqual((caught.exception.kind, caught.exception.line), (kind, line), content)
        for content, kind, line in [
            (b"\n*e 0 1\n", "UnknownEdit", 2), (b"+e 0\n", "FieldCount", 1), (b"+v a\n", "BadNumber", 1),
            (b"-v 16384\n", "NameTooLarge", 1), (b"begin\n\nundo\n", "Nested", 3),
            (b"begin\nbegin x\n", "FieldCount", 2),
            (b"undo\ncommit\n", "NoGroup", 2), (b"begin\n+e 0 1\n", "OpenGroup", 3), (b"undo 1\n", "FieldCount", 1),
            (b"undo\n" * 200_000 + b"commit\n", "NoGroup", 200_001), (b"undo\n" * 200_001, "TooManyEdits", 200_001),
        ]:
            with self.assertRaises(InputFault, msg=content[:40]) as caught:
                read_script(content)
            self.assertEqual((caught.exception.kind, caught.exception.line), (kind, line), content)


# What makes the first graph of a session, nearly always.
OF_MODE = {"cograph": random_cograph, "quiet": random_cograph, "trivial": random_trivial, "threshold": random_threshold}


@unittest.skipUnless(has_program(), "no program mdt on PATH or in MDT")
class BesideTheProgram(unittest.TestCase):
    def test_altered_reports(self):
        r = random.Random(17)
        answers = {True: 0, False: 0}
        with tempfile.TemporaryDirectory() as folder:
            paths = [str(Path(folder) / name) for name in ("graph", "script", "report")]
            for number in range(90):
                mode = list(MODES)[number % len(MODES)]
                is_session, is_directed = mode in SESSIONS, mode == "dtree"
                make = OF_MODE.get(mode, random_graph) if r.random() < 0.9 else random_graph
                make, line_of, read = ((random_digraph, digraph6, read_digraph6) if is_directed else
                                       (make, graph6, read_graphs))
                words = [mode] if is_directed else [mode, "g6"]
                graphs = [make(r, r.randrange(1, 9)) for _ in range(1 if is_session else 3)]
                script = random_script(r, 8)
                graph_file = b"".join(map(line_of, graphs))
                for path, content in zip(paths, (graph_file, script)):
                    Path(path).write_bytes(content)
                files = paths[:2] if is_session else paths[:1]
                report = program.run([*words, *files])
                for content in [report] + [altered(r, report) for _ in range(ALTERED)]:
                    Path(paths[2]).write_bytes(content)
                    it = subprocess.run([program.program(), "check", *words, *files, paths[2]], capture_output=True)
                    mine = first_wrong_line(mode, read(graph_file), read_script(script) if is_session else [], content)
                    self.assertEqual(it.stdout.decode(), "accepted\n" if mine is None else "rejected line %d\n" % mine,
                                     (mode, graphs, script, content))
                    answers[mine is None] += 1
        self.assertGreater(min(answers.values()), 60)


if __name__ == "__main__":
    unittest.main()
