"""The files and the words that hostile.py tries: every form of words, over small files, long ones and deep trees."""
import re

from run import (cograph, d6, dense, dimacs, g6, nested_orders, path, permutation_graph, random_digraph, threshold,
                 threshold_on_path)

# A path of four vertices with a twin of an end, a cycle of five, one of six, the graph without vertices, two vertices
# with an edge in sparse6, a triangle, a cograph, a permutation graph and a random graph.
MANY = b"DhO\nDhc\nEhEG\n?\n:An\nBw\n" + g6(cograph(12, 1)) + g6(permutation_graph(10, 2)) + g6(dense(14, 3))

# Three vertices that are a path, and one apart: the first edit would make an induced path of four vertices, and is
# refused, and the second is applied; so a group of five edits is refused at its fourth, one is applied and taken
# back, and more undos follow than there are items.
APART = (b"+e 2 3\n+e 1 3\nbegin\n+e 0 2\n-e 0 2\n-e 1 3\n+e 2 3\n-v 0\ncommit\n"
         b"begin\n-v 1\n+v 1 0 2\ncommit\nundo\nundo\nundo\n")

# Over a path of three vertices. One edit is applied, the next three would make an induced path, two edges apart and an
# induced cycle, and a vertex next to all is taken in; a group is refused for each of the three, one is applied, and all
# is taken back, until nothing is left to undo.
BARS = (b"+v 3\n+e 0 3\n+v 4 3\n+v 4 0 2\n+v 4 0 1 2 3\n-v 9\nbegin\n-v 4\n+v 4 3\n+v 5\ncommit\n"
        b"begin\n-v 4\n+v 5\n+v 4 0 2\ncommit\nbegin\n-v 4\n+e 0 3\ncommit\n"
        b"begin\n-v 4\n+v 5 1\ncommit\nundo\nundo\nundo\nundo\n")

# Behind edits a group that is refused at its third edit, two undos and a group that is applied.
RANDOM = (b"+e 0 1\n-e 0 1\n+v 12 0 3 7\n-v 4\n+e 4 5\n-v 11\n+e 2 2\n+v 12 1\n-e 12 3\n# a comment\n+v 4\n-v 0\n"
          b"begin\n+v 0 1 2\n-v 1\n-v 1\ncommit\nundo\nundo\nbegin\n+v 13 2\n-v 2\ncommit\n")

COGRAPH = (b"+v 12 0 1\n-e 0 1\n+e 0 1\n+v 13\n+e 13 0\n-v 3\n+v 3 13\n-v 99\n-v 12\n+e 5 5\n+v 14 0 1 2\n-v 0\n"
           b"begin\n+v 15 1 2\n-v 15\ncommit\nundo\n")


def from_one(script):
    """The script with each name raised by one, as DIMACS counts the vertices of a graph."""
    return re.sub(rb"\d+", lambda name: b"%d" % (int(name[0]) + 1), script)


def deep_script(n):
    """Over the threshold graph on so many vertices: the last goes and comes back, an edge goes whose end would make an
    induced path, a group is applied and taken back, and the first vertex comes back as a twin of the last odd one, so
    that there is an induced cycle."""
    others = b" ".join(b"%d" % v for v in range(1, n - 1 - n % 2))
    return b"-v %d\nundo\n-e 1 3\nbegin\n-v 0\n+v 0\ncommit\nundo\n-v 0\n+v 0 %s\n" % (n - 1, others)


def nested(lead, opening, levels):
    """A report whose tree is nested deeper than any tree is."""
    return lead + b"\nt " + opening * levels + b"0" + b")" * levels * opening.count(b"(") + b"\nend\n"


FILES = {
    "many.g6": MANY,
    "one.col": dimacs(dense(12, 4)),
    "random.g6": g6(dense(10, 5)),
    "random.txt": RANDOM,
    "random.col": dimacs(dense(10, 5)),
    "random_col.txt": from_one(RANDOM),
    "cograph.g6": g6(cograph(12, 6)),
    "cograph.txt": COGRAPH,
    "apart.g6": b"Cg\n",
    "apart.txt": APART,
    "apart.col": dimacs(path(3) + [0]),
    "apart_col.txt": from_one(APART),
    "bars.g6": b"Bg\n",
    "bars.txt": BARS,
    "bars.col": dimacs(path(3)),
    "bars_col.txt": from_one(BARS),
    # An induced cycle, and two edges apart: no graphs that such sessions begin with.
    "cycle.g6": b"Cl\n",
    "apart_edges.g6": b"C`\n",
    "small_threshold.g6": g6(threshold(12)),
    # A path of four vertices, a cycle of six, one of five, the graph without vertices, two vertices: orders, a chain of
    # the complement, a chain, and orders again. The same in sparse6, and in both.
    "models.g6": b"Ch\nEhEG\nDhc\n?\nA?\n",
    "models.s6": b">>sparse6<<:Cdv\n:EaYmC\n:DaY_~\n:?\n:A\n",
    "models.both": b">>graph6<<Ch\n:EaYmC\nDhc\n:?\nA?\n",
    "models.col": dimacs(permutation_graph(9, 7)),
    # A prime graph, in which one edit after the other leads to a cograph.
    "prime.g6": b"DhO\n",
    "prime.txt": b"+e 0 4\n-v 3\n+v 3 0 1 2 4\n",
    # A prime directed graph, a cycle, an order, two vertices with both arcs, the one without vertices, a prime node
    # inside a series node, and one of 70 vertices.
    "many.d6": b"&DI?AO?\n&BP_\n&BCo\n&AW\n&?\n&DJS]^?\n" + d6(nested_orders(70)),
    "loop.d6": b"&AG\n&@_\n",
    "two.g6": b"@\n@\n",
    "padding.g6": b"Bw\nA`\n",
    "wrong.txt": b"-v 0\n*e 0 1\n",
    "open.txt": b"-v 0\nbegin\n",
    "rejected": b"mdt tree\nt S(0,1)\nend\n",
    # What takes more than one write: five graphs whose edges, trees and lines are long, and a session on one of them.
    "long.g6": g6(dense(300, 8)) * 2 + g6(permutation_graph(200, 9)) + g6(dense(60, 10)) + g6(dense(300, 11)) * 4,
    "long.d6": d6(nested_orders(150)) + d6(random_digraph(120, 12)) * 3,
    "hundred.g6": g6(dense(100, 13)),
    "hundred.txt": b"-v 3\n+v 3 0 1 2\nundo\nbegin\n-v 5\n-v 6\ncommit\n+e 0 0\nundo\nundo\n",
    "deep.d6": d6(nested_orders(1001)),
    "deep.g6": g6(threshold(1001)),
    "deep.txt": deep_script(1001),
    "deep_barred.g6": g6(threshold_on_path(1001)),
    "deepest.g6": g6(threshold(4096)),
    "deepest.d6": d6(nested_orders(4096)),
    "deepest.txt": deep_script(4096),
    "deepest_barred.g6": g6(threshold_on_path(4096)),
    "largest.g6": g6(threshold(16384)),
    "largest.txt": deep_script(16384),
    "largest_barred.g6": g6(threshold_on_path(16384)),
    "nested.txt": nested(b"mdt tree", b"S(1,P(2,", 100000),
    "nested_edit.txt": nested(b"mdt edit", b"R(", 300000),
    "nested_dtree.txt": nested(b"mdt dtree", b"O(", 300000),
}

GRAPH_MODES = ("tree", "compare", "shortest", "permute")
SESSIONS = ("edit", "cograph", "quiet", "trivial", "threshold")

# The reports that are checked: the file that each is written to, and the words that write it.
REPORTS = {
    **{"%s.txt" % mode: [mode, "g6", "many.g6"] for mode in GRAPH_MODES},
    **{"%s_dimacs.txt" % mode: [mode, "dimacs", "one.col"] for mode in GRAPH_MODES},
    **{"%s_bars.txt" % mode: [mode, "g6", "bars.g6", "bars.txt"] for mode in SESSIONS},
    **{"%s_bars_dimacs.txt" % mode: [mode, "dimacs", "bars.col", "bars_col.txt"] for mode in SESSIONS},
    "edit.txt": ["edit", "g6", "random.g6", "random.txt"],
    "edit_dimacs.txt": ["edit", "dimacs", "random.col", "random_col.txt"],
    "cograph_report.txt": ["cograph", "g6", "cograph.g6", "cograph.txt"],
    "quiet.txt": ["quiet", "g6", "cograph.g6", "cograph.txt"],
    "apart_report.txt": ["cograph", "g6", "apart.g6", "apart.txt"],
    "apart_quiet.txt": ["quiet", "g6", "apart.g6", "apart.txt"],
    "apart_dimacs.txt": ["cograph", "dimacs", "apart.col", "apart_col.txt"],
    "models_report.txt": ["permute", "g6", "models.g6"],
    "models_sparse6.txt": ["permute", "g6", "models.s6"],
    "models_both.txt": ["permute", "g6", "models.both"],
    "models_dimacs.txt": ["permute", "dimacs", "models.col"],
    "models_shortest.txt": ["shortest", "g6", "models.both"],
    "prime_report.txt": ["edit", "g6", "prime.g6", "prime.txt"],
    "path.txt": ["cograph", "g6", "prime.g6", "prime.txt"],
    "path_quiet.txt": ["quiet", "g6", "prime.g6", "prime.txt"],
    "small_threshold.txt": ["threshold", "g6", "small_threshold.g6", "cograph.txt"],
    "cycle_report.txt": ["trivial", "g6", "cycle.g6", "bars.txt"],
    "apart_edges.txt": ["threshold", "g6", "apart_edges.g6", "bars.txt"],
    "path_threshold.txt": ["threshold", "g6", "prime.g6", "prime.txt"],
    "dtree.txt": ["dtree", "many.d6"],
}
LONG_REPORTS = {
    **{"long_%s.txt" % mode: [mode, "g6", "long.g6"] for mode in GRAPH_MODES},
    "long_dtree.txt": ["dtree", "long.d6"],
    "long_edit.txt": ["edit", "g6", "hundred.g6", "hundred.txt"],
}


def deep_reports(depth, modes):
    """The reports of these modes over the tree of a depth, which its files are named for."""
    rest = {"dtree": [depth + ".d6"], **{mode: ["g6", depth + ".g6"] for mode in GRAPH_MODES}}
    session = ["g6", depth + ".g6", depth + ".txt"]
    return {"%s_%s.txt" % (depth, mode): [mode, *rest.get(mode, session)] for mode in modes}


# The sessions that don't begin with every graph.
BARRED = ("cograph", "quiet", "trivial", "threshold")


def barred_reports(depth):
    """Their reports over such a graph, whose tree has the depth."""
    return {"%s_barred_%s.txt" % (depth, mode): [mode, "g6", depth + "_barred.g6", depth + ".txt"] for mode in BARRED}


DEEP_REPORTS = deep_reports("deep", ("tree", "shortest", "permute", "dtree", *SESSIONS))
DEEPEST_REPORTS = {**deep_reports("deepest", ("tree", "dtree", *SESSIONS)), **barred_reports("deepest")}
LARGEST_REPORTS = deep_reports("largest", ("tree", *SESSIONS))


def checks_of(reports):
    return [["check", *words, name] for name, words in reports.items()]


SMALL = [
    ["edges", "g6", "many.g6"],
    ["edges", "g6", "models.s6"],
    ["edges", "dimacs", "one.col"],
    ["graph6", "g6", "many.g6"],
    ["graph6", "dimacs", "one.col"],
    *REPORTS.values(),
    *checks_of(REPORTS),
    ["check", "tree", "g6", "many.g6", "rejected"],
    ["check", "dtree", "many.d6", "rejected"],
    ["check", "shortest", "g6", "many.g6", "rejected"],
    ["big", "1"],
    ["big", "300"],
    [],
    ["tree", "png", "many.g6"],
    ["tree", "g6", "padding.g6"],
    ["shortest", "g6", "padding.g6"],
    ["dtree", "loop.d6"],
    ["dtree", "many.g6"],
    ["edit", "g6", "two.g6", "random.txt"],
    ["quiet", "g6", "cograph.g6", "wrong.txt"],
    ["cograph", "g6", "cograph.g6", "open.txt"],
    ["trivial", "g6", "two.g6", "random.txt"],
    ["threshold", "g6", "bars.g6", "wrong.txt"],
    ["threshold", "bars.g6", "bars.txt"],
    ["check", "threshold", "g6", "bars.g6", "bars.txt", "rejected"],
    ["check", "trivial", "g6", "bars.g6", "open.txt", "trivial_bars.txt"],
    ["check", "edit", "g6", "random.g6", "wrong.txt", "edit.txt"],
    ["edges", "g6", "absent"],
]
LONG = [["edges", "g6", "long.g6"], ["graph6", "g6", "long.g6"], *LONG_REPORTS.values(), *checks_of(LONG_REPORTS)]
DEEP = [*DEEP_REPORTS.values(), *checks_of(DEEP_REPORTS), ["graph6", "g6", "deep.g6"], ["big", "1000"]]
NESTED = [
    ["check", "tree", "g6", "many.g6", "nested.txt"],
    ["check", "edit", "g6", "random.g6", "random.txt", "nested_edit.txt"],
    ["check", "dtree", "many.d6", "nested_dtree.txt"],
]
DEEPEST = [*DEEPEST_REPORTS.values(), *checks_of(DEEPEST_REPORTS), ["big", "4096"], *NESTED]
LARGEST = [*LARGEST_REPORTS.values(), *checks_of(LARGEST_REPORTS)]
ALL_REPORTS = {**REPORTS, **LONG_REPORTS, **DEEP_REPORTS, **DEEPEST_REPORTS, **LARGEST_REPORTS}
