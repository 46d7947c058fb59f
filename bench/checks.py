#!/usr/bin/env python3
"""Checks of reports, whole and altered, beside a judge that works by the definitions and doesn't run the program.

    python3 bench/checks.py              over the program that the gate built
    python3 bench/checks.py --bin PATH   over another one
    python3 bench/checks.py --rounds N   of so many rounds of random inputs, 60 if none is told
    python3 bench/checks.py --wide N     of so many rounds of graphs on 60 to 69 vertices, 3 if none is told
    python3 bench/checks.py --only WORD  over the modes whose name holds a word

For each file in `examples/` and in each round for random files, each report that the program writes is judged, and then
each of its lines is altered, in eight ways and more: a name, a letter, a pair, the order of children or arcs; a token
too few or too many; another line that looks right, or is; a space, a leading zero, a number that is too large; the line
dropped, written twice, exchanged, or the last; the head of another mode; a reason in place of another one, or the
number of the refused edit of a group; and the whole in ways of its own. In a round there are graphs in graph6, sparse6
and DIMACS for `tree`, `compare`, `shortest` and `permute`, directed graphs for `dtree`, and a graph with a script that
has groups and undo for each mode of a session.

The judge is that of the Python package (`python/mdt/verify.py`), and for the lengths of chains of `shortest` a search
here: it says that a text is a valid report, or the number of its first wrong line. `check` has to answer the same, with
the status of that answer, and nothing on standard error.

Before the last line stands by mode how many of the kinds of lines there were, and the least number of ways in which one
of them was altered. The last line is `N checks, M wrong`. Ends with 1 where an answer is another one.
"""
import argparse
import collections
import glob
import itertools
import os
import random
import subprocess
import sys
import tempfile

import networkx

TOP = os.path.dirname(os.path.dirname(os.path.abspath(__file__)))
sys.path.insert(0, os.path.join(TOP, "python"))

from mdt import inputs, verify  # noqa: E402
from mdt.graphs import NumberedDigraph, NumberedGraph  # noqa: E402
from mdt.reports import BARS  # noqa: E402

from altered import Place, alterings_of, altered_lines, altered_wholes, kind_of, text_of  # noqa: E402

GRAPH_MODES = ("tree", "compare", "shortest", "permute")
MODES = (*GRAPH_MODES, "dtree", *verify.SESSIONS)


# Random inputs

def undirected(names, edges):
    graph = {v: set() for v in names}
    for u, v in edges:
        graph[u].add(v)
        graph[v].add(u)
    return graph


def any_graph(r, n):
    share = r.random()
    return undirected(range(n), [pair for pair in itertools.combinations(range(n), 2) if r.random() < share])


def sparse_graph(r, n):
    """A path, or a cycle, on names in any order, with some chords."""
    names = r.sample(range(n), n)
    edges = set(zip(names, names[1:])) | {(names[0], names[-1])} if n > 2 else set()
    return undirected(range(n), {tuple(sorted(e)) for e in edges if r.random() < .9})


def permutation_graph(r, n):
    place = r.sample(range(n), n)
    return undirected(range(n), [(u, v) for u, v in itertools.combinations(range(n), 2) if place[u] > place[v]])


def cograph(r, n):
    """A graph that grows by twins, whose names are drawn."""
    names = r.sample(range(n), n)
    graph = undirected(names[:1], [])
    for place, v in enumerate(names[1:], 1):
        twin = r.choice(names[:place])
        near = graph[twin] | ({twin} if r.random() < .5 else set())
        graph[v] = set(near)
        for u in near:
            graph[u].add(v)
    return {v: graph[v] for v in range(n)}


def trivially_perfect(r, n):
    """Each name is adjacent to those above it in a rooted forest."""
    names, above = r.sample(range(n), n), {}
    for place, v in enumerate(names):
        parent = r.choice([*names[:place], None])
        above[v] = set() if parent is None else above[parent] | {parent}
    return undirected(range(n), [(u, v) for v in names for u in above[v]])


def threshold(r, n):
    names = r.sample(range(n), n)
    return undirected(range(n), [(u, v) for place, v in enumerate(names) if r.random() < .5 for u in names[:place]])


OF_CLASS = {"edit": any_graph, "cograph": cograph, "quiet": cograph, "trivial": trivially_perfect,
            "threshold": threshold}
KINDS_OF_GRAPHS = (any_graph, any_graph, sparse_graph, sparse_graph, permutation_graph, cograph, threshold)


# The edges of each bar on the four vertices a, b, c, d.
EDGES_OF_BARS = {"p4": ["ab", "bc", "cd"], "c4": ["ab", "bc", "cd", "da"], "2k2": ["ab", "cd"]}


def barred(r, kind):
    """A bar of this kind and a vertex besides."""
    names = dict(zip("abcd", r.sample(range(5), 4)))
    return undirected(range(5), [(names[u], names[v]) for u, v in EDGES_OF_BARS[kind]])


def random_digraph(r, n):
    """A directed graph of any arcs, of one order, or with another one in the place of a vertex."""
    share, kind = r.random(), r.randrange(3)
    arcs = {(u, v) for u, v in itertools.permutations(range(n), 2) if r.random() < share}
    if kind == 1:
        arcs = {(u, v) for u, v in itertools.combinations(r.sample(range(n), n), 2) if r.random() < .9}
    if kind == 2 and n > 3:
        a, b = r.sample(range(n), 2)
        rest = [v for v in range(n) if v not in (a, b)]
        arcs -= {(b, v) for v in rest} | {(v, b) for v in rest}
        arcs |= {(b, v) for v in rest if (a, v) in arcs} | {(v, b) for v in rest if (v, a) in arcs}
    return {v: {w for u, w in arcs if u == v} for v in range(n)}


def graph6(graph):
    return NumberedGraph(sorted(graph), {(u, v) for u in graph for v in graph[u] if u < v}).graph6()


def sparse6(graph):
    known = networkx.Graph({v: list(graph[v]) for v in graph})
    return networkx.to_sparse6_bytes(known, nodes=sorted(graph), header=False) if graph else b":?\n"


def dimacs(graph):
    """The graph with each name raised by one."""
    edges = [(u + 1, v + 1) for u in sorted(graph) for v in sorted(graph[u]) if u < v]
    return ("p edge %d %d\n" % (len(graph), len(edges)) + "".join("e %d %d\n" % e for e in edges)).encode()


def digraph6(graph):
    return NumberedDigraph(sorted(graph), {(u, v) for u in graph for v in graph[u]}).digraph6()


def random_edit(r, graph):
    """An edit of a graph, mostly with no reason against it."""
    names, free = sorted(graph), [v for v in range(max([9, *graph]) + 3) if v not in graph]
    kind = r.randrange(8)
    if names and kind == 0:
        return "-v", [r.choice(names)]
    if kind <= 2 or len(names) < 2:
        share = r.choice([.2, .5, 1])
        return "+v", [r.choice(free or names), *(v for v in names if r.random() < share)]
    u, v = r.sample(names, 2)
    return "-e" if v in graph[u] else "+e", [u, v]


def edit_against_reason(r, graph):
    """An edit with a reason against it, where the graph has what that takes."""
    word, names = random_edit(r, graph)
    kind = r.randrange(5)
    if kind == 0:
        name = r.choice(names)
        return r.choice(["+e", "-e"]), [name, name]
    if kind == 1:
        return word, r.sample([*names[:-1], max(graph, default=0) + r.randrange(1, 9)], len(names))
    if kind == 2 and graph:
        return "+v", [r.choice(sorted(graph)), *names]
    if len(graph) < 2:
        return word, names
    u, v = r.sample(sorted(graph), 2)
    return "+e" if v in graph[u] else "-e", [u, v]


def left_by(mode, graph, edit):
    """What becomes of an edit, and the graph that it leaves."""
    if verify.reason(graph, edit):
        return "against reason", graph
    after = verify.after(graph, edit)
    return ("barred", graph) if verify.has_bar(after, mode) else ("applied", after)


def drawn_edit(r, mode, graph):
    """An edit, whether it is applied, and the graph that it leaves; of some that are drawn the first of which becomes
    what was drawn before."""
    wish = r.choice(["applied", "applied", "applied", "barred", "against reason"])
    for _ in range(8):
        word, names = (edit_against_reason if wish == "against reason" else random_edit)(r, graph)
        became, left = left_by(mode, graph, (word, names))
        if became == wish:
            break
    return "%s %s" % (word, " ".join(map(str, names))), became == "applied", left


def drawn_group(r, mode, graph):
    """Some edits, whether all are applied, and the graph that they leave then."""
    edits, applied, here = [], True, graph
    for _ in range(r.randrange(5)):
        edit, is_applied, here = drawn_edit(r, mode, here)
        edits.append(edit)
        applied = applied and is_applied
    return edits, applied, here


def random_script(r, mode, graph, most=12):
    """A script of edits, groups and undos."""
    states, lines = [graph], []
    for _ in range(r.randrange(most + 1)):
        kind = r.randrange(6)
        if kind == 0:
            lines.append("undo")
            states = states[:-1] or states
            continue
        if kind <= 2:
            edits, applied, here = drawn_group(r, mode, states[-1])
            lines += ["begin", *edits, "commit"]
        else:
            edit, applied, here = drawn_edit(r, mode, states[-1])
            lines.append(edit)
        if applied:
            states.append(here)
    return "".join(line + "\n" for line in lines).encode()


# The judge

def steps_to_reverse(graph, first):
    """How many steps lead from an arc to its reverse at least, where some do."""
    far, waiting = {first: 0}, collections.deque([first])
    while first[::-1] not in far:
        u, v = waiting.popleft()
        forced = {(u, w) for w in graph[u] - graph[v] - {v}} | {(w, v) for w in graph[v] - graph[u] - {u}}
        for arc in forced - far.keys():
            far[arc] = far[u, v] + 1
            waiting.append(arc)
    return far[first[::-1]]


def shortest_line(graph):
    """Judges the line of `shortest`: that of `compare`, its chain of as few arcs as can be."""
    judge, first = verify.compare_line(graph), verify.least_forced_edge(graph)
    if first is None:
        return judge
    count = steps_to_reverse(graph, first) + 1
    return lambda text: text.count(">") == count and judge(text)


def judges_of(mode, graphs, script):
    """A judge of each line of a report, in order."""
    if mode == "shortest":
        return [verify.equals("mdt compare"), *map(shortest_line, graphs), verify.equals("end")]
    return list(verify.report_lines(mode, graphs, script))


class Judge:
    """What a report of an input has to be; each text is judged once at a place."""

    def __init__(self, mode, graphs, script):
        self.judges, self.known = judges_of(mode, graphs, script), {}

    def fits(self, at, text):
        if (at, text) not in self.known:
            self.known[at, text] = self.judges[at](text)
        return self.known[at, text]

    def first_wrong_line(self, report):
        """None where the report is valid, else the number of its first line at which it is none."""
        *texts, rest = report.split("\n")
        for at in range(len(self.judges)):
            if at >= len(texts) or not self.fits(at, texts[at]):
                return at + 1
        return len(self.judges) + 1 if len(texts) > len(self.judges) or rest else None


def read_graphs(mode, form, content):
    if form == "d6":
        return inputs.read_digraph6(content)
    limit = inputs.ORIENTED if mode in ("compare", "shortest", "permute") else inputs.NAMES
    return inputs.read_graphs(content, form, limit)


def kinds_of(mode):
    """The kinds of lines that reports of a mode have."""
    kinds = {"compare": ["yes", "no"], "shortest": ["yes", "no"], "permute": ["yes /", "no g", "no c"]}
    found = ["mdt " + ("compare" if mode == "shortest" else mode), *kinds.get(mode, ["t"])]
    if mode in verify.SESSIONS:
        reasons = ["same", "vertex", "taken", "edge-there", "edge-absent", *BARS[mode]]
        found += ["ok", *BARS[mode], "no undo"] + [lead + it for lead in ("no ", "no edit ") for it in reasons]
    return [*found, "end"]


# The checks

class Checks:
    def __init__(self, binary, folder, r):
        self.binary, self.folder, self.r = binary, folder, r
        self.tried, self.wrong, self.reports, self.right = 0, 0, 0, 0
        # The ways in which a line of a kind was altered, by mode and kind.
        self.ways = {(mode, kind): set() for mode in MODES for kind in kinds_of(mode)}
        # One file for all reports: to make a new one each time takes longer than the check.
        self.report = open(os.path.join(folder, "report"), "wb", buffering=0)

    def write(self, name, content):
        path = os.path.join(self.folder, name)
        with open(path, "wb") as file:
            file.write(content)
        return path

    def run(self, words):
        it = subprocess.run([self.binary] + words, stdin=subprocess.DEVNULL, capture_output=True)
        return it.returncode, it.stdout, it.stderr

    def check(self, words, judge, report, what):
        """Whether `check` says of a report what the judge says."""
        wrong = judge.first_wrong_line(report)
        expected = (0, b"accepted\n", b"") if wrong is None else (1, b"rejected line %d\n" % wrong, b"")
        size = os.pwrite(self.report.fileno(), report.encode("latin-1"), 0)
        self.report.truncate(size)
        got = self.run(["check", *words, self.report.name])
        self.tried += 1
        self.right += wrong is None
        if got != expected:
            self.wrong += 1
            self.tell("check %s, %s: expected %r, got %r" % (words[0], what, expected, got), words, report)

    def tell(self, what, words, report):
        print(what)
        for word in words[1:]:
            if os.path.isfile(word):
                with open(word, "rb") as file:
                    print("    over %r" % file.read())
        print("    the report %r" % report, flush=True)

    def try_all(self, mode, form, *files):
        """Whole and altered reports of a mode over files: a graph file, and a script in a session."""
        words = [mode, *([form] if form != "d6" else []), *files]
        contents = []
        for path in files:
            with open(path, "rb") as file:
                contents.append(file.read())
        graphs = read_graphs(mode, form, contents[0])
        judge = Judge(mode, graphs, inputs.read_script(contents[1]) if len(files) > 1 else [])
        status, out, err = self.run(words)
        report = out.decode("latin-1")
        self.reports += 1
        if status or err or judge.first_wrong_line(report) is not None:
            self.wrong += 1
            self.tell("%s: %d %r; its first wrong line: %s" % (mode, status, err, judge.first_wrong_line(report)),
                      words, report)
            return
        self.check(words, judge, report, "the report")
        self.alter(words, judge, report.split("\n")[:-1], graphs)

    def alter(self, words, judge, lines, graphs):
        mode = words[0]
        for what, report in altered_wholes(lines):
            self.check(words, judge, report, what)
        for at, what, report in altered_lines(self.r, lines):
            self.ways[mode, kind_of(lines[at])].add(what)
            self.check(words, judge, report, "line %d %s" % (at + 1, what))
        for at, line in enumerate(lines):
            of_graph = mode in GRAPH_MODES and 0 < at <= len(graphs)
            there = Place(mode, lines, at, lambda text: judge.fits(at, text), graphs[at - 1] if of_graph else None)
            for altering in alterings_of(line, mode):
                text = altering(self.r, line, there)
                if text is not None and text != line:
                    self.ways[mode, kind_of(line)].add(altering.__name__)
                    altered = text_of([*lines[:at], text, *lines[at + 1:]])
                    self.check(words, judge, altered, "line %d, %s" % (at + 1, altering.__name__))

    def tell_ways(self, modes):
        for mode in modes:
            ways = {kind: len(found) for (of, kind), found in self.ways.items() if of == mode}
            met = [count for count in ways.values() if count]
            print("%s: %d of %d kinds of lines, each altered in at least %d ways%s"
                  % (mode, len(met), len(ways), min(met, default=0),
                     "".join(", no line %r" % kind for kind, count in ways.items() if not count)))
        print("%d reports; %d of the texts that were checked are valid reports" % (self.reports, self.right))


def try_examples(checks, modes):
    for form, ending in (("g6", "g6"), ("dimacs", "col")):
        for path in sorted(glob.glob(os.path.join(TOP, "examples/*." + ending))):
            if "truncated" not in path:
                for mode in (mode for mode in GRAPH_MODES if mode in modes):
                    checks.try_all(mode, form, path)


def written(checks, r, graphs):
    """The format and the file of some graphs; of one graph also in DIMACS."""
    form = r.randrange(3)
    if form == 0 and len(graphs) == 1:
        return "dimacs", checks.write("graph", dimacs(graphs[0]))
    lines = [(sparse6 if form == 1 and r.random() < .7 else graph6)(graph) for graph in graphs]
    return "g6", checks.write("graph", b"".join(lines))


def try_barred(checks, modes, r):
    """Sessions whose first graph has a bar, of each kind."""
    for mode in modes:
        for kind in BARS.get(mode, ()):
            path = checks.write("graph", graph6(barred(r, kind)))
            checks.try_all(mode, "g6", path, checks.write("script", b"+e 0 1\nbegin\n-v 2\ncommit\nundo\n"))


def try_round(checks, modes, r, sizes, most_of_digraphs):
    """Random inputs for each mode, on so many vertices, the graphs of four modes the same."""
    graphs = [r.choice(KINDS_OF_GRAPHS)(r, r.choice(sizes)) for _ in range(r.randrange(1, 4))]
    form, path = written(checks, r, graphs)
    for mode in GRAPH_MODES:
        if mode in modes:
            checks.try_all(mode, form, path)
    if "dtree" in modes:
        lines = [digraph6(random_digraph(r, r.randrange(most_of_digraphs))) for _ in range(r.randrange(1, 4))]
        checks.try_all("dtree", "d6", checks.write("digraphs", b"".join(lines)))
    for mode in verify.SESSIONS:
        if mode in modes:
            kind = OF_CLASS[mode] if r.random() < .85 else any_graph
            form, path = written(checks, r, [kind(r, max(1, r.choice(sizes)))])
            with open(path, "rb") as file:
                first, = read_graphs(mode, form, file.read())
            checks.try_all(mode, form, path, checks.write("script", random_script(r, mode, first)))


def main():
    parser = argparse.ArgumentParser(description=__doc__, formatter_class=argparse.RawDescriptionHelpFormatter)
    parser.add_argument("--bin", default=os.path.join(TOP, "crates/md_cli/out/md_cli"))
    parser.add_argument("--rounds", type=int, default=60)
    parser.add_argument("--wide", type=int, default=3)
    parser.add_argument("--seed", type=int, default=1)
    parser.add_argument("--only", default="")
    args = parser.parse_args()
    r = random.Random(args.seed)
    modes = [mode for mode in MODES if args.only in mode]
    with tempfile.TemporaryDirectory() as folder:
        checks = Checks(os.path.abspath(args.bin), folder, r)
        try_examples(checks, modes)
        try_barred(checks, modes, r)
        for _ in range(args.rounds):
            try_round(checks, modes, r, range(10), 8)
        for _ in range(args.wide):
            try_round(checks, modes, r, range(60, 70), 70)
    checks.tell_ways(modes)
    print("%d checks, %d wrong" % (checks.tried, checks.wrong))
    return 1 if checks.wrong else 0


if __name__ == "__main__":
    sys.exit(main())
