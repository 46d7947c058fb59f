#!/usr/bin/env python3
"""Measures mdt: processor time, instructions and peak memory of each command over made inputs.

    python3 bench/run.py                 builds the program and measures it
    python3 bench/run.py --bin PATH      measures a program that is built already
    python3 bench/run.py --peer PATH     measures another program with the same commands beside it
    python3 bench/run.py --only dense    measures the cases whose name holds a word
    python3 bench/run.py --checks        measures `check` over the reports of the same cases, beside the reports
    python3 bench/run.py --sizes         seconds and peak memory by command at two sizes, sparse and dense, in one table
    python3 bench/run.py --largest       the same over the largest graphs, of 16,384 vertices
    python3 bench/run.py --undo          sessions that are taken back, by edits and by undo, and one group of all edits
    python3 bench/run.py --classes       sessions of trivial and threshold beside cograph, and the check of threshold

Inputs are made with fixed seeds, in a temporary folder. Instructions are counted by valgrind's callgrind, peak
memory is told by GNU time, each where it is there. Instructions hardly change from run to run, as times do.
"""
import argparse
import base64
import os
import random
import re
import resource
import shutil
import subprocess
import sys
import tempfile

TOP = os.path.dirname(os.path.dirname(os.path.abspath(__file__)))


def rows_of(n, edges):
    """The rows of a graph: bit u of row v is 1 where u < v and the edge is there."""
    rows = [0] * n
    for u, v in edges:
        rows[max(u, v)] |= 1 << min(u, v)
    return rows


def dense(n, seed):
    r = random.Random(seed)
    return [r.getrandbits(v) if v else 0 for v in range(n)]


def sparse(n, degree, seed):
    r = random.Random(seed)
    edges = {tuple(sorted(r.sample(range(n), 2))) for _ in range(n * degree // 2)}
    return rows_of(n, edges)


LETTERS = bytes.maketrans(b"ABCDEFGHIJKLMNOPQRSTUVWXYZabcdefghijklmnopqrstuvwxyz0123456789+/", bytes(range(63, 127)))


def printed(n, bits):
    """A number of vertices and bits, six a byte with 63 added: base64 with other letters."""
    head = [n + 63] if n <= 62 else [126, 63 + (n >> 12), 63 + (n >> 6 & 63), 63 + (n & 63)]
    length = (len(bits) + 5) // 6
    bits += "0" * (-len(bits) % 24)
    sixes = base64.b64encode(int(bits or "0", 2).to_bytes(len(bits) // 8, "big")).translate(LETTERS)
    return bytes(head) + sixes[:length] + b"\n"


def g6(rows):
    return printed(len(rows), "".join(format(row, "b").zfill(v)[::-1] if v else "" for v, row in enumerate(rows)))


def d6(rows):
    """The digraph6 line of a directed graph, by the vertices that the arcs from each vertex enter."""
    return b"&" + printed(len(rows), "".join(format(row, "b").zfill(len(rows))[::-1] for row in rows))


def dimacs(rows):
    edges = sorted((u + 1, v + 1) for v in range(len(rows)) for u in range(v) if rows[v] >> u & 1)
    return ("p edge %d %d\n" % (len(rows), len(edges)) + "".join("e %d %d\n" % e for e in edges)).encode()


def small_graphs(count, seed):
    r = random.Random(seed)
    sizes = (8, 12, 16, 24, 40, 60)
    return b"".join(g6(dense(r.choice(sizes), r.random()) if r.random() < .5 else sparse(r.choice(sizes), 3, r.random()))
                    for _ in range(count))


def path(n):
    return rows_of(n, [(v, v + 1) for v in range(n - 1)])


def shuffled_cycle(n, seed):
    """A cycle whose vertices have names in any order."""
    names = random.Random(seed).sample(range(n), n)
    return rows_of(n, [(names[v], names[(v + 1) % n]) for v in range(n)])


def threshold(n):
    """Each odd vertex is adjacent to all before it: a tree as deep as it can be."""
    return [(1 << v) - 1 if v % 2 else 0 for v in range(n)]


def threshold_on_path(n):
    """The same, but that the first four vertices are an induced path: the one prime node is the deepest."""
    return [0, 1, 2, 4, *threshold(n)[4:]]


def nested_orders(n):
    """A directed graph in which each odd vertex has arcs from all before it: a tree of order and parallel nodes in
    turn, as deep as it can be."""
    return [sum(1 << v for v in range(1, n, 2) if u < v) for u in range(n)]


def half_graph(n):
    """Vertex i of the lower half is adjacent to those of the upper half from i on: prime."""
    return rows_of(n, [(i, n // 2 + j) for i in range(n // 2) for j in range(i, n // 2)])


def nested_half(n):
    """A half graph in which a nested half graph stands on either half, and so on; on at most four vertices a path."""
    rows = [0] * n

    def build(low, size):
        if size <= 4:
            for v in range(low + 1, low + size):
                rows[v] |= 1 << v - 1
            return
        half = size // 2
        for j in range(half):
            rows[low + half + j] |= (1 << j + 1) - 1 << low
        build(low, half)
        build(low + half, size - half)

    build(0, n)
    return rows


def complement(rows):
    return [(1 << v) - 1 & ~row for v, row in enumerate(rows)]


def nested_p4(n, names):
    """A P4 whose end is replaced by such a graph again, as long as there are names; from the inmost vertex on they are taken
    in the order of the list. The number of vertices is one more than a multiple of three."""
    edges = []
    for a in range(1, n, 3):
        edges += [(names[v], names[a]) for v in range(a)]
        edges += [(names[a], names[a + 1]), (names[a + 1], names[a + 2])]
    return rows_of(n, edges)


def oldest_lowest(n):
    return list(range(n))


def oldest_highest(n):
    return list(range(n))[::-1]


def in_any_order(n):
    return random.Random(n).sample(range(n), n)


def path_complement(n):
    """The complement of a path: prime, and its tree lists nearly all pairs."""
    return [(1 << v) - 1 & ~(1 << v - 1) if v else 0 for v in range(n)]


def complete(n):
    return [(1 << v) - 1 for v in range(n)]


def complete_bipartite(n):
    return [(1 << n // 2) - 1 if v >= n // 2 else 0 for v in range(n)]


def cograph(n, seed):
    """Disjoint unions and joins in turn, over parts of random sizes."""
    r = random.Random(seed)
    rows = [0] * n

    def build(low, high, joined):
        if high - low < 2:
            return
        cuts = sorted({low, high} | {r.randrange(low + 1, high) for _ in range(r.randrange(1, 4))})
        for a, b in zip(cuts, cuts[1:]):
            build(a, b, not joined)
            if joined:
                for v in range(a, b):
                    rows[v] |= (1 << a) - (1 << low)

    build(0, n, True)
    return rows


def sparse_cograph(n):
    """Copies of one cograph on eight vertices: two of them are adjacent to each other and to all others."""
    return rows_of(n, [(v - v % 8 + i, v) for v in range(n) for i in range(min(2, v % 8))])


def permutation_graph(n, seed):
    """Two vertices are adjacent where a permutation turns them round."""
    place = random.Random(seed).sample(range(n), n)
    return rows_of(n, [(u, v) for v in range(n) for u in range(v) if place[u] > place[v]])


def random_digraph(n, seed):
    """By row the vertices that arcs enter, of half of all ordered pairs."""
    r = random.Random(seed)
    return [r.getrandbits(n) & ~(1 << v) for v in range(n)]


def tournament(n, seed):
    """One arc between any two vertices, either way."""
    rows = dense(n, seed)
    texts = [format(rows[v], "b").zfill(v)[::-1] for v in range(n)]
    for u in range(n - 1):
        later = "".join(texts[v][u] for v in range(n - 1, u, -1))
        rows[u] |= (int(later, 2) ^ (1 << n - 1 - u) - 1) << u + 1
    return rows


def transitive(n, seed):
    """The transitive tournament, whose vertices have names in any order."""
    rows, left = [0] * n, (1 << n) - 1
    for v in random.Random(seed).sample(range(n), n):
        left ^= 1 << v
        rows[v] = left
    return rows


def script(n, count, seed):
    r = random.Random(seed)
    lines = []
    for _ in range(count):
        u, v = r.sample(range(n), 2)
        lines.append("%ce %d %d\n" % (r.choice("+-"), u, v))
    return "".join(lines).encode()


def twins(n, count, seed):
    """Vertices of the graph without edges on n names that go and come again, as twins of others, with or without an
    edge between the two: each of the graphs is a cograph."""
    r = random.Random(seed)
    beside = {v: set() for v in range(n)}
    free, lines = [], []
    for _ in range(count):
        if not free or len(beside) > n // 2 and r.random() < .5:
            x = r.choice(sorted(beside))
            for v in beside.pop(x):
                beside[v].discard(x)
            free.append(x)
            lines.append("-v %d\n" % x)
            continue
        x = free.pop(r.randrange(len(free)))
        twin = r.choice(sorted(beside))
        row = set(beside[twin]) | ({twin} if r.random() < .3 else set())
        for v in row:
            beside[v].add(x)
        beside[x] = row
        lines.append("+v %d%s\n" % (x, "".join(" %d" % v for v in sorted(row))))
    return "".join(lines).encode()


class ThresholdWalk:
    """A random threshold graph under edits, as a list of its vertices: one that is joined is adjacent to all before it,
    any other to none of them."""

    def __init__(self, n, seed):
        self.r = random.Random(seed)
        self.order = self.r.sample(range(n), n)
        self.joined = {v: self.r.random() < .5 for v in self.order}
        self.gone = []

    def rows(self):
        return rows_of(len(self.order),
                       [(u, v) for i, v in enumerate(self.order) if self.joined[v] for u in self.order[:i]])

    def toggled(self):
        """Two neighbours in the list, one of them joined, change places: just the edge between them comes or goes."""
        while True:
            i = self.r.randrange(1, len(self.order))
            u, v = self.order[i - 1:i + 1]
            if self.joined[u] != self.joined[v]:
                self.order[i - 1:i + 1] = v, u
                return "%se %d %d" % ("-" if self.joined[v] else "+", u, v)

    def gone_or_back(self):
        """A vertex goes, or one that went comes back at another place."""
        if not self.gone:
            self.gone.append(self.order.pop(self.r.randrange(len(self.order))))
            return "-v %d" % self.gone[0]
        x, place = self.gone.pop(), self.r.randrange(len(self.order) + 1)
        self.joined[x] = self.r.random() < .5
        beside = [v for i, v in enumerate(self.order) if (self.joined[x] if i < place else self.joined[v])]
        self.order.insert(place, x)
        return " ".join(map(str, ["+v", x, *sorted(beside)]))

    def barred(self):
        """An edit that isn't made, since the graph after it would have an induced P4: x, b, d and y stand in this order
        in the list, b and y joined and d not, or the other way round, and the edge of x and y comes or goes."""
        while True:
            y = self.r.randrange(len(self.order))
            kind = self.joined[self.order[y]]
            b = self.last(self.last(y, not kind), kind)
            if b > 0:
                return "%se %d %d" % ("-" if kind else "+", self.order[self.r.randrange(b)], self.order[y])

    def last(self, place, joined):
        """The last place before one whose vertex is joined, or isn't; -1 where there is none."""
        return next((i for i in range(place - 1, -1, -1) if self.joined[self.order[i]] == joined), -1)


def threshold_session(n, count, every, seed):
    """The rows of a threshold graph and a script of so many edits that leave one, a tenth of them of vertices; where
    `every` is told, behind each one an edit that would make an induced P4."""
    walk = ThresholdWalk(n, seed)
    rows, lines = walk.rows(), []
    for _ in range(count):
        lines.append(walk.gone_or_back() if walk.r.random() < .1 else walk.toggled())
        if every:
            lines.append(walk.barred())
    return rows, "".join(line + "\n" for line in lines).encode()


INPUTS = {
    "none.g6": lambda: b"",
    "dense1024.g6": lambda: g6(dense(1024, 1)),
    "dense4096.g6": lambda: g6(dense(4096, 2)),
    "sparse4096.g6": lambda: g6(sparse(4096, 8, 3)),
    "small5000.g6": lambda: small_graphs(5000, 4),
    "dense1024.col": lambda: dimacs(dense(1024, 1)),
    "path4096.g6": lambda: g6(path(4096)),
    "cycle4096.g6": lambda: g6(shuffled_cycle(4096, 8)),
    "half4096.g6": lambda: g6(half_graph(4096)),
    "nested_half4096.g6": lambda: g6(nested_half(4096)),
    "conested_half4096.g6": lambda: g6(complement(nested_half(4096))),
    "threshold4096.g6": lambda: g6(threshold(4096)),
    "cograph4096.g6": lambda: g6(cograph(4096, 5)),
    "dense256.g6": lambda: g6(dense(256, 6)),
    "script300.txt": lambda: script(256, 300, 7),
    "sparse4095.col": lambda: dimacs(sparse(4095, 8, 9)),
    "copath4096.g6": lambda: g6(path_complement(4096)),
    "cograph256.g6": lambda: g6(cograph(256, 10)),
    "empty512.g6": lambda: g6(rows_of(512, [])),
    "twins20000.txt": lambda: twins(512, 20000, 13),
    "cograph1024.g6": lambda: g6(cograph(1024, 11)),
    "complete4096.g6": lambda: g6(complete(4096)),
    "bipartite4096.g6": lambda: g6(complete_bipartite(4096)),
    "permutation1024.g6": lambda: g6(permutation_graph(1024, 12)),
    "dense100.g6": lambda: g6(dense(100, 14)),
    "dense300.g6": lambda: g6(dense(300, 15)),
    "vertex.g6": lambda: g6(rows_of(1, [])),
    "none.txt": lambda: b"",
}
for n in (1024, 4096):
    INPUTS["arcs%d.d6" % n] = lambda n=n: d6(random_digraph(n, 16))
    INPUTS["tournament%d.d6" % n] = lambda n=n: d6(tournament(n, 17))
    INPUTS["transitive%d.d6" % n] = lambda n=n: d6(transitive(n, 18))
    INPUTS["orders%d.d6" % n] = lambda n=n: d6(nested_orders(n))
for order in (oldest_lowest, oldest_highest, in_any_order):
    for n in (1024, 2047, 4096):
        INPUTS["p4_%s_%d.g6" % (order.__name__, n)] = lambda n=n, order=order: g6(nested_p4(n, order(n)))

MODES = ("tree", "dtree", "compare", "permute", "edit", "cograph", "quiet", "trivial", "threshold")

CASES = [
    ("edges", "g6", "none.g6"),
    ("edges", "g6", "dense1024.g6"),
    ("edges", "g6", "dense4096.g6"),
    ("edges", "g6", "sparse4096.g6"),
    ("edges", "g6", "small5000.g6"),
    ("edges", "dimacs", "dense1024.col"),
    ("graph6", "g6", "dense4096.g6"),
    ("graph6", "g6", "small5000.g6"),
    ("graph6", "dimacs", "dense1024.col"),
    ("tree", "g6", "dense1024.g6"),
    ("tree", "g6", "dense4096.g6"),
    ("tree", "g6", "sparse4096.g6"),
    ("tree", "g6", "cograph4096.g6"),
    ("tree", "g6", "path4096.g6"),
    ("tree", "g6", "cycle4096.g6"),
    ("tree", "g6", "half4096.g6"),
    ("tree", "g6", "nested_half4096.g6"),
    ("tree", "g6", "conested_half4096.g6"),
    ("tree", "g6", "threshold4096.g6"),
    ("tree", "g6", "small5000.g6"),
    ("edit", "g6", "dense256.g6", "script300.txt"),
    ("graph6", "dimacs", "sparse4095.col"),
    ("tree", "g6", "copath4096.g6"),
    ("cograph", "g6", "cograph256.g6", "script300.txt"),
    ("quiet", "g6", "empty512.g6", "twins20000.txt"),
    ("big", "4096"),
    ("compare", "g6", "dense256.g6"),
    ("compare", "g6", "cograph1024.g6"),
    ("compare", "g6", "bipartite4096.g6"),
    ("compare", "g6", "complete4096.g6"),
    ("permute", "g6", "dense256.g6"),
    ("permute", "g6", "cograph1024.g6"),
    ("permute", "g6", "permutation1024.g6"),
] + [("tree", "g6", name) for name in INPUTS if name.startswith("p4_")] + [
    (command, "g6", "dense100.g6") for command in ("edges", "graph6", "tree", "compare", "permute")
] + [
    ("compare", "g6", "dense300.g6"),
    ("permute", "g6", "dense300.g6"),
    ("edit", "g6", "vertex.g6", "none.txt"),
    ("cograph", "g6", "vertex.g6", "none.txt"),
    ("quiet", "g6", "vertex.g6", "none.txt"),
    ("trivial", "g6", "vertex.g6", "none.txt"),
    ("threshold", "g6", "vertex.g6", "none.txt"),
] + [("dtree", name) for name in INPUTS if name.endswith(".d6")]
# The commands that another program isn't asked for.
OURS_ALONE = ("trivial", "threshold", "dtree")


def measure(binary, words, where):
    """Seconds, instructions and peak megabytes of one run; 0 for what can't be measured here."""
    with open(os.devnull, "wb") as nothing:
        before = resource.getrusage(resource.RUSAGE_CHILDREN)
        status = subprocess.call(["/bin/sh", "-c", 'exec "$0" "$@"', binary, *words], cwd=where, stdout=nothing)
        after = resource.getrusage(resource.RUSAGE_CHILDREN)
    if status != 0:
        sys.exit("%s %s ended with status %d" % (binary, " ".join(words), status))
    seconds = after.ru_utime + after.ru_stime - before.ru_utime - before.ru_stime
    peak = 0
    if shutil.which("time"):
        run = subprocess.run(["time", "-f", "%M", binary, *words], cwd=where, stdout=subprocess.DEVNULL, stderr=subprocess.PIPE)
        peak = int(run.stderr.split()[-1])
    count = 0
    if shutil.which("valgrind"):
        run = subprocess.run(["valgrind", "--tool=callgrind", "--callgrind-out-file=/dev/null", binary, *words], cwd=where,
                             stdout=subprocess.DEVNULL, stderr=subprocess.PIPE)
        found = re.search(rb"Collected : (\d+)", run.stderr)
        count = int(found.group(1)) if found else 0
    return seconds, count, peak / 1024


def millions(count):
    return "%.2f" % (count / 1e6) if count < 10e6 else "%.1f" % (count / 1e6)


def written_cases(where, only):
    """The cases whose words hold a word, with their inputs written into a folder."""
    cases = [words for words in CASES if only in " ".join(words)]
    for name, make in INPUTS.items():
        if any(name in words for words in cases):
            with open(os.path.join(where, name), "wb") as file:
                file.write(make())
    return cases


def measure_checks(binary, only):
    print("| run | seconds | million instructions | peak MB | the report's seconds | its million instructions | ratio |")
    print("|---|---|---|---|---|---|---|")
    with tempfile.TemporaryDirectory() as where:
        for words in written_cases(where, only):
            if words[0] not in MODES:
                continue
            with open(os.path.join(where, "report"), "wb") as report:
                subprocess.run([binary, *words], cwd=where, stdout=report, check=True)
            before, answer, _ = measure(binary, words, where)
            seconds, count, peak = measure(binary, ["check", *words, "report"], where)
            print("| `check %s` | %.3f | %.1f | %.1f | %.3f | %.1f | %.2f |" %
                  (" ".join(words), seconds, count / 1e6, peak, before, answer / 1e6, count / max(answer, 1)), flush=True)


def measure_sizes(binary):
    """One row a command: seconds and peak megabytes on 1,024 and 4,096 vertices, on sparse graphs (average degree 8; for
    sessions on cographs and `permute` a cograph with few edges) and dense ones (half of all pairs; a cograph, or a
    permutation graph), each with 300 edits where the command takes them."""
    graphs = {}
    for n in (1024, 4096):
        graphs["any", n] = (g6(sparse(n, 8, n)), g6(dense(n, n)))
        graphs["cograph", n] = (g6(sparse_cograph(n)), g6(cograph(n, n)))
        graphs["permutation", n] = (g6(sparse_cograph(n)), g6(permutation_graph(n, n)))
        graphs["script", n] = script(n, 300, n)
    rows = [("edges", "any"), ("graph6", "any"), ("tree", "any"), ("compare", "any"), ("permute", "permutation"),
            ("edit", "any"), ("cograph", "cograph"), ("quiet", "cograph")]
    heads = ["%s, %s" % (n, kind) for n in ("1,024", "4,096") for kind in ("sparse", "dense")]
    print("| command | " + " | ".join(heads) + " |")
    print("|---|" + "---|" * len(heads))
    with tempfile.TemporaryDirectory() as where:
        for command, kind in rows:
            report, check = "| `%s` |" % command, "| `check %s` |" % command
            for n in (1024, 4096):
                for graph in graphs[kind, n]:
                    for name, text in (("graph", graph), ("script", graphs["script", n])):
                        with open(os.path.join(where, name), "wb") as file:
                            file.write(text)
                    words = [command, "g6", "graph"] + (["script"] if command in ("edit", "cograph", "quiet") else [])
                    report += " %s |" % timed(binary, words, where)
                    if command in MODES:
                        with open(os.path.join(where, "report"), "wb") as file:
                            subprocess.run([binary, *words], cwd=where, stdout=file, check=True)
                        check += " %s |" % timed(binary, ["check", *words, "report"], where)
            print(report, flush=True)
            if command in MODES:
                print(check, flush=True)
        print("| `big` |" + "".join(" | %s |" % timed(binary, ["big", str(n)], where) for n in (1024, 4096)))


def measure_largest(binary):
    """One row a command: seconds and peak megabytes on 16,384 vertices: a random sparse graph (average degree 8), a path,
    a threshold graph and a random cograph; `quiet` has 200 edits. Last the files, in megabytes."""
    n = 16384
    graphs = {"sparse": sparse(n, 8, n), "path": path(n), "threshold": threshold(n), "cograph": cograph(n, n)}
    rows = [("edges", ["sparse", "path"]), ("graph6", ["sparse", "path"]), ("tree", list(graphs)),
            ("quiet", ["threshold", "cograph"])]
    print("| command | " + " | ".join(graphs) + " |")
    print("|---|" + "---|" * len(graphs))
    with tempfile.TemporaryDirectory() as where:
        for name, graph in graphs.items():
            with open(os.path.join(where, name), "wb") as file:
                file.write(g6(graph))
        with open(os.path.join(where, "script"), "wb") as file:
            file.write(script(n, 200, n))
        for command, kinds in rows:
            for is_check in (False, True) if command == "tree" else (False,):
                row = "| `%s%s` |" % ("check " if is_check else "", command)
                for kind in graphs:
                    words = [command, "g6", kind] + (["script"] if command == "quiet" else [])
                    if kind not in kinds:
                        row += " |"
                        continue
                    if is_check:
                        with open(os.path.join(where, "report"), "wb") as file:
                            subprocess.run([binary, *words], cwd=where, stdout=file, check=True)
                        words = ["check", *words, "report"]
                    row += " %s |" % timed(binary, words, where)
                print(row, flush=True)
        sizes = (os.path.getsize(os.path.join(where, kind)) / 1024 ** 2 for kind in graphs)
        print("| file |" + "".join(" %.0f MB |" % size for size in sizes))


def complete_edges(n):
    """The edges of the complete graph, vertex after vertex: each front of them is a threshold graph."""
    return [(u, v) for v in range(n) for u in range(v)]


def measure_undo(binary):
    """Sessions from the graph without edges on 447 vertices to the complete graph: alone, taken back, as one group."""
    edges = complete_edges(447)
    there = ["+e %d %d" % edge for edge in edges]
    scripts = {
        "each edge": there,
        "each edge, each taken back by an edit": there + ["-e %d %d" % edge for edge in reversed(edges)],
        "each edge, as many undos": there + ["undo"] * len(edges),
        "one group of all edges": ["begin", *there, "commit"],
        "the group, and an undo": ["begin", *there, "commit", "undo"],
    }
    print("| script | command | seconds | million instructions | peak MB |\n|---|---|---|---|---|")
    with tempfile.TemporaryDirectory() as where:
        with open(os.path.join(where, "empty.g6"), "wb") as file:
            file.write(g6([0] * 447))
        for name, lines in scripts.items():
            with open(os.path.join(where, "script"), "w") as file:
                file.write("".join(line + "\n" for line in lines))
            for is_check in (False, True):
                words = ["quiet", "g6", "empty.g6", "script"]
                if is_check:
                    with open(os.path.join(where, "report"), "wb") as file:
                        subprocess.run([binary, *words], cwd=where, stdout=file, check=True)
                    words = ["check", *words, "report"]
                seconds, count, peak = measure(binary, words, where)
                command = "`check quiet`" if is_check else "`quiet`"
                print("| %s | %s | %.3f | %s | %.1f |" % (name, command, seconds, millions(count), peak), flush=True)


# How many times the instructions of `cograph` a session on a class may take where no edit is barred, and how many times
# those of `threshold` its check.
CLASS_BOUND, CHECK_BOUND = 1.4, 1.0


def measure_classes(binary):
    """Sessions of 20,000 edits from a threshold graph on 1,000 vertices that leave one each, and the same with as many
    edits among them that each mode refuses. Answers 1 where the first session is over the bounds."""
    print("| session | command | seconds | million instructions | peak MB | ratio |\n|---|---|---|---|---|---|")
    within = True
    with tempfile.TemporaryDirectory() as where:
        for session, every in (("no edit is barred", False), ("every other edit is barred", True)):
            rows, script = threshold_session(1000, 20000, every, 29)
            for name, text in (("graph", g6(rows)), ("script", script)):
                with open(os.path.join(where, name), "wb") as file:
                    file.write(text)
            counts = {}
            for words in (["cograph"], ["trivial"], ["threshold"], ["check", "threshold"]):
                words = [*words, "g6", "graph", "script"]
                if words[0] == "check":
                    with open(os.path.join(where, "report"), "wb") as file:
                        subprocess.run([binary, *words[1:]], cwd=where, stdout=file, check=True)
                    words.append("report")
                beside, bound = ("threshold", CHECK_BOUND) if words[0] == "check" else ("cograph", CLASS_BOUND)
                seconds, count, peak = measure(binary, words, where)
                counts[words[0]] = count
                ratio = count / max(counts[beside], 1)
                within = within and (every or ratio <= bound)
                print("| %s | `%s` | %.3f | %s | %.1f | %.2f of `%s` |" % (
                    session, " ".join(words[:-4 if words[0] == "check" else -3]), seconds, millions(count), peak, ratio,
                    beside), flush=True)
    print("within the bounds" if within else "over the bounds")
    return 0 if within else 1


def timed(binary, words, where):
    """Seconds of processor time and peak megabytes of one run, as text; a report may be too long for a check."""
    with subprocess.Popen(["time", "-f", "%M", binary, *words], cwd=where, stdout=subprocess.DEVNULL,
                          stderr=subprocess.PIPE) as run:
        told = run.stderr.read()
        _, status, usage = os.wait4(run.pid, 0)
        run.returncode = os.waitstatus_to_exitcode(status)
    if run.returncode == 7:
        return "too long"
    if run.returncode != 0:
        sys.exit("%s ended with status %d" % (" ".join(words), run.returncode))
    return "%.3f s, %.0f MB" % (usage.ru_utime + usage.ru_stime, int(told.split()[-1]) / 1024)


def build():
    folder = os.path.join(TOP, "crates", "md_cli")
    subprocess.run(["rt", "run", "--", "edges", "g6", "data/graph.g6"], cwd=folder, stdout=subprocess.DEVNULL, check=True)
    return os.path.join(folder, "out", "md_cli")


def main():
    options = argparse.ArgumentParser(description=__doc__, formatter_class=argparse.RawDescriptionHelpFormatter)
    options.add_argument("--bin")
    options.add_argument("--peer")
    options.add_argument("--only", default="")
    options.add_argument("--checks", action="store_true")
    options.add_argument("--sizes", action="store_true")
    options.add_argument("--largest", action="store_true")
    options.add_argument("--undo", action="store_true")
    options.add_argument("--classes", action="store_true")
    chosen = options.parse_args()
    binary = os.path.abspath(chosen.bin or build())
    peer = os.path.abspath(chosen.peer) if chosen.peer else None
    if chosen.checks:
        return measure_checks(binary, chosen.only)
    if chosen.sizes:
        return measure_sizes(binary)
    if chosen.largest:
        return measure_largest(binary)
    if chosen.undo:
        return measure_undo(binary)
    if chosen.classes:
        return measure_classes(binary)
    print("| run | seconds | million instructions | peak MB |" + (" the other's | ratio | its peak MB |" if peer else ""))
    print("|---|---|---|---|" + ("---|---|---|" if peer else ""))
    with tempfile.TemporaryDirectory() as where:
        for words in written_cases(where, chosen.only):
            name = " ".join(words)
            seconds, count, peak = measure(binary, words, where)
            line = "| `%s` | %.3f | %s | %.1f |" % (name, seconds, millions(count), peak)
            if peer and words[0] in OURS_ALONE:
                line += " | | |"
            elif peer:
                _, other, its_peak = measure(peer, words, where)
                line += " %s | %.2f | %.1f |" % (millions(other), count / max(other, 1), its_peak)
            print(line, flush=True)


if __name__ == "__main__":
    sys.exit(main())
