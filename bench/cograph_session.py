#!/usr/bin/env python3
"""Writes a long session on a cograph: a graph file and a script, from a fixed seed.

    python3 bench/cograph_session.py FOLDER               writes FOLDER/graph.g6 and FOLDER/script.txt
    python3 bench/cograph_session.py FOLDER --bin PATH    also runs `cograph` and `check cograph`, and times them

The graph has 1,000 vertices. Of 200,000 edits some 60,000 are applied: the edge between two twins comes or goes, which
leaves a cograph, or a vertex without neighbours goes or comes back. Nearly all others would make an induced P4; the
rest are refused for a reason. So the answers are known without a search, and with them the size of the report: what
`mdt cograph` writes has to have as many bytes as this script prints.
"""
import argparse
import os
import random
import resource
import subprocess
import sys

SEED = 20261128
VERTICES, EDITS = 1000, 200000
# A node with at most so many names below it has leaves alone as children, at least four.
BLOCK = 60
ALONE = 10


class Node:
    """A node of the cotree: its kind, its children that are nodes, and those that are leaves."""

    def __init__(self, kind, children, leaves):
        self.kind, self.children, self.leaves = kind, children, leaves

    def names(self):
        return self.leaves + [v for c in self.children for v in c.names()]

    def nodes(self):
        return [self] + [n for c in self.children for n in c.nodes()]


def random_node(r, names, kind):
    if len(names) <= BLOCK:
        return Node(kind, [], names)
    parts = min(r.randint(3, 6), len(names) // 4)
    cuts = sorted(r.sample(range(1, len(names) // 4), parts - 1))
    bounds = [0] + [4 * c for c in cuts] + [len(names)]
    other = "S" if kind == "P" else "P"
    return Node(kind, [random_node(r, names[a:b], other) for a, b in zip(bounds, bounds[1:])], [])


def graph6(n, rows):
    bits = "".join("1" if rows[v] >> u & 1 else "0" for v in range(n) for u in range(v))
    bits += "0" * (-len(bits) % 6)
    size = [126] + [63 + (n >> s & 63) for s in (12, 6, 0)]
    return bytes(size + [63 + int(bits[k:k + 6], 2) for k in range(0, len(bits), 6)]) + b"\n"


class Session:
    def __init__(self):
        self.r = random.Random(SEED)
        names = list(range(VERTICES))
        self.r.shuffle(names)
        self.alone, rest = names[:ALONE], names[ALONE:]
        top = random_node(self.r, rest, "S")
        self.root = Node("P", [top], list(self.alone))
        self.rows = [0] * VERTICES
        self.join(self.root)
        self.blocks = [n for n in self.root.nodes() if n is not self.root and n.leaves]
        # The first two leaves of a block are twins whose edge comes and goes; the others stay.
        self.twins = [(n.kind, n.leaves[0], n.leaves[1]) for n in self.blocks]
        self.split = set()
        self.gone = set()
        self.inner = len(self.root.nodes())

    def join(self, node):
        sets = [sum(1 << v for v in c.names()) for c in node.children] + [1 << v for v in node.leaves]
        whole = sum(sets)
        for s in sets if node.kind == "S" else []:
            for v in range(VERTICES):
                if s >> v & 1:
                    self.rows[v] |= whole & ~s
        for c in node.children:
            self.join(c)

    def tree_bytes(self):
        """A leaf has its digits, each child but the first a comma, each node a letter and two brackets."""
        there = [v for v in range(VERTICES) if v not in self.gone]
        return sum(len(str(v)) for v in there) + len(there) - 1 + 3 * (self.inner + len(self.split))

    def toggled_twins(self):
        k = self.r.randrange(len(self.twins))
        kind, u, v = self.twins[k]
        edge = (kind == "S") != (k in self.split)
        self.split ^= {k}
        return "%se %d %d" % ("-" if edge else "+", u, v), 3 + self.tree_bytes()

    def toggled_vertex(self):
        v = self.r.choice(self.alone)
        back = v in self.gone
        self.gone ^= {v}
        return "%sv %d" % ("+" if back else "-", v), 3 + self.tree_bytes()

    def refused_p4(self):
        """Two names in blocks of one kind, between which the edges are of the other kind: with a twin of each, which the
        edit leaves as it is, they are an induced P4 after it. The size of its line isn't told here: each P4 of the
        graph after the edit may stand in it."""
        while True:
            a, b = self.r.sample(self.blocks, 2)
            if a.kind != b.kind:
                continue
            u, v = self.r.choice(a.leaves[2:]), self.r.choice(b.leaves[2:])
            edge = self.rows[u] >> v & 1
            if edge == (a.kind == "P"):
                return "%se %d %d" % ("-" if edge else "+", u, v), None

    def refused(self):
        block = self.r.choice(self.blocks)
        u, v = self.r.choice(block.leaves[2:]), self.r.randrange(VERTICES)
        if u == v:
            return "+e %d %d" % (u, u), len("no same")
        if v in self.gone:
            return "+e %d %d" % (u, v), len("no vertex %d" % v)
        edge = self.rows[u] >> v & 1
        return ("+e %d %d" % (u, v), len("no edge-there")) if edge else ("-e %d %d" % (u, v), len("no edge-absent"))

    def edits(self):
        lines, applied, known, paths = [], 0, 0, 0
        for _ in range(EDITS):
            choice = self.r.random()
            if choice < .295:
                line, size = self.toggled_twins()
                applied += 1
            elif choice < .3:
                line, size = self.toggled_vertex()
                applied += 1
            elif choice < .97:
                line, size = self.refused_p4()
            else:
                line, size = self.refused()
            lines.append(line)
            if size is None:
                paths += 1
            else:
                known += size + 1
        return lines, applied, known, paths


def run(words, out):
    before = resource.getrusage(resource.RUSAGE_CHILDREN)
    with open(out, "wb") as file:
        status = subprocess.run(words, stdout=file).returncode
    after = resource.getrusage(resource.RUSAGE_CHILDREN)
    seconds = after.ru_utime + after.ru_stime - before.ru_utime - before.ru_stime
    print("%s: status %d, %.2f seconds of processor time" % (" ".join(words[1:3]), status, seconds))
    return status


def main():
    arguments = argparse.ArgumentParser(description=__doc__, formatter_class=argparse.RawDescriptionHelpFormatter)
    arguments.add_argument("folder")
    arguments.add_argument("--bin", help="the program, to be run over what is written")
    given = arguments.parse_args()
    os.makedirs(given.folder, exist_ok=True)
    graph, script, report = (os.path.join(given.folder, f) for f in ("graph.g6", "script.txt", "report.txt"))
    session = Session()
    with open(graph, "wb") as file:
        file.write(graph6(VERTICES, session.rows))
    head = len("mdt cograph\n") + len("t \n") + session.tree_bytes() + len("end\n")
    lines, applied, known, paths = session.edits()
    with open(script, "w") as file:
        file.write("\n".join(lines) + "\n")
    print("%d edits, %d applied, %d that make a P4; the report has %d bytes and the lines of the P4s"
          % (EDITS, applied, paths, head + known))
    if not given.bin:
        return 0
    status = run([given.bin, "cograph", "g6", graph, script], report)
    told = 0
    with open(report, "rb") as file:
        told = sum(1 for line in file if line.startswith(b"no p4 "))
    size = os.path.getsize(report)
    print("the report has %d bytes and %d lines of P4s" % (size, told))
    return status or told != paths or run(
        [given.bin, "check", "cograph", "g6", graph, script, report], os.devnull)


if __name__ == "__main__":
    sys.exit(main())
