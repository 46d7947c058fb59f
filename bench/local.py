#!/usr/bin/env python3
"""Sessions on any graphs, whose tree is kept and rebuilt: what they cost, and whether they are right.

    python3 bench/local.py --bin PROGRAM --before OLDER    instructions and seconds of `edit` beside an older program's,
                                                           and the length of the lines
    python3 bench/local.py --bin PROGRAM --random N        N random sessions of 60 items on up to 40 names, with
                                                           vertices, groups and `undo`: each tree is compared with that
                                                           of `tree`, which decomposes the graph anew

The table has six families of graphs on 1,024 vertices, each with three sessions of 300 edits: edges toggled one after
the other; edges toggled and taken back by `undo`; vertices that go and come again. On a random dense graph, whose
lines have 2 MB each, a session has 30 edits. Ends with 1 if a line is wrong.
"""
import argparse
import os
import random
import subprocess
import sys
import tempfile

from run import cograph, dense, g6, in_any_order, measure, nested_p4, rows_of, sparse

NAMES = 1024


def clusters(n, count, seed):
    """Clusters of equal size without edges between them, each a random graph with 6 of 10 pairs."""
    r = random.Random(seed)
    return rows_of(n, [(u, v) for v in range(n) for u in range(v) if u % count == v % count and r.random() < .6])


def renamed(rows, seed):
    """The same graph with names in any order."""
    names = in_any_order(len(rows)) if seed is None else random.Random(seed).sample(range(len(rows)), len(rows))
    return rows_of(len(rows), [(names[u], names[v]) for v, row in enumerate(rows) for u in range(v) if row >> u & 1])


FAMILIES = {
    "random cotree": lambda: renamed(cograph(NAMES, 20), 21),
    "nested P4s": lambda: nested_p4(NAMES, in_any_order(NAMES)),
    "12 clusters": lambda: clusters(NAMES, 12, 22),
    "threshold graph": lambda: renamed([(1 << v) - 1 if v % 2 else 0 for v in range(NAMES)], 23),
    "G(n, 2/n)": lambda: sparse(NAMES, 2, 24),
    "G(n, 1/2)": lambda: dense(NAMES, 25),
}


def edge_set(rows):
    return {(u, v) for v, row in enumerate(rows) for u in range(v) if row >> u & 1}


def toggled(rows, count, seed, undone):
    """Edges toggled one after the other, each taken back by `undo` where it is asked for."""
    r, edges, lines = random.Random(seed), edge_set(rows), []
    for _ in range(count // 2 if undone else count):
        e = tuple(sorted(r.sample(range(len(rows)), 2)))
        lines.append("%se %d %d\n" % ("-" if e in edges else "+", *e))
        if undone:
            lines.append("undo\n")
        else:
            edges ^= {e}
    return "".join(lines)


def going(rows, count, seed):
    """Vertices that go and come again with the same neighbours."""
    r, edges, lines = random.Random(seed), edge_set(rows), []
    for _ in range(count // 2):
        x = r.randrange(len(rows))
        beside = sorted(u + v - x for u, v in edges if x in (u, v))
        lines += ["-v %d\n" % x, "+v %d%s\n" % (x, "".join(" %d" % v for v in beside))]
    return "".join(lines)


SESSIONS = {
    "toggled": lambda rows, count: toggled(rows, count, 26, False),
    "toggled and taken back": lambda rows, count: toggled(rows, count, 27, True),
    "vertices go and come": lambda rows, count: going(rows, count, 28),
}


def measure_families(binary, before, only):
    print("| graph, session | MB of lines | million instructions | before | ratio | seconds | before |")
    print("|---|---|---|---|---|---|---|")
    with tempfile.TemporaryDirectory() as where:
        for family, make in FAMILIES.items():
            rows = make()
            count = 30 if family == "G(n, 1/2)" else 300
            for session, script in SESSIONS.items():
                if only not in family + ", " + session:
                    continue
                for name, text in (("graph", g6(rows)), ("script", script(rows, count).encode())):
                    with open(os.path.join(where, name), "wb") as file:
                        file.write(text)
                words = ["edit", "g6", "graph", "script"]
                length = len(subprocess.run([binary, *words], cwd=where, stdout=subprocess.PIPE, check=True).stdout)
                seconds, now, _ = measure(binary, words, where)
                older, then, _ = measure(before, words, where)
                print("| %s, %s | %.1f | %.1f | %.1f | %.2f | %.3f | %.3f |" %
                      (family, session, length / 1e6, now / 1e6, then / 1e6, now / max(then, 1), seconds, older), flush=True)


def random_item(r, names, edges, limit):
    """A random edit, which may be refused."""
    kind = r.randrange(6)
    if kind == 0 and names:
        return "-v %d" % r.choice(sorted(names))
    if kind == 1:
        x = r.randrange(limit)
        beside = [v for v in sorted(names) if v != x and r.random() < .4]
        return "+v %d%s" % (x, "".join(" %d" % v for v in beside))
    if len(names) < 2:
        return "+v %d" % r.randrange(limit)
    u, v = sorted(r.sample(sorted(names), 2))
    return "%se %d %d" % ("-" if ((u, v) in edges) != (r.random() < .1) else "+", u, v)


def applied(names, edges, edit):
    """The graph after an edit; none where there is a reason against it."""
    sign, *numbers = edit.split()
    numbers = [int(x) for x in numbers]
    names, edges = set(names), set(edges)
    if sign in ("+e", "-e"):
        e = tuple(sorted(numbers))
        if not set(e) <= names or (e in edges) == (sign == "+e"):
            return None
        edges ^= {e}
    elif sign == "+v":
        if numbers[0] in names or not set(numbers[1:]) <= names:
            return None
        names.add(numbers[0])
        edges |= {tuple(sorted((numbers[0], v))) for v in numbers[1:]}
    else:
        if numbers[0] not in names:
            return None
        names.discard(numbers[0])
        edges = {e for e in edges if numbers[0] not in e}
    return names, edges


def random_session(r):
    """A random graph, a script of 60 items, and for each item the graph that it leaves, or none where it is refused."""
    limit = r.randrange(2, 41)
    names = set(range(r.randrange(1, limit + 1)))
    density = r.choice((.1, .3, .5, .8))
    edges = {(u, v) for v in names for u in range(v) if r.random() < density}
    first, states, lines, answers = (names, edges), [(names, edges)], [], []
    for _ in range(60):
        at = states[-1]
        kind = r.randrange(8)
        if kind == 0:
            lines.append("undo")
            if len(states) > 1:
                states.pop()
                answers.append(states[-1])
            else:
                answers.append(None)
            continue
        edits = [] if kind == 1 else None
        left = at
        for _ in range(r.randrange(5) if kind == 1 else 1):
            edit = random_item(r, *(left or at), limit)
            left = left and applied(*left, edit)
            lines.append(edit) if edits is None else edits.append(edit)
        if edits is not None:
            lines += ["begin", *edits, "commit"]
        answers.append(left)
        if left:
            states.append(left)
    return first, lines, answers


def graph_line(names, edges):
    place = {v: i for i, v in enumerate(sorted(names))}
    return g6(rows_of(len(names), [(place[u], place[v]) for u, v in edges]))


def with_names(text, names):
    """The text of a tree whose leaves are counted, with the names of a graph in their place: those in lists of pairs
    are positions and stay."""
    order, out, number, pairs = sorted(names), [], "", 0
    for c in text + " ":
        if c.isdigit():
            number += c
            continue
        if number:
            out.append(number if pairs else str(order[int(number)]))
            number = ""
        pairs = 1 if c == ";" else 0 if c == ")" else pairs
        out.append(c)
    return "".join(out).strip()


def compare_sessions(binary, count, seed):
    r, wrong = random.Random(seed), 0
    with tempfile.TemporaryDirectory() as where:
        for number in range(count):
            first, lines, answers = random_session(r)
            graphs = [first] + [graph for graph in answers if graph]
            for name, text in (("graph", graph_line(*first)), ("script", "".join(x + "\n" for x in lines).encode()),
                               ("graphs", b"".join(graph_line(*graph) for graph in graphs))):
                with open(os.path.join(where, name), "wb") as file:
                    file.write(text)
            told = subprocess.run([binary, "edit", "g6", "graph", "script"], cwd=where, stdout=subprocess.PIPE, check=True)
            anew = subprocess.run([binary, "tree", "g6", "graphs"], cwd=where, stdout=subprocess.PIPE, check=True)
            trees = [with_names(line[2:], graph[0]) for line, graph in zip(anew.stdout.decode().split("\n")[1:], graphs)]
            due = ["mdt edit", "t " + trees.pop(0)] + ["ok " + trees.pop(0) if graph else "no" for graph in answers] + ["end"]
            got = told.stdout.decode().split("\n")[:-1]
            if len(got) != len(due) or any(a != b and not (b == "no" and a.startswith("no ")) for a, b in zip(got, due)):
                wrong += 1
                print("session %d of seed %d differs" % (number, seed))
    print("%d sessions, %d wrong" % (count, wrong))
    return wrong


def main():
    parser = argparse.ArgumentParser(description=__doc__.split("\n")[0])
    parser.add_argument("--bin", required=True)
    parser.add_argument("--before")
    parser.add_argument("--only", default="")
    parser.add_argument("--random", type=int, default=0)
    parser.add_argument("--seed", type=int, default=1)
    told = parser.parse_args()
    if told.before:
        measure_families(os.path.abspath(told.bin), os.path.abspath(told.before), told.only)
    if told.random:
        sys.exit(1 if compare_sessions(os.path.abspath(told.bin), told.random, told.seed) else 0)


if __name__ == "__main__":
    main()
