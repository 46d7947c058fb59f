#!/usr/bin/env python3
"""Compares sessions over scripts with `undo` and groups with a plain model of them.

    python3 bench/items.py --bin PROGRAM [--lines N] [--random N] [--seed N]

First every script of at most N counted lines (4, if none is told) over the three edges of three
names, with `undo`, `begin` and `commit`, that is a script, from the graph without edges, in each
mode of a session; then N random ones (2,000) of up to 30 lines on up to six names, with vertices
too. The model keeps a list of graphs, and the tree of each is found by trying all subsets for
modules; an induced P4, C4 or 2K2 that a line names is looked up in the graph. Then `check` reads
each report. Ends with 1 if a line is wrong, or a report isn't accepted.
"""

import argparse
import itertools
import pathlib
import random
import subprocess
import sys
import tempfile
from functools import cache

# The bars of each mode: the induced subgraphs on four names that no graph of it has.
MODES = {
    "edit": (),
    "cograph": ("p4",),
    "quiet": ("p4",),
    "trivial": ("p4", "c4"),
    "threshold": ("p4", "c4", "2k2"),
}
# Which of the pairs ab, bc, cd, ad, ac and bd of a bar a, b, c, d are edges.
SHAPES = {"p4": (1, 1, 1, 0, 0, 0), "c4": (1, 1, 1, 1, 0, 0), "2k2": (1, 0, 1, 0, 0, 0)}
Graph = tuple[frozenset[int], frozenset[tuple[int, int]]]


def pair(u: int, v: int) -> tuple[int, int]:
    return (min(u, v), max(u, v))


def graph6(n: int, edges: frozenset[tuple[int, int]]) -> str:
    """The line of a graph on n names, whose pairs (i, j), i < j, stand by j and then by i."""
    bits = [int((i, j) in edges) for j in range(n) for i in range(j)]
    bits += [0] * (-len(bits) % 6)
    groups = [sum(b << (5 - k) for k, b in enumerate(bits[i : i + 6])) for i in range(0, len(bits), 6)]
    return chr(63 + n) + "".join(chr(63 + g) for g in groups)


def components(names: frozenset[int], joined) -> list[frozenset[int]]:
    """The classes of names that a chain of joined pairs leads from one to another."""
    left, found = set(names), []
    while left:
        waiting, part = [min(left)], set()
        while waiting:
            v = waiting.pop()
            if v not in part:
                part.add(v)
                waiting += [w for w in left if w not in part and joined(v, w)]
        left -= part
        found.append(frozenset(part))
    return found


@cache
def text(names: frozenset[int], edges: frozenset[tuple[int, int]]) -> str:
    """The text of the tree of strong modules of the graph on these names."""
    if not names:
        return "empty"
    if len(names) == 1:
        return str(min(names))
    parallel = components(names, lambda u, v: pair(u, v) in edges)
    if len(parallel) > 1:
        return f"P({','.join(text(part, edges) for part in sorted(parallel, key=min))})"
    series = components(names, lambda u, v: pair(u, v) not in edges)
    if len(series) > 1:
        return f"S({','.join(text(part, edges) for part in sorted(series, key=min))})"
    modules = [
        frozenset(part)
        for size in range(1, len(names))
        for part in itertools.combinations(sorted(names), size)
        if all(len({pair(u, v) in edges for v in part}) == 1 for u in names - set(part))
    ]
    parts = sorted((m for m in modules if not any(m < other for other in modules)), key=min)
    pairs = [
        f"{i}-{j}"
        for i, j in itertools.combinations(range(len(parts)), 2)
        if pair(min(parts[i]), min(parts[j])) in edges
    ]
    return f"R({','.join(text(part, edges) for part in parts)};{','.join(pairs)})"


def in_order(kind: str, a: int, b: int, c: int, d: int) -> bool:
    """Whether the names of a bar stand in the one of its orders in which it is written."""
    if kind == "p4":
        return a < d
    return a == min(a, b, c, d) and (b < d if kind == "c4" else c < d)


@cache
def bars(mode: str, names: frozenset[int], edges: frozenset[tuple[int, int]]) -> frozenset[str]:
    """The bars of a mode that the graph has, as they are written."""
    found = set()
    for a, b, c, d in itertools.permutations(sorted(names), 4):
        near = tuple(pair(u, v) in edges for u, v in ((a, b), (b, c), (c, d), (a, d), (a, c), (b, d)))
        for kind in MODES[mode]:
            if near == SHAPES[kind] and in_order(kind, a, b, c, d):
                found.add(f"{kind} {a} {b} {c} {d}")
    return frozenset(found)


def reason(graph: Graph, edit: list[str]) -> str | None:
    """The reason against an edit, as a line tells it."""
    names, edges = graph
    numbers = [int(field) for field in edit[1:]]
    if edit[0] in ("+e", "-e"):
        u, v = numbers
        if u == v:
            return "same"
        for w in (u, v):
            if w not in names:
                return f"vertex {w}"
        if edit[0] == "+e":
            return "edge-there" if pair(u, v) in edges else None
        return None if pair(u, v) in edges else "edge-absent"
    if edit[0] == "-v":
        return None if numbers[0] in names else f"vertex {numbers[0]}"
    for w in sorted(set(numbers[1:])):
        if w not in names:
            return f"vertex {w}"
    return f"taken {numbers[0]}" if numbers[0] in names else None


def after(graph: Graph, edit: list[str]) -> Graph:
    """The graph after an edit against which there is no reason."""
    names, edges = graph
    numbers = [int(field) for field in edit[1:]]
    if edit[0] == "+e":
        return names, edges | {pair(*numbers)}
    if edit[0] == "-e":
        return names, edges - {pair(*numbers)}
    if edit[0] == "-v":
        x = numbers[0]
        return names - {x}, frozenset(e for e in edges if x not in e)
    return names | {numbers[0]}, edges | {pair(numbers[0], w) for w in numbers[1:]}


def items(script: list[str]) -> list[list[list[str]] | None]:
    """The items of a script: an undo is None, any other a list of edits; an edit alone is a list with a mark."""
    found, group = [], None
    for line in script:
        fields = line.split()
        if fields[0] == "undo":
            found.append(None)
        elif fields[0] == "begin":
            group = []
        elif fields[0] == "commit":
            found.append([["group"], *group])
            group = None
        elif group is None:
            found.append([["one"], fields])
        else:
            group.append(fields)
    return found


def expected(mode: str, graph: Graph, script: list[str]) -> list[set[str]]:
    """The lines of a report, each as the set of its right forms."""
    lines = [{f"mdt {mode}"}]
    if bars(mode, *graph):
        return [*lines, set(bars(mode, *graph)), {"end"}]
    if mode != "quiet":
        lines.append({f"t {text(*graph)}"})
    states = [graph]
    for item in items(script):
        if item is None:
            if len(states) == 1:
                lines.append({"no undo"})
                continue
            states.pop()
        else:
            here, refused = states[-1], None
            for number, edit in enumerate(item[1:], 1):
                lead = f"no edit {number} " if item[0] == ["group"] else "no "
                if (why := reason(here, edit)) is not None:
                    refused = {lead + why}
                    break
                here = after(here, edit)
                if bars(mode, *here):
                    refused = {lead + bar for bar in bars(mode, *here)}
                    break
            if refused is not None:
                lines.append(refused)
                continue
            states.append(here)
        lines.append({"ok"} if mode == "quiet" else {f"ok {text(*states[-1])}"})
    if mode == "quiet":
        lines.append({f"t {text(*states[-1])}"})
    return [*lines, {"end"}]


def scripts(most: int):
    """Every script of at most so many counted lines over the edges of three names."""
    edits = [f"{sign}e {u} {v}" for sign in "+-" for u, v in ((0, 1), (0, 2), (1, 2))]

    def grow(script: list[str], counted: int, inside: bool):
        if not inside:
            yield script
        if inside:
            yield from grow([*script, "commit"], counted, False)
        if counted < most:
            for edit in edits:
                yield from grow([*script, edit], counted + 1, inside)
            if not inside:
                yield from grow([*script, "undo"], counted + 1, False)
                yield from grow([*script, "begin"], counted + 1, True)

    yield from grow([], 0, False)


def drawn(draw: random.Random) -> tuple[int, frozenset[tuple[int, int]], list[str]]:
    """A random graph, and a random script."""
    n = draw.randint(0, 5)
    edges = frozenset(e for e in itertools.combinations(range(n), 2) if draw.random() < 0.5)
    script, inside = [], False
    for _ in range(draw.randint(1, 30)):
        kind = draw.random()
        if kind < 0.2 and not inside:
            script.append("undo")
        elif kind < 0.35:
            script.append("commit" if inside else "begin")
            inside = not inside
        elif kind < 0.75:
            script.append(f"{draw.choice('+-')}e {draw.randint(0, 5)} {draw.randint(0, 5)}")
        elif kind < 0.87:
            script.append(f"-v {draw.randint(0, 5)}")
        else:
            near = " ".join(str(w) for w in range(6) if draw.random() < 0.3)
            script.append(f"+v {draw.randint(0, 5)} {near}".strip())
    return n, edges, script + ["commit"] * inside


def run(program: str, folder: pathlib.Path, words: list[str]) -> str:
    return subprocess.run([program, *words], capture_output=True, text=True, cwd=folder).stdout


def judge(program: str, folder: pathlib.Path, mode: str, n: int, edges: frozenset, script: list[str]) -> bool:
    """Whether the report of a session is right, and accepted."""
    (folder / "graph").write_text(graph6(n, edges) + "\n")
    (folder / "script").write_text("".join(line + "\n" for line in script))
    report = run(program, folder, [mode, "g6", "graph", "script"])
    (folder / "report").write_text(report)
    want = expected(mode, (frozenset(range(n)), edges), script)
    got = report.split("\n")
    right = got[-1] == "" and len(got) == len(want) + 1 and all(a in b for a, b in zip(got, want))
    taken = run(program, folder, ["check", mode, "g6", "graph", "script", "report"]) == "accepted\n"
    if not (right and taken):
        print(f"wrong: {mode}, {graph6(n, edges)}, {script}: {report!r}, accepted: {taken}")
    return right and taken


def main() -> int:
    parser = argparse.ArgumentParser(description=__doc__, formatter_class=argparse.RawDescriptionHelpFormatter)
    parser.add_argument("--bin", required=True)
    parser.add_argument("--lines", type=int, default=4)
    parser.add_argument("--random", type=int, default=2_000)
    parser.add_argument("--seed", type=int, default=1)
    words = parser.parse_args()
    program = str(pathlib.Path(words.bin).resolve())
    draw, count, wrong = random.Random(words.seed), 0, 0
    with tempfile.TemporaryDirectory() as name:
        folder = pathlib.Path(name)
        cases = [(3, frozenset(), script) for script in scripts(words.lines)]
        cases += [drawn(draw) for _ in range(words.random)]
        for n, edges, script in cases:
            for mode in MODES:
                count += 1
                wrong += not judge(program, folder, mode, n, edges, script)
    print(f"{count} sessions, {wrong} wrong")
    return int(wrong > 0)


if __name__ == "__main__":
    sys.exit(main())
