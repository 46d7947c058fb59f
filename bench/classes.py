#!/usr/bin/env python3
"""Sessions on trivially perfect graphs and on threshold graphs, judged by the definitions.

    python3 bench/classes.py --bin PROGRAM [--names N] [--random N] [--seed N]

First all graphs on up to N names (5, if none is told), in both modes: each pair of names is toggled
and taken back, and each line is compared with what a search of all quadruples says, by the model of
`items.py`. Then N random sessions (500) in each mode, of 60 items on up to 12 names, with vertices,
groups and `undo`, from a graph of the class nine times in ten; each report is judged by
`python/mdt/verify.py`, which doesn't run the program. `check` reads each report too. Ends with 1 if
a line is wrong, or a report isn't accepted.
"""

import argparse
import itertools
import os
import pathlib
import random
import sys
import tempfile
from collections.abc import Iterator

import items
from local import random_item

sys.path.insert(0, os.path.join(os.path.dirname(os.path.dirname(os.path.abspath(__file__))), "python"))

from mdt import verify  # noqa: E402
from mdt.inputs import Graph, read_script  # noqa: E402

CLASSES = ("trivial", "threshold")
ITEMS, MOST_NAMES = 60, 12


def edges_of(graph: Graph) -> frozenset[tuple[int, int]]:
    return frozenset((u, v) for u in graph for v in graph[u] if u < v)


def graphs(most: int) -> Iterator[tuple[int, frozenset[tuple[int, int]]]]:
    """All graphs on up to so many names: the number of names, and the edges."""
    for n in range(most + 1):
        pairs = list(itertools.combinations(range(n), 2))
        for size in range(len(pairs) + 1):
            for edges in itertools.combinations(pairs, size):
                yield n, frozenset(edges)


def toggle_each(program: str, folder: pathlib.Path, most: int) -> tuple[int, int]:
    """How many sessions there were in which each pair is toggled and taken back, and how many were wrong."""
    count, wrong = 0, 0
    for n, edges in graphs(most):
        script = []
        for u, v in itertools.combinations(range(n), 2):
            script += [f"{'-' if (u, v) in edges else '+'}e {u} {v}", "undo"]
        for mode in CLASSES:
            count += 1
            wrong += not items.judge(program, folder, mode, n, edges, script)
    return count, wrong


def class_graph(draw: random.Random, mode: str, n: int) -> Graph:
    """A threshold graph: each name is adjacent to all before it, or to none of them; or a trivially perfect graph: each
    name of a rooted forest is adjacent to those above it."""
    names = draw.sample(range(n), n)
    above: dict[int, set[int]] = {}
    for place, v in enumerate(names):
        parent = draw.choice([*names[:place], None])
        if mode == "threshold":
            above[v] = set(names[:place]) if draw.random() < 0.5 else set()
        else:
            above[v] = set() if parent is None else above[parent] | {parent}
    return {v: above[v] | {u for u in names if v in above[u]} for v in names}


def any_graph(draw: random.Random, n: int) -> Graph:
    pairs = [pair for pair in itertools.combinations(range(n), 2) if draw.random() < 0.5]
    return {v: {a + b - v for a, b in pairs if v in (a, b)} for v in range(n)}


def left_by(mode: str, graph: Graph, line: str) -> Graph | None:
    """The graph that an edit leaves, none where it is refused."""
    (item,) = read_script(line.encode())
    if verify.reason(graph, item.edits[0]):
        return None
    after = verify.after(graph, item.edits[0])
    return None if verify.has_bar(after, mode) else after


def drawn_edit(draw: random.Random, mode: str, graph: Graph) -> tuple[str, Graph | None]:
    """A random edit and the graph that it leaves; of some that are drawn mostly the first that isn't refused."""
    for _ in range(1 if draw.random() < 0.3 else 8):
        line = random_item(draw, set(graph), edges_of(graph), MOST_NAMES)
        after = left_by(mode, graph, line)
        if after is not None:
            break
    return line, after


def drawn_group(draw: random.Random, mode: str, graph: Graph) -> tuple[list[str], Graph | None]:
    """A random group and the graph that it leaves, none where one of its edits is refused."""
    lines, here, left = [], graph, True
    for _ in range(draw.randrange(5)):
        line, after = drawn_edit(draw, mode, here)
        lines.append(line)
        here, left = after or here, left and after is not None
    return ["begin", *lines, "commit"], here if left else None


def drawn_session(draw: random.Random, mode: str) -> tuple[Graph, list[str]]:
    """A random graph and a random script of 60 items."""
    n = draw.randrange(MOST_NAMES + 1)
    first = class_graph(draw, mode, n) if draw.random() < 0.9 else any_graph(draw, n)
    states, script = [first], []
    for _ in range(ITEMS):
        kind = draw.randrange(8)
        if kind == 0:
            script.append("undo")
            states = states[:-1] or states
            continue
        line, after = drawn_edit(draw, mode, states[-1])
        lines = [line]
        if kind == 1:
            lines, after = drawn_group(draw, mode, states[-1])
        script += lines
        if after is not None:
            states.append(after)
    return first, script


def judge_session(program: str, folder: pathlib.Path, mode: str, first: Graph, script: list[str]) -> bool:
    """Whether the report of a session is right by the definitions, and accepted."""
    text = "".join(line + "\n" for line in script)
    (folder / "graph").write_text(items.graph6(len(first), edges_of(first)) + "\n")
    (folder / "script").write_text(text)
    report = items.run(program, folder, [mode, "g6", "graph", "script"])
    (folder / "report").write_text(report)
    wrong = verify.first_wrong_line(mode, [first], read_script(text.encode()), report.encode())
    taken = items.run(program, folder, ["check", mode, "g6", "graph", "script", "report"]) == "accepted\n"
    if wrong is not None or not taken:
        print(f"wrong: {mode}, {items.graph6(len(first), edges_of(first))}, {script}: line {wrong}, accepted: {taken}")
    return wrong is None and taken


def main() -> int:
    parser = argparse.ArgumentParser(description=__doc__, formatter_class=argparse.RawDescriptionHelpFormatter)
    parser.add_argument("--bin", required=True)
    parser.add_argument("--names", type=int, default=5)
    parser.add_argument("--random", type=int, default=500)
    parser.add_argument("--seed", type=int, default=1)
    words = parser.parse_args()
    program, draw = str(pathlib.Path(words.bin).resolve()), random.Random(words.seed)
    with tempfile.TemporaryDirectory() as name:
        folder = pathlib.Path(name)
        count, wrong = toggle_each(program, folder, words.names)
        for mode in CLASSES:
            for _ in range(words.random):
                count += 1
                wrong += not judge_session(program, folder, mode, *drawn_session(draw, mode))
    print(f"{count} sessions, {wrong} wrong")
    return int(wrong > 0)


if __name__ == "__main__":
    sys.exit(main())
