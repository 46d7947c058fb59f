#!/usr/bin/env python3
"""Compares the shortest forcing chains of all graphs on up to six names with a plain search.

    python3 bench/shortest.py --bin PROGRAM [--names N]

All graphs on N names (6, if none is told) are written into one graph6 file, and the program reports
them with `shortest`. For each graph a breadth-first search over its arcs, written by itself here,
finds the least edge whose arc reaches its reverse and the length of a shortest list between the
two; a line is right where there is none and it begins with `yes`, or where it is a forcing chain
from that edge of as many arcs. Then `check shortest` reads the report. Ends with 1 if a line is
wrong, or the report isn't accepted.
"""

import argparse
import itertools
import pathlib
import subprocess
import sys
import tempfile
from collections import deque


def graph6(n: int, bits: list[int]) -> str:
    """The line of a graph on n names, whose pairs (i, j), i < j, stand by j and then by i."""
    bits = bits + [0] * (-len(bits) % 6)
    groups = [sum(b << (5 - k) for k, b in enumerate(bits[i : i + 6])) for i in range(0, len(bits), 6)]
    return chr(63 + n) + "".join(chr(63 + g) for g in groups)


def forced(near: list[set[int]], arc: tuple[int, int]) -> list[tuple[int, int]]:
    """The arcs that an arc forces directly."""
    tail, head = arc
    heads = [(tail, w) for w in near[tail] if w != head and w not in near[head]]
    tails = [(w, head) for w in near[head] if w != tail and w not in near[tail]]
    return heads + tails


def steps(near: list[set[int]], arc: tuple[int, int]) -> int | None:
    """How many steps lead from an arc to its reverse at least; None where none do."""
    far, waiting = {arc: 0}, deque([arc])
    while waiting:
        here = waiting.popleft()
        if here == (arc[1], arc[0]):
            return far[here]
        for there in forced(near, here):
            if there not in far:
                far[there] = far[here] + 1
                waiting.append(there)
    return None


def least(near: list[set[int]]) -> tuple[tuple[int, int], int] | None:
    """The least edge whose arc reaches its reverse, and the steps between the two."""
    for u in range(len(near)):
        for v in sorted(w for w in near[u] if w > u):
            if (count := steps(near, (u, v))) is not None:
                return (u, v), count
    return None


def is_right(near: list[set[int]], line: str) -> bool:
    word, *arcs = line.split()
    found = least(near)
    if found is None:
        return word == "yes"
    chain = [tuple(map(int, arc.split(">"))) for arc in arcs]
    led = all(b in forced(near, a) for a, b in itertools.pairwise(chain))
    first, count = found
    return word == "no" and led and chain[0] == first and chain[-1] == first[::-1] and len(chain) == count + 1


def main() -> int:
    parser = argparse.ArgumentParser()
    parser.add_argument("--bin", required=True)
    parser.add_argument("--names", type=int, default=6)
    told = parser.parse_args()
    n = told.names
    pairs = [(i, j) for j in range(n) for i in range(j)]
    graphs, lines = [], []
    for bits in itertools.product([0, 1], repeat=len(pairs)):
        near = [set() for _ in range(n)]
        for (i, j), bit in zip(pairs, bits):
            if bit:
                near[i].add(j)
                near[j].add(i)
        graphs.append(near)
        lines.append(graph6(n, list(bits)))
    with tempfile.TemporaryDirectory() as folder:
        file = pathlib.Path(folder) / "graphs.g6"
        report = pathlib.Path(folder) / "report.txt"
        file.write_text("\n".join(lines) + "\n")
        run = subprocess.run([told.bin, "shortest", "g6", file], capture_output=True, text=True, check=True)
        report.write_text(run.stdout)
        written = run.stdout.split("\n")[1:-2]
        wrong = [k for k, near in enumerate(graphs) if not is_right(near, written[k])]
        judged = subprocess.run([told.bin, "check", "shortest", "g6", file, report], capture_output=True, text=True, check=False)
        chains = sum(line.startswith("no") for line in written)
        print(f"{len(graphs)} graphs, {chains} chains, {len(wrong)} wrong; check: {judged.stdout.strip()}")
        for k in wrong[:5]:
            print("   ", lines[k], written[k])
    return 1 if wrong or judged.stdout != "accepted\n" else 0


if __name__ == "__main__":
    sys.exit(main())
