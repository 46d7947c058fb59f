#!/usr/bin/env python3
"""Reads what nauty writes as sparse6.

    python3 bench/sparse6.py --bin PROGRAM [--graphs N]

Graphs are made: all on up to 7 vertices by `nauty-geng`, and others here: N random ones (2,000, if none is told)
on up to 129 vertices, and as many sparse ones on 2, 4, 8, 16, 32 and 64 vertices with the last vertices isolated or
not, where the padding of sparse6 is special. `nauty-copyg -s` writes them as sparse6; the program reads that file
with its header and one of both formats, a line of each in turn, and writes the graphs as graph6 lines and as edge
lists. These must be what it writes of the graph6 lines that nauty was given, and the edges those of the graphs that
were made. Ends with 1 where they differ, with 2 where nauty isn't there.
"""

import argparse
import pathlib
import random
import shutil
import subprocess
import sys
import tempfile
from collections.abc import Iterator

SEED = 6
POWERS = (2, 4, 8, 16, 32, 64)

Edges = set[tuple[int, int]]


def graph6(n: int, edges: Edges) -> str:
    """The line of a graph on n names, whose pairs (i, j), i < j, stand by j and then by i."""
    bits = [int((i, j) in edges) for j in range(n) for i in range(j)]
    bits += [0] * (-len(bits) % 6)
    groups = [sum(b << (5 - k) for k, b in enumerate(bits[i : i + 6])) for i in range(0, len(bits), 6)]
    size = [n] if n <= 62 else [63, n >> 12, n >> 6 & 63, n & 63]
    return "".join(chr(63 + group) for group in size + groups)


def edge_list(n: int, edges: Edges) -> str:
    """The DIMACS text of a graph."""
    lines = [f"p edge {n} {len(edges)}"] + [f"e {u + 1} {v + 1}" for u, v in sorted(edges)]
    return "".join(line + "\n" for line in lines)


def made(count: int) -> Iterator[tuple[int, Edges]]:
    """Random graphs, and sparse ones of powers of two."""
    chance = random.Random(SEED)
    for _ in range(count):
        n = chance.choice([*range(66), 127, 128, 129])
        share = chance.choice([0.02, 0.1, 0.5, 0.9])
        yield n, {(i, j) for j in range(n) for i in range(j) if chance.random() < share}
    for _ in range(count):
        n = chance.choice(POWERS)
        used = max(1, n - chance.randrange(3))
        ends = [sorted(chance.sample(range(used), 2)) for _ in range(chance.randrange(4)) if used > 1]
        yield n, {(u, v) for u, v in ends}


def all_small() -> str:
    """All graphs on up to 7 vertices, as graph6 lines."""
    words = [["nauty-geng", "-q", str(n)] for n in range(1, 8)]
    return "".join(subprocess.run(w, capture_output=True, text=True, check=True).stdout for w in words)


def written(program: str, form: str, text: str) -> str:
    """What the program writes of a file."""
    with tempfile.TemporaryDirectory() as folder:
        file = pathlib.Path(folder) / "graphs"
        file.write_text(text)
        run = subprocess.run([program, form, "g6", str(file)], capture_output=True, text=True, check=False)
    if run.returncode != 0:
        print(f"{form}: status {run.returncode}: {run.stderr.strip()}")
    return run.stdout


def main() -> int:
    parser = argparse.ArgumentParser()
    parser.add_argument("--bin", required=True)
    parser.add_argument("--graphs", type=int, default=2000)
    told = parser.parse_args()
    if not (shutil.which("nauty-geng") and shutil.which("nauty-copyg")):
        print("nauty isn't installed", file=sys.stderr)
        return 2
    graphs = list(made(told.graphs))
    dense = all_small() + "".join(graph6(n, edges) + "\n" for n, edges in graphs)
    copied = subprocess.run(["nauty-copyg", "-sq"], input=dense, capture_output=True, text=True, check=True)
    sparse = copied.stdout.splitlines()
    pairs = zip(dense.splitlines(), sparse, strict=True)
    mixed = "".join(pair[k % 2] + "\n" for k, pair in enumerate(pairs))
    whole = ">>sparse6<<" + "".join(line + "\n" for line in sparse)
    edges = written(told.bin, "edges", dense)
    lists = "".join(edge_list(n, there) for n, there in graphs)
    right = edges.endswith(lists) and written(told.bin, "graph6", dense) == dense
    for name, text in (("sparse6", whole), ("both", ">>graph6<<" + mixed)):
        if written(told.bin, "graph6", text) != dense or written(told.bin, "edges", text) != edges:
            print(f"{name}: other graphs")
            right = False
    print(f"{len(sparse)} lines of nauty", "read" if right else "not read as they were written")
    return 0 if right else 1


if __name__ == "__main__":
    sys.exit(main())
