#!/usr/bin/env python3
"""Shows, by counting requests for memory, that sessions on cographs apply edits in place.

    python3 bench/big.py                builds the program and tries it
    python3 bench/big.py --bin PATH     tries a program that is built already

`big 1000` has to end as ever with its 50,000th request for memory refused. A session in place makes a few requests for
each vertex that comes, for its list of neighbours. One that built the tree anew after each edit would make one for each
inner node of each tree at least, 499,500 while the vertices come, and would end with the status Memory.

`quiet` is run over a script whose edits of edges are all applied, and over one with as many edits that are all refused
before anything is looked at, since each names one vertex twice. Both leave the same graph, and reading either takes the
same memory. The line of an edit that is applied takes none, and that of a refused one a request: so where a run makes
fewer requests than it has edits, applying them makes none, and one over refused edits makes as many more as it has
lines. It is tried with scripts twice as long too.

The last line is `no difference`, or the number of the differences, and then the exit status is 1.
"""
import argparse
import os
import sys
import tempfile

from refusing import Program, compile_counter
from run import build, complete, g6

NAMES = 400


def turned_edges(times):
    """Every second edge of a path through a complete graph is left out, one after the other, and taken in again."""
    lines = ["%ce %d %d\n" % (sign, v, v + 1) for sign in "-+" for v in range(0, NAMES, 2)]
    return "".join(lines * times)


def refused_edges(times):
    """As many edits, of which each names one vertex twice."""
    lines = ["%ce %d %d\n" % (sign, v, v) for sign in "-+" for v in range(0, NAMES, 2)]
    return "".join(lines * times)


def write(program, name, text):
    with open(os.path.join(program.where, name), "w") as file:
        file.write(text)


def try_big(program):
    requests = program.counts(["big", "1000"]).requests
    print("big 1000: %d requests" % requests)
    right = program.run(["big", "1000"])
    refused = program.run(["big", "1000"], {"REQUEST": 50000})
    if right.status == 0 and refused == right:
        return []
    return ["big 1000: %s; with its 50,000th request refused: %s" % (right, refused)]


def requests_of(program, script, answer):
    """The requests of a run of `quiet` over a script, each of whose edits is answered with a line that begins so."""
    write(program, "script", script)
    ended = program.run(["quiet", "g6", "complete.g6", "script"])
    lines = ended.out.splitlines()
    edits = script.count("\n")
    if ended.status != 0 or len(lines) != edits + 3 or not all(line.startswith(answer) for line in lines[1:-2]):
        sys.exit("the edits aren't answered as they were meant to be: %s" % ended)
    return edits, program.counts(["quiet", "g6", "complete.g6", "script"]).requests


def try_quiet(program):
    wrong = []
    write(program, "complete.g6", g6(complete(NAMES)).decode())
    for times in (1, 2):
        edits, applied = requests_of(program, turned_edges(times), b"ok")
        _, refused = requests_of(program, refused_edges(times), b"no same")
        print("quiet: %d requests where %d edits are applied, %d where they are refused" % (applied, edits, refused))
        if applied >= edits or refused > applied + edits:
            wrong.append("quiet: %d edits take %d requests where they are applied, %d where they are refused"
                         % (edits, applied, refused))
    return wrong


def main():
    options = argparse.ArgumentParser(description=__doc__, formatter_class=argparse.RawDescriptionHelpFormatter)
    options.add_argument("--bin")
    chosen = options.parse_args()
    binary = os.path.abspath(chosen.bin or build())
    with tempfile.TemporaryDirectory() as where:
        program = Program(binary, compile_counter(where), where)
        differences = try_big(program) + try_quiet(program)
    for line in differences:
        print(line)
    print("%d differences" % len(differences) if differences else "no difference")
    return 1 if differences else 0


if __name__ == "__main__":
    sys.exit(main())
