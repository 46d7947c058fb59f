#!/usr/bin/env python3
"""Compares trees of directed graphs, and checks of them, with a search over all sets of names.

    python3 bench/directed.py                   over the program that the gate built
    python3 bench/directed.py --bin PATH        over another one
    python3 bench/directed.py --lines WORD ..   the first part alone, over a program of other words

First, the trees of random directed graphs. Then each well-formed tree on up to four names: its directed graph has that
tree exactly where the search finds it, and a check accepts it exactly there. Last, reports of random directed graphs,
each of whose lines is altered in eight ways: a check has to name the first line that is another one than that of the
search, since a file has one valid report. The trees that are expected are found from the definitions: all sets of names
are gone through for the modules, those that overlap none are the strong ones, and a set splits where some part of it
does. Ends with 1 where an answer is another one.

WORD .. are those of a program that prints, of each directed graph of the file that its last word names, a line with the
text of its tree, as `crates/md_example` does. In that crate's folder

    python3 ../../bench/directed.py --lines rt try --

tries it before any proof.
"""
import argparse
import itertools
import os
import random
import re
import subprocess
import sys
import tempfile

TOP = os.path.dirname(os.path.dirname(os.path.abspath(__file__)))
DIGRAPHS = 2000
MOST_NAMES = 7
REPORTS = 300


def part_sets(names):
    """All nonempty sets of the names."""
    for size in range(1, len(names) + 1):
        yield from (frozenset(part) for part in itertools.combinations(names, size))


def is_module(arcs, names, part):
    """Whether each name outside has arcs to all names of the part or none, and from all or none."""
    for x in names - part:
        if len({((x, a) in arcs, (a, x) in arcs) for a in part}) > 1:
            return False
    return True


def strong_sets(arcs, names):
    """The modules that no module overlaps."""
    modules = [part for part in part_sets(names) if is_module(arcs, names, part)]
    return [m for m in modules if not any(m & o and m - o and o - m for o in modules)]


def splits(arcs, names, there, back):
    """Whether some part has, to all names of the rest, these arcs there and back."""
    for part in part_sets(names):
        rest = names - part
        if rest and all(((a, b) in arcs) == there and ((b, a) in arcs) == back for a in part for b in rest):
            return True
    return False


def kind_of(arcs, names):
    if splits(arcs, names, False, False):
        return "P"
    if splits(arcs, names, True, True):
        return "S"
    if splits(arcs, names, True, False):
        return "O"
    return "R"


def text_of(arcs, names, strong):
    """The text of the tree on a strong set."""
    if len(names) == 1:
        return str(min(names))
    below = [s for s in strong if s < names]
    children = [s for s in below if not any(s < other for other in below)]
    children.sort(key=min)
    kind = kind_of(arcs, names)
    if kind == "O":
        children = sorted(children, key=lambda s: -sum((min(s), min(o)) in arcs for o in children))
    text = kind + "(" + ",".join(text_of(arcs, child, strong) for child in children)
    if kind == "R":
        places = range(len(children))
        pairs = [(i, j) for i in places for j in places if (min(children[i]), min(children[j])) in arcs]
        text += ";" + ",".join(f"{i}>{j}" for i, j in pairs)
    return text + ")"


def tree_text(count, arcs):
    if count == 0:
        return "empty"
    names = frozenset(range(count))
    return text_of(arcs, names, strong_sets(arcs, names))


def random_arcs(rng, count):
    share = rng.random()
    return {(u, v) for u in range(count) for v in range(count) if u != v and rng.random() < share}


def one_arcs(rng, count):
    """Arcs of one kind: none, both, an order, or any."""
    kind = rng.choice("psor")
    pairs = [(u, v) for u in range(count) for v in range(count) if u != v]
    if kind == "p":
        return set()
    if kind == "s":
        return set(pairs)
    if kind == "o":
        return {(u, v) for u, v in pairs if u < v}
    return random_arcs(rng, count)


def substituted(rng, count):
    """A directed graph in which others stand in the places of names, numbered at random."""
    if count <= 1:
        return set()
    parts = rng.randint(2, count)
    cuts = sorted(rng.sample(range(1, count), parts - 1))
    blocks = [list(range(a, b)) for a, b in zip([0] + cuts, cuts + [count])]
    arcs = set()
    for i, j in one_arcs(rng, parts):
        arcs |= {(a, b) for a in blocks[i] for b in blocks[j]}
    for block in blocks:
        arcs |= {(block[a], block[b]) for a, b in substituted(rng, len(block))} if len(block) < count else set()
    numbers = list(range(count))
    rng.shuffle(numbers)
    return {(numbers[a], numbers[b]) for a, b in arcs}


def line_of(count, arcs):
    """A digraph6 line of at most 62 names."""
    bits = [int((u, v) in arcs) for u in range(count) for v in range(count)]
    bits += [0] * (-len(bits) % 6)
    groups = (bits[i : i + 6] for i in range(0, len(bits), 6))
    body = (chr(63 + int("".join(map(str, group)), 2)) for group in groups)
    return "&" + chr(63 + count) + "".join(body)


def random_digraphs(rng, count):
    """Directed graphs, each a number of names and arcs: half of them any, half with others in the places of names."""
    digraphs = []
    for i in range(count):
        names = rng.randint(0, MOST_NAMES)
        digraphs.append((names, (random_arcs if i % 2 else substituted)(rng, names)))
    return digraphs


def file_of(digraphs):
    return "".join(line_of(count, arcs) + "\n" for count, arcs in digraphs)


def report_of(texts):
    return ["mdt dtree\n"] + ["t %s\n" % text for text in texts] + ["end\n"]


class Tries:
    def __init__(self, words, folder):
        self.words, self.folder = words, folder
        self.tried, self.wrong = 0, 0

    def file(self, name, text):
        path = os.path.join(self.folder, name)
        with open(path, "w", encoding="ascii") as file:
            file.write(text)
        return path

    def run(self, words):
        return subprocess.run(self.words + words, stdin=subprocess.DEVNULL, capture_output=True, text=True).stdout

    def expect(self, what, expected, got):
        self.tried += 1
        if expected != got:
            self.wrong += 1
            print(what, "expected", repr(expected), "got", repr(got))

    def trees(self, digraphs, texts, words):
        """Whether the program, run by these words, prints these trees: a report, or their texts alone without words."""
        printed = self.run(words + [self.file("digraphs.d6", file_of(digraphs))])
        lines = printed.splitlines(keepends=True)[: len(texts) + 2 * bool(words)]
        expected = report_of(texts) if words else [text + "\n" for text in texts]
        if words:
            self.expect("the number of lines:", len(expected), printed.count("\n"))
        for at, (line, right) in enumerate(itertools.zip_longest(lines, expected), 1):
            self.expect("line %d:" % at, right, line)

    def check(self, what, digraphs, right, report):
        """`right` are the lines of the valid report, `report` the text that is checked."""
        first = first_wrong_line(right, report)
        graph, path = self.file("checked.d6", file_of(digraphs)), self.file("report", report)
        answer = "accepted\n" if first is None else "rejected line %d\n" % first
        self.expect("check of %r over %r, %s:" % (report, file_of(digraphs), what),
                    answer, self.run(["check", "dtree", graph, path]))


def first_wrong_line(right, report):
    """The number of the first line at which a text is another report than these lines, none where it is the same."""
    lines = report.split("\n")
    lines = [line + "\n" for line in lines[:-1]] + ([lines[-1]] if lines[-1] else [])
    for number, (line, other) in enumerate(itertools.zip_longest(lines, right), 1):
        if line != other:
            return number
    return None


# Well-formed trees

def set_partitions(names):
    """All ways to cut a list of names into parts, each part with its first name first and the parts by their first."""
    if not names:
        yield []
        return
    for size in range(len(names)):
        for others in itertools.combinations(names[1:], size):
            rest = [v for v in names[1:] if v not in others]
            for parts in set_partitions(rest):
                yield [[names[0], *others], *parts]


def trees_on(names):
    """All well-formed trees on some names: pairs of the text and the arcs."""
    if len(names) == 1:
        yield str(names[0]), frozenset()
        return
    for parts in set_partitions(names):
        if len(parts) < 2:
            continue
        for below in itertools.product(*(list(trees_on(part)) for part in parts)):
            for kind, order, pairs in node_forms(len(parts)):
                if any(below[i][0].startswith(kind) for i in order if kind != "R"):
                    continue
                text = kind + "(" + ",".join(below[i][0] for i in order)
                text += ";" + ",".join("%d>%d" % pair for pair in pairs) if kind == "R" else ""
                across = {(u, v) for i, j in pairs for u in parts[order[i]] for v in parts[order[j]]}
                yield text + ")", frozenset(across.union(*(arcs for _, arcs in below)))


def node_forms(count):
    """Each kind that a node of so many children may have, each order that they may stand in, and its pairs."""
    places = range(count)
    pairs = list(itertools.permutations(places, 2))
    yield "P", places, []
    yield "S", places, pairs
    for order in itertools.permutations(places):
        yield "O", order, [(i, j) for i, j in pairs if i < j]
    if count >= 3:
        for size in range(1, len(pairs) + 1):
            for some in itertools.combinations(pairs, size):
                yield "R", places, list(some)


def try_small_trees(tries):
    """Each well-formed tree on up to four names: whether its directed graph has it, and a check that says so."""
    for count in range(5):
        trees = list(trees_on(list(range(count)))) if count else [("empty", frozenset())]
        if len({text for text, _ in trees}) < len(trees):
            sys.exit("two trees on %d names have one text" % count)
        digraphs = [(count, arcs) for _, arcs in trees]
        known = {arcs: tree_text(count, arcs) for arcs in {arcs for _, arcs in trees}}
        if not set(known.values()) <= {text for text, _ in trees}:
            sys.exit("a tree on %d names isn't well-formed" % count)
        tries.trees(digraphs, [known[arcs] for _, arcs in trees], ["dtree"])
        for text, arcs in trees:
            right = report_of([known[arcs]])
            tries.check("a tree on %d names" % count, [(count, arcs)], right, "".join(report_of([text])))
        print("%d well-formed trees on %d names, %d directed graphs" % (len(trees), count, len(known)), flush=True)


# Altered reports

def other_letter(rng, line):
    """The line with another letter of a node, where it has one."""
    places = [found.start() for found in re.finditer(r"[PSOR](?=\()", line)]
    if not places:
        return line.upper()
    at = rng.choice(places)
    return line[:at] + rng.choice([letter for letter in "PSOR" if letter != line[at]]) + line[at + 1:]


def numbers_exchanged(rng, line):
    """The line with two different numbers in each other's place, where it has such: names, or positions."""
    found = list(re.finditer("[0-9]+", line))
    pairs = [(a, b) for a, b in itertools.combinations(found, 2) if a.group() != b.group()]
    if not pairs:
        return line[::-1]
    a, b = rng.choice(pairs)
    return line[: a.start()] + b.group() + line[a.end() : b.start()] + a.group() + line[b.end() :]


def byte_changed(rng, line):
    at = rng.randrange(len(line))
    return line[:at] + rng.choice("0123456789,();>- PSORt\n") + line[at + 1:]


def byte_left_out(rng, line):
    at = rng.randrange(len(line))
    return line[:at] + line[at + 1:]


def pair_turned(rng, line):
    """The line with a pair the other way round, where it has one, or with its line feed behind a carriage return."""
    found = list(re.finditer("([0-9]+)>([0-9]+)", line))
    if not found:
        return line[:-1] + "\r\n"
    pair = rng.choice(found)
    return line[: pair.start()] + pair.group(2) + ">" + pair.group(1) + line[pair.end() :]


def altered(rng, lines, at):
    """The eight alterings of a line of a report: what is done, and the text."""
    for what in (other_letter, numbers_exchanged, byte_changed, byte_left_out, pair_turned):
        yield what.__name__, lines[:at] + [what(rng, lines[at])] + lines[at + 1:]
    yield "dropped", lines[:at] + lines[at + 1:]
    yield "twice", lines[: at + 1] + lines[at:]
    yield "exchanged with the next", lines[:at] + lines[at + 1 : at + 2] + [lines[at]] + lines[at + 2:]


def try_altered_reports(rng, tries):
    for _ in range(REPORTS):
        digraphs = random_digraphs(rng, rng.randint(1, 4))
        lines = report_of(tree_text(*digraph) for digraph in digraphs)
        tries.check("whole", digraphs, lines, "".join(lines))
        for at in range(len(lines)):
            for what, others in altered(rng, lines, at):
                tries.check("line %d: %s" % (at + 1, what), digraphs, lines, "".join(others))


def main():
    parser = argparse.ArgumentParser(description=__doc__.split("\n")[0])
    parser.add_argument("--bin", default=os.path.join(TOP, "crates/md_cli/out/md_cli"))
    parser.add_argument("--lines", action="store_true", help="all words behind it are those of a program")
    given = sys.argv[1:]
    end = given.index("--lines") + 1 if "--lines" in given else len(given)
    args, words = parser.parse_args(given[:end]), given[end:]
    rng = random.Random(1)
    with tempfile.TemporaryDirectory() as folder:
        tries = Tries(words if args.lines else [args.bin], folder)
        digraphs = random_digraphs(rng, DIGRAPHS)
        tries.trees(digraphs, [tree_text(*digraph) for digraph in digraphs], [] if args.lines else ["dtree"])
        print("%d directed graphs" % len(digraphs), flush=True)
        if not args.lines:
            try_small_trees(tries)
            try_altered_reports(rng, tries)
    print("%d answers, %d wrong" % (tries.tried, tries.wrong))
    return 1 if tries.wrong else 0


if __name__ == "__main__":
    sys.exit(main())
