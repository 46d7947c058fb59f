"""The command `draw`: which lines of a report are drawn, and how."""
from __future__ import annotations

import argparse
import itertools
import sys
from typing import Callable, Iterator, Optional

from . import inputs
from .diagrams import arcs_svg, graph_svg, orders_svg
from .pages import all_page, session_page
from .pictures import tree_dot, tree_svg
from .reports import BARS, Line, read_report
from .svg import Name
from .trees import Node, parse_tree

HELP = """Draws the first tree of a report as SVG. A leaf stands by its vertex, in the card of its parallel (P) or
series (S) parent, or in the quotient that is drawn in its prime (R) parent; an order node (O), in a report of dtree,
shows its children in their order. --all and --session write pages of HTML."""

# The most frames of a session: each is a whole picture.
MOST_FRAMES = 2000
# The trees of the graphs that are bars; `bar_tree` puts the vertices in.
BAR_TREES = {"p4": "R(%d,%d,%d,%d;0-1,1-2,2-3)", "c4": "S(P(%d,%d),P(%d,%d))", "2k2": "P(S(%d,%d),S(%d,%d))"}


class DrawError(ValueError):
    """Words of the command that fit no line of the report."""


def add_draw(commands) -> None:
    parser = commands.add_parser("draw", help="draw trees, graphs, orientations, models and sessions", description=HELP)
    parser.add_argument("report", help="the report's file, or - for standard input")
    what = parser.add_mutually_exclusive_group()
    what.add_argument("--graph", action="store_true", help="the graph of the tree, with its strong modules as hulls")
    what.add_argument("--orientation", action="store_true",
                      help="the arrows of a line of compare; those of a forcing chain are numbered")
    what.add_argument("--permutation", action="store_true",
                      help="the diagram of the two orders in a line of permute, or its forcing chain")
    what.add_argument("--session", action="store_true", help="a page with one frame for each line of a session")
    what.add_argument("--dot", action="store_true", help="the tree in the language of Graphviz")
    which = parser.add_mutually_exclusive_group()
    which.add_argument("--line", type=int, metavar="N", help="the line of the report that is drawn, from 1")
    which.add_argument("--all", action="store_true", help="a page with all such pictures of the report")
    parser.add_argument("--script", metavar="FILE", help="the session's script: its items stand at the frames")
    parser.add_argument("--names", metavar="FILE", help="names of vertices, one a line: the number, a space, the name")
    parser.add_argument("--mark", type=numbers, default=set(), metavar="V,..", help="vertices to mark")
    parser.add_argument("--mark-line", type=place, metavar="REPORT:N",
                        help="mark the vertices that this line names: those of a P4, C4, 2K2 or forcing chain")
    parser.add_argument("--no-legend", dest="legend", action="store_false", help="leave out the legend")
    parser.set_defaults(run=run_draw)


def numbers(text: str) -> set[int]:
    """The vertices of --mark."""
    words = [word for word in text.split(",") if word]
    if not all(word.isascii() and word.isdecimal() for word in words):
        raise argparse.ArgumentTypeError("%r: vertices are numbers with commas between" % text)
    return {int(word) for word in words}


def place(text: str) -> tuple[str, int]:
    """The report and the line of --mark-line."""
    path, mark, number = text.rpartition(":")
    if not mark or not (number.isascii() and number.isdecimal()):
        raise argparse.ArgumentTypeError("%r: a report, a colon, and the number of a line" % text)
    return path, int(number)


def names_from(path: Optional[str]) -> Name:
    """The names of a file, a number and a name a line; a vertex without one keeps its number."""
    if path is None:
        return str
    names: dict[int, str] = {}
    with open(path, encoding="utf-8") as file:
        for number, text in enumerate(file, 1):
            vertex, _, name = text.strip().partition(" ")
            if not text.strip():
                continue
            if not (vertex.isascii() and vertex.isdecimal()) or not name:
                raise DrawError("%s: line %d isn't a number, a space and a name" % (path, number))
            names[int(vertex)] = name.strip()
    return lambda v: names.get(v, str(v))


def vertices_of(path: str, number: int) -> set[int]:
    """The vertices that a line of a report names."""
    for line in read_report(path):
        if line.number == number:
            return named_by(line)
    raise DrawError("%s has no line %d" % (path, number))


def named_by(line: Line) -> set[int]:
    return set(line.vertices or ()) | {end for arc in line.arcs or () for end in arc}


def run_draw(options: argparse.Namespace) -> int:
    name = names_from(options.names)
    marked = options.mark | (vertices_of(*options.mark_line) if options.mark_line else set())
    lines = read_report(sys.stdin.buffer if options.report == "-" else options.report)
    if options.session:
        write_session(options, lines, name, marked)
        return 0
    fits, draw = way_to_draw(options, name, marked)
    if options.all:
        figures = (("line %d" % line.number, draw(line)) for line in lines if fits(line))
        for part in all_page(options.report, figures):
            sys.stdout.write(part)
        return 0
    line = chosen(lines, fits, options.line)
    absent = sorted(options.mark - (set(line.tree.leaves()) if line.tree else set())) if line.has_tree else []
    if absent:
        raise DrawError("the tree of line %d has no vertex %d to mark" % (line.number, absent[0]))
    sys.stdout.write(draw(line))
    return 0


def chosen(lines: Iterator[Line], fits: Callable[[Line], bool], number: Optional[int]) -> Line:
    """The first line that fits, or the one of this number."""
    for line in lines:
        if number is None and fits(line):
            return line
        if line.number == number:
            if not fits(line):
                raise DrawError("line %d has nothing of this kind to draw" % number)
            return line
    raise DrawError("the report has no line %d" % number if number else "the report has nothing of this kind to draw")


def way_to_draw(options: argparse.Namespace, name: Name, marked: set[int]) \
        -> tuple[Callable[[Line], bool], Callable[[Line], str]]:
    """Which lines are drawn, and how."""

    def arcs(line: Line) -> str:
        return arcs_svg(line.arcs, name, marked, numbered=line.what == "chain")

    if options.orientation:
        return (lambda line: line.what == "orientation" or line.of == "graph"), arcs
    if options.permutation:
        return (lambda line: line.what in ("orders", "chain"),
                lambda line: arcs(line) if line.what == "chain" else orders_svg(line.orders, name, marked))
    if options.dot:
        return (lambda line: line.has_tree), lambda line: tree_dot(line.tree, marked, name)
    if options.graph:
        return (lambda line: line.has_tree), lambda line: graph_svg(line.tree, name, marked)
    return (lambda line: line.has_tree), lambda line: tree_svg(line.tree, name, marked, options.legend)


def write_session(options: argparse.Namespace, lines: Iterator[Line], name: Name, marked: set[int]) -> None:
    """Writes the page of a session: the first tree, then one frame for each item, of the tree as it stands then; the
    P4, C4 or 2K2 of a refused edit is marked in it."""
    head = next(lines)
    if head.mode not in BARS or head.mode == "quiet":
        raise DrawError("a report of %s has no tree for each edit" % head.mode)
    items: list[inputs.Item] = []
    if options.script:
        with open(options.script, "rb") as file:
            items = inputs.read_script(file.read())
    frames = list(itertools.islice((line for line in lines if line.what != "end"), MOST_FRAMES + 1))
    if len(frames) > MOST_FRAMES:
        raise DrawError("a session of more than %d items isn't drawn: cut its script" % (MOST_FRAMES - 1))
    for part in session_page(options.report, session_frames(frames, items, name, marked, options.legend)):
        sys.stdout.write(part)


def item_text(item: inputs.Item, name: Name) -> str:
    """An item in the words of its script, a group in one line."""
    words = ["begin"] if item.what == "group" else ["undo"] if item.what == "undo" else []
    words += [" ".join([word, *map(name, of)]) for word, of in item.edits]
    return "; ".join(words + ["commit"] if item.what == "group" else words)


def session_frames(frames: list[Line], items: list[inputs.Item], name: Name, marked: set[int], legend: bool) \
        -> Iterator[tuple[str, str]]:
    """The frames of these lines: captions and pictures."""
    tree, svg = None, ""
    for count, line in enumerate(frames):
        item = item_text(items[count - 1], name) + ": " if 0 < count <= len(items) else ""
        tree = line.tree if line.has_tree else tree
        if line.what in BAR_TREES:
            svg = graph_svg(bar_tree(line), name, marked)
        elif line.has_tree or line.vertices or not svg:
            svg = tree_svg(tree, name, marked | named_by(line), legend)
        yield "line %d: %s%s" % (line.number, item, answer(line, name)), svg


def bar_tree(line: Line) -> Node:
    """The tree of the four vertices of a bar: those of a cycle that aren't adjacent stand together."""
    a, b, c, d = line.vertices
    return parse_tree(BAR_TREES[line.what] % ((a, c, b, d) if line.what == "c4" else (a, b, c, d)))


def answer(line: Line, name: Name) -> str:
    """What a line of a session tells, but for its tree."""
    if line.what in ("tree", "applied"):
        return "the first graph" if line.what == "tree" else "ok"
    if line.what in BAR_TREES:
        words = [line.what]
    else:
        words = ["no", line.reason] if line.edit is None else ["no", "edit", str(line.edit), line.reason]
    return " ".join(words + list(map(name, line.vertices)))
