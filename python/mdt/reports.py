"""Reports of the program: their lines, read one by one; counts over them; and reports of pieces, joined.

The reader tells a text that has another form from a report (`ReportError`): a cut-off report, one with a second head,
a line that its mode doesn't have. It doesn't judge whether an answer is right; `mdt check` does, and `verify`.
"""
from __future__ import annotations

import collections
import os
import re
from typing import Any, Callable, Iterable, Iterator, Optional, Union

from .trees import Node, ReportError, parse_tree

# The bars of each mode of a session: what no graph of it has on four of its vertices, an induced path (p4), an induced
# cycle (c4), or two edges with none between them (2k2).
BARS = {
    "edit": (),
    "cograph": ("p4",),
    "quiet": ("p4",),
    "trivial": ("p4", "c4"),
    "threshold": ("p4", "c4", "2k2"),
}
# What a line of each mode may be, beside the head and the end.
MODES = {
    "tree": {"tree"},
    "dtree": {"tree"},
    "compare": {"orientation", "chain"},
    "permute": {"orders", "chain"},
    **{mode: {"tree", "applied", "refused", *bars} for mode, bars in BARS.items()},
}
OF_GRAPHS = ("tree", "dtree", "compare", "permute")
# How many vertices stand with each reason against an edit, and with each bar.
REASONS = {"same": 0, "vertex": 1, "taken": 1, "edge-there": 0, "edge-absent": 0, "p4": 4, "c4": 4, "2k2": 4}
# The most edits that a group can have.
_EDITS = 200_000
# What a line may tell beside its tree.
_TOLD = ("mode", "edit", "reason", "vertices", "arcs", "orders", "of")

_NAME = re.compile(r"0|[1-9][0-9]{0,4}")
_ARC = re.compile(r"(0|[1-9][0-9]{0,4})>(0|[1-9][0-9]{0,4})")

Source = Union[str, os.PathLike, Iterable[Union[str, bytes]]]


class Line:
    """A line of a report. `number` counts from 1; `what` is one of

    head         `mode` is the mode: tree, dtree, compare, permute, edit, cograph, quiet, trivial, threshold
    tree         `tree` is the tree of a graph, or in a report of dtree of a directed graph; None for that without
                 vertices
    applied      an edit or a group was applied, or the last of them taken back; `tree` is the tree after it, where the
                 mode tells one (`has_tree`)
    refused      an edit was refused; `reason` is one of same, vertex, taken, edge-there, edge-absent, or a bar of the
                 graph after it: p4, c4, 2k2; with it `vertices`: the vertex, or the four of the bar, in the order of
                 the path or the cycle, or those of one edge and then of the other; where it is an edit of a group,
                 `edit` is its number in that, from 1. Or nothing was there to undo: the reason is undo
    p4, c4, 2k2  the first graph of a session on cographs, on trivially perfect graphs or on threshold graphs has this
                 bar, `vertices`
    orientation  the least-edge orientation, `arcs`: pairs (tail, head)
    orders       two orders that realise the graph, `orders`
    chain        a forcing chain, `arcs`, of the `graph` or of the `complement`: `of` says which
    end          the last line
    """

    __slots__ = ("number", "what", "mode", "tree", "has_tree", "edit", "reason", "vertices", "arcs", "orders", "of")

    def __init__(self, number: int, what: str):
        self.number, self.what = number, what
        self.mode: Optional[str] = None
        self.tree: Optional[Node] = None
        self.has_tree = False
        self.edit: Optional[int] = None
        self.reason: Optional[str] = None
        self.vertices: Optional[list] = None
        self.arcs: Optional[list[tuple]] = None
        self.orders: Optional[list[list]] = None
        self.of: Optional[str] = None

    def __repr__(self) -> str:
        told = ["%s=%r" % (name, getattr(self, name)) for name in _TOLD if getattr(self, name) is not None]
        if self.has_tree:
            told.append("tree=%s" % self.tree)
        return "<line %d: %s>" % (self.number, " ".join([self.what] + told))

    def rename(self, name: Callable[[Any], Any]) -> None:
        """Puts `name(v)` in the place of each vertex v of the line."""
        if self.tree is not None:
            self.tree = self.tree.renamed(name)
        if self.vertices is not None:
            self.vertices = [name(v) for v in self.vertices]
        if self.arcs is not None:
            self.arcs = [(name(u), name(v)) for u, v in self.arcs]
        if self.orders is not None:
            self.orders = [[name(v) for v in order] for order in self.orders]

    def as_json(self) -> dict:
        """The line as a value for `json`. A tree is a list of nodes, the root first, whose children are places in that
        list, so that no value nests as deep as the tree."""
        value: dict[str, Any] = {"line": self.number, "what": self.what}
        for name in _TOLD:
            if getattr(self, name) is not None:
                value[name] = getattr(self, name)
        if self.has_tree:
            value["nodes"] = nodes_as_json(self.tree)
        return value


def nodes_as_json(tree: Optional[Node]) -> list[dict]:
    """The nodes of a tree, the root first; `children` are places in this list."""
    nodes = [] if tree is None else list(tree)
    place = {id(node): i for i, node in enumerate(nodes)}
    values = []
    for node in nodes:
        value: dict[str, Any] = {"kind": node.kind}
        if node.kind == "leaf":
            value["vertex"] = node.vertex
        else:
            value["children"] = [place[id(child)] for child in node.children]
        if node.kind == "prime":
            value["pairs"] = node.pairs
        values.append(value)
    return values


def _names(words: list[str]) -> list[int]:
    for word in words:
        if not _NAME.fullmatch(word):
            raise ReportError("%r is no vertex" % word)
    return [int(word) for word in words]


def _arcs(words: list[str]) -> list[tuple[int, int]]:
    arcs = []
    for word in words:
        found = _ARC.fullmatch(word)
        if found is None:
            raise ReportError("%r is no arc" % word)
        arcs.append((int(found.group(1)), int(found.group(2))))
    return arcs


def parse_line(text: str, number: int, mode: Optional[str]) -> Line:
    """The line of a text, without its line feed, in a report of a mode; mode None where it has to be the head.
    ReportError where the mode has no such line."""
    first, *rest = text.split(" ")
    if mode is None:
        if first != "mdt" or len(rest) != 1 or rest[0] not in MODES:
            raise ReportError("%r is no head of a report%s" % (text[:40], _carriage(text)))
        line = Line(number, "head")
        line.mode = rest[0]
        return line
    if text == "end":
        return Line(number, "end")
    line = _answer(first, rest, number, mode)
    if line is None or line.what not in MODES[mode] or not _may_be_against(line.reason, mode):
        raise ReportError("a report of %s has no line %r%s" % (mode, text[:40], _carriage(text)))
    return line


def _may_be_against(reason: Optional[str], mode: str) -> bool:
    """Whether a line of the mode may tell this of an edit: a bar is one of the mode's own."""
    return REASONS.get(reason) != 4 or reason in BARS[mode]


def _carriage(text: str) -> str:
    return ": it ends with a carriage return" if text.endswith("\r") else ""


def _answer(first: str, rest: list[str], number: int, mode: str) -> Optional[Line]:
    """The line of these words, or None where they begin no line."""
    if first in ("t", "ok") and len(rest) == (0 if first == "ok" and mode == "quiet" else 1):
        line = Line(number, "tree" if first == "t" else "applied")
        if rest:
            line.tree, line.has_tree = parse_tree(rest[0], directed=mode == "dtree"), True
    elif first in BARS["threshold"] and len(rest) == 4:
        line = Line(number, first)
        line.vertices = _names(rest)
    elif first == "yes" and mode == "compare":
        line = Line(number, "orientation")
        line.arcs = _arcs(rest)
    elif first == "yes" and rest.count("/") == 1:
        line = Line(number, "orders")
        middle = rest.index("/")
        line.orders = [_names(rest[:middle]), _names(rest[middle + 1:])]
    elif first == "no" and mode == "compare" and rest:
        line = Line(number, "chain")
        line.of, line.arcs = "graph", _arcs(rest)
    elif first == "no" and mode == "permute" and len(rest) > 1 and rest[0] in ("g", "c"):
        line = Line(number, "chain")
        line.of, line.arcs = "graph" if rest[0] == "g" else "complement", _arcs(rest[1:])
    elif first == "no" and rest:
        line = _refused(rest, number)
    else:
        return None
    return line


def _refused(rest: list[str], number: int) -> Optional[Line]:
    """The line of a refused item by the words behind `no`, or None where there is none."""
    line = Line(number, "refused")
    if rest == ["undo"]:
        line.reason, line.vertices = "undo", []
        return line
    if rest[0] == "edit" and len(rest) > 2:
        if not re.fullmatch("[1-9][0-9]{0,5}", rest[1]) or int(rest[1]) > _EDITS:
            raise ReportError("%r is no number of an edit" % rest[1])
        line.edit, rest = int(rest[1]), rest[2:]
    if REASONS.get(rest[0]) != len(rest) - 1:
        return None
    line.reason, line.vertices = rest[0], _names(rest[1:])
    return line


def read_report(source: Source) -> Iterator[Line]:
    """The lines of a report, one by one as they are read, from a file's path or from lines of text or bytes (an open
    file is such). ReportError with the line where the text isn't a whole report; its last line comes at the end, so
    what was given before may be the beginning of a report that was cut off. OSError where the file can't be read."""
    if isinstance(source, (str, os.PathLike)):
        with open(source, "rb") as file:
            yield from _read(file)
    else:
        yield from _read(source)


def _read(texts: Iterable[Union[str, bytes]]) -> Iterator[Line]:
    mode, number, ended = None, 0, False
    for number, text in enumerate(texts, 1):
        try:
            if isinstance(text, bytes):
                text = text.decode("ascii")
            if ended:
                raise ReportError("a line after the end")
            if not text.endswith("\n"):
                raise ReportError("the report was cut off inside this line")
            line = parse_line(text[:-1], number, mode)
        except UnicodeDecodeError:
            raise ReportError("a byte that no report has", number) from None
        except ReportError as error:
            raise ReportError(error.message, number) from None
        if line.what == "head":
            mode = line.mode
        ended = line.what == "end"
        yield line
    if not ended:
        raise ReportError("the report has no end" if number else "the report is empty", number + 1)


def count(lines: Iterable[Line]) -> collections.Counter:
    """Counts over the lines of a report: lines by what they are, reasons, chains, trees and their nodes by kind.
    For the number of lines alone `grep -c` is many times as fast."""
    counts: collections.Counter = collections.Counter()
    cographs = "trees of cographs"
    for line in lines:
        if line.mode == "dtree":
            cographs = "trees of directed cographs"
        counts["lines"] += 1
        counts["lines: " + line.what] += 1
        if line.what == "refused":
            counts["refused: %s" % line.reason] += 1
        if line.what == "chain":
            counts["chain of the %s" % line.of] += 1
        if not line.has_tree:
            continue
        counts["trees"] += 1
        counts["trees of prime graphs"] += line.tree is not None and line.tree.is_prime()
        counts[cographs] += line.tree is None or line.tree.is_cograph()
        for node in line.tree or ():
            counts["nodes: " + node.kind] += 1
    return counts


class JoinError(ValueError):
    """Pieces that can't be joined to a whole report."""


def join(pieces: Iterable[tuple[str, Iterable[bytes]]], write: Callable[[bytes], Any], lines: Optional[int] = None):
    """Writes the report of all graphs of the pieces: pairs of a name and the lines of its reports, each whole.

    A piece holds one report of `tree`, `dtree`, `compare` or `permute`, or several one after the other; one that holds
    none is refused, as is a number of graphs other than `lines`, where that is given. JoinError says what is wrong;
    what was written then is the beginning of a report and lacks its `end`.
    """
    heads = {b"mdt %s\n" % mode.encode() for mode in OF_GRAPHS}
    head, found = None, 0
    for name, texts in pieces:
        inside, number = False, 0
        for number, text in enumerate(texts, 1):
            if inside and text[0] not in b"em":  # the line of a graph begins with t, y or n
                write(text)
                found += 1
            elif inside and text == b"end\n":
                inside = False
            elif inside:
                raise JoinError("%s: line %d: the report before it has no end" % (name, number))
            elif text not in heads:
                raise JoinError("%s: line %d isn't the head of a report of graphs" % (name, number))
            elif head not in (None, text):
                raise JoinError("%s: line %d begins a report of another mode" % (name, number))
            else:
                if head is None:
                    write(text)
                head, inside = text, True
        if not number:
            raise JoinError("%s: it is empty" % name)
        if inside:
            raise JoinError("%s: the last report has no end" % name)
    if head is None:
        raise JoinError("there is no piece")
    if lines is not None and found != lines:
        raise JoinError("the pieces have lines of %d graphs, not of %d" % (found, lines))
    write(b"end\n")
