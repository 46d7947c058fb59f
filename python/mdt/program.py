"""Runs of the program over graphs of Python, with the graphs' own names in the answers.

The program is the file that the variable MDT names, or else `mdt` on PATH. Each call here is one run of it, which
takes some milliseconds and 2 MB at least; for many graphs write them to a file and read the report.
"""
from __future__ import annotations

import os
import re
import shutil
import subprocess
import tempfile
from contextlib import contextmanager
from dataclasses import dataclass
from typing import Any, Hashable, Iterable, Iterator, Optional, Union

from .graphs import NumberedGraph, numbered, numbered_digraph
from .reports import BARS, Line, read_report
from .trees import DirectedNode, Node

STATUSES = {2: "Usage", 4: "ReadFault", 5: "WriteFault", 6: "Memory", 7: "TooLong"}
_FAULT = re.compile(r"mdt: (graph|script) (\w+) (line|count) ([0-9]+)")


class MdtError(Exception):
    """The program isn't there, or ended without an answer.

    `status` is its exit code, None where it didn't run. `kind` is the kind of the fault: that of an input (with `file`,
    `graph` or `script`, and `line`, its line from 1), or Usage, ReadFault, WriteFault, Memory, TooLong; None where the
    program was ended from outside.
    """

    def __init__(self, message: str, status: Optional[int] = None, kind: Optional[str] = None,
                 file: Optional[str] = None, line: Optional[int] = None):
        super().__init__(message)
        self.status, self.kind, self.file, self.line = status, kind, file, line


class Rejected(MdtError):
    """A report isn't valid; `line` is the number of the first line, from 1, at which it isn't."""


@dataclass(frozen=True)
class Orientation:
    """The transitive orientation of a graph in which the least edge of each forcing class goes from its smaller end to
    its larger one: `arcs` are pairs (tail, head), ascending."""

    arcs: list[tuple]


@dataclass(frozen=True)
class PermutationModel:
    """Two orders of all vertices; two vertices are adjacent exactly if the orders disagree on them."""

    first: list
    second: list


@dataclass(frozen=True)
class ForcingChain:
    """The proof that a graph, or its complement (`of` says which), has no transitive orientation: `arcs` (tail, head)
    each of which forces the next, from an arc to its reverse. It is false where a truth value is asked for."""

    of: str
    arcs: list[tuple]

    def __bool__(self) -> bool:
        return False


def program() -> str:
    """The path of the program. MdtError where there is none."""
    path = os.environ.get("MDT") or shutil.which("mdt")
    if not path:
        raise MdtError("there is no program mdt on PATH, and the variable MDT names none")
    return path


def run(words: list[str]) -> bytes:
    """What the program writes to standard output for these words. Rejected for a report that isn't valid, MdtError
    for every other status but 0."""
    try:
        it = subprocess.run([program(), *words], stdin=subprocess.DEVNULL, capture_output=True)
    except OSError as error:
        raise MdtError("the program mdt doesn't run: %s" % error) from None
    if it.returncode == 0:
        return it.stdout
    if it.returncode == 1:
        raise Rejected(it.stdout.decode().strip(), 1, line=int(it.stdout.split()[-1]))
    said = it.stderr.decode(errors="replace").strip()
    found = _FAULT.fullmatch(said)
    if found:
        file, kind, counted, number = found.groups()
        raise MdtError(said, it.returncode, kind, file, int(number) if counted == "line" else None)
    raise MdtError(said or "mdt ended with status %d" % it.returncode, it.returncode, STATUSES.get(it.returncode))


def _report(words: list[str], graph: bytes, script: Optional[bytes] = None) -> list[Line]:
    """The lines of the program's report of one graph, without head and end; `words` stand before its file."""
    with tempfile.TemporaryDirectory(prefix="mdt") as folder:
        words = list(words)
        for name, content in (("graph", graph), ("script", script)):
            if content is not None:
                words.append(os.path.join(folder, name))
                with open(words[-1], "wb") as file:
                    file.write(content)
        return list(read_report(run(words).splitlines(keepends=True)))[1:-1]


def _answer(mode: str, graph: Any, vertices: Optional[Iterable[Hashable]]) -> Line:
    """The program's line of one graph, with the graph's names."""
    known = numbered(graph, vertices)
    line, = _report([mode, "g6"], known.graph6())
    line.rename(known.vertices.__getitem__)
    return line


def tree(graph: Any, vertices: Optional[Iterable[Hashable]] = None) -> Optional[Node]:
    """The tree of strong modules of a graph, None for the graph without vertices. The graph is one of networkx or of
    Sage, or a list of pairs, and then `vertices` may name vertices without edges. Children stand by their least vertex.

    ValueError for a directed graph and a loop; MdtError where the program gives no answer, with the kind
    TooManyVertices above 16,384 vertices, in `orient` and `permutation_model` above 4,096."""
    return _answer("tree", graph, vertices).tree


def directed_tree(graph: Any, vertices: Optional[Iterable[Hashable]] = None) -> Optional[DirectedNode]:
    """The tree of strong modules of a directed graph, None for that without vertices. The directed graph is one of
    networkx or of Sage, or a list of pairs (tail, head). Children of an order node stand in its order, all others by
    their least vertex. ValueError for an undirected graph and a loop; MdtError as in `tree`, TooManyVertices above
    4,096 vertices."""
    known = numbered_digraph(graph, vertices)
    line, = _report(["dtree"], known.digraph6())
    line.rename(known.vertices.__getitem__)
    return line.tree


def orient(graph: Any, vertices: Optional[Iterable[Hashable]] = None) -> Union[Orientation, ForcingChain]:
    """The least-edge transitive orientation of a graph, or a forcing chain where it is no comparability graph. Graphs
    and errors as in `tree`."""
    line = _answer("compare", graph, vertices)
    return Orientation(line.arcs) if line.what == "orientation" else ForcingChain(line.of, line.arcs)


def permutation_model(graph: Any, vertices: Optional[Iterable[Hashable]] = None) \
        -> Union[PermutationModel, ForcingChain]:
    """Two orders that realise a graph, or a forcing chain of it or its complement where it is no permutation graph.
    Graphs and errors as in `tree`."""
    line = _answer("permute", graph, vertices)
    return PermutationModel(*line.orders) if line.what == "orders" else ForcingChain(line.of, line.arcs)


def check(mode: str, form: Optional[str], graph: str, *files: str) -> None:
    """Lets the program judge a report, as `mdt check MODE FORM GRAPH [SCRIPT] REPORT` does: `form` is `g6` or `dimacs`,
    None with `dtree`, whose files have one form; the others are paths. Returns where the report is valid; Rejected,
    with the line, where it isn't; MdtError where the program gives no answer."""
    run(["check", mode] + ([form] if form else []) + [graph, *files])


class Session:
    """A graph under edits. Within `with` the edits are gathered; at its end the program runs once over all of them.
    Then `lines` are the lines of the report without head and end, `answers` those of the edits, one each, and `tree`
    is the tree of the last graph. Where the first graph isn't one of those that the mode keeps to, the only line tells
    a P4, C4 or 2K2 of it, there are no answers, and `tree` is None. A name that is no vertex may stand in an edit: the
    answer refuses it."""

    def __init__(self, graph: Any, mode: str, vertices: Optional[Iterable[Hashable]]):
        if mode not in BARS:
            raise ValueError("a session has one of the modes %s, not %r" % (", ".join(BARS), mode))
        self._mode = mode
        self._graph = numbered(graph, vertices)
        self._names = list(self._graph.vertices)
        self._places = {name: place for place, name in enumerate(self._names)}
        self._script: list[str] = []
        self._in_group = False
        self.lines: list[Line] = []

    def add_edge(self, u: Hashable, v: Hashable) -> None:
        """Gathers the edit that joins u and v."""
        self._gather("+e", [u, v])

    def remove_edge(self, u: Hashable, v: Hashable) -> None:
        """Gathers the edit that parts u and v."""
        self._gather("-e", [u, v])

    def add_vertex(self, vertex: Hashable, neighbours: Iterable[Hashable] = ()) -> None:
        """Gathers the edit that takes in a vertex with an edge to each neighbour."""
        self._gather("+v", [vertex, *neighbours])

    def remove_vertex(self, vertex: Hashable) -> None:
        """Gathers the edit that leaves out a vertex and the edges at it."""
        self._gather("-v", [vertex])

    def undo(self) -> None:
        """Gathers that the last edit or group that was applied is taken back. ValueError inside a group."""
        if self._in_group:
            raise ValueError("a group has edits alone")
        self._script.append("undo")

    @contextmanager
    def group(self) -> Iterator[None]:
        """A context whose edits are one group: all of them are applied, or none, with one answer. An exception that
        leaves it takes its edits off. ValueError inside a group."""
        if self._in_group:
            raise ValueError("a group has edits alone")
        begin, self._in_group = len(self._script), True
        self._script.append("begin")
        try:
            yield
        except BaseException:
            del self._script[begin:]
            raise
        else:
            self._script.append("commit")
        finally:
            self._in_group = False

    def _gather(self, word: str, names: list) -> None:
        for name in names:
            if name not in self._places:
                self._places[name] = len(self._names)
                self._names.append(name)
        self._script.append(" ".join([word] + [str(self._places[name]) for name in names]))

    def __enter__(self) -> Session:
        return self

    def __exit__(self, kind: Any, error: Any, trace: Any) -> None:
        if kind is None:
            script = "".join(line + "\n" for line in self._script).encode()
            self.lines = _report([self._mode, "g6"], self._graph.graph6(), script)
            for line in self.lines:
                line.rename(self._names.__getitem__)

    @property
    def answers(self) -> list[Line]:
        """The line of each item, in order: of each edit outside groups, each group and each undo."""
        return [line for line in self.lines if line.what in ("applied", "refused")]

    @property
    def tree(self) -> Optional[Node]:
        """The tree of the graph after the last item; None for the graph without vertices, and where no tree is told."""
        told = [line.tree for line in self.lines if line.has_tree]
        return told[-1] if told else None


def session(graph: Any, mode: str = "edit", vertices: Optional[Iterable[Hashable]] = None) -> Session:
    """A context that gathers edits of a graph and lets the program apply them at its end, in one run:

        with mdt.session(graph, "cograph") as s:
            s.add_vertex("new", ["a", "b"])
            with s.group():
                s.remove_edge("a", "c")
                s.add_edge("b", "c")
            s.undo()
        print(s.answers, s.tree)

    The modes: `edit` applies each edit that fits the graph and tells the tree after it; `cograph` refuses those that
    would leave the cographs, with a P4; `quiet` does so too, and tells the last tree alone; `trivial` refuses those
    that would leave the trivially perfect graphs, with a P4 or a C4, `threshold` those that would leave the threshold
    graphs, with a P4, a C4 or a 2K2. A group is applied whole or not at all; `undo` takes back the last edit or group
    that was applied. At most 200,000 edits, undos and groups in all; names and numbers of vertices below 16,384.
    ValueError for another mode and as in `tree`; MdtError at the end of the context, where the program gives no
    answer."""
    return Session(graph, mode, vertices)
