"""Readers of graph files and scripts for the second opinion: graph6 and sparse6, DIMACS edge files, digraph6, scripts.

They stand apart from the program: each is written from the formats alone (`docs/FORMATS.md`), for reading and not for
speed. A graph is a dict that gives each vertex the set of its neighbours, a directed graph one that gives it the set of
those that its arcs go to.
"""
from __future__ import annotations

import sys
from dataclasses import dataclass
from typing import Callable, Optional, Union

Graph = dict[int, set[int]]
# An edit: its word (+e, -e, +v or -v) and its names.
Edit = tuple[str, list[int]]


@dataclass(frozen=True)
class Item:
    """An item of a script: `what` is one, undo or group; `edits` are the edit of one, or those of a group."""

    what: str
    edits: list[Edit]


NAMES = 16_384
# How many vertices a graph may have at most whose orientations or permutation models are told.
ORIENTED = 4_096
# How many vertices a directed graph may have.
DIRECTED = 4_096
EDITS = 200_000
# How many fields a line of a script has at least and at most, by its word.
_FIELDS = {b"+e": (3, 3), b"-e": (3, 3), b"+v": (2, sys.maxsize), b"-v": (2, 2),
           b"undo": (1, 1), b"begin": (1, 1), b"commit": (1, 1)}


class InputFault(ValueError):
    """A graph file or a script that the program refuses: the kind of its first fault and its line, from 1."""

    def __init__(self, file: str, kind: str, line: int):
        super().__init__("%s %s line %d" % (file, kind, line))
        self.file, self.kind, self.line = file, kind, line


class _Fault(Exception):
    """The kind of the fault of a line whose number the caller knows."""


def _lines(content: bytes) -> list[bytes]:
    """The lines of a graph file or script: cut at each line feed, and one carriage return at an end taken off."""
    lines = content.split(b"\n")
    if not lines[-1]:
        lines.pop()
    return [line[:-1] if line.endswith(b"\r") else line for line in lines]


def _fields(line: bytes) -> list[bytes]:
    return [field for field in line.replace(b"\t", b" ").split(b" ") if field]


def _number(field: bytes) -> int:
    if not (1 <= len(field) <= 18 and all(48 <= byte <= 57 for byte in field)):
        raise _Fault("BadNumber")
    return int(field)


def read_graphs(content: bytes, form: Union[str, None] = None, limit: int = NAMES) -> list[Graph]:
    """The graphs of a file in the format `g6` or `dimacs`, with so many vertices at most in graph6 and sparse6, and
    fewer in DIMACS. Without a format: a DIMACS file has a space or a tab in its problem line, and a graph6 file has
    none anywhere. InputFault for the first fault."""
    if form is None:
        form = "dimacs" if b" " in content or b"\t" in content else "g6"
    return read_graph6(content, limit) if form == "g6" else [read_dimacs(content, limit)]


def read_graph6(content: bytes, limit: int = NAMES) -> list[Graph]:
    """The graphs of a file of graph6 and sparse6 lines, on the vertices from 0 on."""
    def graph_of(line: bytes) -> Graph:
        return _sparse6_line(line[1:], limit) if line[:1] == b":" else _graph6_line(line, limit)

    return _read_lines(content, (b">>graph6<<", b">>sparse6<<"), graph_of)


def _read_lines(content: bytes, headers: tuple[bytes, ...], graph_of: Callable[[bytes], Graph]) -> list[Graph]:
    """The graphs of the lines of a file that may begin with one of the headers."""
    for header in headers:
        if content.startswith(header):
            content = content[len(header):]
            break
    graphs = []
    for number, line in enumerate(_lines(content), 1):
        if line:
            try:
                graphs.append(graph_of(line))
            except _Fault as fault:
                raise InputFault("graph", str(fault), number) from None
    return graphs


def _groups(line: bytes) -> bytes:
    """A line, or what follows its first byte, where its bytes each stand for six bits."""
    if not line:
        raise _Fault("Truncated")
    if min(line) < 63 or max(line) > 126:
        raise _Fault("BadByte")
    return line


def _bits(groups: bytes, count: int) -> str:
    """The bits of groups that are as many as so many bits take, with those that fill up the last."""
    needed = (count + 5) // 6
    if len(groups) != needed:
        raise _Fault("Truncated" if len(groups) < needed else "TrailingBytes")
    return "".join(format(byte - 63, "06b") for byte in groups)


def _graph6_line(line: bytes, limit: int) -> Graph:
    if line[:1] in (b";", b"&"):
        raise _Fault("OtherFormat")
    count, groups = _graph6_size(_groups(line))
    if count > limit:
        raise _Fault("TooManyVertices")
    pairs = count * (count - 1) // 2
    bits = _bits(groups, pairs)
    if "1" in bits[pairs:]:
        raise _Fault("BadPadding")
    graph: Graph = {v: set() for v in range(count)}
    place = 0
    for v in range(count):
        for u in range(v):
            if bits[place + u] == "1":
                graph[u].add(v)
                graph[v].add(u)
        place += v
    return graph


def read_digraph6(content: bytes) -> list[Graph]:
    """The directed graphs of a file of digraph6 lines, on the vertices from 0 on. InputFault for the first fault."""
    return _read_lines(content, (b">>digraph6<<",), _digraph6_line)


def _digraph6_line(line: bytes) -> Graph:
    if line[:1] != b"&":
        raise _Fault("OtherFormat")
    count, groups = _graph6_size(_groups(line[1:]))
    if count > DIRECTED:
        raise _Fault("TooManyVertices")
    bits = _bits(groups, count * count)
    if any(bits[v * count + v] == "1" for v in range(count)):
        raise _Fault("Loop")
    if "1" in bits[count * count:]:
        raise _Fault("BadPadding")
    return {u: {v for v in range(count) if bits[u * count + v] == "1"} for u in range(count)}


def _sparse6_line(line: bytes, limit: int) -> Graph:
    """The graph of a sparse6 line behind its colon."""
    count, groups = _graph6_size(_groups(line))
    if count > limit:
        raise _Fault("TooManyVertices")
    graph: Graph = {v: set() for v in range(count)}
    width = (count - 1).bit_length() if count > 1 else 0
    bits = "".join(format(byte - 63, "06b") for byte in groups) if width else ""
    v = 0
    for place in range(0, len(bits) - width, width + 1):
        x = int(bits[place + 1:place + 1 + width], 2)
        v += bits[place] == "1"
        if x > v:
            v = x
        elif v < count:
            if x == v:
                raise _Fault("Loop")
            graph[x].add(v)
            graph[v].add(x)
    return graph


def _graph6_size(line: bytes) -> tuple[int, bytes]:
    """The number of vertices, and the bytes behind it."""
    begin, end, least = (0, 1, 0) if line[0] != 126 else (1, 4, 63) if line[1:2] != b"~" else (2, 8, 258_048)
    if len(line) < end:
        raise _Fault("Truncated")
    count = 0
    for byte in line[begin:end]:
        count = count * 64 + byte - 63
    if count < least:
        raise _Fault("BadSize")
    return count, line[end:]


def read_dimacs(content: bytes, limit: int = NAMES) -> Graph:
    """The graph of a DIMACS edge file with fewer vertices than the limit, on the vertices from 1 on."""
    graph = None
    lines = _lines(content)
    for number, line in enumerate(lines, 1):
        fields = _fields(line)
        try:
            if not fields or fields[0][:1] == b"c" or fields[0] in (b"n", b"d", b"v", b"x"):
                continue
            if fields[0] == b"p":
                if graph is not None:
                    raise _Fault("SecondProblemLine")
                graph = _problem(fields, limit)
            elif fields[0] == b"e":
                if graph is None:
                    raise _Fault("EdgeBeforeProblem")
                _edge(fields, graph)
            else:
                raise _Fault("UnknownLine")
        except _Fault as fault:
            raise InputFault("graph", str(fault), number) from None
    if graph is None:
        raise InputFault("graph", "NoProblemLine", len(lines) + 1)
    return graph


def _problem(fields: list[bytes], limit: int) -> Graph:
    if len(fields) != 4:
        raise _Fault("FieldCount")
    if fields[1] not in (b"edge", b"col"):
        raise _Fault("UnknownLine")
    count, _ = _number(fields[2]), _number(fields[3])
    if count >= limit:
        raise _Fault("TooManyVertices")
    return {v: set() for v in range(1, count + 1)}


def _edge(fields: list[bytes], graph: Graph) -> None:
    if len(fields) != 3:
        raise _Fault("FieldCount")
    u, v = _number(fields[1]), _number(fields[2])
    if u not in graph or v not in graph:
        raise _Fault("VertexOutOfRange")
    if u == v:
        raise _Fault("Loop")
    graph[u].add(v)
    graph[v].add(u)


def read_script(content: bytes) -> list[Item]:
    """The items of a script. InputFault for the first fault."""
    items: list[Item] = []
    group: Optional[list[Edit]] = None
    counted = 0
    lines = _lines(content)
    for number, line in enumerate(lines, 1):
        fields = _fields(line)
        if not fields or fields[0][:1] == b"#":
            continue
        try:
            edit = _script_line(fields, counted, group is not None)
        except _Fault as fault:
            raise InputFault("script", str(fault), number) from None
        counted += fields[0] != b"commit"
        if fields[0] == b"undo":
            items.append(Item("undo", []))
        elif fields[0] == b"begin":
            group = []
        elif fields[0] == b"commit":
            items.append(Item("group", group or []))
            group = None
        elif group is None:
            items.append(Item("one", [edit]))
        else:
            group.append(edit)
    if group is not None:
        raise InputFault("script", "OpenGroup", len(lines) + 1)
    return items


def _script_line(fields: list[bytes], counted: int, in_group: bool) -> Edit:
    """The word and the names of a line of a script, behind so many that count."""
    word = fields[0]
    if word != b"commit" and counted == EDITS:
        raise _Fault("TooManyEdits")
    least, most = _FIELDS.get(word, (0, 0))
    if not most:
        raise _Fault("UnknownEdit")
    if not least <= len(fields) <= most:
        raise _Fault("FieldCount")
    if in_group and word in (b"begin", b"undo"):
        raise _Fault("Nested")
    if not in_group and word == b"commit":
        raise _Fault("NoGroup")
    names = []
    for field in fields[1:]:
        names.append(_number(field))
        if names[-1] >= NAMES:
            raise _Fault("NameTooLarge")
    return word.decode(), names
