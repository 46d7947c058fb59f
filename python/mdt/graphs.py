"""Graphs of networkx and of Sage, and plain lists of pairs, as the numbered graphs that the program reads."""
from __future__ import annotations

from typing import Any, Hashable, Iterable, NamedTuple, Optional


class NumberedGraph(NamedTuple):
    """A graph on the numbers from 0 on: `vertices[i]` is the name of the i-th vertex, `edges` are pairs of numbers,
    the smaller one first."""

    vertices: list[Hashable]
    edges: set[tuple[int, int]]

    def graph6(self) -> bytes:
        """The graph as a line of graph6, with its line feed."""
        count = len(self.vertices)
        return _line(count, count * (count - 1) // 2, (v * (v - 1) // 2 + u for u, v in self.edges))


class NumberedDigraph(NamedTuple):
    """A directed graph on the numbers from 0 on: `vertices[i]` is the name of the i-th vertex, `arcs` are pairs of
    numbers (tail, head)."""

    vertices: list[Hashable]
    arcs: set[tuple[int, int]]

    def digraph6(self) -> bytes:
        """The directed graph as a line of digraph6, with its line feed."""
        count = len(self.vertices)
        return b"&" + _line(count, count * count, (u * count + v for u, v in self.arcs))


_PRINTED = bytes((63 + group) % 256 for group in range(256))


def _line(count: int, bits: int, ones: Iterable[int]) -> bytes:
    """A number of vertices and so many bits, those at the places `ones` set, and a line feed."""
    groups = bytearray((bits + 5) // 6)
    for place in ones:
        groups[place // 6] |= 32 >> place % 6
    size = [count] if count <= 62 else [63] + [count >> shift & 63 for shift in (12, 6, 0)]
    return bytes(63 + group for group in size) + groups.translate(_PRINTED) + b"\n"


def numbered(graph: Any, vertices: Optional[Iterable[Hashable]] = None) -> NumberedGraph:
    """The numbered graph of a graph of networkx, of Sage, or of a list of pairs of vertices, whose vertices without
    edges `vertices` may name. Vertices are numbered as they sort, and where their names can't be sorted, as the graph
    lists them. An edge that is repeated counts once. ValueError for a directed graph, a loop, or an edge of
    other than two ends; TypeError for what is no graph."""
    if _is_directed(graph):
        raise ValueError("the graph is directed: directed_tree takes it apart, and no other call does")
    order, pairs = _numbered(graph, vertices)
    return NumberedGraph(order, {(u, v) if u < v else (v, u) for u, v in pairs})


def numbered_digraph(graph: Any, vertices: Optional[Iterable[Hashable]] = None) -> NumberedDigraph:
    """The numbered directed graph of a directed graph of networkx, of Sage, or of a list of pairs (tail, head), as
    `numbered` gives that of a graph. ValueError for an undirected graph."""
    if _is_directed(graph) is False:
        raise ValueError("the graph is undirected: tree takes it apart")
    return NumberedDigraph(*_numbered(graph, vertices))


def _is_directed(graph: Any) -> Optional[bool]:
    """Whether a graph of networkx or of Sage is directed; None for a list of pairs."""
    return graph.is_directed() if hasattr(graph, "is_directed") else None


def _numbered(graph: Any, vertices: Optional[Iterable[Hashable]]) -> tuple[list[Hashable], set[tuple[int, int]]]:
    """The vertices of a graph in the order of their numbers, and its pairs, as they are written, in numbers."""
    if hasattr(graph, "vertex_iterator"):
        names, pairs = graph.vertex_iterator(), graph.edge_iterator(labels=False)
    elif hasattr(graph, "nodes") and hasattr(graph, "edges"):
        names, pairs = graph.nodes(), graph.edges()
    else:
        names, pairs = (), list(graph)
    places: dict[Hashable, int] = dict.fromkeys(names, 0)
    places.update(dict.fromkeys(vertices or (), 0))
    ends = []
    for pair in pairs:
        u, v = pair
        if u == v:
            raise ValueError("there is a loop at %r" % (u,))
        ends.append((u, v))
        places.setdefault(u, 0)
        places.setdefault(v, 0)
    order = list(places)
    try:
        order.sort()
    except TypeError:
        pass
    for number, name in enumerate(order):
        places[name] = number
    return order, {(places[u], places[v]) for u, v in ends}
