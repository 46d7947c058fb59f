"""Trees of strong modules: nodes, their text, and the graph or directed graph that a tree denotes.

No function here calls itself, so a tree may be as deep as the program writes one: 16,383 levels.
"""
from __future__ import annotations

import re
from typing import Any, Callable, Hashable, Iterator, Optional

# Order nodes stand in trees of directed graphs alone.
KINDS = {"P": "parallel", "S": "series", "O": "order", "R": "prime"}
LETTERS = {kind: letter for letter, kind in KINDS.items()}


def _parts_of_text(letters: str, between: str) -> re.Pattern:
    """What a text of trees consists of: these letters of nodes, and this byte inside a pair."""
    name = "(?:0|[1-9][0-9]{0,4})"
    pair = name + between + name
    return re.compile(r"([%s])\(|(%s)|([,)])|;((?:%s,)*%s)(?=\))" % (letters, name, pair, pair))


class ReportError(ValueError):
    """A text that isn't in the form of a report. `line` is the number of its line, from 1, or None in a lone tree."""

    def __init__(self, message: str, line: Optional[int] = None):
        super().__init__(message if line is None else "line %d: %s" % (line, message))
        self.message = message
        self.line = line


class Node:
    """A node of a tree of strong modules.

    `kind` is `leaf`, `parallel`, `series` or `prime`. A leaf has its `vertex`, any other node its `children`, and a
    prime one its `pairs`: positions of children, from 0, whose vertices are adjacent. `iter(node)` gives all nodes of
    the tree below it, each before its children; `str(node)` is the tree's text. `is_directed` tells a `DirectedNode`.
    """

    __slots__ = ("kind", "vertex", "children", "pairs")
    is_directed = False
    between = "-"
    _parts = _parts_of_text("PSR", "-")

    def __init__(self, kind: str, vertex: Optional[Hashable] = None):
        self.kind = kind
        self.vertex = vertex
        self.children: list[Node] = []
        self.pairs: list[tuple[int, int]] = []

    def __iter__(self) -> Iterator[Node]:
        waiting = [self]
        while waiting:
            node = waiting.pop()
            yield node
            waiting.extend(reversed(node.children))

    def __str__(self) -> str:
        parts: list[str] = []
        waiting: list[Any] = [self]
        while waiting:
            item = waiting.pop()
            if isinstance(item, str):
                parts.append(item)
            elif item.kind == "leaf":
                parts.append(str(item.vertex))
            else:
                pairs = ";" + ",".join(item.pair_texts()) if item.kind == "prime" else ""
                waiting.append(pairs + ")")
                for place in range(len(item.children) - 1, -1, -1):
                    waiting.append(item.children[place])
                    waiting.append("," if place else LETTERS[item.kind] + "(")
        return "".join(parts)

    __repr__ = __str__

    def _repr_svg_(self) -> str:
        from . import pictures

        return pictures.tree_svg(self, legend=False)

    def pair_texts(self) -> Iterator[str]:
        """The texts of the pairs."""
        return ("%d%s%d" % (i, self.between, j) for i, j in self.pairs)

    def leaves(self) -> list:
        """The vertices, in the order of the text."""
        return [node.vertex for node in self if node.kind == "leaf"]

    def postorder(self) -> list[Node]:
        """All nodes of the tree, each after its children, children in order."""
        nodes, waiting = [], [self]
        while waiting:
            node = waiting.pop()
            nodes.append(node)
            waiting.extend(node.children)
        nodes.reverse()
        return nodes

    def depth(self) -> int:
        """The number of levels below this node: 0 for a leaf."""
        return self._fold(lambda node, below: 1 + max(below) if below else 0)

    def edges(self) -> Iterator[tuple]:
        """The edges of the graph that the tree denotes, each once, as pairs of vertices."""
        below: dict[int, list] = {}
        for node in self.postorder():
            if node.kind == "leaf":
                below[id(node)] = [node.vertex]
                continue
            parts = [below.pop(id(child)) for child in node.children]
            for i, j in node.joined():
                for u in parts[i]:
                    for v in parts[j]:
                        yield (u, v)
            below[id(node)] = [v for part in parts for v in part]

    def joined(self) -> list[tuple[int, int]]:
        """The pairs of positions of children whose vertices are adjacent: the edges of the node's quotient."""
        if self.kind == "prime":
            return self.pairs
        count = len(self.children)
        return [(i, j) for i in range(count) for j in range(i + 1, count)] if self.kind == "series" else []

    def is_prime(self) -> bool:
        """Whether the tree is that of a prime graph: a prime root whose children are all leaves."""
        return self.kind == "prime" and all(child.kind == "leaf" for child in self.children)

    def is_cograph(self) -> bool:
        """Whether the tree is that of a cograph, or of a directed cograph: it has no prime node."""
        return all(node.kind != "prime" for node in self)

    def renamed(self, name: Callable[[Any], Hashable]) -> Node:
        """The same tree over other vertices: `name(v)` in place of each vertex v."""

        def rebuilt(node: Node, children: list) -> Node:
            copy = type(node)(node.kind, name(node.vertex) if node.kind == "leaf" else None)
            copy.children, copy.pairs = children, list(node.pairs)
            return copy

        return self._fold(rebuilt)

    def to_networkx(self):
        """The graph that the tree denotes, as a `networkx.Graph`, or the directed graph, as a `networkx.DiGraph`.
        ImportError where networkx isn't installed."""
        import networkx

        graph = networkx.DiGraph() if self.is_directed else networkx.Graph()
        graph.add_nodes_from(self.leaves())
        graph.add_edges_from(self.edges())
        return graph

    def as_sage(self):
        """The tree in the form of Sage's `modular_decomposition()`: a pair of PRIME, SERIES or PARALLEL and the list of
        the children, where a leaf is its vertex; a lone vertex is (PRIME, [v]) there. Inside Sage the kinds are its own
        constants, elsewhere texts. Sage doesn't tell which children of a prime node are adjacent, so pairs are lost."""
        try:
            from sage.graphs.graph_decompositions.modular_decomposition import NodeType

            kinds = {kind: getattr(NodeType, kind.upper()) for kind in ("parallel", "series", "prime")}
        except ImportError:
            kinds = {kind: kind.upper() for kind in ("parallel", "series", "prime")}
        if self.kind == "leaf":
            return kinds["prime"], [self.vertex]
        return self._fold(lambda node, below: (kinds[node.kind], below) if below else node.vertex)

    def to_dot(self, marked=frozenset()) -> str:
        """The tree in the language of Graphviz; leaves of the set `marked` are red."""
        from . import pictures

        return pictures.tree_dot(self, marked)

    def _fold(self, combine: Callable[[Node, list], Any]) -> Any:
        """The value of this node, where `combine(node, values)` makes a node's value of those of its children."""
        values: dict[int, Any] = {}
        for node in self.postorder():
            values[id(node)] = combine(node, [values.pop(id(child)) for child in node.children])
        return values[id(self)]


class DirectedNode(Node):
    """A node of the tree of a directed graph.

    There `kind` may be `order`, too: all arcs go from the vertices of earlier children to those of later ones. Between
    children of a parallel node there is no arc, between those of a series node there are both. The `pairs` of a prime
    node go from the first child to the second. `edges()` gives the arcs, as pairs (tail, head).
    """

    __slots__ = ()
    is_directed = True
    between = ">"
    _parts = _parts_of_text("PSOR", ">")

    def joined(self) -> list[tuple[int, int]]:
        """The pairs of positions of children with all arcs from the first to the second, ascending."""
        if self.kind == "prime":
            return self.pairs
        places = range(len(self.children))
        return [(i, j) for i in places for j in places
                if self.kind == "series" and i != j or self.kind == "order" and i < j]

    def as_sage(self):
        """TypeError: Sage takes no directed graph apart."""
        raise TypeError("Sage takes no directed graph apart")


def parse_tree(text: str, directed: bool = False) -> Optional[Node]:
    """The tree of a text, None for `empty`; with `directed` that of a directed graph, of nodes `DirectedNode`.
    ReportError where the text is in another form."""
    if text == "empty":
        return None
    make = DirectedNode if directed else Node
    root: Optional[Node] = None
    open_nodes: list[Node] = []
    place, due = 0, True
    while place < len(text):
        token = make._parts.match(text, place)
        if token is None:
            raise ReportError("no tree from byte %d of its text on" % place)
        letter, digits, mark, pairs = token.groups()
        begins = letter is not None or digits is not None
        if begins != due or not (begins or open_nodes):
            raise ReportError("%r doesn't belong at byte %d of the tree" % (token.group(), place))
        place = token.end()
        if begins:
            node = make(KINDS[letter]) if letter else make("leaf", int(digits))
            if open_nodes:
                open_nodes[-1].children.append(node)
            else:
                root = node
            if letter:
                open_nodes.append(node)
            due = letter is not None
        elif pairs:
            node = open_nodes[-1]
            if node.kind != "prime":
                raise ReportError("pairs of a node that isn't prime at byte %d of the tree" % token.start())
            node.pairs = [(int(i), int(j)) for i, _, j in (pair.partition(make.between) for pair in pairs.split(","))]
            if max(map(max, node.pairs)) >= len(node.children):
                raise ReportError("a pair of a child that isn't there at byte %d of the tree" % token.start())
        elif mark == ",":
            due = True
        else:
            open_nodes.pop()
    if due or open_nodes:
        raise ReportError("the text ends inside a tree")
    return root
