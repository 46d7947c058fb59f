"""A second opinion on reports: every line judged by the definitions, without the program.

What is here is written for reading: each function says one definition, over sets, and takes the time that this costs.
The judgement is that of `mdt check`: a report is valid, or N is the number of the first line at which it is none.

A graph is a dict that gives each vertex the set of its neighbours, a directed graph one that gives it the set of those
that its arcs go to. Two facts of the field are used and not proved here: a tree whose nodes are what `is_tree_of` asks
for is the tree of strong modules (Gallai; of directed graphs Ehrenfeucht and Rozenberg); and an edge has a forcing
chain exactly if its two arcs reach each other by forcing (Golumbic).
"""
from __future__ import annotations

import re
from itertools import combinations, permutations
from typing import Callable, Iterator, Optional

from .inputs import NAMES, ORIENTED, Edit, Graph, Item
from .reports import BARS
from .trees import Node, ReportError, parse_tree

Arc = tuple[int, int]
Judge = Callable[[str], bool]

_NAME = re.compile(r"0|[1-9][0-9]{0,4}")


# Modules

def quotient(graph: Graph, parts: list[set[int]]) -> Optional[set[Arc]]:
    """The pairs i < j of parts with all edges between them, None where two parts have some edges and not all."""
    joined = set()
    for (i, part), (j, other) in combinations(enumerate(parts), 2):
        edges = sum(len(graph[u] & other) for u in part)
        if edges == len(part) * len(other):
            joined.add((i, j))
        elif edges:
            return None
    return joined


def least_module(graph: Graph, u: int, v: int) -> set[int]:
    """The least module that holds u and v: a vertex outside that is adjacent to one member and not to another has to
    come in."""
    module, waiting = {u, v}, [v]
    while waiting and len(module) < len(graph):
        member = waiting.pop()
        telling = (graph[u] ^ graph[member]) - module
        module |= telling
        waiting.extend(telling)
    return module


def has_trivial_modules_alone(graph: Graph) -> bool:
    """Whether the only modules are the single vertices and all of them."""
    return all(len(least_module(graph, u, v)) == len(graph) for u, v in combinations(graph, 2))


def is_tree_of(graph: Graph, tree: Optional[Node]) -> bool:
    """Whether a tree is the tree of strong modules of a graph, with children in the order of their least vertices; or a
    tree of a directed graph is that of a directed graph."""
    if tree is None:
        return not graph
    if sorted(tree.leaves()) != sorted(graph):
        return False
    is_node = is_directed_node_of if tree.is_directed else is_node_of
    below: dict[int, set[int]] = {}
    for node in tree.postorder():
        parts = [below.pop(id(child)) for child in node.children]
        if node.kind != "leaf" and not is_node(graph, node, parts):
            return False
        below[id(node)] = set().union(*parts) if parts else {node.vertex}
    return True


def is_node_of(graph: Graph, node: Node, parts: list[set[int]]) -> bool:
    """Whether an inner node, whose children have these vertices, may stand in the tree of strong modules."""
    least = [min(part) for part in parts]
    pairs = quotient(graph, parts)
    if len(parts) < 2 or least != sorted(least) or pairs is None:
        return False
    if node.kind == "prime":
        small = {i: {j for pair in pairs if i in pair for j in pair if j != i} for i in range(len(parts))}
        return node.pairs == sorted(pairs) and len(parts) >= 4 and has_trivial_modules_alone(small)
    every = len(parts) * (len(parts) - 1) // 2
    return len(pairs) == (every if node.kind == "series" else 0) and all(c.kind != node.kind for c in node.children)


# Modules of directed graphs

def directed_quotient(graph: Graph, parts: list[set[int]]) -> Optional[set[Arc]]:
    """The pairs of different parts with all arcs from the first to the second, None where some are there and not
    all."""
    joined = set()
    for (i, part), (j, other) in permutations(enumerate(parts), 2):
        arcs = sum(len(graph[u] & other) for u in part)
        if arcs == len(part) * len(other):
            joined.add((i, j))
        elif arcs:
            return None
    return joined


def turned(graph: Graph) -> Graph:
    """The directed graph with each arc the other way round."""
    return {v: {u for u in graph if v in graph[u]} for v in graph}


def has_trivial_directed_modules_alone(graph: Graph) -> bool:
    """Whether the only modules are the single vertices and all of them. The least module that holds two vertices grows:
    a vertex outside that has an arc to, or from, one member and not another has to come in."""
    back = turned(graph)
    for u, v in combinations(graph, 2):
        module, waiting = {u, v}, [v]
        while waiting and len(module) < len(graph):
            member = waiting.pop()
            telling = ((graph[u] ^ graph[member]) | (back[u] ^ back[member])) - module
            module |= telling
            waiting.extend(telling)
        if len(module) < len(graph):
            return False
    return True


def is_directed_node_of(graph: Graph, node: Node, parts: list[set[int]]) -> bool:
    """Whether an inner node, whose children have these vertices, may stand in the tree of a directed graph."""
    least = [min(part) for part in parts]
    pairs = directed_quotient(graph, parts)
    if len(parts) < 2 or pairs is None or (node.kind != "order" and least != sorted(least)):
        return False
    if node.kind == "prime":
        small = {i: {j for j in range(len(parts)) if (i, j) in pairs} for i in range(len(parts))}
        return node.pairs == sorted(pairs) and len(parts) >= 3 and has_trivial_directed_modules_alone(small)
    return pairs == set(node.joined()) and all(child.kind != node.kind for child in node.children)


# Induced subgraphs on four vertices

def is_bar(graph: Graph, kind: str, names: list[int]) -> bool:
    """Whether four vertices, in this order, are a bar of this kind: an induced path, written from its smaller end; an
    induced cycle, from its least vertex on towards the smaller neighbour of that; or two edges with none between them,
    each from its smaller end, first the one with the least vertex."""
    if len(set(names)) != 4 or not set(names) <= set(graph):
        return False
    a, b, c, d = names
    edges = {(u, v) for u, v in combinations(names, 2) if v in graph[u]}
    if kind == "p4":
        return edges == {(a, b), (b, c), (c, d)} and a < d
    if kind == "c4":
        return edges == {(a, b), (b, c), (c, d), (a, d)} and a == min(names) and b < d
    return edges == {(a, b), (c, d)} and a < b and c < d and a < c


def has_p4(graph: Graph) -> bool:
    """Whether some a-b-c-d is an induced path: b and c adjacent, a at b alone, d at c alone, a and d not adjacent."""
    for b in graph:
        for c in graph[b]:
            right = graph[c] - graph[b] - {b}
            if any(right - graph[a] for a in graph[b] - graph[c] - {c}):
                return True
    return False


def has_c4(graph: Graph) -> bool:
    """Whether two vertices that aren't adjacent have two common neighbours that aren't either."""
    for a, c in combinations(graph, 2):
        common = graph[a] & graph[c]
        if c not in graph[a] and any(common - graph[b] - {b} for b in common):
            return True
    return False


def has_2k2(graph: Graph) -> bool:
    """Whether some edge has another one among the vertices that neither of its ends is adjacent to."""
    for a in graph:
        for b in graph[a]:
            others = set(graph) - graph[a] - graph[b]
            if any(graph[c] & others for c in others):
                return True
    return False


HAS: dict[str, Callable[[Graph], bool]] = {"p4": has_p4, "c4": has_c4, "2k2": has_2k2}


def has_bar(graph: Graph, mode: str) -> bool:
    """Whether a graph has a bar of a mode of a session."""
    return any(HAS[kind](graph) for kind in BARS[mode])


# Orientations and orders

def force_each_other(graph: Graph, one: Arc, other: Arc) -> bool:
    """Whether two arcs have one end in common, as tails or as heads, and other ends that differ and aren't adjacent."""
    (u, v), (x, y) = one, other
    if u == x:
        return v != y and y not in graph[v]
    return v == y and x not in graph[u]


def reached(graph: Graph, arc: Arc) -> set[Arc]:
    """The arcs that are reached from an arc by arcs that force the next: its forcing class."""
    seen, waiting = {arc}, [arc]
    while waiting:
        u, v = waiting.pop()
        forced = {(u, w) for w in graph[u] - graph[v] - {v}} | {(w, v) for w in graph[v] - graph[u] - {u}}
        waiting.extend(forced - seen)
        seen |= forced
    return seen


def classes(graph: Graph) -> Iterator[tuple[Arc, set[Arc]]]:
    """The forcing class of each edge u < v whose two arcs are in no class before, edges in ascending order."""
    seen: set[Arc] = set()
    for u in sorted(graph):
        for v in sorted(graph[u]):
            if u < v and (u, v) not in seen and (v, u) not in seen:
                arcs = reached(graph, (u, v))
                seen |= arcs
                yield (u, v), arcs


def least_forced_edge(graph: Graph) -> Optional[Arc]:
    """The least edge u < v with a forcing chain from u>v to v>u; None where the graph has a transitive orientation."""
    return next(((u, v) for (u, v), arcs in classes(graph) if (v, u) in arcs), None)


def is_chain(graph: Graph, arcs: list[Arc]) -> bool:
    """Whether these arcs are a forcing chain of the graph, from its least edge that has one."""
    return (len(arcs) > 1 and len(set(arcs)) == len(arcs)
            and all(u in graph and v in graph[u] for u, v in arcs)
            and all(force_each_other(graph, one, other) for one, other in zip(arcs, arcs[1:]))
            and arcs[-1] == arcs[0][::-1]
            and arcs[0] == least_forced_edge(graph))


def least_edge_orientation(graph: Graph) -> list[Arc]:
    """The arcs of the orientation in which each class holds its least edge from the smaller to the larger end."""
    return sorted(arc for _, arcs in classes(graph) for arc in arcs)


def complement(graph: Graph) -> Graph:
    return {v: set(graph) - graph[v] - {v} for v in graph}


def realise(graph: Graph, first: list[int], second: list[int]) -> bool:
    """Whether both lists hold each vertex once, and two vertices are adjacent exactly if the lists disagree on them."""
    if not sorted(first) == sorted(second) == sorted(graph):
        return False
    place = {v: i for i, v in enumerate(second)}
    return all((place[u] > place[v]) == (v in graph[u]) for u, v in combinations(first, 2))


# Edits

def reason(graph: Graph, edit: Edit) -> Optional[str]:
    """The first reason against an edit, None where it fits the graph."""
    word, names = edit
    if word in ("+e", "-e"):
        u, v = names
        if u == v:
            return "same"
        absent = [name for name in names if name not in graph]
        if absent:
            return "vertex %d" % absent[0]
        if word == "+e":
            return "edge-there" if v in graph[u] else None
        return None if v in graph[u] else "edge-absent"
    if word == "-v":
        return None if names[0] in graph else "vertex %d" % names[0]
    absent = sorted(name for name in names[1:] if name not in graph)
    if absent:
        return "vertex %d" % absent[0]
    return "taken %d" % names[0] if names[0] in graph else None


def after(graph: Graph, edit: Edit) -> Graph:
    """The graph after an edit that fits it."""
    word, names = edit
    changed = {v: set(neighbours) for v, neighbours in graph.items()}
    if word in ("+e", "-e"):
        u, v = names
        changed[u] ^= {v}
        changed[v] ^= {u}
    elif word == "+v":
        changed[names[0]] = set(names[1:])
        for v in names[1:]:
            changed[v].add(names[0])
    else:
        for v in changed.pop(names[0]):
            changed[v].discard(names[0])
    return changed


# Lines

def equals(right: str) -> Judge:
    return lambda text: text == right


def tree_line(word: str, graph: Graph, directed: bool = False) -> Judge:
    """Judges the line of a word and the tree of a graph, or of a directed graph."""

    def judge(text: str) -> bool:
        if not text.startswith(word + " "):
            return False
        spelled = text[len(word) + 1:]
        try:
            tree = parse_tree(spelled, directed)
        except ReportError:
            return False
        return (str(tree) if tree else "empty") == spelled and is_tree_of(graph, tree)

    return judge


def names_of(words: list[str]) -> Optional[list[int]]:
    """The names that words spell, None where one isn't spelled as a name."""
    return [int(word) for word in words] if all(_NAME.fullmatch(word) for word in words) else None


def bar_line(lead: str, mode: str, graph: Graph) -> Judge:
    """Judges the line that begins so and goes on with a bar of the mode in a graph."""

    def judge(text: str) -> bool:
        kind, *words = text[len(lead):].split(" ")
        names = names_of(words)
        return (text.startswith(lead) and kind in BARS[mode] and names is not None and len(names) == 4
                and is_bar(graph, kind, names))

    return judge


def chain_line(word: str, graph: Graph) -> Judge:
    """Judges the line of a word and a forcing chain of a graph."""

    def judge(text: str) -> bool:
        arcs = [names_of(arc.split(">")) for arc in text[len(word):].split(" ")[1:]]
        return (text.startswith(word + " ") and all(arc is not None and len(arc) == 2 for arc in arcs)
                and is_chain(graph, [(arc[0], arc[1]) for arc in arcs if arc]))

    return judge


def orders_line(graph: Graph) -> Judge:
    """Judges the line of two orders that realise a graph."""

    def judge(text: str) -> bool:
        words = text.split(" ")
        if words[0] != "yes" or words.count("/") != 1:
            return False
        middle = words.index("/")
        first, second = names_of(words[1:middle]), names_of(words[middle + 1:])
        return first is not None and second is not None and realise(graph, first, second)

    return judge


def compare_line(graph: Graph) -> Judge:
    if least_forced_edge(graph) is not None:
        return chain_line("no", graph)
    return equals(" ".join(["yes"] + ["%d>%d" % arc for arc in least_edge_orientation(graph)]))


def permute_line(graph: Graph) -> Judge:
    if least_forced_edge(graph) is not None:
        return chain_line("no g", graph)
    if least_forced_edge(complement(graph)) is not None:
        return chain_line("no c", complement(graph))
    return orders_line(graph)


def done_line(mode: str, graph: Graph) -> Judge:
    """Judges the line of an item that was applied and left this graph."""
    return equals("ok") if mode == "quiet" else tree_line("ok", graph)


def tried(mode: str, graph: Graph, edits: list[Edit], is_group: bool) -> tuple[Optional[Graph], Judge]:
    """The graph after these edits, one after the other, None where one is refused; and the judge of their line, which
    tells the number of the refused edit in a group."""
    for number, edit in enumerate(edits, 1):
        lead = "no edit %d " % number if is_group else "no "
        against = reason(graph, edit)
        if against:
            return None, equals(lead + against)
        graph = after(graph, edit)
        if has_bar(graph, mode):
            return None, bar_line(lead, mode, graph)
    return graph, done_line(mode, graph)


def session_lines(mode: str, graph: Graph, script: list[Item]) -> Iterator[Judge]:
    """The lines of a session between head and end: one for each item, at the graph that those before it leave."""
    if has_bar(graph, mode):
        yield bar_line("", mode, graph)
        return
    if mode != "quiet":
        yield tree_line("t", graph)
    earlier: list[Graph] = []
    for item in script:
        if item.what == "undo" and not earlier:
            yield equals("no undo")
        elif item.what == "undo":
            graph = earlier.pop()
            yield done_line(mode, graph)
        else:
            led, judge = tried(mode, graph, item.edits, item.what == "group")
            if led is not None:
                earlier.append(graph)
                graph = led
            yield judge
    if mode == "quiet":
        yield tree_line("t", graph)


LINES: dict[str, Callable[[Graph], Judge]] = {
    "tree": lambda graph: tree_line("t", graph),
    "dtree": lambda graph: tree_line("t", graph, directed=True),
    "compare": compare_line,
    "permute": permute_line,
}
SESSIONS = tuple(BARS)


def limit_of(mode: str) -> int:
    """How many vertices a graph of a report of this mode may have."""
    return ORIENTED if mode in ("compare", "permute") else NAMES


def report_lines(mode: str, graphs: list[Graph], script: list[Item]) -> Iterator[Judge]:
    """A judge of each line of a report, in order."""
    yield equals("mdt " + mode)
    if mode in SESSIONS:
        yield from session_lines(mode, graphs[0], script)
    else:
        for graph in graphs:
            yield LINES[mode](graph)
    yield equals("end")


def first_wrong_line(mode: str, graphs: list[Graph], script: list[Item], report: bytes) -> Optional[int]:
    """None where the report is valid for these graphs and, in a session, this script; else the number, from 1, of the
    first line at which it is none. A session has one graph."""
    *texts, rest = report.decode("latin-1").split("\n")
    number = 0
    for number, judge in enumerate(report_lines(mode, graphs, script), 1):
        if number > len(texts) or not judge(texts[number - 1]):
            return number
    return number + 1 if len(texts) > number or rest else None
