"""Pictures of graphs with their modules, of orientations and forcing chains, and of permutation models, as SVG."""
from __future__ import annotations

import itertools
import math
from typing import Any, Collection, Optional

from .pictures import EDGE, vertices_below
from .rings import ring_order
from .svg import (ARROW_HEAD, FILL, MARKED, STROKE, Name, Place, arrow, circle, picture, rounded, short, text_at,
                  text_width, titled, ways)
from .trees import Node

GAP = 8
# Above this number of edges a thick line stands for all edges between two modules.
MOST_EDGES = 400


# A graph with its strong modules as hulls

def on_circle(radii: list[float]) -> tuple[float, list[float]]:
    """The radius of a circle on which discs of these radii stand beside each other, and the angle of each."""
    if len(radii) == 2:
        return (sum(radii) + GAP) / 2, [-math.pi / 2, math.pi / 2]

    def halves(radius: float) -> list[float]:
        return [math.asin(min(1.0, (r + GAP / 2) / radius)) for r in radii]

    low = max(radii) + GAP / 2
    high = low + sum(radii) + GAP * len(radii)
    for _ in range(20):
        middle = (low + high) / 2
        low, high = (middle, high) if 2 * sum(halves(middle)) > 2 * math.pi else (low, middle)
    half = halves(high)
    spare = (2 * math.pi - 2 * sum(half)) / len(radii)
    angles, at = [], -half[0]
    for h in half:
        angles.append(at + h)
        at += 2 * h + spare
    return high, angles


def in_shells(radii: list[float], order: list[int]) -> list[Place]:
    """Places of discs of these radii: the largest in the middle, the others round it on one circle after another, in
    the given order where their radii are the same."""
    order = sorted(order, key=lambda i: -radii[i])
    places: list[Place] = [(0.0, 0.0)] * len(radii)
    outer, next_one = radii[order[0]], 1
    while next_one < len(order):
        largest = radii[order[next_one]]
        radius = outer + GAP + largest
        shell, used = [], 0.0
        while next_one < len(order):
            half = math.asin(min(1.0, (radii[order[next_one]] + GAP / 2) / radius))
            if shell and used + 2 * half > 2 * math.pi:
                break
            shell.append((order[next_one], half))
            used += 2 * half
            next_one += 1
        at, spare = 0.0, (2 * math.pi - used) / len(shell)
        for i, half in shell:
            at += half
            places[i] = (radius * math.sin(at), -radius * math.cos(at))
            at += half + spare
        outer = radius + largest
    return places


class _Hulls:
    """The disc of each node, by its identity: radius and, once it is placed, its middle. A disc is turned so that two
    children in it stand across the way from the middle of the disc round it: then neither hides the other."""

    def __init__(self, tree: Node, name: Name):
        self.radius: dict[int, float] = {}
        self.inside: dict[int, list[Place]] = {}
        self.at: dict[int, Place] = {}
        for node in tree.postorder():
            if node.kind == "leaf":
                self.radius[id(node)] = max(11.0, text_width(short(name(node.vertex))) / 2 + 4)
            else:
                self.arrange(node)
        self.at[id(tree)] = (self.radius[id(tree)] + EDGE,) * 2
        turns = {id(tree): 0.0}
        for node in tree:
            (x, y), turn = self.at[id(node)], turns.pop(id(node))
            c, s = math.cos(turn), math.sin(turn)
            for child, (dx, dy) in zip(node.children, self.inside.get(id(node), ())):
                dx, dy = c * dx - s * dy, s * dx + c * dy
                self.at[id(child)] = (x + dx, y + dy)
                turns[id(child)] = math.atan2(dy, dx) + math.pi / 2

    def arrange(self, node: Node) -> None:
        """Places the children's discs in that of a node: on a circle, or, where this takes much less room, round the
        largest one."""
        radii = [self.radius[id(child)] for child in node.children]
        order = ring_order(len(radii), node.pairs) if node.kind == "prime" else list(range(len(radii)))
        distance, angles = on_circle([radii[i] for i in order])
        ring: list[Place] = [(0.0, 0.0)] * len(radii)
        for i, angle in zip(order, angles):
            ring[i] = (distance * math.sin(angle), -distance * math.cos(angle))
        ring, outer = centred(ring, radii)
        shells, least = centred(in_shells(radii, order), radii)
        if len(radii) > 2 and least < outer * (1.0 if node.kind == "parallel" else 0.6):
            ring, outer = shells, least
        self.inside[id(node)], self.radius[id(node)] = ring, outer + GAP / 2


def centred(places: list[Place], radii: list[float]) -> tuple[list[Place], float]:
    """Discs moved so that a circle round the origin that is nearly as small as can be holds them; its radius."""
    x, y = 0.0, 0.0
    for step in range(1, 40 if len(radii) < 10 else 24):
        u, v, r = max(((u, v, r) for (u, v), r in zip(places, radii)),
                      key=lambda disc: math.hypot(disc[0] - x, disc[1] - y) + disc[2])
        far = math.hypot(u - x, v - y)
        if far < 1e-9:
            break
        reach = (far + r) / far / (step + 1)
        x, y = x + (u - x) * min(1.0, reach), y + (v - y) * min(1.0, reach)
    moved = [(u - x, v - y) for u, v in places]
    return moved, max(math.hypot(u, v) + r for (u, v), r in zip(moved, radii))


def graph_svg(tree: Optional[Node], name: Name = str, marked: Collection = ()) -> str:
    """The graph that a tree denotes, its strong modules as discs in one another; the vertices of `marked` are red.
    In a graph of more than 400 edges a thick line from disc to disc stands for all edges between two modules. In a
    directed graph lines are arrows, with two heads where both arcs are there."""
    if tree is None:
        return picture(80, 40, [text_at(40, 20, "no vertex")])
    hulls, titles = _Hulls(tree, name), vertices_below(tree, name)
    shapes, vertices = [], []
    for node in tree:
        (x, y), r = hulls.at[id(node)], hulls.radius[id(node)]
        if node.kind == "leaf":
            fill = MARKED if node.vertex in marked else FILL["leaf"]
            vertices.append(titled(name(node.vertex), [circle(x, y, r - 1, fill, STROKE["leaf"]),
                                                       text_at(x, y, short(name(node.vertex)))]))
        else:
            shapes.append(titled(titles[id(node)], [circle(x, y, r, FILL[node.kind], STROKE[node.kind])]))
    side = 2 * (hulls.radius[id(tree)] + EDGE)
    return picture(side, side, shapes + _edges(tree, hulls) + vertices)


def _edges(tree: Node, hulls: _Hulls) -> list[str]:
    """The edges of a graph as one path, the arcs of a directed graph as arrows; or, where there are too many, a line
    for each pair of joined modules."""
    leaves = [node for node in tree if node.kind == "leaf"]
    number = {leaf.vertex: i for i, leaf in enumerate(leaves)}
    pairs = [(number[u], number[v]) for u, v in itertools.islice(tree.edges(), MOST_EDGES + 1)]
    if len(pairs) > MOST_EDGES:
        return _module_edges(tree, hulls)
    thin = 1.2 if len(pairs) < 300 else 0.5
    if tree.is_directed:
        return [ARROW_HEAD, *_arrows(leaves, hulls, pairs, thin)]
    place = [hulls.at[id(leaf)] for leaf in leaves]
    parts = ("M%s %sL%s %s" % tuple(map(rounded, place[i] + place[j])) for i, j in pairs)
    return ['<path d="%s" fill="none" stroke="#444444" stroke-width="%g"/>' % ("".join(parts), thin)]


def _arrows(nodes: list[Node], hulls: _Hulls, pairs: list[tuple[int, int]], width: float) -> list[str]:
    """An arrow from disc to disc for each of these pairs of nodes."""
    shapes = []
    for i, j, both in ways(pairs):
        (a, b), (c, d) = (hulls.at[id(nodes[k])] for k in (i, j))
        radii = (hulls.radius[id(nodes[i])], hulls.radius[id(nodes[j])])
        shapes.append(arrow((a, b), (c, d), ((a + c) / 2, (b + d) / 2), radii, both,
                            ' stroke="#444444" stroke-width="%g"' % width))
    return shapes


def _module_edges(tree: Node, hulls: _Hulls) -> list[str]:
    """A line for each pair of joined children, from disc to disc. A node with too many such pairs has none: where it is
    series or order, its colour tells them."""
    parts, arrows = [], []
    for node in tree:
        many = len(node.children) ** 2 / 2 if node.kind in ("series", "order") else len(node.pairs)
        pairs = node.joined() if many <= 10 * MOST_EDGES else []
        if node.is_directed:
            arrows += _arrows(node.children, hulls, pairs, 2)
            continue
        for i, j in pairs:
            (a, b), (c, d) = (hulls.at[id(node.children[k])] for k in (i, j))
            r, s = (hulls.radius[id(node.children[k])] for k in (i, j))
            length = math.hypot(c - a, d - b)
            dx, dy = (c - a) / length, (d - b) / length
            parts.append("M%s %sL%s %s" % tuple(map(rounded, (a + r * dx, b + r * dy, c - s * dx, d - s * dy))))
    if tree.is_directed:
        return [ARROW_HEAD, *arrows]
    return ['<path d="%s" fill="none" stroke="#444444" stroke-width="2"/>' % "".join(parts)]


# Orientations, chains, orders

def arcs_svg(arcs: list[tuple], name: Name = str, marked: Collection = (), numbered: bool = False) -> str:
    """Arcs as arrows between vertices on a circle; `numbered` writes the place of each arc in the list, from 1, beside
    it, as a forcing chain needs. A vertex without arcs isn't drawn, since no arc names it."""
    vertices = list(dict.fromkeys(v for arc in arcs for v in arc))
    if not vertices:
        return picture(80, 40, [text_at(40, 20, "no arc")])
    number = {v: i for i, v in enumerate(vertices)}
    pairs = {(min(number[u], number[v]), max(number[u], number[v])) for u, v in arcs}
    dot = max(11.0, max(text_width(short(name(v))) for v in vertices) / 2 + 4)
    radius = max(60.0, len(vertices) * (2 * dot + 14) / (2 * math.pi))
    middle = radius + dot + EDGE + 8
    place: dict[Any, Place] = {}
    for turn, i in enumerate(ring_order(len(vertices), pairs)):
        angle = 2 * math.pi * turn / len(vertices)
        place[vertices[i]] = (middle + radius * math.sin(angle), middle - radius * math.cos(angle))
    shapes = [ARROW_HEAD]
    bend = 0.12 if numbered else 0.0
    for count, (u, v) in enumerate(arcs, 1):
        shapes.extend(_arrow(place[u], place[v], dot, bend, str(count) if numbered else ""))
    for v, (x, y) in place.items():
        fill = MARKED if v in marked else FILL["leaf"]
        shapes.append(titled(name(v), [circle(x, y, dot, fill, STROKE["leaf"]), text_at(x, y, short(name(v)))]))
    return picture(2 * middle, 2 * middle, shapes)


def _arrow(tail: Place, head: Place, dot: float, bend: float, label: str) -> list[str]:
    """An arrow between the edges of two circles, bent to its left by a part of its length, and its label."""
    (a, b), (c, d) = tail, head
    length = math.hypot(c - a, d - b)
    dx, dy = (c - a) / length, (d - b) / length
    x, y = (a + c) / 2 + bend * length * dy * 2, (b + d) / 2 - bend * length * dx * 2
    shapes = [arrow(tail, head, (x, y), (dot, dot), False)]
    if label:
        u, v = (a + 2 * x + c) / 4, (b + 2 * y + d) / 4
        shapes.append(circle(u, v, 8, "#ffffff", "#bbbbbb"))
        shapes.append(text_at(u, v, label, ' font-size="10"'))
    return shapes


def orders_svg(orders: list[list], name: Name = str, marked: Collection = ()) -> str:
    """Two orders of the same vertices as a permutation diagram: a line for each vertex from its place in the first
    order, above, to its place in the second; two lines cross exactly if their vertices are adjacent."""
    first, second = orders
    if not first:
        return picture(80, 40, [text_at(40, 20, "no vertex")])
    step = max(26.0, max(text_width(short(name(v))) for v in first) + 10)
    high = min(420.0, max(110.0, 9.0 * len(first)))
    below = {v: place for place, v in enumerate(second)}
    top, bottom = EDGE + 24, EDGE + 24 + high
    width = 2 * EDGE + step * len(first)
    shapes = ['<path d="M%s %sH%sM%s %sH%s" stroke="#999999"/>' % tuple(
        map(rounded, (EDGE, top, width - EDGE, EDGE, bottom, width - EDGE)))]
    for place, v in enumerate(first):
        x, y = EDGE + step * (place + 0.5), EDGE + step * (below[v] + 0.5)
        colour = "#c03030" if v in marked else "hsl(%d 55%% 40%%)" % (360 * place // len(first))
        shapes.append(titled(name(v), [
            '<path d="M%s %sL%s %s" stroke="%s" stroke-width="1.6"/>' % (
                rounded(x), rounded(top), rounded(y), rounded(bottom), colour),
            text_at(x, top - 12, short(name(v))), text_at(y, bottom + 12, short(name(v)))]))
    return picture(width, bottom + 24 + EDGE, shapes)
