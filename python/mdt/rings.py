"""Small graphs with their vertices on a circle."""
from __future__ import annotations

import math
from typing import Collection, Optional
from xml.sax.saxutils import escape

from .svg import Place, arrow, circle, rounded, short, text_at, text_width, titled, ways

# A ring shows names inside its circles up to the first number of vertices, beside its dots up to the second, and
# its lines up to the third number of pairs. Up to the last number of vertices their order is bettered.
MOST_INSIDE, MOST_NAMED, MOST_PAIRS, MOST_ORDERED = 30, 240, 6000, 40


def ring_order(count: int, pairs: Collection[tuple[int, int]]) -> list[int]:
    """An order of the vertices 0 .. count - 1 round a circle in which edges are short: a walk along edges, bettered by
    exchanges of two vertices where there are few."""
    near: list[list[int]] = [[] for _ in range(count)]
    for i, j in pairs:
        near[i].append(j)
        near[j].append(i)
    order, seen = [], [False] * count
    for start in sorted(range(count), key=lambda v: len(near[v])):
        waiting = [start]
        while waiting:
            v = waiting.pop()
            if not seen[v]:
                seen[v] = True
                order.append(v)
                waiting.extend(sorted((w for w in near[v] if not seen[w]), key=lambda w: -len(near[w])))
    if count <= MOST_ORDERED:
        _shorten(order, near)
    start = order.index(0)
    return order[start:] + order[:start]


def _shorten(order: list[int], near: list[list[int]]) -> None:
    count = len(order)
    place = {v: i for i, v in enumerate(order)}

    def length(v: int) -> int:
        steps = (abs(place[v] - place[w]) for w in near[v])
        return sum(min(step, count - step) for step in steps)

    for _ in range(8):
        better = False
        for i in range(count):
            for j in range(i + 1, count):
                u, v = order[i], order[j]
                before = length(u) + length(v)
                place[u], place[v] = j, i
                if length(u) + length(v) < before:
                    order[i], order[j], better = v, u, True
                else:
                    place[u], place[v] = i, j
        if not better:
            return


class Ring:
    """A graph drawn on a circle, or a directed graph: `size` is the side of the square that it fills."""

    def __init__(self, labels: list[str], pairs: Collection[tuple[int, int]], is_directed: bool = False):
        self.labels, self.pairs, self.is_directed = [short(label) for label in labels], pairs, is_directed
        count, longest = len(labels), max(map(len, self.labels))
        self.inside = count <= MOST_INSIDE and longest <= 3
        self.named = count <= MOST_NAMED
        self.dot = max(9.5, 3.4 * longest + 3.5) if self.inside else 4 if self.named else 2
        step = 2 * self.dot + 7 if self.inside else 11 if self.named else 4
        self.radius = max(27.0, min(420.0, count * step / (2 * math.pi)))
        beside = 0 if self.inside else 6 + text_width("m" * (longest if self.named else 2), 10)
        self.size = 2 * (self.radius + self.dot + beside)
        self.turn = [0] * count
        self.angle = [0.0] * count
        for place, v in enumerate(ring_order(count, pairs)):
            self.turn[v], self.angle[v] = place, 2 * math.pi * place / count

    def steps(self, i: int, j: int) -> int:
        """How far two vertices are from each other, round the circle."""
        steps = abs(self.turn[i] - self.turn[j])
        return min(steps, len(self.turn) - steps)

    def place(self, v: int, x: float, y: float, radius: Optional[float] = None) -> Place:
        """The place of a vertex where the middle is x, y."""
        r = self.radius if radius is None else radius
        return x + r * math.sin(self.angle[v]), y - r * math.cos(self.angle[v])

    def lines(self, x: float, y: float, colour: str) -> list[str]:
        """The edges, as one path. Those between vertices that aren't neighbours on a large circle bend inward, so that
        none seems to go through others."""
        if len(self.pairs) > MOST_PAIRS:
            return [text_at(x, y, "%d children, %d pairs" % (len(self.labels), len(self.pairs)))]
        thin = 1.2 if len(self.pairs) < 150 else 0.6
        if self.is_directed:
            more = ' stroke="%s" stroke-width="%g"' % (colour, thin)
            return [arrow(self.place(i, x, y), self.place(j, x, y), self.control(i, j, x, y), (self.dot,) * 2, both,
                          more) for i, j, both in ways(self.pairs)]
        parts = []
        for i, j in self.pairs:
            ends = self.place(i, x, y), self.place(j, x, y)
            if self.is_bent(i, j):
                parts.append("M%s %sQ%s %s %s %s" % tuple(
                    map(rounded, (*ends[0], *self.control(i, j, x, y), *ends[1]))))
            else:
                parts.append("M%s %sL%s %s" % tuple(map(rounded, ends[0] + ends[1])))
        return ['<path d="%s" fill="none" stroke="%s" stroke-width="%g"/>' % ("".join(parts), colour, thin)]

    def is_bent(self, i: int, j: int) -> bool:
        """Whether the line of two vertices bends inward."""
        far = self.radius * abs(math.cos((self.angle[i] - self.angle[j]) / 2))
        return self.steps(i, j) > 1 and far > self.radius - 3 * self.dot and len(self.labels) >= 7

    def control(self, i: int, j: int, x: float, y: float) -> Place:
        """The point towards which the line of two vertices bends: its middle where it is straight."""
        (a, b), (c, d) = self.place(i, x, y), self.place(j, x, y)
        u, v = (a + c) / 2 - x, (b + d) / 2 - y
        if not self.is_bent(i, j):
            return x + u, y + v
        far = math.hypot(u, v)
        bend = (2 * (self.radius - 3 * self.dot) - far) / far
        return x + bend * u, y + bend * v

    def vertex(self, v: int, x: float, y: float, fill: str, stroke: str, title: str, tagged: bool) -> str:
        """The circle or dot of a vertex, and its name; a tagged one has it also where there are too many for names."""
        u, w = self.place(v, x, y)
        shapes = [circle(u, w, self.dot, fill, stroke)]
        if self.inside:
            shapes.append(text_at(u, w, self.labels[v]))
        elif self.named or tagged:
            a, b = self.place(v, x, y, self.radius + self.dot + 3)
            left = self.angle[v] > math.pi
            turned = math.degrees(self.angle[v]) - 90 + (180 if left else 0)
            shapes.append('<text transform="translate(%s %s) rotate(%s)" dy="3.5" font-size="10" text-anchor="%s">%s'
                          "</text>" % (rounded(a), rounded(b), rounded(turned), "end" if left else "start",
                                       escape(self.labels[v])))
        return titled(title, shapes)
