"""Shapes of SVG as texts, with numbers of one decimal. Lengths are in pixels of a picture at its own size."""
from __future__ import annotations

import math
from typing import Any, Callable, Iterable, Iterator
from xml.sax.saxutils import escape

FILL = {"parallel": "#dbe9f6", "series": "#fde3c8", "order": "#ece2f5", "prime": "#e3f2da", "leaf": "#ffffff"}
STROKE = {"parallel": "#5b87b0", "series": "#c68a43", "order": "#8a63ad", "prime": "#5a8f3d", "leaf": "#555555"}
MARKED = "#f4b6b6"
FONT = 12
LONGEST_NAME = 16

# The text of a vertex.
Name = Callable[[Any], str]
Place = tuple[float, float]

# What an arrow needs in its picture: the head, for both ends.
ARROW_HEAD = ('<defs><marker id="head" viewBox="0 0 8 8" refX="8" refY="4" markerWidth="8" markerHeight="8" '
              'markerUnits="userSpaceOnUse" orient="auto-start-reverse"><path d="M0 0L8 4L0 8z" fill="#444444"/>'
              "</marker></defs>")


def rounded(x: float) -> str:
    return "%g" % round(x, 1)


def text_width(text: str, font: float = FONT) -> float:
    """About the width of a text."""
    return 0.58 * font * len(text)


def short(text: str) -> str:
    return text if len(text) <= LONGEST_NAME else text[:LONGEST_NAME - 1] + "…"


def text_at(x: float, y: float, text: str, more: str = "") -> str:
    """A text whose middle is at x, y."""
    return '<text x="%s" y="%s"%s>%s</text>' % (rounded(x), rounded(y + 0.35 * FONT), more, escape(text))


def titled(title: str, shapes: Iterable[str]) -> str:
    return "<g><title>%s</title>%s</g>" % (escape(title), "".join(shapes))


def circle(x: float, y: float, r: float, fill: str, stroke: str, more: str = "") -> str:
    return '<circle cx="%s" cy="%s" r="%s" fill="%s" stroke="%s"%s/>' % (
        rounded(x), rounded(y), rounded(r), fill, stroke, more)


def rect(x: float, y: float, w: float, h: float, r: float, fill: str, stroke: str, more: str = "") -> str:
    return '<rect x="%s" y="%s" width="%s" height="%s" rx="%s" fill="%s" stroke="%s"%s/>' % (
        rounded(x), rounded(y), rounded(w), rounded(h), rounded(r), fill, stroke, more)


def ways(pairs: Iterable[tuple[int, int]]) -> Iterator[tuple[int, int, bool]]:
    """Each pair, and whether it stands there the other way round too; such a pair once."""
    there = set(pairs)
    for i, j in pairs:
        if i < j or (j, i) not in there:
            yield i, j, (j, i) in there


def arrow(tail: Place, head: Place, control: Place, radii: tuple[float, float], both: bool, more: str = "") -> str:
    """An arrow between the edges of two circles with these middles and radii, which bends towards a point; `both` has a
    head at either end."""

    def edge_of(middle: Place, radius: float) -> Place:
        (u, v), (x, y) = middle, control
        far = math.hypot(x - u, y - v) or 1.0
        return u + (x - u) / far * radius, v + (y - v) / far * radius

    ends = (*edge_of(tail, radii[0]), *control, *edge_of(head, radii[1]))
    return '<path d="M%s %sQ%s %s %s %s" fill="none"%s%s marker-end="url(#head)"/>' % (
        *map(rounded, ends), more or ' stroke="#444444"', ' marker-start="url(#head)"' if both else "")


def picture(width: float, height: float, shapes: Iterable[str]) -> str:
    """The text of an SVG picture of this size."""
    head = ('<svg xmlns="http://www.w3.org/2000/svg" viewBox="0 0 {0} {1}" width="{0}" height="{1}" '
            'font-family="sans-serif" font-size="{2}" text-anchor="middle">').format(
                rounded(width), rounded(height), FONT)
    return "\n".join([head, '<rect width="100%" height="100%" fill="#ffffff"/>', *shapes, "</svg>", ""])
