"""Pictures of trees, as SVG and for Graphviz.

A tree is drawn as cards. The card of a parallel or series node holds its leaves in a block; that of a prime node holds
its quotient, a graph on its children, and that of an order node its children in their order. There leaves stand by
their names and other children by letters that stand again at their own cards. Lengths are in pixels of the picture at
its own size.
"""
from __future__ import annotations

import itertools
import math
from typing import Collection, Optional

from .rings import Ring
from .svg import ARROW_HEAD, FILL, MARKED, STROKE, Name, picture, rect, rounded, short, text_at, text_width, titled
from .trees import LETTERS, Node

MEANING = {
    "parallel": "parallel: no edge between two children",
    "series": "series: all edges between two children",
    "prime": "prime: a line joins two children with all edges between them",
}
DIRECTED_MEANING = {
    "parallel": "parallel: no arc between two children",
    "series": "series: all arcs between two children, in both directions",
    "order": "order: all arcs from earlier children to later ones",
    "prime": "prime: an arrow stands for all arcs from one child to another",
}
# The kinds whose cards show children that aren't leaves by letters.
TAGGED = ("order", "prime")

UNIT = 8  # cards are kept apart by rows of this height
# Between cards side by side; below a card with one card below it, with several; at the right of a card, and between
# cards one above the other, where the tree grows to the right.
GAP_BESIDE, GAP_ONE, GAP_MORE, GAP_RIGHT, GAP_ROW = 14, 10, 32, 30, 7
EDGE = 16
# A tree that would be wider grows to the right, where that fills less of a page.
WIDEST = 1000
MOST_IN_TITLE = 40


def letters(number: int) -> str:
    """A, B, .., Z, AA, AB, .. for 0, 1, 2, .."""
    text = ""
    number += 1
    while number:
        number, digit = divmod(number - 1, 26)
        text = chr(65 + digit) + text
    return text


class Card:
    """A node of the picture of a tree: its size, what hangs below it, and, once it is laid out, its place: `x` of its
    middle and `y` of its top edge. A card with `inner` is a frame that holds other cards, each at its place in it."""

    def __init__(self, node: Optional[Node], width: float, height: float):
        self.node, self.width, self.height = node, width, height
        self.below: list[Card] = []
        self.inner: list[Card] = []
        self.tag = ""
        self.ring: Optional[Ring] = None
        self.members: list[Node] = []
        self.labels: list[str] = []
        self.columns, self.pill = 0, 0.0
        self.x, self.y = 0.0, 0.0


def _card(node: Node, name: Name) -> Card:
    """The card of a node by itself."""
    if node.kind == "leaf":
        return Card(node, max(26.0, text_width(short(name(node.vertex))) + 12), 26)
    tags = (letters(i) for i in range(len(node.children)))
    labels = [name(child.vertex) if child.kind == "leaf" else next(tags) for child in node.children]
    if node.kind == "prime":
        ring = Ring(labels, node.pairs, node.is_directed)
        card = Card(node, ring.size + 14, ring.size + 14)
        card.ring = ring
        return card
    members = [(child, label) for child, label in zip(node.children, labels)
               if child.kind == "leaf" or node.kind == "order"]
    if not members:
        return Card(node, 28, 28)
    columns = min(len(members), max(4, math.ceil(math.sqrt(2 * len(members)))))
    pill = max(22.0, max(text_width(short(label)) for _, label in members) + 10)
    rows = math.ceil(len(members) / columns)
    card = Card(node, 26 + columns * (pill + 3) + 3, rows * 23 + 7)
    card.members, card.labels = [child for child, _ in members], [label for _, label in members]
    card.columns, card.pill = columns, pill
    return card


def _frame(cards: list[Card]) -> Card:
    """A frame round cards with nothing below them, in rows."""
    area = sum((card.width + GAP_BESIDE) * (card.height + 20) for card in cards)
    limit = max(max(card.width for card in cards), 1.6 * math.sqrt(area))
    x, y, row, width = 8.0, 14.0, 0.0, 0.0
    for card in cards:
        if x > 8 and x + card.width > limit + 8:
            x, y, row = 8.0, y + row + 16, 0.0
        card.x, card.y = x + card.width / 2, y
        x += card.width + GAP_BESIDE
        row, width = max(row, card.height), max(width, x - GAP_BESIDE + 8)
    frame = Card(None, width, y + row + 8)
    frame.inner = cards
    return frame


def _cards(tree: Node, name: Name) -> Card:
    """The cards of a tree, the root's. More than three children with nothing below them stand in a frame."""
    made: dict[int, Card] = {}
    for node in tree.postorder():
        if node.kind == "leaf" and node is not tree:
            continue
        card = made[id(node)] = _card(node, name)
        card.below = [made.pop(id(child)) for child in node.children if child.kind != "leaf"]
        if node.kind in TAGGED:
            for number, child in enumerate(card.below):
                child.tag = letters(number)
        ends = [child for child in card.below if not child.below]
        if len(ends) > 3:
            card.below = [child for child in card.below if child.below] + [_frame(ends)]
    return made[id(tree)]


def _walk(root: Card) -> list[Card]:
    """All cards that hang on one another, each before those below it."""
    cards, waiting = [], [root]
    while waiting:
        card = waiting.pop()
        cards.append(card)
        waiting.extend(card.below)
    return cards


class _Outline:
    """How far a laid-out part reaches to either side, by rows of UNIT; rows stand from the last to the root's first.
    The numbers of `low` and `high` are to be moved by `shift`."""

    __slots__ = ("low", "high", "shift")

    def __init__(self) -> None:
        self.low: list[float] = []
        self.high: list[float] = []
        self.shift = 0.0


def _beside(whole: _Outline, part: _Outline, gap: float) -> float:
    """Puts an outline beside another, from the same row on; how far it was moved for this."""
    rows = min(len(whole.low), len(part.low))
    move = max(whole.high[-1 - r] + whole.shift - part.low[-1 - r] - part.shift for r in range(rows)) + gap
    by = move + part.shift - whole.shift
    deeper = len(part.low) - len(whole.low)
    for r in range(rows):
        whole.high[-1 - r] = part.high[-1 - r] + by
    if deeper > 0:
        whole.low[:0] = [x + by for x in part.low[:deeper]]
        whole.high[:0] = [x + by for x in part.high[:deeper]]
    return move


def _lay_out(root: Card, sideways: bool) -> tuple[float, float]:
    """Gives each card its place; the width and the height of the whole, which grows down, or to the right. Parts stand
    as close together as their outlines let them. A card stands at the middle of those that hang on it, or at one of
    them that is far deeper than the others."""
    cards = _walk(root)
    begin: dict[int, int] = {id(root): 0}
    rows: dict[int, int] = {}
    for card in cards:
        gap = GAP_RIGHT if sideways else GAP_ONE if len(card.below) < 2 and not card.ring else GAP_MORE
        rows[id(card)] = math.ceil(((card.width if sideways else card.height) + gap) / UNIT)
        for child in card.below:
            begin[id(child)] = begin[id(card)] + rows[id(card)]
    moved: dict[int, float] = {}
    outlines: dict[int, _Outline] = {}
    for card in reversed(cards):
        whole, at = _Outline(), 0.0
        if card.below:
            parts = [outlines.pop(id(child)) for child in card.below]
            depths = [len(part.low) for part in parts]
            whole = parts[0]
            moves = [0.0] + [_beside(whole, part, GAP_ROW if sideways else GAP_BESIDE) for part in parts[1:]]
            deepest = depths.index(max(depths))
            alone = 2 * max(depths[:deepest] + depths[deepest + 1:], default=0) < depths[deepest]
            at = moves[deepest] if alone else (moves[0] + moves[-1]) / 2
            for child, move in zip(card.below, moves):
                moved[id(child)] = move - at
        whole.shift -= at
        half = (card.height if sideways else card.width) / 2
        whole.low.extend([-half - whole.shift] * rows[id(card)])
        whole.high.extend([half - whole.shift] * rows[id(card)])
        outlines[id(card)] = whole
    whole = outlines[id(root)]
    low = min(whole.low) + whole.shift
    moved[id(root)] = EDGE - low
    middles = {id(root): 0.0}
    for card in cards:
        middle = middles[id(card)] = middles[id(card)] + moved[id(card)]
        middles.update((id(child), middle) for child in card.below)
        start = EDGE + UNIT * begin[id(card)]
        card.x, card.y = (start + card.width / 2, middle - card.height / 2) if sideways else (middle, start)
    across = max(whole.high) + whole.shift - low + 2 * EDGE
    if sideways:
        return max(card.x + card.width / 2 for card in cards) + EDGE, across
    return across, max(card.y + card.height for card in cards) + EDGE


def _lay_out_well(root: Card) -> tuple[float, float, bool]:
    """Lays out the cards the way that fills less of a page: width, height, and whether it grows to the right."""
    width, height = _lay_out(root, False)
    if width > WIDEST:
        wide, high = _lay_out(root, True)
        if max(1.4 * wide, high) < max(1.4 * width, height):
            return wide, high, True
        _lay_out(root, False)
    return width, height, False


def vertices_below(tree: Node, name: Name) -> dict[int, str]:
    """For each inner node the title of its card: its kind and its vertices, cut where there are many."""
    titles: dict[int, str] = {}
    found: dict[int, tuple[int, list[str]]] = {}
    for node in tree.postorder():
        if node.kind == "leaf":
            found[id(node)] = (1, [name(node.vertex)])
            continue
        count, some = 0, []
        for child in node.children:
            number, names = found.pop(id(child))
            count += number
            some.extend(names[:MOST_IN_TITLE - len(some)])
        found[id(node)] = (count, some)
        titles[id(node)] = "%s, %d vertices: %s%s" % (
            node.kind, count, " ".join(some), " …" if count > len(some) else "")
    return titles


class _Drawer:
    """Draws laid-out cards."""

    def __init__(self, tree: Node, name: Name, marked: Collection, sideways: bool):
        self.name, self.marked, self.sideways = name, marked, sideways
        self.titles = vertices_below(tree, name)
        self.lines: list[str] = []
        self.shapes: list[str] = []

    def fill(self, node: Node) -> str:
        return MARKED if node.kind == "leaf" and node.vertex in self.marked else FILL[node.kind]

    def card(self, card: Card, above: bool = False) -> None:
        """A card, and the curves from it to those below it; `above` puts its tag above it in any case."""
        for child in card.below:
            self.curve(card, child)
        if card.inner:
            left = card.x - card.width / 2
            self.shapes.append(rect(left, card.y, card.width, card.height, 8, "none", "#999999",
                                     ' stroke-dasharray="3 3"'))
            for inner in card.inner:
                inner.x, inner.y = inner.x + left, inner.y + card.y
                self.card(inner, above=True)
            return
        node = card.node
        if card.tag:
            self.tag(card, above or not self.sideways)
        if node.kind == "leaf":
            self.pill(node, self.name(node.vertex), card.x, card.y + card.height / 2, card.width, card.height)
        elif card.ring:
            self.quotient(card)
        else:
            self.block(card)

    def tag(self, card: Card, above: bool) -> None:
        """The letter by which the quotient above names a card, beside the end of the curve from there."""
        left = card.x - card.width / 2
        x, y = (left + 12, card.y - 3) if above else (left - 3, card.y + card.height / 2 - 3)
        self.shapes.append('<text x="%s" y="%s" text-anchor="end" font-size="11" fill="%s">%s</text>' % (
            rounded(x), rounded(y), STROKE["prime"], card.tag))

    def curve(self, card: Card, child: Card) -> None:
        """A curve from a card to one that hangs on it."""
        if self.sideways:
            x, y = card.x + card.width / 2, card.y + card.height / 2
            u, v = child.x - child.width / 2, child.y + child.height / 2
            bends = (x + 0.6 * (u - x), y, u - 0.6 * (u - x), v)
        else:
            x, y, u, v = card.x, card.y + card.height, child.x, child.y
            bends = (x, y + 0.6 * (v - y), u, v - 0.6 * (v - y))
        self.lines.append('<path d="M%s %sC%s %s %s %s %s %s" fill="none" stroke="#888888"/>' % tuple(
            map(rounded, (x, y, *bends, u, v))))

    def pill(self, node: Node, label: str, x: float, y: float, width: float, height: float) -> None:
        """A leaf by its name, or another child of an order node by its letter."""
        title = self.name(node.vertex) if node.kind == "leaf" else self.titles[id(node)]
        self.shapes.append(titled(title, [
            rect(x - width / 2, y - height / 2, width, height, height / 2, self.fill(node), STROKE[node.kind]),
            text_at(x, y, short(label))]))

    def block(self, card: Card) -> None:
        """The card of a parallel, series or order node: its letter, and its leaves, or children, in rows."""
        node, left = card.node, card.x - card.width / 2
        letter = left + 14 if card.members else card.x
        self.shapes.append(titled(self.titles[id(node)], [
            rect(left, card.y, card.width, card.height, 14, self.fill(node), STROKE[node.kind]),
            text_at(letter, card.y + card.height / 2, LETTERS[node.kind], ' font-weight="bold"')]))
        for number, (child, label) in enumerate(zip(card.members, card.labels)):
            row, column = divmod(number, card.columns)
            self.pill(child, label, left + 26 + column * (card.pill + 3) + card.pill / 2, card.y + 4 + row * 23 + 11,
                      card.pill, 21)

    def quotient(self, card: Card) -> None:
        """The card of a prime node: a graph on its children."""
        node, ring, left = card.node, card.ring, card.x - card.width / 2
        self.shapes.append(titled(self.titles[id(node)], [
            rect(left, card.y, card.width, card.height, 12, self.fill(node), STROKE["prime"]),
            text_at(left + 12, card.y + 12, LETTERS["prime"], ' font-weight="bold"')]))
        x, y = card.x, card.y + card.height / 2
        self.shapes.extend(ring.lines(x, y, STROKE["prime"]))
        for number, child in enumerate(node.children):
            title = self.name(child.vertex) if child.kind == "leaf" else self.titles[id(child)]
            tagged = child.kind != "leaf"
            self.shapes.append(ring.vertex(number, x, y, self.fill(child), STROKE[child.kind], title, tagged))


def _legend(tree: Node, tagged: bool, marked: bool, y: float) -> tuple[list[str], float, float]:
    """The shapes of a legend from y down, its width and its height."""
    kinds = {node.kind for node in tree}
    meaning = DIRECTED_MEANING if tree.is_directed else MEANING
    rows = [(FILL[kind], STROKE[kind], LETTERS[kind], meaning[kind]) for kind in meaning if kind in kinds]
    if tagged:
        parent = "an order or prime node" if tree.is_directed else "a prime node"
        rows.append((FILL["leaf"], "none", "A", "a child of %s that stands again below" % parent))
    if marked:
        rows.append((MARKED, STROKE["leaf"], "", "marked"))
    shapes = []
    for number, (fill, stroke, letter, meaning) in enumerate(rows):
        middle = y + 9 + 18 * number
        shapes.append(rect(EDGE, middle - 7, 14, 14, 4, fill, stroke))
        shapes.append(text_at(EDGE + 7, middle - 0.5, letter, ' font-size="10"'))
        shapes.append(text_at(EDGE + 22, middle - 0.5, meaning, ' font-size="11" text-anchor="start" fill="#444444"'))
    width = 2 * EDGE + 22 + max((text_width(row[3], 11) for row in rows), default=0)
    return shapes, width, 18 * len(rows) + (EDGE if rows else 0)


def tree_svg(tree: Optional[Node], name: Name = str, marked: Collection = (), legend: bool = True) -> str:
    """A tree as an SVG picture; None is the tree of the graph without vertices. `name` gives the text of a vertex;
    the vertices of `marked` are red; `legend` says what the kinds of nodes mean."""
    if tree is None:
        return picture(80, 40, [text_at(40, 20, "empty")])
    root = _cards(tree, name)
    width, height, sideways = _lay_out_well(root)
    drawer = _Drawer(tree, name, marked, sideways)
    tagged = False
    for card in _walk(root):
        tagged = tagged or bool(card.below) and card.node.kind in TAGGED
        drawer.card(card)
    shapes = ([ARROW_HEAD] if tree.is_directed else []) + drawer.lines + drawer.shapes
    if legend:
        some_marked = any(v in marked for v in tree.leaves())
        more, wide, high = _legend(tree, tagged, some_marked, height)
        if wide > width:
            shapes = ['<g transform="translate(%s 0)">' % rounded((wide - width) / 2), *shapes, "</g>"]
        shapes, width, height = shapes + more, max(width, wide), height + high
    return picture(width, height, shapes)


def tree_dot(tree: Optional[Node], marked: Collection = (), name: Name = str) -> str:
    """A tree in the language of Graphviz. A prime node has its pairs of children in it, the first 12; the children of
    an order node stand in their order."""
    nodes = [] if tree is None else list(tree)
    place = {id(node): i for i, node in enumerate(nodes)}
    lines = ["graph tree {", "  node [style=filled];"]
    for node in nodes:
        label, shape = name(node.vertex) if node.kind == "leaf" else LETTERS[node.kind], ""
        if node.kind == "prime":
            pairs = list(itertools.islice(node.pair_texts(), 12))
            more = ["(%d in all)" % len(node.pairs)] if len(node.pairs) > 12 else []
            label, shape = "R\\n" + " ".join(pairs + more), ", shape=box"
        if node.kind == "order":
            shape = ", ordering=out"
        fill = MARKED if node.kind == "leaf" and node.vertex in marked else FILL[node.kind]
        lines.append('  n%d [label="%s", fillcolor="%s"%s];' % (
            place[id(node)], label.replace('"', '\\"'), fill, shape))
    for node in nodes:
        lines.extend("  n%d -- n%d;" % (place[id(node)], place[id(child)]) for child in node.children)
    return "\n".join(lines + ["}", ""])
