"""Alterings of reports, for checks.py: texts that are a report but for one thing.

An altering of a line takes a random source, the text of the line without its line feed, and the place where it stands;
it gives another text, or None where it has nothing to do there. What it gives may be right, too.
"""
import re

from mdt.reports import BARS
from mdt.trees import LETTERS, ReportError, parse_tree
from mdt.verify import force_each_other

MODES = ("tree", "dtree", "compare", "shortest", "permute", *BARS)
REASONS = ("same", "vertex %d", "taken %d", "edge-there", "edge-absent", "undo",
           "p4 %d %d %d %d", "c4 %d %d %d %d", "2k2 %d %d %d %d")

NUMBER = re.compile(r"(?<![a-z0-9])[0-9]+(?![a-z0-9])")
TOKEN = re.compile(r"2k2|[0-9]+|[A-Za-z][a-z0-9-]*|.", re.DOTALL)
BAR = re.compile(r"(.*?)(p4|c4|2k2) (\d+ \d+ \d+ \d+)")
ARCS = re.compile(r"(yes|no|no g|no c)((?: [0-9]+>[0-9]+)+)")
ORDERS = re.compile(r"yes((?: [0-9]+)*) /((?: [0-9]+)*)")
TREE = re.compile(r"(t|ok) (.+)")
REFUSED = re.compile(r"no (?:edit \d+ )?(.+)")


class Place:
    """A line of a report: the mode, all lines, which one it is, whether a text may stand there, and the graph that the
    line tells of, where each line tells of one of a file."""

    def __init__(self, mode, lines, at, fits, graph):
        self.mode, self.lines, self.at, self.fits, self.graph = mode, lines, at, fits, graph


def replaced(text, found, by):
    return text[:found.start()] + by + text[found.end():]


def drawn(r, pattern, text):
    """One of the places where a text has a pattern, None where it hasn't."""
    found = list(pattern.finditer(text))
    return r.choice(found) if found else None


# Any line

def number_changed(r, text, there):
    found = drawn(r, NUMBER, text)
    if found is None:
        return None
    number = int(found[0])
    return replaced(text, found, str(r.choice([number + 1, max(0, number - 1), r.randrange(14)])))


def numbers_exchanged(r, text, there):
    found = list(NUMBER.finditer(text))
    if len({it[0] for it in found}) < 2:
        return None
    a, b = sorted(r.sample(range(len(found)), 2))
    return replaced(replaced(text, found[b], found[a][0]), found[a], found[b][0])


def number_behind_zero(r, text, there):
    found = drawn(r, NUMBER, text)
    return found and replaced(text, found, r.choice(["0", "00"]) + found[0])


def number_too_large(r, text, there):
    """A number that another one becomes in fewer bits, or that no name is."""
    found = drawn(r, NUMBER, text)
    return found and replaced(text, found, str(int(found[0]) + r.choice([4096, 16384, 1 << 16, 1 << 32, 1 << 64])))


def number_with_sign(r, text, there):
    found = drawn(r, NUMBER, text)
    return found and replaced(text, found, r.choice("+-") + found[0])


def number_otherwise(r, text, there):
    """A number with a byte that is a digit elsewhere, or as no program here writes it."""
    found = drawn(r, NUMBER, text)
    return found and replaced(text, found, r.choice([found[0] + ".0", "0x" + found[0], "\xb2", found[0] + "_0", ""]))


def tokens_of(text):
    return TOKEN.findall(text)


def token_dropped(r, text, there):
    tokens = tokens_of(text)
    at = r.randrange(len(tokens))
    return "".join(tokens[:at] + tokens[at + 1:])


def token_twice(r, text, there):
    tokens = tokens_of(text)
    at = r.randrange(len(tokens))
    return "".join(tokens[:at + 1] + tokens[at:])


def tokens_exchanged(r, text, there):
    tokens = tokens_of(text)
    a, b = sorted(r.sample(range(len(tokens)), 2)) if len(tokens) > 1 else (0, 0)
    tokens[a], tokens[b] = tokens[b], tokens[a]
    return "".join(tokens)


def token_of_another_line(r, text, there):
    tokens = tokens_of(text)
    tokens.insert(r.randrange(len(tokens) + 1), r.choice(tokens_of(r.choice(there.lines))))
    return "".join(tokens)


def word_dropped(r, text, there):
    words = text.split(" ")
    del words[r.randrange(len(words))]
    return " ".join(words)


def word_twice(r, text, there):
    words = text.split(" ")
    at = r.randrange(len(words))
    return " ".join(words[:at + 1] + words[at:])


def words_exchanged(r, text, there):
    words = text.split(" ")
    if len(words) < 2:
        return None
    at = r.randrange(len(words) - 1)
    words[at:at + 2] = words[at + 1], words[at]
    return " ".join(words)


def first_word_changed(r, text, there):
    words = ("t", "ok", "yes", "no", "no g", "no c", "mdt", "p4", "c4", "2k2", "no edit 1", "no edit", "no p4", "")
    return " ".join([r.choice(words), *text.split(" ")[1:]])


def last_word_alone(r, text, there):
    return text.split(" ")[-1]


def first_word_alone(r, text, there):
    return text.split(" ")[0]


def space_added(r, text, there):
    at = r.choice([0, len(text), *(found.end() for found in TOKEN.finditer(text))])
    return text[:at] + " " + text[at:]


def other_space(r, text, there):
    found = drawn(r, re.compile(" "), text)
    return replaced(text, found, r.choice(["\t", "", "  ", "\xa0", ","])) if found else text + "\t"


def carriage_return_added(r, text, there):
    return text + "\r"


def letter_turned(r, text, there):
    found = drawn(r, re.compile("[A-Za-z]"), text)
    return found and replaced(text, found, found[0].swapcase())


def byte_changed(r, text, there):
    at = r.randrange(len(text))
    return text[:at] + r.choice("0123456789,();>-/ PSORtnokyesgc\n\0\xff") + text[at + 1:]


def byte_dropped(r, text, there):
    at = r.randrange(len(text))
    return text[:at] + text[at + 1:]


def byte_added(r, text, there):
    at = r.randrange(len(text) + 1)
    return text[:at] + r.choice("019,();>-/ \0\xff\n") + text[at:]


def another_line(r, text, there):
    return r.choice(there.lines)


def cut_off(r, text, there):
    return text[:r.randrange(len(text))]


def two_in_one(r, text, there):
    return text + r.choice(["", " ", ","]) + r.choice(there.lines)


def another_head(r, text, there):
    return "mdt " + r.choice([mode for mode in (*MODES, "edges", "big") if mode != there.mode])


def early_end(r, text, there):
    return r.choice(["end", "end.", "End", "ends"])


def another_answer(r, text, there):
    """A line of the answer to an item, of any kind, with numbers at random."""
    answer = r.choice(REASONS)
    lead = r.choice(["no ", "no ", "no edit %d " % r.randrange(4), ""])
    return lead + answer % tuple(r.sample(range(9), answer.count("%")))


ANY = [number_changed, numbers_exchanged, number_behind_zero, number_too_large, number_with_sign, number_otherwise,
       token_dropped, token_twice, tokens_exchanged, token_of_another_line, word_dropped, word_twice, words_exchanged,
       first_word_changed, last_word_alone, first_word_alone, space_added, other_space, carriage_return_added,
       letter_turned, byte_changed, byte_dropped, byte_added, another_line, cut_off, two_in_one, another_head,
       early_end, another_answer]


# Trees. Each takes a tree apart, changes a node of it and writes it again.

def of_tree(change):
    def altering(r, text, there):
        lead, spelled = TREE.fullmatch(text).groups()
        try:
            tree = parse_tree(spelled, directed=there.mode == "dtree")
        except ReportError:
            return None
        if tree is None:
            return lead + " " + r.choice(["0", "P(0,1)", "P()", "Empty", "none"])
        changed = change(r, tree)
        return changed and "%s %s" % (lead, changed)

    altering.__name__ = change.__name__
    return altering


def inner_node(r, tree, kinds=("parallel", "series", "order", "prime"), least=1):
    """An inner node of a tree of one of these kinds and with so many children, None where it has none."""
    nodes = [node for node in tree if node.kind in kinds and len(node.children) >= least]
    return r.choice(nodes) if nodes else None


def new_node(like, kind, children):
    node = type(like)(kind)
    node.children = children
    return node


def become_prime(node):
    """A prime node with the pairs that the node has by its kind, at least one."""
    node.pairs = node.joined() or [(0, 1)]
    node.kind = "prime"


def kind_changed(r, tree):
    node = inner_node(r, tree)
    if node is None:
        return None
    kind = r.choice([kind for kind in LETTERS if kind != node.kind and (tree.is_directed or kind != "order")])
    if kind == "prime":
        become_prime(node)
    else:
        node.kind = kind
    return tree


def renumbered(node, order):
    """Puts the children in another order, and the pairs with them."""
    place = {old: new for new, old in enumerate(order)}
    node.children = [node.children[old] for old in order]
    pairs = [(place[i], place[j]) for i, j in node.pairs]
    node.pairs = sorted(pairs if node.is_directed else [(min(p), max(p)) for p in pairs])


def children_exchanged(r, tree):
    node = inner_node(r, tree, least=2)
    if node is None:
        return None
    a, b = r.sample(range(len(node.children)), 2)
    node.children[a], node.children[b] = node.children[b], node.children[a]
    return tree


def children_in_another_order(r, tree):
    """The same graph, its children not by their least names."""
    node = inner_node(r, tree, least=2)
    if node is None:
        return None
    renumbered(node, r.sample(range(len(node.children)), len(node.children)))
    return tree


def child_dropped(r, tree):
    node = inner_node(r, tree)
    if node is None:
        return None
    del node.children[r.randrange(len(node.children))]
    return tree


def child_twice(r, tree):
    node = inner_node(r, tree)
    if node is None:
        return None
    at = r.randrange(len(node.children))
    node.children.insert(at, node.children[at])
    return tree


def children_grouped(r, tree):
    """Two neighbouring children under a node of their own, of the kind of their parent: the same graph."""
    node = inner_node(r, tree, least=3)
    if node is None:
        return None
    at = r.randrange(len(node.children) - 1)
    kind = node.kind if node.kind != "prime" else r.choice(["parallel", "series"])
    node.children[at:at + 2] = [new_node(tree, kind, node.children[at:at + 2])]
    node.pairs = sorted({(i - (i > at), j - (j > at)) for i, j in node.pairs} - {(at, at)})
    return tree


def child_opened(r, tree):
    """The children of an inner child in the place of it."""
    nodes = [node for node in tree if any(child.children for child in node.children)]
    if not nodes:
        return None
    node = r.choice(nodes)
    at = r.choice([i for i, child in enumerate(node.children) if child.children])
    node.children[at:at + 1] = node.children[at].children
    return tree


def leaf_wrapped(r, tree):
    leaf = r.choice([node for node in tree if node.kind == "leaf"])
    inner = type(tree)("leaf", leaf.vertex)
    leaf.kind, leaf.children, leaf.vertex = r.choice(["parallel", "series", "prime"]), [inner], None
    return tree


def leaves_exchanged(r, tree):
    leaves = [node for node in tree if node.kind == "leaf"]
    if len(leaves) < 2:
        return None
    a, b = r.sample(leaves, 2)
    a.vertex, b.vertex = b.vertex, a.vertex
    return tree


def leaf_renamed(r, tree):
    leaf = r.choice([node for node in tree if node.kind == "leaf"])
    leaf.vertex = r.choice([r.randrange(12), 4095, 4096, 16383, 16384])
    return tree


def pair_dropped(r, tree):
    node = inner_node(r, tree, ["prime"])
    if node is None:
        return None
    del node.pairs[r.randrange(len(node.pairs))]
    return tree


def pair_added(r, tree):
    node = inner_node(r, tree, ["prime"])
    if node is None:
        return None
    places = range(len(node.children) + 1)
    pair = (r.choice(places), r.choice(places))
    node.pairs = sorted([*node.pairs, pair if r.random() < .5 else tuple(sorted(pair))])
    return tree


def pair_turned(r, tree):
    node = inner_node(r, tree, ["prime"])
    if node is None:
        return None
    at = r.randrange(len(node.pairs))
    node.pairs[at] = node.pairs[at][::-1]
    return tree


def pairs_exchanged(r, tree):
    node = inner_node(r, tree, ["prime"])
    if node is None or len(node.pairs) < 2:
        return None
    at = r.randrange(len(node.pairs) - 1)
    node.pairs[at:at + 2] = node.pairs[at + 1], node.pairs[at]
    return tree


def pairs_given(r, tree):
    """A node with the pairs that it has by its kind, which aren't written."""
    node = inner_node(r, tree, ["parallel", "series", "order"])
    if node is None:
        return None
    become_prime(node)
    letter = r.choice("PSR")
    return str(tree).replace("R(", letter + "(") if letter != "R" else tree


def complement(r, tree):
    """The tree of the complement: the kinds exchanged, the other pairs."""
    for node in tree:
        count = range(len(node.children))
        node.kind = {"parallel": "series", "series": "parallel"}.get(node.kind, node.kind)
        node.pairs = [(i, j) for i in count for j in count if node.kind == "prime"
                      and (i != j if tree.is_directed else i < j) and (i, j) not in node.pairs]
    return tree


def turned_order(r, tree):
    node = inner_node(r, tree)
    if node is None:
        return None
    node.children.reverse()
    return tree


def all_below_one(r, tree):
    """A node over all leaves."""
    return new_node(tree, r.choice(["parallel", "series"]), [type(tree)("leaf", v) for v in sorted(tree.leaves())])


def another_text_of_pairs(r, tree):
    return re.sub(r"(?<=\d)[->](?=\d)", r.choice(["-", ">", "<", "--", ":"]), str(tree), count=r.choice([0, 1]))


OF_TREES = [of_tree(change) for change in (
    kind_changed, children_exchanged, children_in_another_order, child_dropped, child_twice, children_grouped,
    child_opened, leaf_wrapped, leaves_exchanged, leaf_renamed, pair_dropped, pair_added, pair_turned, pairs_exchanged,
    pairs_given, complement, turned_order, all_below_one, another_text_of_pairs)]


# Induced subgraphs on four vertices

def bar_parts(text):
    lead, kind, names = BAR.fullmatch(text).groups()
    return lead, kind, names.split(" ")


def bar_turned(r, text, there):
    lead, kind, names = bar_parts(text)
    return " ".join([lead + kind, *names[::-1]])


def bar_rotated(r, text, there):
    lead, kind, names = bar_parts(text)
    return " ".join([lead + kind, *names[1:], names[0]])


def bar_in_another_order(r, text, there):
    lead, kind, names = bar_parts(text)
    return " ".join([lead + kind, *r.sample(names, 4)])


def edges_exchanged(r, text, there):
    lead, kind, names = bar_parts(text)
    return " ".join([lead + kind, *names[2:], *names[:2]])


def another_kind_of_bar(r, text, there):
    lead, kind, names = bar_parts(text)
    return " ".join([lead + r.choice([it for it in ("p4", "c4", "2k2", "p3", "k4") if it != kind]), *names])


def name_twice(r, text, there):
    lead, kind, names = bar_parts(text)
    names[r.randrange(4)] = r.choice(names)
    return " ".join([lead + kind, *names])


def another_bar(r, text, there):
    """One that may stand there, where one of some that are drawn may."""
    lead, _, _ = bar_parts(text)
    for _ in range(60):
        names = r.sample(range(9), 4)
        kind = r.choice(("p4", "c4", "2k2"))
        if kind == "2k2":
            names = [it for edge in sorted([sorted(names[:2]), sorted(names[2:])]) for it in edge]
        other = " ".join([lead + kind, *map(str, names)])
        if other != text and there.fits(other):
            break
    return other


def bar_without_its_lead(r, text, there):
    lead, kind, names = bar_parts(text)
    return " ".join([r.choice([it for it in ("", "no ", "no edit 1 ", "no edit 2 ") if it != lead]) + kind, *names])


OF_BARS = [bar_turned, bar_rotated, bar_in_another_order, edges_exchanged, another_kind_of_bar, name_twice, another_bar,
           bar_without_its_lead]


# Lists of arcs

def arcs_of(text):
    lead, arcs = ARCS.fullmatch(text).groups()
    return lead, [tuple(map(int, arc.split(">"))) for arc in arcs.split()]


def arcs_text(lead, arcs, between=">"):
    return " ".join([lead, *("%d%s%d" % (u, between, v) for u, v in arcs)])


def arc_turned(r, text, there):
    lead, arcs = arcs_of(text)
    at = r.randrange(len(arcs))
    arcs[at] = arcs[at][::-1]
    return arcs_text(lead, arcs)


def arcs_turned(r, text, there):
    lead, arcs = arcs_of(text)
    return arcs_text(lead, [arc[::-1] for arc in arcs])


def chain_backwards(r, text, there):
    lead, arcs = arcs_of(text)
    return arcs_text(lead, arcs[::-1])


def chain_backwards_and_turned(r, text, there):
    """A chain from the same edge, too."""
    lead, arcs = arcs_of(text)
    return arcs_text(lead, [arc[::-1] for arc in reversed(arcs)])


def arcs_exchanged(r, text, there):
    lead, arcs = arcs_of(text)
    a, b = r.sample(range(len(arcs)), 2) if len(arcs) > 1 else (0, 0)
    arcs[a], arcs[b] = arcs[b], arcs[a]
    return arcs_text(lead, arcs)


def arc_dropped(r, text, there):
    lead, arcs = arcs_of(text)
    del arcs[r.randrange(len(arcs))]
    return arcs_text(lead, arcs)


def arc_twice(r, text, there):
    lead, arcs = arcs_of(text)
    at = r.randrange(len(arcs))
    arcs.insert(r.randrange(len(arcs) + 1), arcs[at])
    return arcs_text(lead, arcs)


def another_verdict(r, text, there):
    lead, arcs = arcs_of(text)
    return arcs_text(r.choice([it for it in ("yes", "no", "no g", "no c") if it != lead]), arcs)


def arcs_by_head(r, text, there):
    lead, arcs = arcs_of(text)
    return arcs_text(lead, sorted(arcs, key=lambda arc: arc[::-1]))


def another_arrow(r, text, there):
    lead, arcs = arcs_of(text)
    return arcs_text(lead, arcs, r.choice(["-", "<", "->", " > ", ","]))


def another_chain(r, text, there):
    """A chain that is drawn, arc by arc, from the first arc to its reverse, or from another arc to its reverse."""
    lead, arcs = arcs_of(text)
    if lead == "yes" or there.graph is None:
        return None
    graph = there.graph
    if lead == "no c":
        graph = {v: set(graph) - graph[v] - {v} for v in graph}
    first = arcs[0] if r.random() < .7 else r.choice(arcs)
    return arcs_text(lead, drawn_chain(r, graph, first) or arcs[:-1])


def drawn_chain(r, graph, first):
    """A random chain without repeats from an arc to its reverse, by a search into the depth; None where it finds none
    within some steps."""
    every = [(u, v) for u in graph for v in graph[u]]
    chain, seen = [first], {first}
    for _ in range(300):
        following = [arc for arc in every if arc not in seen and force_each_other(graph, chain[-1], arc)]
        if chain[-1] == first[::-1]:
            return chain
        if first[::-1] in following and r.random() < .5:
            following = [first[::-1]]
        if following:
            chain.append(r.choice(following))
            seen.add(chain[-1])
        elif len(chain) > 1:
            chain.pop()
        else:
            return None
    return None


OF_ARCS = [arc_turned, arcs_turned, chain_backwards, chain_backwards_and_turned, arcs_exchanged, arc_dropped, arc_twice,
           another_verdict, arcs_by_head, another_arrow, another_chain]


# Two orders

def orders_of(text):
    return [part.split() for part in ORDERS.fullmatch(text).groups()]


def orders_text(first, second, between="/"):
    return " ".join(["yes", *first, between, *second])


def orders_changed_places(r, text, there):
    first, second = orders_of(text)
    return orders_text(second, first)


def both_orders_turned(r, text, there):
    first, second = orders_of(text)
    return orders_text(first[::-1], second[::-1])


def one_order_turned(r, text, there):
    first, second = orders_of(text)
    return orders_text(first[::-1], second)


def neighbours_exchanged(r, text, there):
    """Two neighbours in an order change places, in the other one too or not."""
    first, second = orders_of(text)
    if len(first) < 2:
        return None
    at = r.randrange(len(first) - 1)
    u, v = first[at:at + 2]
    first[at:at + 2] = v, u
    if r.random() < .5:
        second = [{u: v, v: u}.get(name, name) for name in second]
    return orders_text(first, second)


def one_order_twice(r, text, there):
    first, _ = orders_of(text)
    return orders_text(first, first)


def name_in_the_other_order(r, text, there):
    first, second = orders_of(text)
    return orders_text(first[:-1], first[-1:] + second)


def slash_moved(r, text, there):
    first, second = orders_of(text)
    between = r.choice(["//", "/ /", "|", "/,", None])
    return orders_text([], first + second) if between is None else orders_text(first, second, between)


def all_orders_shuffled(r, text, there):
    first, second = orders_of(text)
    return orders_text(r.sample(first, len(first)), r.sample(second, len(second)))


OF_ORDERS = [orders_changed_places, both_orders_turned, one_order_turned, neighbours_exchanged, one_order_twice,
             name_in_the_other_order, slash_moved, all_orders_shuffled]


# Answers that refuse

def another_reason(r, text, there):
    lead = re.match(r"no (edit \d+ )?", text)[0]
    answer = r.choice([it for it in REASONS if not text[len(lead):].startswith(it.split(" ")[0])])
    numbers = [int(it) for it in NUMBER.findall(text[len(lead):])] + r.sample(range(9), 4)
    return lead + answer % tuple(numbers[:answer.count("%")])


def another_edit(r, text, there):
    """The number of the refused edit of a group is another one, or none; an edit that stands alone has one."""
    found = re.match(r"no (?:edit (\d+) )?", text)
    rest = text[found.end():]
    if found[1] is None:
        return "no edit 1 " + rest
    number = int(found[1])
    return r.choice(["no edit %d " % (number + 1), "no edit %d " % (number - 1), "no edit 0%d " % number, "no ",
                     "no edit %d edit %d " % (number, number), "no edit -%d " % number, "no edit ",
                     "no edit %d " % (number + (1 << 64))]) + rest


def reason_for_applied(r, text, there):
    trees = [it for it in there.lines if it.startswith(("ok", "t "))]
    return re.sub("^t ", "ok ", r.choice(trees)) if trees else "ok"


def reason_in_capitals(r, text, there):
    return text.upper()


def dash_changed(r, text, there):
    return text.replace("-", r.choice([" ", "_", ""])) if "-" in text else text + "-there"


OF_REASONS = [another_reason, another_edit, reason_for_applied, reason_in_capitals, dash_changed]

BY_FORM = [(TREE, OF_TREES), (BAR, OF_BARS), (ARCS, OF_ARCS), (ORDERS, OF_ORDERS), (REFUSED, OF_REASONS)]


def kind_of(text):
    """The kind of a line of a report: its words that are no numbers, lists and trees."""
    words = [word for word in text.split(" ") if re.fullmatch("[a-z][a-z0-9-]*|2k2", word) and word != "empty"]
    return "yes /" if "/" in text.split(" ") else " ".join(words)


def alterings_of(text, mode):
    """What may be done to a line."""
    found = list(ANY)
    for form, alterings in BY_FORM:
        if form.fullmatch(text) and not (alterings is OF_REASONS and mode in ("compare", "shortest", "permute")):
            found += alterings
    return found


# Whole reports. Each takes the lines without their line feeds, and gives names and texts.

def text_of(lines):
    return "".join(line + "\n" for line in lines)


def altered_lines(r, lines):
    """For each line what is done around it, and the text of the report then."""
    for at in range(len(lines)):
        before, line, behind = lines[:at], lines[at], lines[at + 1:]
        yield at, "dropped", text_of(before + behind)
        yield at, "twice", text_of(before + [line, line] + behind)
        yield at, "exchanged with the next", text_of(before + behind[:1] + [line] + behind[1:])
        other = r.randrange(len(lines))
        exchanged = list(lines)
        exchanged[at], exchanged[other] = exchanged[other], exchanged[at]
        yield at, "exchanged with another", text_of(exchanged)
        yield at, "behind an empty line", text_of(before + ["", line] + behind)
        yield at, "behind a line of the report", text_of(before + [r.choice(lines), line] + behind)
        yield at, "the last", text_of(before + [line])
        yield at, "the last, without its line feed", text_of(before) + line
        yield at, "the end in its place", text_of(before + ["end"])
        yield at, "the end behind it", text_of(before + [line, "end"])


def altered_wholes(lines):
    whole = text_of(lines)
    yield "no byte", ""
    yield "without the last line feed", whole[:-1]
    yield "with a byte more", whole + "x"
    yield "with a line feed more", whole + "\n"
    yield "with a line more", whole + "end\n"
    yield "twice", whole + whole
    yield "in lines of CR and LF", whole.replace("\n", "\r\n")
    yield "behind a byte order mark", "\xef\xbb\xbf" + whole
    yield "behind an empty line", "\n" + whole
    yield "with a byte 0 at the end", whole + "\0"
    yield "in one line", whole.replace("\n", " ") + "\n"
    for mode in MODES:
        yield "with the head of " + mode, text_of(["mdt " + mode, *lines[1:]])
