"""Trees: their text, the graphs that they denote, other forms."""
import json
import unittest

from mdt import DirectedNode, Node, ReportError, parse_tree
from mdt.reports import nodes_as_json


def edges_of(tree):
    return sorted(tuple(sorted(pair)) for pair in tree.edges())


def deep_text(depth):
    text = "0"
    for v in range(1, depth + 1):
        text = "%s(%s,%d)" % ("SP"[v % 2], text, v)
    return text


class Trees(unittest.TestCase):
    def test_forms(self):
        for text, leaves, edges in [
            ("0", [0], []),
            ("P(0,1)", [0, 1], []),
            ("S(P(0,1),P(2,S(3,4)))", [0, 1, 2, 3, 4],
             [(0, 2), (0, 3), (0, 4), (1, 2), (1, 3), (1, 4), (3, 4)]),
            ("R(0,P(1,4),2,3;0-1,1-2,2-3)", [0, 1, 4, 2, 3], [(0, 1), (0, 4), (1, 2), (2, 3), (2, 4)]),
        ]:
            tree = parse_tree(text)
            self.assertEqual(tree.leaves(), leaves)
            self.assertEqual(edges_of(tree), edges)
            self.assertEqual((str(tree), repr(tree)), (text, text))
        self.assertIsNone(parse_tree("empty"))

    def test_other_texts_are_refused(self):
        for text in ["", "P(", "P(0", "P(0,1))", "0,1", "x", "R(0,1;0", "R(0,1;0)", "P(0,1)2", "P(0-1)", "P(,0)",
                     "P(0,)", "P(0,1;0-1)", "R(0,1;0-1,)", "R(0,1;0-1;0-1)", "P()", ")", "P(0 1)", "P(0P(1,2))",
                     "R(0,1;0-2)", "01", "P(0,00)", "\u00b2", "9" * 5000]:
            with self.assertRaises(ReportError, msg=text):
                parse_tree(text)

    def test_directed(self):
        for text, leaves, arcs in [
            ("O(1,0)", [1, 0], [(1, 0)]), ("S(0,1)", [0, 1], [(0, 1), (1, 0)]), ("P(0,1)", [0, 1], []),
            ("R(0,1,2;0>1,1>2,2>0)", [0, 1, 2], [(0, 1), (1, 2), (2, 0)]),
            ("R(O(1,0),2,3;0>1,1>2)", [1, 0, 2, 3], [(0, 2), (1, 0), (1, 2), (2, 3)]),
            ("O(P(2,3),S(0,1))", [2, 3, 0, 1],
             [(0, 1), (1, 0), (2, 0), (2, 1), (3, 0), (3, 1)]),
        ]:
            tree = parse_tree(text, directed=True)
            self.assertEqual((tree.leaves(), sorted(tree.edges()), repr(tree)), (leaves, arcs, text))
            self.assertEqual(repr(tree.renamed(lambda v: v)), text)
            self.assertTrue(all(isinstance(node, DirectedNode) for node in tree))
        self.assertIsNone(parse_tree("empty", directed=True))
        for text in ["O(0,1)", "R(0,1,2;0>1)"]:
            self.assertRaises(ReportError, parse_tree, text)
        for text in ["R(0,1,2;0-1)", "O(0,1;0>1)", "R(0,1,2;0>3)", "O(0,", "Q(0,1)", "R(0,1,2;0>1,)"]:
            self.assertRaises(ReportError, parse_tree, text, directed=True)
        self.assertTrue(parse_tree("O(P(2,3),S(0,1))", directed=True).is_cograph())
        self.assertRaises(TypeError, parse_tree("O(1,0)", directed=True).as_sage)

    def test_deep(self):
        tree = parse_tree(deep_text(4095))
        self.assertEqual(tree.depth(), 4095)
        self.assertEqual(len(list(tree.edges())), sum(v for v in range(1, 4096) if v % 2 == 0))
        self.assertEqual(str(tree.renamed(lambda v: v)), deep_text(4095))
        json.dumps(nodes_as_json(tree))
        self.assertEqual(len(tree.as_sage()), 2)

    def test_walks(self):
        tree = parse_tree("R(0,P(1,4),2,3;0-1,1-2,2-3)")
        self.assertEqual([node.kind for node in tree], ["prime", "leaf", "parallel", "leaf", "leaf", "leaf", "leaf"])
        self.assertEqual([str(node) for node in tree.postorder()][:3], ["0", "1", "4"])
        self.assertFalse(tree.is_prime() or tree.is_cograph())
        self.assertTrue(parse_tree("R(0,1,2,3;0-1,1-2,2-3)").is_prime())
        self.assertTrue(parse_tree("S(0,P(1,2))").is_cograph())
        self.assertEqual(str(tree.renamed("abcde".__getitem__)), "R(a,P(b,e),c,d;0-1,1-2,2-3)")

    def test_as_sage(self):
        sage = str(parse_tree("S(P(0,1),2)").as_sage())
        self.assertEqual(sage.replace("'", ""), "(SERIES, [(PARALLEL, [0, 1]), 2])")
        self.assertEqual(str(Node("leaf", 7).as_sage()).replace("'", ""), "(PRIME, [7])")

    def test_networkx(self):
        try:
            import networkx
        except ImportError:
            self.skipTest("networkx isn't installed")
        graph = parse_tree("R(0,1,2,3;0-1,1-2,2-3)").to_networkx()
        self.assertTrue(networkx.is_isomorphic(graph, networkx.path_graph(4)))
        order = parse_tree("O(2,0,1)", directed=True).to_networkx()
        self.assertEqual((order.is_directed(), list(networkx.topological_sort(order))), (True, [2, 0, 1]))


if __name__ == "__main__":
    unittest.main()
