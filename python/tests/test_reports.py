"""Reports: each form of a line, texts that are none, counts, JSON, and pieces joined."""
import io
import json
import unittest

from mdt import ReportError, read_report
from mdt.reports import JoinError, count, join


def lines_of(text):
    return list(read_report(io.StringIO(text)))


class Lines(unittest.TestCase):
    def test_each_line(self):
        lines = lines_of("mdt cograph\nt S(0,1)\nok S(0,1,2)\nno p4 0 1 2 3\nno same\nno vertex 9\nend\n")
        self.assertEqual([line.what for line in lines],
                         ["head", "tree", "applied", "refused", "refused", "refused", "end"])
        self.assertEqual((lines[3].reason, lines[3].vertices), ("p4", [0, 1, 2, 3]))
        self.assertEqual((lines[5].reason, lines[5].vertices), ("vertex", [9]))
        self.assertEqual(repr(lines[5]), "<line 6: refused reason='vertex' vertices=[9]>")
        group = lines_of("mdt cograph\nt 0\nno undo\nno edit 12 taken 3\nno edit 1 p4 0 1 2 3\nend\n")
        self.assertEqual([(line.what, line.edit, line.reason, line.vertices) for line in group[2:5]],
                         [("refused", None, "undo", []), ("refused", 12, "taken", [3]),
                          ("refused", 1, "p4", [0, 1, 2, 3])])
        self.assertEqual(group[4].as_json()["edit"], 1)
        quiet = lines_of("mdt quiet\nok\nt empty\nend\n")
        self.assertFalse(quiet[1].has_tree)
        self.assertTrue(quiet[2].has_tree and quiet[2].tree is None)
        self.assertEqual(lines_of("mdt quiet\np4 0 1 2 3\nend\n")[1].vertices, [0, 1, 2, 3])
        threshold = lines_of("mdt threshold\nt 0\nno p4 2 1 0 3\nno 2k2 0 1 3 4\nno c4 0 1 2 4\n"
                             "no edit 2 2k2 0 1 3 4\nok P(0,1)\nend\n")
        self.assertEqual([(line.edit, line.reason, line.vertices) for line in threshold[2:6]],
                         [(None, "p4", [2, 1, 0, 3]), (None, "2k2", [0, 1, 3, 4]), (None, "c4", [0, 1, 2, 4]),
                          (2, "2k2", [0, 1, 3, 4])])
        self.assertEqual(str(threshold[6].tree), "P(0,1)")
        for mode, kind in [("trivial", "p4"), ("trivial", "c4"), ("threshold", "p4"), ("threshold", "c4"),
                           ("threshold", "2k2")]:
            barred = lines_of("mdt %s\n%s 3 1 2 0\nend\n" % (mode, kind))
            self.assertEqual((barred[0].mode, barred[1].what, barred[1].vertices), (mode, kind, [3, 1, 2, 0]))
        compare = lines_of("mdt compare\nyes 0>1 2>1\nno 0>1 4>0 1>0\nyes\nend\n")
        self.assertEqual(compare[1].arcs, [(0, 1), (2, 1)])
        self.assertEqual((compare[2].what, compare[2].of), ("chain", "graph"))
        self.assertEqual(compare[3].arcs, [])
        permute = lines_of("mdt permute\nyes 0 1 / 1 0\nno c 0>2 2>0\nno g 0>1 1>0\nyes /\nend\n")
        self.assertEqual(permute[1].orders, [[0, 1], [1, 0]])
        self.assertEqual([permute[2].of, permute[3].of], ["complement", "graph"])
        self.assertEqual(permute[4].orders, [[], []])
        directed = lines_of("mdt dtree\nt O(1,0)\nt S(0,1)\nt empty\nend\n")
        self.assertEqual([str(line.tree) for line in directed[1:4]], ["O(1,0)", "S(0,1)", "None"])
        self.assertEqual(list(directed[2].tree.edges()), [(0, 1), (1, 0)])

    def test_other_texts_are_refused_at_their_line(self):
        for text, line in [
            ("", 1), ("no\n", 1), ("mdt nonsense\nend\n", 1), ("mdt tree\r\nend\r\n", 1), ("end\n", 1),
            ("mdt tree\nt 0\n", 3), ("mdt tree\nt 0", 2), ("mdt tree\nend", 2), ("mdt tree\nx\nend\n", 2),
            ("mdt tree\nt P(0\nend\n", 2), ("mdt tree\nend\nmdt tree\nend\n", 3), ("mdt tree\nmdt tree\nend\n", 2),
            ("mdt tree\nok 0\nend\n", 2), ("mdt tree\nno same\nend\n", 2), ("mdt edit\nno p4 0 1 2 3\nend\n", 2),
            ("mdt edit\nok\nend\n", 2), ("mdt quiet\nok 0\nend\n", 2), ("mdt compare\nyes 0<1\nend\n", 2),
            ("mdt compare\nno\nend\n", 2), ("mdt permute\nno\nend\n", 2), ("mdt permute\nno g\nend\n", 2),
            ("mdt permute\nyes 0 1\nend\n", 2), ("mdt compare\nyes \u00b2>1\nend\n", 2),
            ("mdt compare\nyes %s>1\nend\n" % ("9" * 5000), 2), ("mdt edit\nno vertex\nend\n", 2),
            ("mdt edit\nno undo 1\nend\n", 2), ("mdt edit\nno edit 0 same\nend\n", 2),
            ("mdt edit\nno edit 1\nend\n", 2), ("mdt edit\nno edit 200001 same\nend\n", 2),
            ("mdt tree\nt O(0,1)\nend\n", 2), ("mdt dtree\nt R(0,1,2;0-1)\nend\n", 2), ("mdt dtree\nok 0\nend\n", 2),
            ("mdt edit\nno edit 1 undo\nend\n", 2), ("mdt edit\nno edit 1 p4 0 1 2 3\nend\n", 2),
            ("mdt cograph\nno c4 0 1 2 3\nend\n", 2), ("mdt quiet\nc4 0 1 2 3\nend\n", 2),
            ("mdt trivial\nno 2k2 0 1 2 3\nend\n", 2), ("mdt trivial\n2k2 0 1 2 3\nend\n", 2),
            ("mdt trivial\nok\nend\n", 2), ("mdt threshold\nc4 0 1 2\nend\n", 2),
            ("mdt threshold\nno edit 1 c4 0 1 2\nend\n", 2), ("mdt threshold\nno c4\nend\n", 2),
        ]:
            with self.assertRaises(ReportError, msg=text) as caught:
                lines_of(text)
            self.assertEqual(caught.exception.line, line, text)
            self.assertEqual(str(caught.exception).count("line %d" % line), 1, text)
        with self.assertRaises(ReportError):
            list(read_report(io.BytesIO(b"\x7fELF\xff\n")))

    def test_lines_come_before_the_end_is_read(self):
        lines = read_report(iter(["mdt tree\n", "t 0\n"]))
        self.assertEqual([next(lines).what, next(lines).what], ["head", "tree"])
        self.assertRaises(ReportError, next, lines)

    def test_counts(self):
        counts = count(lines_of("mdt tree\nt R(0,1,2,3;0-1,1-2,2-3)\nt P(0,1)\nt empty\nend\n"))
        self.assertEqual(counts["trees"], 3)
        self.assertEqual(counts["trees of prime graphs"], 1)
        self.assertEqual(counts["trees of cographs"], 2)
        self.assertEqual(counts["nodes: leaf"], 6)
        counts = count(lines_of("mdt dtree\nt R(0,1,2;0>1,1>2,2>0)\nt O(1,0)\nend\n"))
        self.assertEqual((counts["trees of prime graphs"], counts["trees of directed cographs"]), (1, 1))
        self.assertEqual((counts["trees of cographs"], counts["nodes: order"]), (0, 1))
        counts = count(lines_of("mdt threshold\nt 0\nno 2k2 0 1 2 3\nno edit 1 2k2 0 1 2 3\nno c4 0 1 2 3\nend\n"))
        self.assertEqual((counts["refused: 2k2"], counts["refused: c4"], counts["refused: p4"]), (2, 1, 0))

    def test_json(self):
        line = lines_of("mdt tree\nt R(0,P(1,4),2,3;0-1,1-2,2-3)\nend\n")[1]
        value = json.loads(json.dumps(line.as_json()))
        self.assertEqual(value["nodes"][0], {"kind": "prime", "children": [1, 2, 5, 6],
                                             "pairs": [[0, 1], [1, 2], [2, 3]]})
        self.assertEqual(value["nodes"][2], {"kind": "parallel", "children": [3, 4]})
        value = lines_of("mdt dtree\nt O(1,0)\nend\n")[1].as_json()
        self.assertEqual(value["nodes"][0], {"kind": "order", "children": [1, 2]})


class Joined(unittest.TestCase):
    def join(self, *pieces, lines=None):
        written = []
        try:
            join([("piece", io.BytesIO(piece)) for piece in pieces], written.append, lines)
            wrong = None
        except JoinError as error:
            wrong = str(error)
        return wrong, b"".join(written)

    def test_pieces(self):
        one, none, two = b"mdt tree\nt 0\nend\n", b"mdt tree\nend\n", b"mdt tree\nt P(0,1)\nend\n"
        whole = b"mdt tree\nt 0\nt P(0,1)\nend\n"
        self.assertEqual(self.join(one + none + two), (None, whole))
        self.assertEqual(self.join(one, none, two), (None, whole))
        self.assertEqual(self.join(one + none, two, lines=2), (None, whole))
        directed = b"mdt dtree\nt O(1,0)\nend\n"
        self.assertEqual(self.join(directed, directed), (None, b"mdt dtree\nt O(1,0)\nt O(1,0)\nend\n"))

    def test_pieces_that_are_not_whole(self):
        one = b"mdt tree\nt 0\nend\n"
        for pieces in [(), (b"",), (one, b""), (b"", one), (b"mdt tree\nt 0\n",), (b"mdt tree\nt 0\n", one),
                       (b"mdt tree\nt 0\n" + one,), (one, b"mdt compare\nend\n"), (one, b"mdt dtree\nend\n"),
                       (b"t 0\nend\n",), (b"mdt edit\nend\n",), (b"mdt tree\nt 0\nend",)]:
            wrong, written = self.join(*pieces)
            self.assertIsNotNone(wrong, pieces)
            self.assertFalse(written.endswith(b"end\n"))
        wrong, written = self.join(one + one, lines=3)
        self.assertIn("2 graphs, not of 3", wrong)
        self.assertFalse(written.endswith(b"end\n"))


if __name__ == "__main__":
    unittest.main()
