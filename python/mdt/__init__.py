"""Modular decomposition of graphs from Python, by the program `mdt`.

    >>> import mdt
    >>> mdt.tree([(0, 1), (1, 2), (2, 3), (1, 4)])
    R(P(0,4),1,2,3;0-1,1-2,2-3)
    >>> mdt.permutation_model([(0, 1), (1, 2), (2, 3)])
    PermutationModel(first=[0, 2, 1, 3], second=[1, 0, 3, 2])

Graphs are those of networkx or of Sage, or lists of edges; answers have their names. `python3 -m mdt` has the commands
that draw, join, count and judge reports.
"""
from .program import (ForcingChain, MdtError, Orientation, PermutationModel, Rejected, Session, check, directed_tree,
                      orient, permutation_model, session, tree)
from .reports import Line, read_report
from .trees import DirectedNode, Node, ReportError, parse_tree

__all__ = ["DirectedNode", "ForcingChain", "Line", "MdtError", "Node", "Orientation", "PermutationModel", "Rejected",
           "ReportError", "Session", "check", "directed_tree", "orient", "parse_tree", "permutation_model",
           "read_report", "session", "tree"]
