"""The commands of the package: python3 -m mdt draw|join|report|verify, each with --help."""
from __future__ import annotations

import argparse
import json
import os
import sys
from typing import Iterator

from . import inputs, reports, verify
from .draw import DrawError, add_draw
from .reports import JoinError
from .trees import ReportError


def report_source(path: str):
    """What `read_report` takes for the path of a report; `-` is standard input."""
    return sys.stdin.buffer if path == "-" else path


def add_report(commands) -> None:
    parser = commands.add_parser(
        "report", help="count what a report holds, or write its lines as JSON",
        description="Counts lines, answers, and the nodes of trees. A cut-off report and other texts are refused with "
                    "status 1. grep -c counts lines of one kind many times as fast.")
    parser.add_argument("report", help="the report's file, or - for standard input")
    parser.add_argument("--json", action="store_true", help="write one JSON object for each line")
    parser.set_defaults(run=run_report)


def run_report(options: argparse.Namespace) -> int:
    lines = reports.read_report(report_source(options.report))
    if options.json:
        for line in lines:
            print(json.dumps(line.as_json()))
    else:
        for name, number in sorted(reports.count(lines).items()):
            print("%s %d" % (name, number))
    return 0


def add_join(commands) -> None:
    parser = commands.add_parser(
        "join", help="join the reports of pieces of a file of graphs",
        description="Writes the report of all graphs of the pieces: whole reports of tree, dtree, compare or permute, "
                    "in the order of the graphs. mdt check accepts it over the whole file if it accepts each piece "
                    "over its own. Where a piece isn't whole, is empty, or the number of graphs isn't N, the status is "
                    "1, and what was written lacks its end. The outputs of edges and graph6 are joined by cat.")
    parser.add_argument("pieces", nargs="*", metavar="PIECE",
                        help="a piece's file; without any, the pieces come from standard input, one after the other")
    parser.add_argument("--lines", type=int, metavar="N",
                        help="the number of graphs that all pieces have together; a piece that is missing from "
                             "standard input can be noticed by it alone")
    parser.set_defaults(run=run_join)


def pieces(paths: list[str]) -> Iterator:
    for path in paths:
        with open(path, "rb") as file:
            yield path, file
    if not paths:
        yield "standard input", sys.stdin.buffer


def run_join(options: argparse.Namespace) -> int:
    reports.join(pieces(options.pieces), sys.stdout.buffer.write, options.lines)
    return 0


def add_verify(commands) -> None:
    parser = commands.add_parser(
        "verify", help="judge a report by the definitions, without the program",
        description="Judges a report as mdt check does, by the definitions, in plain Python and slowly: accepted, or "
                    "rejected line N with status 1. A faulty graph file or script has status 3.")
    parser.add_argument("mode", choices=list(reports.MODES))
    parser.add_argument("graph", help="the graph file: graph6, sparse6 or DIMACS, told apart by its content; digraph6 "
                                      "in the mode dtree")
    parser.add_argument("files", nargs="+", metavar="[SCRIPT] REPORT",
                        help="the script, in the modes %s, and the report" % ", ".join(verify.SESSIONS))
    parser.set_defaults(run=run_verify, parser=parser)


def run_verify(options: argparse.Namespace) -> int:
    is_session = options.mode in verify.SESSIONS
    if len(options.files) != 1 + is_session:
        options.parser.error("%s takes %s" % (options.mode, "a script and a report" if is_session else "one report"))
    graph, *script, report = [read_bytes(path) for path in (options.graph, *options.files)]
    if options.mode == "dtree":
        graphs = inputs.read_digraph6(graph)
    else:
        graphs = inputs.read_graphs(graph, limit=verify.limit_of(options.mode))
    if is_session and len(graphs) != 1:
        print("mdt verify: graph NotOneGraph count %d" % len(graphs), file=sys.stderr)
        return 3
    items = inputs.read_script(script[0]) if is_session else []
    wrong = verify.first_wrong_line(options.mode, graphs, items, report)
    print("accepted" if wrong is None else "rejected line %d" % wrong)
    return 0 if wrong is None else 1


def read_bytes(path: str) -> bytes:
    with open(path, "rb") as file:
        return file.read()


def main() -> int:
    """Runs the command of the words: 0, or 1 for a report that isn't whole or valid, 2 for other words, 3 for a faulty
    input of verify."""
    parser = argparse.ArgumentParser(prog="python3 -m mdt", description="Commands over the reports of mdt.")
    commands = parser.add_subparsers(metavar="COMMAND", required=True)
    for add in (add_draw, add_join, add_report, add_verify):
        add(commands)
    options = parser.parse_args()
    try:
        status = options.run(options)
        sys.stdout.flush()
        return status
    except BrokenPipeError:
        os.dup2(os.open(os.devnull, os.O_WRONLY), sys.stdout.fileno())
        return 1
    except inputs.InputFault as fault:
        print("mdt verify: %s" % fault, file=sys.stderr)
        return 3
    except (ReportError, JoinError, DrawError, OSError, UnicodeError) as error:
        print("mdt: %s" % error, file=sys.stderr)
        return 1


if __name__ == "__main__":
    sys.exit(main())
