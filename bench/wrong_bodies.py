#!/usr/bin/env python3
"""Tries the wrong bodies that the gate doesn't try.

    python3 bench/wrong_bodies.py [CRATE ..]

Each file bench/wrong-bodies/CRATE/WHAT_IS_WRONG.edit is a wrong body in the form of those in
crates/CRATE/must-fail (CONTRIBUTING.md). A copy of the commit that is checked out is made, the wrong
bodies of the crates that are named (of all, if none is) are put where the toolchain tries them, and
`rt must-fail` tries them there, crate by crate. What isn't refused is named, and what couldn't be
tried. Ends with 0 if all were refused, with 1 if not, and with 2 where a crate has no such file.

The crates are proved first, in that copy, as far as no check on this machine has kept their proofs:
minutes to an hour. The copy takes some gigabytes while it is there.
"""

import pathlib
import re
import subprocess
import sys
import tempfile

TOP = pathlib.Path(__file__).resolve().parent.parent
KEPT = TOP / "bench" / "wrong-bodies"
# what the toolchain says of a wrong body that is refused
REFUSED = re.compile(r"^(?:rt: )?must-fail (\S+\.edit): refused")
OF_AN_EDIT = re.compile(r"^(?:rt: )?must-fail (\S+\.edit): ")


def names(argv: list[str]) -> list[str]:
    """The crates that are to be tried."""
    known = sorted(folder.name for folder in KEPT.iterdir() if any(folder.glob("*.edit")))
    unknown = [name for name in argv if name not in known]
    if unknown:
        print("no wrong bodies of", *unknown, "in bench/wrong-bodies", file=sys.stderr)
        raise SystemExit(2)
    return argv or known


def put(copy: pathlib.Path, crate: str) -> list[str]:
    """Puts the wrong bodies of a crate, and these alone, where the toolchain tries them."""
    folder = copy / "crates" / crate / "must-fail"
    folder.mkdir(exist_ok=True)
    for of_the_gate in folder.glob("*.edit"):
        of_the_gate.unlink()
    for edit in sorted((KEPT / crate).glob("*.edit")):
        (folder / edit.name).write_text(edit.read_text())
    return sorted(edit.name for edit in folder.glob("*.edit"))


def tried(copy: pathlib.Path, crate: str) -> tuple[set[str], list[str]]:
    """The names of the wrong bodies that are refused, and what is said of the others."""
    run = subprocess.run(
        ["rt", "must-fail", crate], cwd=copy, capture_output=True, text=True, check=False
    )
    refused, others = set(), []
    for line in (run.stdout + run.stderr).splitlines():
        if match := REFUSED.match(line):
            refused.add(match[1].rsplit("/", 1)[-1])
        elif OF_AN_EDIT.match(line):
            others.append(line)
    return refused, others


def main(argv: list[str]) -> int:
    count, left = 0, 0
    crates = names(argv)
    with tempfile.TemporaryDirectory(prefix="wrong-bodies-") as folder:
        copy = pathlib.Path(folder) / "copy"
        subprocess.run(["git", "clone", "-q", str(TOP), str(copy)], check=True)
        for crate in crates:
            edits = put(copy, crate)
            refused, others = tried(copy, crate)
            missed = [name for name in edits if name not in refused]
            print(f"{crate}: {len(edits) - len(missed)} of {len(edits)} refused", flush=True)
            for name in missed:
                said = [line for line in others if name in line]
                print("   ", said[0] if said else f"{name}: nothing was said of it")
            count, left = count + len(edits), left + len(missed)
    print(f"{count - left} of {count} refused")
    return 1 if left else 0


if __name__ == "__main__":
    raise SystemExit(main(sys.argv[1:]))
