#!/usr/bin/env python3
"""Runs the commands that stand in the documents, in a fresh clone of the last commit, and compares what they print.

    python3 bench/documents.py                    README, TUTORIAL, MANY, LIBRARY and others, in turn
    python3 bench/documents.py README TUTORIAL    these alone
    python3 bench/documents.py --mdt PATH         with this program, in place of the one that README builds and installs

A block that begins with `$ ` is a session of bash: each command and below it what it prints, `..` for any lines; a
document is one shell. What `mdt` writes to standard error stands there too, wherever in the output of its command; the
standard error of others doesn't. Each command has to end with status 0. A block that begins with `>>> ` is a session of
Python, a document one module. In LIBRARY every other block is a quotation: its lines have to stand, in this order, in
the file that was named last before it.

Nothing is installed but into a temporary home. The gate and the lines for other machines aren't run; with --mdt what
calls the toolchain isn't. It needs what the documents name: Debian's nauty, parallel, pv, python3-networkx; and some
minutes. Ends with 1 where anything differs.
"""
from __future__ import annotations

import argparse
import os
import re
import shutil
import subprocess
import sys
import tempfile
from typing import NamedTuple, Optional

TOP = os.path.dirname(os.path.dirname(os.path.abspath(__file__)))
DOCUMENTS = {"README": "README.md", "TUTORIAL": "docs/TUTORIAL.md", "MANY": "docs/MANY.md",
             "LIBRARY": "docs/LIBRARY.md", "EXAMPLES": "examples/README.md", "PYTHON": "python/README.md"}
NOT_RUN = {"bash .ci/run": "the gate", "--sshlogin": "other machines"}
SECONDS = 3600


class Block(NamedTuple):
    """An indented block of a document: the number of its first line, from 1, and its lines without the four spaces."""

    line: int
    lines: list[str]


class Command(NamedTuple):
    """A command of a session: the number of its line in the document, its text, and the lines that it has to print."""

    line: int
    text: str
    printed: list[str]


def blocks_of(text: str) -> list[Block]:
    """The indented blocks of a document, in order. An empty line inside a block belongs to it."""
    blocks: list[Block] = []
    open_block, gap = None, 0
    for number, line in enumerate(text.split("\n"), 1):
        if line.startswith("    "):
            if open_block is None:
                open_block = Block(number, [])
                blocks.append(open_block)
            open_block.lines.extend([""] * gap + [line[4:]])
            gap = 0
        elif not line and open_block is not None:
            gap += 1
        else:
            open_block, gap = None, 0
    return blocks


def is_whole(text: str) -> bool:
    """Whether bash reads the text as whole commands, with nothing missing at its end."""
    read = subprocess.run(["bash", "-n"], input=text + "\n", capture_output=True, text=True)
    return read.returncode == 0 and not read.stderr and not text.endswith("\\")


def commands_of(block: Block) -> list[Command]:
    """The commands of a session of bash. A command goes on for as many lines as bash needs."""
    commands: list[Command] = []
    whole = True
    for number, line in enumerate(block.lines, block.line):
        if not whole:
            last = commands.pop()
            commands.append(last._replace(text=last.text + "\n" + line))
        elif line.startswith("$ "):
            commands.append(Command(number, line[2:], []))
        else:
            commands[-1].printed.append(line)
            continue
        whole = is_whole(commands[-1].text)
    return commands


def reason_not_to_run(command: str, built: Optional[str]) -> Optional[str]:
    """Why a command isn't run, or None where it is."""
    for word, reason in NOT_RUN.items():
        if word in command:
            return reason
    return "the toolchain" if built and re.search(r"\brt [a-z]", command) else None


def fits(printed: list[str], wanted: list[str]) -> bool:
    """Whether lines are those wanted, where `..` stands for any lines."""
    pattern = "".join("(?:.*\n)*?" if line == ".." else re.escape(line + "\n") for line in wanted)
    return re.fullmatch(pattern, "".join(line + "\n" for line in printed)) is not None


def run_session(commands: list[Command], clone: str, folder: str, env: dict[str, str]) -> list[str]:
    """Runs commands one after the other in one shell, and answers what is wrong, a text for each command."""
    script = os.path.join(folder, "session")
    with open(script, "w") as file:
        for k, command in enumerate(commands):
            file.write("{\n%s\n} > %s/%d.out 2> %s/%d.err < /dev/null\necho $? > %s/%d.status\n"
                       % (command.text, folder, k, folder, k, folder, k))
    try:
        subprocess.run(["bash", script], cwd=clone, env=env, timeout=SECONDS)
    except subprocess.TimeoutExpired:
        print("  the session took more than %d seconds" % SECONDS)

    def lines(k: int, kind: str) -> list[str]:
        path = os.path.join(folder, "%d.%s" % (k, kind))
        if not os.path.exists(path):
            return []
        with open(path, errors="replace") as file:
            return file.read().splitlines()

    wrong = []
    for k, command in enumerate(commands):
        status, out, err = lines(k, "status"), lines(k, "out"), lines(k, "err")
        told = [line for line in err if line.startswith("mdt: ")]
        wanted_told = [line for line in command.printed if line.startswith("mdt: ")]
        wanted = [line for line in command.printed if not line.startswith("mdt: ")]
        if status != ["0"] or told != wanted_told or not fits(out, wanted):
            wrong.append("line %d: %s\n  wanted:\n%s\n  came, with status %s:\n%s" % (
                command.line, command.text, indented(command.printed), "".join(status) or "none",
                indented(out[:40] + err[-10:])))
    return wrong


def indented(lines: list[str]) -> str:
    return "\n".join("    " + line for line in lines)


def run_python(blocks: list[Block], clone: str, folder: str, env: dict[str, str]) -> list[str]:
    """Runs sessions of Python, all in one module, and answers what is wrong."""
    path = os.path.join(folder, "sessions.txt")
    with open(path, "w") as file:
        for block in blocks:
            file.write("\n".join(block.lines) + "\n\n")
    ended = subprocess.run(["python3", "-m", "doctest", path], cwd=clone, env=env, capture_output=True, text=True,
                           timeout=SECONDS)
    return [] if ended.returncode == 0 else [ended.stdout + ended.stderr]


def wrong_quotation(block: Block, text: str, clone: str) -> Optional[str]:
    """What is wrong with a quotation of a document, or None where its lines stand in the file named before it."""
    before = "\n".join(text.split("\n")[:block.line - 1])
    paths = [path for path in re.findall(r"`([\w./]+)`", before) if os.path.isfile(os.path.join(clone, path))]
    if not paths:
        return "line %d: no file is named before this quotation" % block.line
    with open(os.path.join(clone, paths[-1])) as file:
        source = (line.strip() for line in file)
        for line in block.lines:
            if line.strip() not in ("", "..") and line.strip() not in source:
                return "line %d: %s has no line %r after those before it" % (block.line, paths[-1], line.strip())
    return None


def judge(name: str, clone: str, folder: str, env: dict[str, str], built: Optional[str]) -> list[str]:
    """Runs what stands in a document, and answers what is wrong."""
    with open(os.path.join(clone, DOCUMENTS[name])) as file:
        text = file.read()
    commands, sessions, wrong, quotations, passed = [], [], [], 0, {}
    for block in blocks_of(text):
        if block.lines[0].startswith("$ "):
            for command in commands_of(block):
                reason = reason_not_to_run(command.text, built)
                if reason is None:
                    commands.append(command)
                else:
                    passed[reason] = passed.get(reason, 0) + 1
        elif block.lines[0].startswith(">>> "):
            sessions.append(block)
        elif name == "LIBRARY":
            quotations += 1
            wrong += filter(None, [wrong_quotation(block, text, clone)])
    wrong += run_session(commands, clone, folder, env)
    if sessions:
        wrong += run_python(sessions, clone, folder, env)
    print("%s: %d commands, %d sessions of Python, %d quotations; %d wrong; not run: %s" % (
        DOCUMENTS[name], len(commands), len(sessions), quotations, len(wrong),
        ", ".join("%d (%s)" % (count, reason) for reason, count in passed.items()) or "none"), flush=True)
    return wrong


def environment(home: str, clone: str) -> dict[str, str]:
    """The variables of the sessions: a home of their own, Debian's Python before others, the installed program."""
    env = {name: value for name, value in os.environ.items() if not name.startswith(("PYTHON", "MDT", "GIT_"))}
    path = [os.path.join(home, ".local/bin"), "/usr/bin", "/bin", env.get("PATH", "")]
    env.update(HOME=home, TMPDIR=home, PATH=os.pathsep.join(path), PYTHONPATH=os.path.join(clone, "python"),
               LC_ALL="C.UTF-8")
    return env


def main() -> int:
    parser = argparse.ArgumentParser(description="Runs the commands of the documents and compares what they print.")
    parser.add_argument("documents", nargs="*", metavar="NAME", help="among: " + ", ".join(DOCUMENTS))
    parser.add_argument("--mdt", metavar="PATH", help="this program, in place of the one that README builds")
    words = parser.parse_args()
    for name in words.documents:
        if name not in DOCUMENTS:
            parser.error("no document is named %s" % name)
    wrong = []
    with tempfile.TemporaryDirectory(prefix="mdt-documents") as folder:
        clone, home = os.path.join(folder, "mdt"), os.path.join(folder, "home")
        subprocess.run(["git", "clone", "-q", TOP, clone], check=True)
        os.makedirs(os.path.join(home, ".local/bin"))
        if words.mdt:
            for path in (os.path.join(clone, "crates/md_cli/out/md_cli"), os.path.join(home, ".local/bin/mdt")):
                os.makedirs(os.path.dirname(path), exist_ok=True)
                shutil.copy(words.mdt, path)
        for name in words.documents or DOCUMENTS:
            own = os.path.join(folder, name)
            os.makedirs(own)
            wrong += ["%s, %s" % (DOCUMENTS[name], it)
                      for it in judge(name, clone, own, environment(home, clone), words.mdt)]
    print("".join(it + "\n" for it in wrong), end="")
    return 1 if wrong else 0


if __name__ == "__main__":
    sys.exit(main())
