#!/usr/bin/env python3
"""Makes the folder of a release: builds a commit twice, in two fresh clones, compares, and gathers what users take.

    python3 bench/release.py FOLDER                   of the last commit, into FOLDER/mdt-VERSION
    python3 bench/release.py --commit TAG FOLDER      of another commit

The folder has `bin/mdt`, `share/man/man1/mdt.1`, the wheel of the Python package, the documents and examples, `COMMIT`
with the commit and the toolchain, and `SHA256SUMS` over all of these (`sha256sum -c SHA256SUMS`). The version is that
of `CITATION.cff`, and has to be that of the package and of the man page. A build proves what no earlier run on this
machine kept, and takes 6 GB while it lasts. It says nothing of the gate: make a release of a commit that passed it.

It needs the toolchain, and Debian's python3-setuptools and python3-wheel. Ends with 1 where the two programs differ,
or a step fails; the folder isn't there then.
"""
from __future__ import annotations

import argparse
import hashlib
import os
import re
import shutil
import subprocess
import sys
import tempfile

TOP = os.path.dirname(os.path.dirname(os.path.abspath(__file__)))
DOCUMENTS = ["README.md", "CHANGELOG.md", "CITATION.cff", "docs", "examples"]


class ReleaseError(Exception):
    """A release that can't be made."""


def output(words: list[str], folder: str) -> str:
    """What a command prints, without the spaces round it. ReleaseError where it fails."""
    ended = subprocess.run(words, cwd=folder, stdout=subprocess.PIPE, text=True)
    if ended.returncode:
        raise ReleaseError("%s ended with status %d" % (" ".join(words), ended.returncode))
    return ended.stdout.strip()


def sum_of(path: str) -> str:
    """The SHA-256 of a file, in hexadecimal digits."""
    with open(path, "rb") as file:
        return hashlib.sha256(file.read()).hexdigest()


def found(pattern: str, path: str) -> str:
    """The first group of a pattern in a file. ReleaseError where it isn't there."""
    with open(path) as file:
        match = re.search(pattern, file.read(), re.MULTILINE)
    if not match:
        raise ReleaseError("%s has no version" % path)
    return match[1]


def version_of(clone: str) -> str:
    """The version, which is one in all places."""
    versions = {path: found(pattern, os.path.join(clone, path)) for path, pattern in [
        ("CITATION.cff", r'^version: "(.*)"$'),
        ("python/pyproject.toml", r'^version = "(.*)"$'),
        ("man/mdt.1", r'^\.TH MDT 1 "" "mdt (.*?)"')]}
    if len(set(versions.values())) > 1:
        raise ReleaseError("the versions differ: %s" % versions)
    return versions["CITATION.cff"]


def clone_of(commit: str, folder: str, name: str) -> str:
    """A fresh clone at a commit."""
    clone = os.path.join(folder, name)
    output(["git", "clone", "-q", TOP, clone], folder)
    output(["git", "checkout", "-q", commit], clone)
    return clone


def build(clone: str) -> str:
    """Builds the program in a clone, and answers its path."""
    crate = os.path.join(clone, "crates/md_cli")
    output(["rt", "run", "--", "edges", "g6", "data/graph.g6"], crate)
    return os.path.join(crate, "out/md_cli")


def gather(clone: str, program: str, folder: str, commit: str) -> None:
    """Fills the folder of the release from a clone and the program built in it."""
    env = dict(os.environ, SOURCE_DATE_EPOCH=output(["git", "log", "-1", "--format=%ct"], clone))
    for path, source, mode in [("bin/mdt", program, 0o755),
                               ("share/man/man1/mdt.1", os.path.join(clone, "man/mdt.1"), 0o644)]:
        goal = os.path.join(folder, path)
        os.makedirs(os.path.dirname(goal))
        shutil.copyfile(source, goal)
        os.chmod(goal, mode)
    for name in DOCUMENTS:
        source = os.path.join(clone, name)
        (shutil.copytree if os.path.isdir(source) else shutil.copyfile)(source, os.path.join(folder, name))
    wheel = "import sys, setuptools.build_meta as build; build.build_wheel(sys.argv[1])"
    subprocess.run([sys.executable, "-W", "ignore", "-c", wheel, folder], cwd=os.path.join(clone, "python"), env=env,
                   check=True, stdout=subprocess.DEVNULL)
    with open(os.path.join(folder, "COMMIT"), "w") as file:
        file.write("commit %s\ntoolchain %s\n" % (commit, output(["rt", "version"], clone)))
    paths = sorted(os.path.relpath(os.path.join(place, name), folder)
                   for place, _, names in os.walk(folder) for name in names)
    with open(os.path.join(folder, "SHA256SUMS"), "w") as file:
        file.writelines("%s  %s\n" % (sum_of(os.path.join(folder, path)), path) for path in paths)


def release(commit: str, goal: str) -> str:
    """Makes the release of a commit below a folder, and answers its path."""
    commit = output(["git", "rev-parse", commit], TOP)
    with tempfile.TemporaryDirectory(prefix="mdt-release") as folder:
        clones = [clone_of(commit, folder, name) for name in ("one", "two")]
        folder_made = os.path.join(goal, "mdt-" + version_of(clones[0]))
        if os.path.exists(folder_made):
            raise ReleaseError("%s is there already" % folder_made)
        programs = []
        for clone in clones:
            programs.append(build(clone))
            print("%s  built in a fresh clone" % sum_of(programs[-1]), flush=True)
        if len({sum_of(program) for program in programs}) > 1:
            raise ReleaseError("the two programs differ")
        made = os.path.join(folder, "made")
        os.makedirs(made)
        gather(clones[0], programs[0], made, commit)
        shutil.copytree(made, folder_made)
    return folder_made


def main() -> None:
    parser = argparse.ArgumentParser(description="Makes the folder of a release: the program, built twice and "
                                                 "compared, the man page, the package, the documents, and their sums.")
    parser.add_argument("folder", metavar="FOLDER", help="the folder in which mdt-VERSION is made")
    parser.add_argument("--commit", default="HEAD", metavar="NAME", help="a commit or tag (the last one)")
    words = parser.parse_args()
    try:
        print(release(words.commit, words.folder))
    except (ReleaseError, OSError, subprocess.CalledProcessError) as error:
        sys.exit("release: %s" % error)


if __name__ == "__main__":
    main()
