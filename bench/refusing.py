"""Runs the program with requests for memory, writes and loads that are refused, by the counter of refuse.c."""
import collections
import ctypes
import os
import re
import resource
import signal
import subprocess

BENCH = os.path.dirname(os.path.abspath(__file__))

# The seconds after which a run is ended by a signal.
LONGEST = 600

# How often a run asks for memory, writes to a descriptor, opens a file and reads.
Counts = collections.namedtuple("Counts", "requests writes opens reads")

# Of the system's call prctl: a right is taken off those that a program can have; and the rights to read what the mode
# of a file forbids, which root has.
PR_CAPBSET_DROP, READS_ALL = 24, (1, 2)


def compile_counter(folder):
    """Compiles the counter into a folder, and answers its path."""
    path = os.path.join(folder, "refuse.so")
    subprocess.run(["cc", "-O2", "-shared", "-fPIC", "-o", path, os.path.join(BENCH, "refuse.c")], check=True)
    return path


class Ended:
    """How a run ended: its status, the number of the signal that ended it (0: none), and what it wrote."""

    def __init__(self, code, out, err):
        self.status, self.signal = (code, 0) if code >= 0 else (None, -code)
        self.out, self.err = out, err

    def __eq__(self, other):
        return (self.status, self.signal, self.out, self.err) == (other.status, other.signal, other.out, other.err)

    def __str__(self):
        how = "signal %d" % self.signal if self.signal else "status %d" % self.status
        return "%s, %d bytes out, at the end %r, err %r" % (how, len(self.out), self.out[-30:], self.err[:80])


class Program:
    def __init__(self, binary, counter, where):
        self.binary, self.counter, self.where = binary, counter, where

    def run(self, words, refuse=None, limits=(), out=subprocess.PIPE, stdin=subprocess.DEVNULL, closed=(),
            plain_user=False):
        """One run in the folder. `refuse` holds the counter's variables, without their beginning; `limits` are pairs of
        a limit of the system and a number; the descriptors `closed` are closed; a plain user may not read a file whose
        mode forbids it, as root may."""
        variables = {"PATH": os.defpath}
        if refuse is not None:
            variables["LD_PRELOAD"] = self.counter
            variables.update(("REFUSE_" + name, str(value)) for name, value in refuse.items())

        def before():
            for limit, number in limits:
                resource.setrlimit(limit, (number, number))
            for descriptor in closed:
                os.close(descriptor)
            for right in READS_ALL if plain_user and os.geteuid() == 0 else ():
                ctypes.CDLL(None).prctl(PR_CAPBSET_DROP, right, 0, 0, 0)

        try:
            run = subprocess.run([self.binary, *words], cwd=self.where, env=variables, stdin=stdin, stdout=out,
                                 stderr=subprocess.PIPE, timeout=LONGEST,
                                 preexec_fn=before if limits or closed or plain_user else None)
        except subprocess.TimeoutExpired:
            return Ended(-signal.SIGKILL, b"", b"no end")
        return Ended(run.returncode, run.stdout or b"", run.stderr)

    def counts(self, words, refuse=None):
        """What a run asks for: its `Counts`, of the writes to a descriptor."""
        path = os.path.join(self.where, "counts.%d" % os.getpid())
        self.run(words, {"COUNTS": path, **(refuse or {})})
        with open(path) as file:
            found = re.fullmatch(r"requests (\d+) writes (\d+) opens (\d+) reads (\d+)\n", file.read())
        os.remove(path)
        return Counts(*map(int, found.groups()))
