#!/usr/bin/env python3
"""Runs of every command under hostile conditions: refused memory, failing reads and writes, little room, a short stack.

    python3 bench/hostile.py                builds the program and tries it
    python3 bench/hostile.py --bin PATH     tries a program that is built already
    python3 bench/hostile.py --quick        tries a part of it
    python3 bench/hostile.py --only tree    tries the runs whose words hold a word
    python3 bench/hostile.py --jobs 4       on so many processors, at most four
    python3 bench/hostile.py --stack        tells the least stack of every form in a table, and asks for bounds of it
    python3 bench/hostile.py --window       goes through the address spaces in which a command begins to answer

For runs of every form of words over small inputs, for wrong words and wrong input, for output of more than one write,
and for trees of depth 1,000:

  * each of the first 2,000 requests for memory is refused in turn, alone and with all behind it;
  * each write to standard output, and to standard error, fails in turn, for want of room and since the pipe is closed,
    or takes nothing, or takes half of its bytes before the next one fails; each is interrupted by a signal in turn, and
    each takes one byte alone in turn; standard output is full, closed, open for reading alone, or a pipe that nobody
    reads;
  * each opening of a file fails in turn, and each read fails in turn, for an error of the device and since there is
    nothing yet; each is interrupted by a signal in turn, and each takes one byte alone in turn, and all do;
  * each file is absent in turn, or a folder, or may not be read; it is a named pipe, or standard input, whose bytes
    come in pieces; before each read the file grows, or loses half of what wasn't read;
  * the address space is limited, from 2 to 60 MB.

Trees of depth 4,095, and texts that nest deeper than any tree, are tried with a stack of 512 KB, and sessions over a
tree of depth 16,383 with 2 MB, with requests refused that are spread over the run.

A run in which nothing is refused says what is right; where it is a report, `check` has to accept it. A run in which
memory is refused has to end as that one, or with the status Memory, its line, and a beginning of the same output, or
with the status alone where there was no memory for the words. A run whose write fails has to end with the status
WriteFault, its line and what the writes before took; a write that fails on standard error changes no status. A run
whose file can't be read has to end with the status ReadFault, its line and no output. Where a file comes in pieces the
run has to end as over the whole file, and where it changes, as over the file that it has become. No run may end by a
signal. A limit of the address space under which the program doesn't start says nothing.

The last line is `no difference`, or the number of the differences, and then the exit status is 1.
"""
import argparse
import multiprocessing
import os
import resource
import shutil
import sys
import tempfile
import threading
import time

from hostile_inputs import ALL_REPORTS, DEEP, DEEPEST, FILES, LARGEST, LONG, SMALL
from refusing import Ended, Program, compile_counter
from run import build
from stacks import tell_stacks, tell_windows

MOST_REQUESTS = 2000
MEGABYTE = 1 << 20
SHORT_STACK = 512 << 10
STACK_OF_LARGEST = 2 << 20

USAGE = 2
MEMORY = (6, b"mdt: memory\n")
WRITE_FAULT = (5, b"mdt: write fault\n")
READ_FAULT = Ended(4, b"", b"mdt: read fault\n")

# What takes seconds, or a good part of one, is tried with few requests refused.
SLOW = {"largest.g6": 10, "long.g6": 100, "long.d6": 100, "hundred.g6": 200}


class Case:
    """Words, how a run of them ends with nothing refused, and what it asks for."""

    def __init__(self, program, words):
        self.words = words
        self.right = program.run(words)
        self.counts = program.counts(words, {"DESCRIPTOR": 1})
        self.writes_to_err = program.counts(words, {"DESCRIPTOR": 2}).writes
        # A run on as many words in no form asks for the memory of its words, and for none besides.
        self.requests_of_words = program.counts(["-" + word for word in words]).requests
        known = FILES.keys() | ALL_REPORTS.keys()
        self.files = [] if self.right.status == USAGE else [at for at, word in enumerate(words) if word in known]

    def after_refused_memory(self, ended, is_of_words):
        """Whether a run in which memory was refused ended rightly. `is_of_words` says whether there may have been none
        for the words."""
        if ended == self.right:
            return True
        if is_of_words and ended == Ended(MEMORY[0], b"", b""):
            return True
        return (ended.status, ended.err) == MEMORY and self.right.out.startswith(ended.out)

    def after_failed_write(self, ended):
        return (ended.status, ended.err) == WRITE_FAULT and self.right.out.startswith(ended.out)

    def after_failed_line(self, ended):
        """Whether a run ended rightly whose write to standard error failed."""
        return (ended.status, ended.out) == (self.right.status, self.right.out) and self.right.err.startswith(ended.err)

    def with_file(self, at, name):
        """The words, with another name in the place of a file."""
        return self.words[:at] + [name] + self.words[at + 1:]


# One run each: how it ended, and whether that is right.

def try_memory(program, case, _, number, limits):
    ended = program.run(case.words, {"REQUEST": number}, limits)
    return ended, case.after_refused_memory(ended, int(str(number).rstrip("+")) <= case.requests_of_words)


def try_space(program, case, _, number, limits):
    ended = program.run(case.words, None, [(resource.RLIMIT_AS, number)])
    return ended, case.after_refused_memory(ended, True)


def try_stack(program, case, _, number, limits):
    ended = program.run(case.words, None, limits)
    return ended, ended == case.right


def try_write(program, case, how, number, limits):
    descriptor, error = how
    ended = program.run(case.words, {"WRITE": number, "DESCRIPTOR": descriptor, "ERROR": error})
    if error in ("EINTR", "SHORT"):
        return ended, ended == case.right
    return ended, (case.after_failed_write if descriptor == 1 else case.after_failed_line)(ended)


def try_output(program, case, what, number, limits):
    """Standard output is something that can't be written to, which the run finds out where it has output."""
    if what == "closed":
        ended = program.run(case.words, out=None, closed=[1])
    elif what == "without reader":
        reader, writer = os.pipe()
        os.close(reader)
        ended = program.run(case.words, out=writer)
        os.close(writer)
    else:
        path, mode = {"full": ("/dev/full", "wb"), "for reading": (os.devnull, "rb")}[what]
        with open(path, mode) as file:
            ended = program.run(case.words, out=file)
    return ended, ended == (Ended(WRITE_FAULT[0], b"", WRITE_FAULT[1]) if case.right.out else case.right)


def try_open(program, case, error, number, limits):
    ended = program.run(case.words, {"OPEN": number, "ERROR": error})
    return ended, ended == READ_FAULT


def try_read(program, case, error, number, limits):
    ended = program.run(case.words, {"READ": number, "ERROR": error})
    return ended, ended == (case.right if error in ("EINTR", "SHORT") else READ_FAULT)


def try_change(program, case, how, number, limits):
    """Before a read the file grows, or is cut. The files are copies, which then are what the run read."""
    words = list(case.words)
    with tempfile.TemporaryDirectory(dir=program.where) as folder:
        for at in case.files:
            words[at] = os.path.join(folder, words[at])
            shutil.copyfile(os.path.join(program.where, case.words[at]), words[at])
        ended = program.run(words, {"READ": number, "ERROR": how})
        return ended, ended == program.run(words)


def try_file(program, case, what, at, limits):
    """Something else stands in the place of a file, from which it can't be read."""
    name = {"absent": "absent", "folder": ".", "forbidden": "forbidden", "below a file": "many.g6/many.g6",
            "no name": "", "a long name": "x" * 5000}[what]
    ended = program.run(case.with_file(at, name), plain_user=what == "forbidden")
    return ended, ended == READ_FAULT


def pieces(content):
    """A text in pieces: one byte, two, three, five and so on, and a few long ones."""
    place, size, last = 0, 1, 1
    while place < len(content):
        yield content[place:place + size]
        place, size, last = place + size, min(size + last, 10000), size


def feed(content, path=None, descriptor=None):
    """Writes a text in pieces to a named pipe, or to a descriptor, and closes it."""
    try:
        with open(path if descriptor is None else descriptor, "wb", buffering=0) as pipe:
            for piece in pieces(content):
                pipe.write(piece)
                time.sleep(0.0003)
    except BrokenPipeError:
        pass


def try_named_pipe(program, case, _, at, limits):
    with open(os.path.join(program.where, case.words[at]), "rb") as file:
        content = file.read()
    with tempfile.TemporaryDirectory(dir=program.where) as folder:
        path = os.path.join(folder, "pipe")
        os.mkfifo(path)
        writer = threading.Thread(target=feed, args=(content, path))
        writer.start()
        ended = program.run(case.with_file(at, path))
        # Where the run never opened the pipe, its writer waits for a reader.
        reader = os.open(path, os.O_RDONLY | os.O_NONBLOCK)
        while writer.is_alive():
            writer.join(0.01)
            try:
                os.read(reader, 1 << 16)
            except BlockingIOError:
                pass
        os.close(reader)
    return ended, ended == case.right


def try_stdin(program, case, what, at, limits):
    path = os.path.join(program.where, case.words[at])
    words = case.with_file(at, "/dev/stdin")
    with open(path, "rb") as file:
        if what == "file":
            ended = program.run(words, stdin=file)
            return ended, ended == case.right
        content = file.read()
    reader, writer = os.pipe()
    thread = threading.Thread(target=feed, args=(content, None, writer))
    thread.start()
    ended = program.run(words, stdin=reader)
    os.close(reader)
    thread.join()
    return ended, ended == case.right


TRIES = {
    "memory": try_memory,
    "space": try_space,
    "stack": try_stack,
    "write": try_write,
    "output": try_output,
    "open": try_open,
    "read": try_read,
    "change": try_change,
    "file": try_file,
    "named pipe": try_named_pipe,
    "stdin": try_stdin,
}


def start_worker(program, cases):
    global PROGRAM, CASES
    PROGRAM, CASES = program, cases


def attempt(task):
    """One run: answers what is wrong about it, or nothing."""
    at, what, how, number, limits = task
    ended, is_right = TRIES[what](PROGRAM, CASES[at], how, number, limits)
    if is_right and not ended.signal:
        return None
    return "%s: %s %s %s%s: %s" % (" ".join(CASES[at].words), what, how, number,
                                   " with a short stack" if limits else "", ended)


# What is tried: a task is the place of a case, what is tried and how, a number, and limits.

def spread(most, count):
    """At most `count` numbers from 1 to `most`: the first half of them from 1 on, the rest evenly behind."""
    if most <= count:
        return list(range(1, most + 1))
    first = count // 2
    rest = count - first
    return list(range(1, first + 1)) + [first + (most - first) * i // rest for i in range(1, rest + 1)]


def refusals(at, case, most, limits=()):
    """Requests that are refused: among the first of a run, or, with a short stack, among all."""
    most = min([most] + [SLOW[word] for word in case.words if word in SLOW])
    requests = case.counts.requests
    for n in spread(requests if limits else min(requests, MOST_REQUESTS), most):
        yield at, "memory", "", n, limits
        yield at, "memory", "", "%d+" % n, limits


def failed_writes(at, case, quick):
    for descriptor, count in ((1, case.counts.writes), (2, case.writes_to_err)):
        for n in spread(count, 6 if quick else 4000):
            yield at, "write", (descriptor, "ENOSPC"), "%d+" % n, ()
            for error in ("ENOSPC", "EPIPE", "EINTR", "SHORT", "NOTHING", "PART"):
                yield at, "write", (descriptor, error), n, ()
    for what in ("full", "closed", "for reading", "without reader"):
        yield at, "output", what, "", ()


def failed_loads(at, case, quick):
    for n in range(1, case.counts.opens + 1):
        for error in ("EACCES", "EMFILE", "EIO"):
            yield at, "open", error, n, ()
    for n in spread(case.counts.reads, 4 if quick else 100) if case.files else ():
        for error in ("EIO", "EAGAIN", "EINTR", "SHORT"):
            yield at, "read", error, n, ()
        yield at, "read", "EIO", "%d+" % n, ()
        for how in ("GROW", "CUT"):
            yield at, "change", how, n, ()
    if case.files:
        yield at, "read", "SHORT", "1+", ()


def other_files(at, case, forbidden):
    for place in case.files:
        for what in ("absent", "folder", "below a file", "no name", "a long name") + ("forbidden",) * forbidden:
            yield at, "file", what, place, ()
        yield at, "named pipe", "", place, ()
        yield at, "stdin", "pipe", place, ()
        yield at, "stdin", "file", place, ()


def spaces(quick):
    """Limits of the address space, in bytes: closer to one another where runs of small inputs go short."""
    if quick:
        return [n * MEGABYTE for n in range(2, 61, 12)]
    return [n * MEGABYTE // 8 for n in range(16, 96)] + [n * MEGABYTE for n in range(12, 61)]


def starts(program, limit):
    """Whether the program starts under a limit: the run without words ends by itself, with its own status."""
    return program.run([], None, [(resource.RLIMIT_AS, limit)]).status in (2, 6)


def forbids(program):
    """Makes a file that may not be read, and tells whether the system keeps that from this user."""
    path = os.path.join(program.where, "forbidden")
    with open(path, "wb") as file:
        file.write(FILES["many.g6"])
    os.chmod(path, 0)
    forbidden = program.run(["edges", "g6", "forbidden"], plain_user=True).status != 0
    if not forbidden:
        print("this user may read every file: that one may not be read isn't tried")
    return forbidden


def tasks_of(program, cases, quick):
    small, deep, deepest, largest = cases
    limits = [it for it in spaces(quick) if starts(program, it)]
    print("the program starts within %.2f MB" % (limits[0] / MEGABYTE), flush=True)
    forbidden = forbids(program)
    for at, case in small + deep:
        yield from refusals(at, case, 30 if quick else MOST_REQUESTS)
        yield from failed_writes(at, case, quick)
        yield from failed_loads(at, case, quick)
        yield from other_files(at, case, forbidden)
        for limit in limits:
            yield at, "space", "", limit, ()
    for group, least in ((deepest, SHORT_STACK), (largest, STACK_OF_LARGEST)):
        stack = [(resource.RLIMIT_STACK, least)]
        for at, case in group:
            yield at, "stack", "", least, stack
            yield from refusals(at, case, 8 if quick else 200, stack)


def write_files(program):
    for name, content in FILES.items():
        with open(os.path.join(program.where, name), "wb") as file:
            file.write(content)


def write_all_reports(program):
    """Writes the reports into the folder; answers what is wrong about them."""
    wrong = []
    for name, words in ALL_REPORTS.items():
        ended = program.run(words)
        with open(os.path.join(program.where, name), "wb") as file:
            file.write(ended.out)
        judged = program.run(["check", *words, name])
        if ended.status != 0 or judged != Ended(0, b"accepted\n", b""):
            wrong.append("%s: %s; its check: %s" % (" ".join(words), ended, judged))
    return wrong


def try_all(program, chosen):
    differences = write_all_reports(program)
    cases, groups = [], []
    for group in (SMALL + LONG, DEEP, DEEPEST, LARGEST):
        taken = [words for words in group if chosen.only in " ".join(words)]
        groups.append(list(enumerate((Case(program, words) for words in taken), len(cases))))
        cases += [case for _, case in groups[-1]]
    count = 0
    with multiprocessing.Pool(min(chosen.jobs, 4), start_worker, (program, cases)) as pool:
        for told in pool.imap_unordered(attempt, tasks_of(program, groups, chosen.quick), 16):
            count += 1
            if told:
                differences.append(told)
            if count % 20000 == 0:
                print("%d runs, %d differences until now" % (count, len(differences)), flush=True)
    print("%d runs of %d lists of words" % (count, len(cases)))
    return differences


def try_words(program, chosen):
    write_files(program)
    if chosen.stack:
        return tell_stacks(program, chosen.only)
    if chosen.window:
        return tell_windows(program, chosen.only)
    return try_all(program, chosen)


def main():
    options = argparse.ArgumentParser(description=__doc__, formatter_class=argparse.RawDescriptionHelpFormatter)
    options.add_argument("--bin")
    options.add_argument("--only", default="")
    options.add_argument("--quick", action="store_true")
    options.add_argument("--jobs", type=int, default=2)
    options.add_argument("--stack", action="store_true")
    options.add_argument("--window", action="store_true")
    chosen = options.parse_args()
    binary = os.path.abspath(chosen.bin or build())
    with tempfile.TemporaryDirectory() as where:
        differences = try_words(Program(binary, compile_counter(where), where), chosen)
    for line in differences[:200]:
        print(line)
    print("%d differences" % len(differences) if differences else "no difference")
    return 1 if differences else 0


if __name__ == "__main__":
    sys.exit(main())
