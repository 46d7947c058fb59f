"""The call stack and the address space that runs over deep trees need, for hostile.py."""
import collections
import os
import resource

from hostile_inputs import BARRED, GRAPH_MODES, SESSIONS, barred_reports, deep_reports
from refusing import Ended

KILOBYTE = 1 << 10
# The files of each depth, and the number of `big` whose tree is as deep.
DEPTHS = {"deep": ("1,000", "1001"), "deepest": ("4,095", "4096"), "largest": ("16,383", None)}
MODES = (*GRAPH_MODES, "dtree", *SESSIONS)
# The modes whose graphs have fewer names than the largest.
FEW_NAMES = ("compare", "shortest", "permute", "dtree")
MOST_STACK = 65536

# The stack in KB that a run, and a check of its report, may need; `barred` are sessions on a graph that isn't of the
# class.
BOUNDS = {
    ("barred", "deepest"): 64,
    ("barred", "largest"): 128,
    **{(mode, "deepest"): 64 for mode in ("tree", "cograph", "quiet")},
    **{(mode, "largest"): 128 for mode in ("tree", "cograph", "quiet")},
    **{(mode, "largest"): 2048 for mode in ("edit", "trivial", "threshold")},
    ("dtree", "deepest"): 512,
}
AGAIN = 10
# How many runs with another request refused are tried within the stack that a whole run needs.
REFUSED = 16

# The commands of which is asked that in every address space they end by no signal, with the checks of their reports;
# those that are gone through at one depth beside them, and told; how far below and above the least space in which one
# answers, and by what steps, in KB.
WINDOW_MODES = ("tree", "cograph", "quiet")
TOLD_MODES = ("dtree", "edit", "trivial", "threshold")
BELOW, ABOVE, STEP = 2048, 1024, 16


def write_reports(program, reports):
    for name, words in reports.items():
        ended = program.run(words)
        with open(os.path.join(program.where, name), "wb") as file:
            file.write(ended.out)


def barred_forms():
    tables = {depth: barred_reports(depth) for depth in DEPTHS}
    for mode in BARRED:
        names = {depth: "%s_barred_%s.txt" % (depth, mode) for depth in DEPTHS}
        words = {depth: tables[depth][name] for depth, name in names.items()}
        yield mode + " barred", "barred", words
        yield "check %s barred" % mode, "barred", {depth: ["check", *words[depth], names[depth]] for depth in DEPTHS}


def forms():
    """Every form of words over deep trees: what stands in the table, what bounds it, and the words by depth."""
    tables = {depth: deep_reports(depth, MODES) for depth in DEPTHS}
    rows = [(form, form, {depth: [form, "g6", depth + ".g6"] for depth in DEPTHS}) for form in ("edges", "graph6")]
    for mode in MODES:
        told = {depth: ("%s_%s.txt" % (depth, mode), tables[depth]["%s_%s.txt" % (depth, mode)])
                for depth in DEPTHS if depth != "largest" or mode not in FEW_NAMES}
        rows.append((mode, mode, {depth: words for depth, (_, words) in told.items()}))
        rows.append(("check " + mode, mode, {depth: ["check", *words, name] for depth, (name, words) in told.items()}))
    rows += barred_forms()
    rows.append(("big", "big", {depth: ["big", number] for depth, (_, number) in DEPTHS.items() if number}))
    return rows


def ends(program, words, refuse, stack):
    """Whether a run ends by no signal within a stack of so many KB."""
    return not program.run(words, refuse, [(resource.RLIMIT_STACK, stack * KILOBYTE)]).signal


def least_stack(program, words, refuse=None, low=8):
    """The least stack in KB, at or above `low`, within which runs end by no signal. The system begins the stack at a
    place that is drawn, within some KB, so that it is tried again."""
    high = low
    while high < MOST_STACK and not ends(program, words, refuse, high):
        low, high = high + 1, high * 2
    while low < high:
        middle = (low + high) // 2
        if ends(program, words, refuse, middle):
            high = middle
        else:
            low = middle + 1
    while high < MOST_STACK and not all(ends(program, words, refuse, high) for _ in range(AGAIN)):
        high += 1
    return high


def least_with_refused(program, words, least):
    """The least stack in KB within which runs end by no signal in each of which another request is refused."""
    requests = program.counts(words).requests
    for n in sorted({1 + (requests - 1) * i // (REFUSED - 1) for i in range(REFUSED)} if requests else ()):
        if not ends(program, words, {"REQUEST": n}, least):
            least = least_stack(program, words, {"REQUEST": n}, least)
    return least


def tell_stacks(program, only):
    """Tells the least stack of every form by depth; answers where it is more than its bound."""
    for depth in DEPTHS:
        few = MODES if depth != "largest" else [mode for mode in MODES if mode not in FEW_NAMES]
        write_reports(program, {**deep_reports(depth, few), **barred_reports(depth)})
    print("least stack in KB, and with a request refused | " + " | ".join(told for told, _ in DEPTHS.values()))
    wrong = []
    for form, mode, words_by_depth in forms():
        if only not in form:
            continue
        row = []
        for depth in DEPTHS:
            words = words_by_depth.get(depth)
            row.append(tell_stack(program, words, BOUNDS.get((mode, depth)), wrong) if words else "-")
        print(" | ".join([form, *row]), flush=True)
    return wrong


def tell_stack(program, words, bound, wrong):
    right = program.run(words)
    if right.status != 0:
        wrong.append("%s: %s" % (" ".join(words), right))
    whole = least_stack(program, words)
    refused = least_with_refused(program, words, whole)
    if bound and refused > bound:
        wrong.append("%s: a stack of %d KB, %d with a request refused, is needed; %d may be"
                     % (" ".join(words), whole, refused, bound))
    within = " (of %d)" % bound if bound else ""
    return "%d, %d%s" % (whole, refused, within)


# Address space

def in_space(program, words, space):
    return program.run(words, None, [(resource.RLIMIT_AS, space * KILOBYTE)])


def least_space(program, words, right):
    """The least address space in KB, up to a step, below which some run ends in another way."""
    low, high = 1024, 1 << 20
    while high - low > STEP:
        middle = (low + high) // 2
        if in_space(program, words, middle) == right:
            high = middle
        else:
            low = middle
    return high


def is_right_in(ended, right):
    """Whether a run in little address space ended as it has to: as ever, or out of memory."""
    if ended in (right, Ended(6, b"", b"")):
        return True
    return (ended.status, ended.err) == (6, b"mdt: memory\n") and right.out.startswith(ended.out)


def tell_windows(program, only):
    """Goes through the address spaces around the least in which a command answers; answers what is wrong where it is
    asked for."""
    wrong = []
    for depth in DEPTHS:
        wrong += tell_windows_of(program, only, depth, WINDOW_MODES)
    tell_windows_of(program, only, "deepest", TOLD_MODES)
    return wrong


def tell_windows_of(program, only, depth, modes):
    wrong = []
    for name, words in deep_reports(depth, modes).items():
        forms_here = [form for form in (words, ["check", *words, name]) if only in " ".join(form)]
        if forms_here:
            write_reports(program, {name: words})
        for form in forms_here:
            wrong += tell_window(program, form)
    return wrong


def tell_window(program, words):
    right = program.run(words)
    answers = least_space(program, words, right)
    begins = least_space(program, [], program.run([]))
    wrong, count = collections.defaultdict(list), 0
    first = max(begins, answers - BELOW) // STEP * STEP
    for space in range(first, answers + ABOVE + 1, STEP):
        ended = in_space(program, words, space)
        count += 1
        if not is_right_in(ended, right):
            wrong[str(ended)].append(space)
    told = ["%s: within %d address spaces of %d to %d KB: %s" % (" ".join(words), len(found), found[0], found[-1], how)
            for how, found in wrong.items()]
    print("%s: answers within %d KB; %d runs around it, %d wrong"
          % (" ".join(words), answers, count, sum(map(len, wrong.values()))))
    print("".join("    %s\n" % line for line in told), end="", flush=True)
    return told
