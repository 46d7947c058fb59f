#!/usr/bin/env python3
"""Writes docs/DEFINITIONS.md anew below its hand-written head: each definition of specs/ that the contract of
a public call reaches, with the comment that stands before it. Run it at the top of the repository."""
import os
import re
import textwrap

PAGE = "docs/DEFINITIONS.md"
DEFINED = re.compile(r"^\s*(?:abbrev |unfoldable )?pub (?:record |data )?([^\s:({]+)")
WORD = re.compile(r"[^\s(){}\[\],;:.→λ×⊎≡≢∷¬|]+")


def crates():
    for line in open("crates.txt"):
        if ":" in line and not line.startswith("#"):
            yield line.split(":")[0]


def spec_files(crate):
    lib = f"crates/{crate}/specs/Lib.antt"
    if not os.path.exists(lib):
        return []
    return sorted(name[:-5] for name in os.listdir(f"crates/{crate}/specs") if name.endswith(".antt") and name != "Lib.antt")


def uses(lines):
    """The names that `use` lines bring, each with the crate and the file that define it."""
    names = {}
    for line in lines:
        found = re.match(r"\s*(?:pub )?(?:ghost )?use Rattle\.(\w+)\.specs\.(\w+)\.\{([^}]*)\}", line)
        if found:
            for name in found.group(3).split(","):
                parts = name.strip().split(" as ")
                names[parts[-1].strip()] = (found.group(1), found.group(2), parts[0].strip())
    return names


def joined(text):
    """`use` lines in several lines become one line each."""
    return re.sub(r"\{([^{}]*?)\}", lambda m: "{" + " ".join(m.group(1).split()) + "}", text)


def read_spec(crate, name):
    lines = open(f"crates/{crate}/specs/{name}.antt").read().split("\n")
    head, at = [], 0
    while at < len(lines) and lines[at].startswith("--"):
        head.append(lines[at][2:].strip())
        at += 1
    brought, definitions, comment, current = uses(lines), [], [], None
    for line in lines[at:]:
        stripped = line.strip()
        if stripped.startswith("--"):
            if current is None or not line.startswith("  ") or current["mutual"]:
                comment.append(stripped[2:].strip())
            continue
        found = DEFINED.match(line)
        inside = line.startswith("  ") and current is not None and current["kind"] == "record"
        if found and not inside and not stripped.startswith("pub use") and not stripped.startswith("pub mod"):
            kind = "record" if " record " in " " + line else "other"
            current = {"name": found.group(1), "comment": " ".join(comment), "body": [line], "kind": kind,
                       "mutual": line.startswith("  ")}
            definitions.append(current)
            comment = []
        elif stripped in ("mutual", "abbrev mutual", "unfoldable mutual"):
            current = None
            comment = []
        elif current is not None:
            current["body"].append(line)
    return head, brought, definitions


def tokens(text):
    return set(WORD.findall(re.sub(r"--.*", "", text)))


def exported(crate):
    """The names that a crate hands out, and the modules that are public as a whole."""
    if not os.path.exists(f"crates/{crate}/src/lib.rt"):
        return set(), set()
    text = joined(open(f"crates/{crate}/src/lib.rt").read())
    names = set()
    for found in re.finditer(r"pub use (?:\w+::)*(?:\{([^}]*)\}|(\w+));", text):
        names |= {n.strip().split(" as ")[-1] for n in (found.group(1) or found.group(2)).split(",")}
    return names, set(re.findall(r"(?m)^pub mod (\w+);", text))


def public_clauses(path, names):
    """The clauses of the public functions of a source file, and what views and laws of types say; of those
    that the crate hands out, where names are given."""
    text = joined(open(path).read())
    cut = text.find("#[cfg(test)]\nmod tests {")
    text = text[:cut] if cut >= 0 else text
    lines = text.split("\n")
    clauses, i, in_trait, owner = [], 0, False, None
    while i < len(lines):
        line = lines[i]
        found = re.match(r"(?:pub )?(?:impl|trait)(?:<[^>]*>)? (?:\w+ for )?(\w+)", line)
        if found:
            owner = found.group(1)
        elif line == "}":
            owner = None
        if re.match(r"pub trait ", line):
            in_trait = True
        if line == "}":
            in_trait = False
        found = re.match(r"\s*pub (?:const )?fn (\w+)", line) or (in_trait and re.match(r"\s*fn (\w+)", line))
        public = found and (names is None or (owner or found.group(1)) in names)
        if public or "ghost view" in line or "ghost Value" in line or (in_trait and "ghost " in line and "ghost use" not in line):
            block = []
            while i < len(lines):
                block.append(lines[i])
                if lines[i].rstrip().endswith("{}") or re.match(r"\s*\{$", lines[i]) or lines[i].rstrip().endswith(";"):
                    break
                if lines[i].rstrip().endswith("{") and "ensures" not in lines[i] and "requires" not in lines[i] and "(" in lines[i]:
                    break
                i += 1
            clauses.append("\n".join(block))
        i += 1
    return uses(lines), "\n".join(clauses)


def reached():
    specs = {(c, f): read_spec(c, f) for c in crates() for f in spec_files(c)}
    todo, seen = [], set()
    for crate in crates():
        names, modules = exported(crate)
        for root, _, files in os.walk(f"crates/{crate}/src"):
            for name in files:
                if name.endswith(".rt") and not name.endswith("tests.rt") and "/tests" not in root:
                    whole = name == "lib.rt" or name[:-3] in modules
                    brought, clauses = public_clauses(os.path.join(root, name), None if whole else names)
                    todo += [brought[t] for t in tokens(clauses) if t in brought]
    while todo:
        crate, name, word = todo.pop()
        if (crate, name) not in specs or (crate, name, word) in seen:
            continue
        _, brought, definitions = specs[crate, name]
        for definition in definitions:
            if definition["name"] == word:
                seen.add((crate, name, word))
                own = {d["name"]: (crate, name, d["name"]) for d in definitions}
                for token in tokens("\n".join(definition["body"])):
                    if token in brought:
                        todo.append(brought[token])
                    elif token in own:
                        todo.append(own[token])
    return specs, seen


def main():
    page = open(PAGE).read()
    head = page[: page.index("## md_text")]
    titles = dict(re.findall(r"(?m)^## (md_\w+): (.*)$", page))
    specs, seen = reached()
    old, crate, name = {}, None, None
    for line in page[len(head) :].split("\n"):
        found = re.match(r"## (md_\w+):|\*\*(\w+)\.\*\*|\| `([^`]+)` \| (.*) \|", line)
        if found and found.group(1):
            crate = found.group(1)
        elif found and found.group(2):
            name = found.group(2)
        elif found:
            old[crate, name, found.group(3)] = found.group(4)
    order = list(titles) + [c for c in crates() if c not in titles]
    out = [head.rstrip()]
    seen |= {k for k in old if k[:2] in specs and k[2] in [d["name"] for d in specs[k[:2]][2]]}
    for crate in order:
        files = [f for f in spec_files(crate) if any(s[:2] == (crate, f) for s in seen)]
        if not files:
            continue
        if crate not in titles:
            raise SystemExit(f"{PAGE} has no heading for {crate}: add '## {crate}: WORDS'")
        out.append(f"\n## {crate}: {titles[crate]}")
        for name in files:
            comment, _, definitions = specs[crate, name]
            out.append("\n" + "\n".join(textwrap.wrap(f"**{name}.** " + " ".join(comment), 110, break_on_hyphens=False, break_long_words=False)))
            out.append("\n| Definition | Meaning |\n|---|---|")
            for d in definitions:
                if (crate, name, d["name"]) in seen:
                    meaning = re.sub(r"\.?\s*Source:.*", "", d["comment"]).rstrip(".").replace("|", "\\|")
                    meaning = meaning or old.get((crate, name, d["name"]), "")
                    if meaning:
                        out.append(f"| `{d['name']}` | {meaning} |")
    open(PAGE, "w").write("\n".join(out) + "\n")


main()
