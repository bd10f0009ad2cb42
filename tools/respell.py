#!/usr/bin/env python3
"""Spells the repository's own definitions and lemmas in snake case, as the kit's library spells its words.

usage: tools/respell.py [--check]      at the top of the repository, once, after the kit's port.py

What turns: each name that a file of specs/ or proofs/ declares and that has a capital inside or a dash, in every .antt file, in the
clauses, ghost lines and comments of .rt files, in must-fail edits, and in the code spans of README.md and docs/.
What stays: names that the check makes (a goal of a function's proof, a loop's invariant or measure), names that a file imports from
the kit, functions and other items of src/, strings. Where two names would fall together, a definition keeps the plain spelling and the
lemma ends in _lem, as the kit's rule is. --check writes nothing and prints the table.
"""
import collections
import glob
import os
import re
import sys

TOKEN = re.compile(r"[^\s(){}.;,@\"«»]+")
DECLARED = re.compile(
    r"(?m)^[ ]*((?:pub |abbrev |unfoldable |opaque )*)([^\s(){}.;,@\"«»:λ]+)"
    r"((?: \{[^{}\n]*\})*(?: \((?:[^()\n]|\([^()\n]*\))*\))*) :(?= |$)\s*(\S*)"
)
USE = re.compile(r"(?m)^\s*(?:ghost )?use ([^\s;{]+)\.\{([^}]*)\}")
CLAUSE = re.compile(r"\b(?:requires|ensures|ghost)\b")
GOAL = re.compile(r"^(?:invariant|decreases)-|-requires(?:-\d+)?$|^returns(?:-\d+)?$")


def crates():
    with open("crates.txt", encoding="utf-8") as f:
        return {line.split(":")[0].split()[0] for line in f if ":" in line}


def read(path):
    with open(path, encoding="utf-8") as f:
        return f.read()


def antt_files():
    return sorted(
        p
        for k in ("specs", "proofs")
        for p in glob.glob(f"crates/*/{k}/**/*.antt", recursive=True)
    )


def snake(name):
    name = re.sub(r"(?<=[a-z0-9])([A-Z])|(?<=[A-Z])([A-Z])(?=[a-z])", lambda m: "_" + m[0], name).lower()
    return name.replace("-", "_").replace("′", "'")


def turns(name):
    return (
        re.match(r"[a-z]", name)
        and re.fullmatch(r"[\w'′-]+", name)
        and re.search(r"[a-z0-9][A-Z]|-|′", name)
        and not GOAL.search(name)
    )


def declared():
    """Each own name, with the kind of file that declares it: 'specs' before 'proofs'."""
    kinds = {}
    for path in antt_files():
        kind = "specs" if "/specs/" in path else "proofs"
        for m in DECLARED.finditer(read(path)):
            if m[2] in ("use", "module", "import") or m[4].startswith(("tie.", "goal.")):
                continue
            if kinds.get(m[2]) != "specs":
                kinds[m[2]] = kind
    return kinds


def table():
    kinds = declared()
    by_new = collections.defaultdict(list)
    for name in kinds:
        by_new[snake(name) if turns(name) else name].append(name)
    rows, met = {}, []
    for new, olds in by_new.items():
        # A definition before a lemma; then a name that has the spelling already before one that gets it.
        olds.sort(key=lambda n: (kinds[n] != "specs", n != new, "-" in n, n))
        for i, old in enumerate(olds):
            if old != new or i:
                rows[old] = new + "_lem" * i if i else new
        if len(olds) > 1:
            met.append((new, olds))
    return rows, met


def imported(text, own):
    """The names that a file imports from the kit, which stay in it."""
    names = set()
    for m in USE.finditer(text):
        head = m[1].split(".")
        if not (head[0] == "Rattle" and len(head) > 1 and head[1] in own):
            names |= {n.split(" as ")[-1].strip() for n in m[2].split(",")}
    return names


def prose(text, rows):
    """A comment: camel case turns everywhere, a name with a dash in a code span alone."""
    text = re.sub(r"(?<![\w'′-])[a-z][\w'′]*(?![\w'′-])", lambda m: rows.get(m[0], m[0]) if re.search("[a-z0-9][A-Z]", m[0]) else m[0], text)
    return re.sub(r"`[^`\n]+`", lambda m: spans(m[0], rows), text)


def spans(text, rows):
    """Names in a code span, but for what stands in a path or is a file's name."""
    return re.sub(r"(?<![\w'′/.-])[a-z][\w'′-]*(?!/|\.(?:c|h|rs|rt|py|tsv|out|edit|antt)\b)", lambda m: rows.get(m[0], m[0]), text)


def code(text, rows):
    return TOKEN.sub(lambda m: rows.get(m[0], m[0]), text)


def antt(text, rows):
    out = []
    for line in text.split("\n"):
        m = re.search(r"(?<![^\s(){}.;,@\"«»])--.*$", line)
        at = m.start() if m else len(line)
        out.append(code(line[:at], rows) + prose(line[at:], rows))
    return "\n".join(out)


def rust(text, rows):
    """Camel case in lower case is no Rust name here, so it turns in the whole file; a dash only on a ghost line or in a clause."""
    camel = {k: v for k, v in rows.items() if re.search("[a-z0-9][A-Z]", k)}
    out = []
    for line in text.split("\n"):
        at = line.find("//")
        at = at if at >= 0 else len(line)
        named = rows if CLAUSE.search(line) else camel
        out.append(code(line[:at], named) + prose(line[at:], rows))
    return "\n".join(out)


class Page(dict):
    """The table for a page: what port.py turned stands there in its old spelling, and turns by what the files declare now."""

    def __init__(self, rows, names):
        super().__init__(rows)
        self.names = names

    def get(self, name, default=None):
        return super().get(name) or (snake(name) if turns(name) and snake(name) in self.names else default)


def page(text, rows):
    return re.sub(r"`[^`\n]+`", lambda m: spans(m[0], rows), text)


def main():
    check = "--check" in sys.argv
    own, (rows, met) = crates(), table()
    for new, olds in met:
        print("met:", new, "<-", " ".join(f"{o}={rows.get(o, o)}" for o in olds))
    if check:
        for old in sorted(rows):
            print(f"{old}\t{rows[old]}")
        return
    count, pages = 0, Page(rows, set(declared()))
    work = [(p, antt) for p in antt_files()]
    work += [(p, rust) for p in sorted(glob.glob("crates/*/src/**/*.rt", recursive=True))]
    work += [(p, rust) for p in sorted(glob.glob("crates/*/must-fail/*.edit"))]
    work += [(p, page) for p in ["README.md", *sorted(glob.glob("docs/*.md"))] if os.path.basename(p) != "PORT.md"]
    for path, turn in work:
        old = read(path)
        stays = imported(old, own) if turn is not page else set()
        new = turn(old, pages if turn is page else {k: v for k, v in rows.items() if k not in stays})
        if new != old:
            count += 1
            with open(path, "w", encoding="utf-8") as f:
                f.write(new)
    print(f"respell: {len(rows)} names, {count} files")


if __name__ == "__main__":
    main()
