#!/usr/bin/env python3
"""Brings the repository's own definitions and lemmas to the spelling of today's Rattle: words in snake case.

usage: python3 tools/respell.py        at the top of the repository, once, after the toolchain's port.py

A name with dashes that specs/ or proofs/ of a crate declare, or bind, gets underscores. Names that are imported from
the toolchain's libraries keep theirs, and so do names that the check makes for a function's proof. Comments and pages
change only between backquotes.
"""
import glob
import re
import sys

# (?<!...) keeps out a part of a longer name; a name is a letter and then letters, digits, _ and ', joined by dashes
NAME = re.compile(r"(?<![\w'·-])[^\W\d_·][\w']*(?:-[\w']+)+(?![\w'])")
DECLARED = re.compile(r"\s*(?:abbrev |unfoldable |pub |record |data |ruleset )*([^\s:{(]+)\s*(?::|\(|\{|$)")
# a definition whose snake-case name is another thing's in the same clauses
OTHER = {}


def split_comment(line, mark):
    """The code of a line and its comment; a mark inside a text does not count."""
    quoted = False
    for i, c in enumerate(line):
        if c == '"':
            quoted = not quoted
        if not quoted and line.startswith(mark, i) and (i == 0 or line[i - 1] in " \t"):
            return line[:i], line[i:]
    return line, ""


def outside_texts(code, turn):
    parts = re.split(r'("(?:[^"\\]|\\.)*")', code)
    return "".join(p if i % 2 else turn(p) for i, p in enumerate(parts))


def in_backquotes(comment, turn):
    return re.sub(r"`[^`\n]*`", lambda m: turn(m.group(0)), comment)


def own_crates():
    return {p.split("/")[1] for p in glob.glob("crates/*/src")}


def modules():
    return sorted(glob.glob("crates/*/specs/**/*.antt", recursive=True) + glob.glob("crates/*/proofs/*.antt"))


def walks():
    return sorted(set(glob.glob("crates/*/proofs/**/*.antt", recursive=True)) - set(glob.glob("crates/*/proofs/*.antt")))


def imported(files, own):
    """Names with dashes that are imported from the toolchain's libraries."""
    found = set()
    for f in files:
        text = open(f, encoding="utf-8").read()
        for path, names in re.findall(r"use ([^\s{}]+?)\.\{([^}]*)\}", text):
            crate = path.split(".")[1] if path.startswith("Rattle.") else ""
            if crate not in own:
                found |= {n.strip().split(" as ")[0] for n in names.split(",") if "-" in n}
    return found


def declared(files):
    found = set()
    for f in files:
        for line in open(f, encoding="utf-8"):
            m = DECLARED.match(split_comment(line, "--")[0].rstrip("\n"))
            if m and "-" in m.group(1) and NAME.fullmatch(m.group(1)):
                found.add(m.group(1))
    return found


def main():
    own = own_crates()
    outside = imported(modules() + walks() + glob.glob("crates/*/src/**/*.rt", recursive=True), own)
    names = declared(modules()) - outside

    def snake(n):
        return OTHER.get(n, n.replace("-", "_"))

    def turn_all(text):
        return NAME.sub(lambda m: m.group(0) if m.group(0) in outside else snake(m.group(0)), text)

    def turn_own(text):
        return NAME.sub(lambda m: snake(m.group(0)) if m.group(0) in names else m.group(0), text)

    def turn_walk(text):
        # what the check makes stands behind the name of one of its modules, or behind a call's step
        def one(m):
            before = text[: m.start()]
            made = re.search(r"(?:\b(?:tie|lts|[\w-]+-lts|Lts|Tie)\.)$", before)
            return m.group(0) if made or m.group(0) not in names else snake(m.group(0))

        return NAME.sub(one, text)

    def rewrite(f, mark, turn):
        lines = []
        for line in open(f, encoding="utf-8"):
            code, comment = split_comment(line, mark)
            lines.append(outside_texts(code, turn) + in_backquotes(comment, turn_own))
        new = "".join(lines)
        if new != open(f, encoding="utf-8").read():
            open(f, "w", encoding="utf-8").write(new)

    for f in modules():
        rewrite(f, "--", turn_all)
    for f in walks():
        rewrite(f, "--", turn_walk)
    for f in sorted(glob.glob("crates/*/src/**/*.rt", recursive=True)):
        rewrite(f, "//", turn_own)
    for f in sorted(glob.glob("crates/*/must-fail/*.edit")):
        text = open(f, encoding="utf-8").read()
        new = re.sub(r"(?m)^(?:old|new):.*$", lambda m: turn_own(m.group(0)), text)
        if new != text:
            open(f, "w", encoding="utf-8").write(new)
    for f in ["README.md"] + sorted(glob.glob("docs/*.md")):
        text = open(f, encoding="utf-8").read()
        new = re.sub(r"`[^`\n]*`", lambda m: turn_own(m.group(0)), text)
        if new != text:
            open(f, "w", encoding="utf-8").write(new)
    return 0


if __name__ == "__main__":
    sys.exit(main())
