#!/usr/bin/env python3
"""Brings the definitions and lemmas of this repository to snake case: `after-calls` becomes `after_calls`.

usage: python3 tools/snake_names.py [FOLDER]     FOLDER: the top of a checkout, the one here if left out
       python3 tools/snake_names.py --list       prints the renamings and writes nothing

A name is turned if specs/ or proofs/ of a crate define it, and if neither the library nor a goal has it. Comments and
strings keep their words, but for names between backticks.
"""

import glob
import os
import re
import sys

# what parts two words of antt
EDGE = r"\s(){}\[\],;."
NAME = re.compile(r"[a-z][a-z0-9_'₀-₉]*(?:-[a-z0-9_'₀-₉]+)+$")
# a trait's ghost member has the plain name
OTHERWISE = {"in-range": "is_in_range"}
SIGNATURE = re.compile(r"^\s*(?:(?:abbrev|unfoldable|pub|record|data|ruleset)\s+)*([^" + EDGE + r":]+)\s*(?::\s*(.*)|[({].*|)$")
IMPORT = re.compile(r"use\s+(\S+?)\.\{([^}]*)\}")


def code(line, mark):
    """The line up to its comment."""
    at = re.search(r"(?:^|\s)" + mark, line)
    return line if not at else line[: at.start()]


def antt_files(root):
    return sorted(glob.glob(os.path.join(root, "crates/*/specs/**/*.antt"), recursive=True) + glob.glob(os.path.join(root, "crates/*/proofs/**/*.antt"), recursive=True))


def renamings(root):
    ours, theirs = set(), set()
    for path in antt_files(root):
        for line in open(path, encoding="utf-8"):
            line = code(line, "--").rstrip("\n")
            for where, names in IMPORT.findall(line):
                words = [w.split(" as ")[0].strip() for w in names.split(",")]
                if not re.match(r"Rattle\.(?!std\b)", where) or where.endswith(".Goals"):
                    theirs.update(words)
            found = SIGNATURE.match(line)
            if found and NAME.match(found[1]):
                kind = found[2] or ""
                if kind.startswith(("goal.", "?goal")):
                    theirs.add(found[1])
                elif found[2] is not None or re.match(r"\s*(abbrev|unfoldable|record|data|pub)\b", line):
                    ours.add(found[1])
    return {name: OTHERWISE.get(name, name.replace("-", "_")) for name in ours - theirs}, ours & theirs


def turned(text, table, comment):
    """The text with the names turned: in code, and in comments between backticks."""
    word = re.compile("(?<![^" + EDGE + "`])(" + "|".join(sorted(map(re.escape, table), key=len, reverse=True)) + ")(?![^" + EDGE + "`])")
    quoted = re.compile(r"`[^`\n]*`")
    out = []
    for line in text.split("\n"):
        head = code(line, comment) if comment else ""
        tail = line[len(head) :]
        parts = re.split(r'("(?:[^"\\]|\\.)*")', head)
        head = "".join(p if i % 2 else word.sub(lambda m: table[m[1]], p) for i, p in enumerate(parts))
        tail = quoted.sub(lambda m: word.sub(lambda n: table[n[1]], m[0]), tail)
        out.append(head + tail)
    return "\n".join(out)


def main(words):
    root = next((w for w in words if not w.startswith("--")), os.path.join(os.path.dirname(os.path.abspath(__file__)), ".."))
    table, kept = renamings(root)
    if "--list" in words:
        for name in sorted(table):
            print(name, table[name])
        print("kept, as the library or a goal has the name:", ", ".join(sorted(kept)))
        return
    if not table:
        return print("no name to turn")
    places = [(p, "--") for p in antt_files(root)]
    places += [(p, "//") for p in glob.glob(os.path.join(root, "crates/*/src/**/*.rt"), recursive=True)]
    places += [(p, "//") for p in glob.glob(os.path.join(root, "crates/*/must-fail/*.edit")) + glob.glob(os.path.join(root, "planted/*/*.edit"))]
    places += [(p, "") for p in glob.glob(os.path.join(root, "docs/*.md")) + glob.glob(os.path.join(root, "reference/*.md")) + [os.path.join(root, "README.md")]]
    for path, comment in places:
        with open(path, encoding="utf-8") as f:
            before = f.read()
        after = turned(before, table, comment)
        if after != before:
            with open(path, "w", encoding="utf-8") as f:
                f.write(after)


main(sys.argv[1:])
