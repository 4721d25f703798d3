#!/usr/bin/env python3
"""Prints the functions of a commit that are the same but for names, numbers and texts.

usage: python3 tools/twins.py [COMMIT]     COMMIT: HEAD if left out

A function counts from its body alone, if that has four lines or more; its clauses and comments do not count.
"""

import re
import subprocess
import sys
from collections import defaultdict

HEAD = re.compile(r"^(?P<indent> *)(?:pub(?:\(crate\))? )?(?:extern \"C\" )?fn (?P<name>\w+)")
KEPT = {"let", "mut", "if", "else", "match", "for", "in", "while", "return", "break", "Ok", "Err", "Some", "None", "self", "true", "false"}


def git(*words):
    return subprocess.run(["git", *words], capture_output=True, text=True, check=True).stdout


def functions(text):
    """Name and body of each function: a body begins at a line that ends with an open brace at the function's own indent."""
    lines = text.split("\n")
    for at, line in enumerate(lines):
        head = HEAD.match(line)
        if not head:
            continue
        indent = head["indent"]
        end = next((k for k in range(at, len(lines)) if lines[k] == indent + "}"), None)
        if end is None:
            continue
        begin = next((k for k in range(at, end) if lines[k] == indent + "{" or lines[k].startswith(indent) and lines[k].endswith("{") and "ensures" not in lines[k] and "requires" not in lines[k]), at)
        yield head["name"], [one for one in lines[begin + 1 : end] if one.strip() and not one.strip().startswith("//")]


def shape(body):
    """The body with one mark for each name, number or text."""
    text = " ".join(line.strip() for line in body)
    text = re.sub(r"b?\"[^\"]*\"|b'[^']*'", "#", text)
    return re.sub(r"\w+", lambda word: word[0] if word[0] in KEPT else "#", text).replace("#::", "")


def main():
    commit = sys.argv[1] if len(sys.argv) > 1 else "HEAD"
    groups = defaultdict(list)
    for path in git("ls-tree", "-r", "--name-only", commit, "crates").split():
        if path.endswith(".rt"):
            for name, body in functions(git("show", commit + ":" + path)):
                if len(body) >= 4:
                    groups[shape(body)].append(path + " " + name)
    found = [sorted(group) for group in groups.values() if len(group) > 1]
    for group in sorted(found):
        print("; ".join(group))
    print(len(found), "groups,", sum(map(len, found)), "functions")


main()
