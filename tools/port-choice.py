#!/usr/bin/env python3
"""Turns this repository's own choice, `if a then b else c` of ground/specs/Choice.antt, to `when a then b else c`: today's library has the first name itself.

usage: python3 tools/port-choice.py      once, at the top, after port-names.py

It goes over the files that import the operator or define it, and over the edits: in .antt outside comments, in .rt in clauses and imports alone.
"""

import glob
import re

WORD = re.compile(r"(?<![\w'◌-])if(?![\w'◌-])")


def turned(path, line):
    line = line.replace("if◌then◌else◌", "when◌then◌else◌")
    if path.endswith(".antt"):
        comment = re.search(r"(^|\s)--(\s|$)", line)
        cut = comment.start() if comment else len(line)
        return WORD.sub("when", line[:cut]) + line[cut:]
    if re.match(r"\s*(ensures|requires)\b", line):
        return WORD.sub("when", line)
    return line


def main():
    for path in sorted(glob.glob("crates/*/**/*.antt", recursive=True) + glob.glob("crates/*/src/*.rt")):
        if "/out/" in path:
            continue
        with open(path, encoding="utf-8") as f:
            text = f.read()
        if "if◌then◌else◌" in text:
            with open(path, "w", encoding="utf-8") as f:
                f.write("\n".join(turned(path, line) for line in text.split("\n")))
    for path in sorted(glob.glob("crates/*/must-fail/*.edit")):
        with open(path, encoding="utf-8") as f:
            text = f.read()
        if re.search(r"^file: (specs|proofs)/", text, re.M):
            with open(path, "w", encoding="utf-8") as f:
                f.write("\n".join(WORD.sub("when", line) if re.search(r"\bthen\b", line) else line for line in text.split("\n")))


main()
