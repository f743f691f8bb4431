#!/usr/bin/env python3
"""Respells this repository's own definitions and lemmas by tools/names.tsv: old, a tab, new.

usage: tools/respell.py [ROOT]

Whole words turn, in clauses, specs/, proofs/ and must-fail edits; in comments and pages only inside code spans. A second run changes nothing.
"""

import os
import re
import sys

HERE = os.path.dirname(os.path.realpath(__file__))
WORD = re.compile(r"[^\s(){}.;,@\"«»\[\]\\:`]+")
SPAN = re.compile(r"`[^`\n]*`")
PAGES = ("README.md", "docs", "second/README.md", "second/NOTATION.md", "interface/README.md", "pictures/README.md", "bench/README.md")


def rows():
    with open(os.path.join(HERE, "names.tsv"), encoding="utf-8") as f:
        return dict(line.rstrip("\n").split("\t") for line in f)


def words(text, table):
    return WORD.sub(lambda m: table.get(m[0], m[0]), text)


def spans(text, table):
    return SPAN.sub(lambda m: words(m[0], table), text)


def code(text, table, mark):
    """Turns code up to a comment's mark on each line, and the comment's code spans."""
    out = []
    for line in text.split("\n"):
        at = re.search(rf"(?:^|(?<=\s)){mark}", line)
        head, tail = (line[: at.start()], line[at.start() :]) if at else (line, "")
        out.append(words(head, table) + spans(tail, table))
    return "\n".join(out)


def edit(text, table):
    turn = lambda line: words(line, table) if line.startswith(("old:", "new:")) else spans(line, table)
    return "\n".join(turn(line) for line in text.split("\n"))


def turned(path, text, table):
    if path.endswith(".antt"):
        return code(text, table, "--")
    if path.endswith(".rt"):
        return code(text, table, "//")
    if path.endswith(".edit"):
        return edit(text, table)
    return spans(text, table)


def paths(root):
    for top in ("crates",):
        for folder, below, names in os.walk(os.path.join(root, top)):
            below[:] = sorted(it for it in below if it != "out")
            yield from (os.path.join(folder, it) for it in sorted(names) if it.endswith((".antt", ".rt", ".edit")))
    for page in PAGES:
        whole = os.path.join(root, page)
        if os.path.isdir(whole):
            yield from (os.path.join(whole, it) for it in sorted(os.listdir(whole)) if it.endswith(".md"))
        elif os.path.isfile(whole):
            yield whole


def main():
    root, table, changed = (sys.argv[1:] or [os.path.dirname(HERE)])[0], rows(), 0
    for path in paths(root):
        with open(path, encoding="utf-8", newline="") as f:
            text = f.read()
        new = turned(path, text, table)
        if new != text:
            changed += 1
            with open(path, "w", encoding="utf-8", newline="") as f:
                f.write(new)
    print(f"{changed} files changed")


if __name__ == "__main__":
    main()
