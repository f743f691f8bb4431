#!/usr/bin/env python3
"""Counts the places in crates/*/src that have an older form, point by point (docs/DESIGN-PASS.md).

    python3 tools/forms.py [--list] [FOLDER]

FOLDER is the top of a checkout, this one if there is none. Tests are left out.
"""
import glob
import os
import re
import sys

FN = re.compile(r"(?m)^( *)(?:pub(?:\(crate\))? )?(?:extern \"C\" )?fn (\w+)(?:<[^>(]*>)?\(([^)]*)\)")
FACTS = ("Steps states inputs", "Matrix n", "Describes (whole t", "Lent t c", "LentAll t", "MarkedInstrument", "Lists states", "Below n",
         "RootPrepared", "RootReady", "Arrays ", "Signals ", "Words states", "Put ", "Room ", "IsPrefixLen")


class Source:
    def __init__(self, top):
        self.files = []
        for path in sorted(glob.glob(os.path.join(top, "crates/*/src/*.rt"))):
            with open(path, encoding="utf-8") as f:
                text = f.read().split("#[cfg(test)]")[0]
            self.files.append((os.path.relpath(path, top), text))

    def lines(self, pattern, skip=None):
        for path, text in self.files:
            for n, line in enumerate(text.split("\n"), 1):
                if re.search(pattern, line) and not (skip and re.search(skip, line)):
                    yield f"{path}:{n}: {line.strip()}"

    def functions(self):
        for path, text in self.files:
            for m in FN.finditer(text):
                start = text.find("\n" + m.group(1) + "{", m.end())
                line_end = text.find("\n", m.end())
                if text[m.start():line_end].rstrip().endswith("{"):
                    start = line_end
                end = text.find("\n" + m.group(1) + "}", start)
                n = text.count("\n", 0, m.start()) + 1
                yield path, n, m.group(2), m.group(3), text[m.start():start], text[start:end]


def own_enums(source):
    for path, text in source.files:
        for m in re.finditer(r"(?m)^(?:pub(?:\(crate\))? )?enum (\w+) \{\n((?:.*\n)*?)\}", text):
            if re.search(r"\(Refusal\)|^ *(Unusable|Nothing|Oversized),", m.group(2), re.M):
                yield f"{path}: enum {m.group(1)}"


def parameters(source, least):
    for path, n, name, given, _, _ in source.functions():
        many = len([p for p in given.split(",") if p.strip()])
        if many >= least:
            yield f"{path}:{n}: {name} has {many} parameters"


def facts(source):
    heads = [(f"{path}:{n}: {name}", head) for path, n, name, _, head, _ in source.functions()]
    for fact in FACTS:
        found = [place for place, head in heads if re.search(r"requires[^\n]*" + re.escape(fact), head)]
        if len(found) >= 3:
            yield from (f"{place} requires {fact}" for place in found)


def twins(source):
    groups = {}
    for path, n, name, given, _, body in source.functions():
        words = re.findall(r"\w+|[^\w\s]", body)
        words = ["N" if re.fullmatch(r"[0-9][0-9A-Za-z_]*", w) else "T" if re.fullmatch(r"u8|u16|u32|u64|usize|StateSet|BITS|EVERY", w) else w for w in words]
        if len(words) > 3:
            key = re.sub(r"\( N as T \)|N T\b", "N", " ".join(words))
            groups.setdefault(key, []).append(f"{path}:{n}: {name}")
    for group in groups.values():
        if len(group) > 1:
            yield from group


POINTS = [
    ("1 own enums of the shape of Option or Result", own_enums),
    ("1 a flag beside values", lambda s: s.lines(r"^ *pub (outcome: Outcome|usable: bool),")),
    ("1 a number for none", lambda s: s.lines(r"^// .*(4096 where there is none|past the last word where there is none|the width if there is none)")),
    ("1 numbers for kinds", lambda s: s.lines(r"match kind \{|^ *pub kind: u32")),
    ("1 numbers for refusals, by a table", lambda s: s.lines(r"Refusal::\w+ => \d+,")),
    ("1 two flags for a verdict", lambda s: s.lines(r"by_marks: bool")),
    ("2 functions with the same body but for types and numbers", twins),
    ("2 the frame of a question: read, then match", lambda s: s.lines(r"reader::read\(")),
    ("3 loops by hand: while", lambda s: s.lines(r"^ *while ")),
    ("3 loops by hand: loop", lambda s: s.lines(r"^ *loop \{")),
    ("4 copies by index", lambda s: s.lines(r"^ *\w+\[\w+ \+ \w+\] = \w+\[\w+\];")),
    ("4 conversions by a function", lambda s: s.lines(r"fn (of_refusal|of_written|of_looked|of_judged|wide|number|same)\b")),
    ("4 digits and words printed by hand", lambda s: s.lines(r"fn (decimal|digits|digit|byte_text|verdict_word|stage_word)\b")),
    ("5 functions of seven parameters and more", lambda s: parameters(s, 7)),
    ("5 facts that three requires and more repeat", facts),
    ("5 a file and a place in it", lambda s: s.lines(r"file: &\[u8\], (from|place|first): Cursor|self, file: &\[u8\]")),
    ("5 a buffer and a place in it", lambda s: s.lines(r"out: &mut \[\w+\], (at|base): usize|^ *(at|base): usize,")),
    ("6 a buffer with a length beside it", lambda s: s.lines(r"^ *pub (count|startcount|nodecount|components): (u32|usize),")),
    ("6 arrays of one length, side by side", lambda s: s.lines(r"^ *pub \w+: \[\w+; Instrument::\w+\],")),
    ("7 a flag that picks the step", lambda s: s.lines(r"(every|pass): bool")),
]


def main():
    args = [a for a in sys.argv[1:] if a != "--list"]
    source = Source(args[0] if args else os.path.join(os.path.dirname(os.path.abspath(__file__)), ".."))
    for name, count in POINTS:
        found = list(count(source))
        print(f"{len(found):4}  {name}")
        if "--list" in sys.argv:
            for place in found:
                print(f"          {place}")


if __name__ == "__main__":
    main()
