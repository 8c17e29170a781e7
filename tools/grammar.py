#!/usr/bin/env python3
"""Prints the numbers of crates/tree/src/grammar.rt and crates/rewritten/src/tables.rt, worked out from crates/tree/specs/Grammar.antt.

The proofs of `kinds`, `row` and `maps`, and those of proofs/TablesRight in crate rewritten, check each number, so nothing
rests on this script.
"""
import os
import re

SPEC = os.path.join(os.path.dirname(__file__), "..", "crates", "tree", "specs", "Grammar.antt")
CLASS = {"child": 1, "chosen": 2, "many": 3, "gaps": 4, "text": 5, "mark": 6, "number": 10}  # byte LOW HIGH: 7 + LOW
VARIANTS = [14, 14, 34, 35, 36, 37]  # the kinds of the forms 64 to 69


def block(text, name):
    """The lines of a definition that is a list of lists, comments cut off, up to its `[]`."""
    lines = text.split("\n%s =\n" % name)[1].split("\n")
    return [line.split("--")[0].strip() for line in lines[: lines.index("    []")]]


def kind(form):
    return form if form < 64 else VARIANTS[form - 64]


def digit(text, places):
    """A field as ten binary digits: 32 · class + number, and 512 more where it may be absent."""
    word, sort, rest = re.match(r"(must|may) \(?(\w+)\)?((?: \w+)*)", text).groups()
    args = [places.get(a, a) for a in rest.split()]
    if sort == "byte":
        code = 32 * (7 + int(args[0])) + int(args[1])
    else:
        code = 32 * CLASS[sort] + (args[0] if args else 0)
    return code + 512 * (word == "may")


def array(name, entries, size, other):
    """An array, with `other` where there is no entry."""
    print("%s:" % name)
    for i in range(size):
        print("    0x%x," % entries.get(i, other))


def main():
    text = open(SPEC, encoding="utf-8").read()
    lists = {n: re.findall(r"\d+", body) for n, body in re.findall(r"^(\w+) = (\d+ ∷.*)$", text, re.M)}
    places = {n: int(v) for n, v in re.findall(r"^abbrev pub (?:\w+) : ℕ\n(\w+) = (\d+)$", text, re.M)}
    standing, plans, maps = {}, {}, {}
    print("kinds:")
    for number, line in enumerate(block(text, "places")):
        forms = [f for word in re.findall(r"\w+", line) for f in lists.get(word, [word])]
        kinds = {kind(int(f)) for f in forms}
        print("        %d => 0x%x," % (number, sum(1 << k for k in kinds)))
        kinds |= {20} if kinds & {18, 19} else set()
        kinds |= {21} if 24 in kinds else set()
        standing[number] = sum(1 << k for k in kinds)
    print("row:")
    for start, name in ((0, "kinds"), (64, "variants")):
        for i, line in enumerate(block(text, name)):
            fields = re.findall(r"(?:must|may) (?:\([^)]*\)|\w+)", line)
            digits = [digit(f.replace("(", "").replace(")", ""), places) for f in fields]
            row = sum(d << 10 * j for j, d in enumerate(digits))
            if row:
                print("        %d => 0x%x," % (start + i, row))
                plans[start + i] = sum((d | 512) << 10 * j for j, d in enumerate(digits))
    print("maps:")
    for start, name in ((0, "kinds"), (64, "variants")):
        for i, line in enumerate(block(text, name)):
            words = re.findall(r"(must|may) ", line)
            needed = sum(1 << j for j, word in enumerate(words) if word == "must")
            if words:
                maps[start + i] = sum(1 << m for m in range(1 << len(words)) if m & needed == needed)
                print("        %d => 0x%x," % (start + i, maps[start + i]))
    array("PLACES", standing, 33, 0)
    array("PLANS", plans, 72, 0)
    array("MAPS", maps, 72, 1)


if __name__ == "__main__":
    main()
