#!/usr/bin/env python3
"""Holds the program order to a second order, which compares nested keys in Python and shares nothing with the crates.

    tools/order.py [--count N] [--seed N] [--binary FILE]      on N pairs of made trees, three trees at a time
    tools/order.py --vectors FILE [--binary FILE]              on the cases of a vector file (INPUT WORD)

Of each three trees all pairs are compared, and less has to carry from the first through the second to the third. Prints
each difference, then the counts. The status is 1 where anything differs.
"""
import argparse
import collections
import itertools
import os
import random
import subprocess
import sys

import cases
import fuzz
import read

WORDS = {-1: "less", 0: "equal", 1: "greater"}


class Keys(read.RewrittenReader):
    """Reads a rewritten tree as a nested key: kind, bit map, fields. Temporaries have their places."""

    def __init__(self, tree):
        super().__init__(tree)
        self.places = {}

    def place(self, number):
        return self.places.setdefault(number, len(self.places) + 1)

    def node(self, place):
        kind, bits = self.byte(), self.byte()
        form = read.REWRITTEN_FORM_AT[place][kind]
        key, first = [kind, bits], True
        for i, field in enumerate(read.REWRITTEN_FIELDS[form]):
            if bits >> i & 1:
                key.append(self.value(field, kind == 20 and first))
                first = False
        return tuple(key)

    def value(self, field, is_temporary):
        if field.sort == "node":
            return self.node(field.place)
        if field.sort == "chosen":
            return self.node(field.places[0 if self.tree[self.at - 1] == 1 else 1])
        if field.sort == "list":
            return tuple(self.item(field) for _ in range(self.number()))
        if field.sort == "text":
            length = self.number()
            self.at += length
            return self.tree[self.at - length : self.at]
        if field.sort == "byte":
            return self.byte()
        number = self.number()
        return self.place(number) if is_temporary else number

    def item(self, field):
        if field.holes and self.tree[self.at] == 0:
            self.at += 1
            return (0,)
        return self.node(field.place)


def key(tree):
    """A rewritten tree's key, None where the bytes are none."""
    return Keys(tree).node("program") if read.answer_rewritten(tree) == 0 else None


def compared(a, b):
    if a is None or b is None:
        return "3"
    return WORDS[(a > b) - (a < b)]


def joined(a, b):
    return cases.wide(len(a)) + a + cases.wide(len(b)) + b


def said(binary, given):
    try:
        return subprocess.run([binary], input=given, stdout=subprocess.PIPE, check=True).stdout.decode().strip()
    except OSError as error:
        sys.exit(f"{binary}: {error.strerror} (`rt run` in crates/order builds it)")


def renamed(rnd, tree):
    """The tree with other numbers for its temporaries: an equal one, if they stay apart."""
    tree, numbers = bytearray(tree), list(range(65536))
    rnd.shuffle(numbers)
    for at in temporaries(bytes(tree)):
        old = int.from_bytes(tree[at : at + 2], "little")
        tree[at : at + 2] = cases.wide(numbers[old])
    return bytes(tree)


class Places(Keys):
    """Where the numbers of the temporaries stand."""

    def __init__(self, tree):
        super().__init__(tree)
        self.found = []

    def place(self, number):
        self.found.append(self.at - 2)
        return number


def temporaries(tree):
    reader = Places(tree)
    reader.node("program")
    return reader.found


def made(rnd):
    size = rnd.choice([3, 10, 40])
    maker = fuzz.RewrittenMaker(rnd, size, rnd.choice([0, 0, 20]))
    maker.node("program")
    return bytes(maker.out)


def near(rnd, tree):
    """A tree like it: with other temporaries, with a byte changed, or the same."""
    if key(tree) is None:
        return tree
    way = rnd.randrange(4)
    if way == 0:
        return renamed(rnd, tree)
    if way == 1:
        return tree
    for _ in range(20):
        other = bytearray(tree)
        at = rnd.randrange(len(other))
        other[at] = rnd.choice([0, 1, 2, 3, other[at] ^ 1, rnd.randrange(256)])
        if key(bytes(other)) is not None:
            return bytes(other)
    return tree


def triples(rnd, count):
    for _ in range(count):
        first = made(rnd)
        if rnd.random() < 0.05:
            first = fuzz.damaged(rnd, first)
        rest = [near(rnd, first) if rnd.random() < 0.8 else made(rnd) for _ in range(2)]
        yield [first, *rest]


def main():
    words = argparse.ArgumentParser(description=__doc__.splitlines()[0])
    words.add_argument("--count", type=int, default=3000)
    words.add_argument("--seed", type=int, default=1)
    words.add_argument("--vectors")
    words.add_argument("--binary", default=os.path.join(cases.ROOT, "crates", "order", "out", "order"))
    given = words.parse_args()
    counts, different = collections.Counter(), 0
    if given.vectors:
        for line in open(given.vectors):
            if line.startswith("#") or not line.strip():
                continue
            text, word = line.split()
            parts = [part.partition("*") for part in ("" if text == "-" else text).split("+")]
            found = said(given.binary, b"".join(bytes.fromhex(a) * int(n or 1) for a, _, n in parts))
            counts[word] += 1
            if found != word:
                different += 1
                print(f"expected {word}, found {found}: {text[:200]}")
    else:
        for trees in triples(random.Random(given.seed), given.count // 3):
            keys, found = [key(tree) for tree in trees], {}
            for i, j in itertools.combinations(range(3), 2):
                word = compared(keys[i], keys[j])
                found[i, j] = said(given.binary, joined(trees[i], trees[j]))
                counts[word] += 1
                if found[i, j] != word:
                    different += 1
                    print(f"expected {word}, found {found[i, j]}: {trees[i].hex()} {trees[j].hex()}")
            if {found[0, 1], found[1, 2]} <= {"less", "equal"} and "less" in (found[0, 1], found[1, 2]):
                if found[0, 2] != "less":
                    different += 1
                    print(f"less does not carry: {[tree.hex() for tree in trees]}")
    print(", ".join(f"{word} {counts[word]}" for word in ("less", "equal", "greater", "3")))
    print(f"{sum(counts.values())} cases, {different} different")
    sys.exit(1 if different or not counts else 0)


if __name__ == "__main__":
    main()
