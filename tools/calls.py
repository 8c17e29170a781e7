#!/usr/bin/env python3
"""Counts nested calls: in what `lower` writes, and as the entry says.

    tools/calls.py [--longest N] [--binary FILE]     one literal for each pattern of up to N items (12: 8,191 literals)
    tools/calls.py --entry [FILE] [--archive FILE]   the cases of FILE (tools/calls.txt)

The first runs `lower` on each literal and goes down its result's first arguments as long as they are calls of S. The calls
have to be one for each spread, and one more if ordinary items stand behind the last of them. It prints how many literals
of each length have how many calls; these lines are held to those of the triangle, crates/triangle/stdout. Items are of
several forms, with spreads inside them too, whose calls stand in no first argument.

The second asks the entry rest_spread_calls of the archive that `tools/archives counting` makes, which cc links. A case is a
line N C ANSWER NUMBER; a line '# | ..' is one of the triangle's, if the file has them. Both print each difference and the
counts. The status is 1 where anything differs.
"""
import argparse
import collections
import concurrent.futures
import ctypes
import itertools
import os
import subprocess
import sys
import tempfile

import cases

ROOT = cases.ROOT


def text(name):
    return cases.wide(len(name)) + name


def reference(name):
    return b"\x12\x01" + text(name)


def literal(properties):
    return b"\x18\x01" + cases.wide(len(properties)) + b"".join(properties)


def spread(argument):
    return b"\x1a\x01" + argument


def property_of(key, value, flags):
    return b"\x19\x07" + key + value + bytes([flags])


NAME = b"\x26\x01" + text(b"x")
NUMBER = b"\x16\x07\x02" + text(b"1") + text(b"1")
# x: 1, x, [k]: 1, x: {...b}
ORDINARY = [
    property_of(NAME, NUMBER, 0),
    property_of(NAME, reference(b"x"), 2),
    property_of(reference(b"k"), NUMBER, 1),
    property_of(NAME, literal([spread(reference(b"b"))]), 0),
]
# ...a, ...f(), ...{...b, x: 1}
SPREAD = [
    spread(reference(b"a")),
    spread(b"\x1d\x03" + reference(b"f") + cases.wide(0)),
    spread(literal([spread(reference(b"b")), ORDINARY[0]])),
]
# Program and ExpressionStatement before an expression; Call and Helper 1 before the number of arguments; an Object's start.
STATEMENT = bytes.fromhex("0101010003030100")
CALL = bytes.fromhex("1d03150101")
OBJECT = bytes.fromhex("1801")


def tree_of(pattern):
    """A statement that is a literal with this pattern. The forms of its items change with their place and with the pattern."""
    turn = sum(pattern)
    forms = ((SPREAD if is_spread else ORDINARY) for is_spread in pattern)
    return STATEMENT + literal([some[(at + turn) % len(some)] for at, some in enumerate(forms)])


def nested(tree):
    """How many calls of S stand in the statement, each the first argument of the next. The innermost one's is a literal."""
    at, calls = len(STATEMENT), 0
    while tree.startswith(CALL, at):
        at += len(CALL) + 2
        calls += 1
    if not (tree.startswith(STATEMENT) and tree.startswith(OBJECT, at)):
        sys.exit(f"not what a literal becomes: {tree.hex()}")
    return calls


def expected(pattern):
    return sum(pattern) + (any(pattern) and not pattern[-1])


def counted(binary, pattern):
    try:
        wrote = subprocess.run([binary], input=b"\0" + tree_of(pattern), stdout=subprocess.PIPE, check=True).stdout.decode()
    except OSError as error:
        sys.exit(f"{binary}: {error.strerror} (`rt run` in crates/lower builds it)")
    head, tree, listed = wrote.splitlines()
    if head.split()[0] != "0":
        sys.exit(f"{binary} refuses {tree_of(pattern).hex()}: {head}")
    return nested(bytes.fromhex(tree))


def of_lower(binary, longest):
    """Runs `lower`. Returns how many literals were tried, and how many of them and of the lines differ."""
    triangle = lines_of_triangle()
    tried = different = 0
    with concurrent.futures.ThreadPoolExecutor(2) as pool:
        for n in range(longest + 1):
            patterns = list(itertools.product([False, True], repeat=n))
            calls = list(pool.map(lambda pattern: counted(binary, pattern), patterns))
            for pattern, found in zip(patterns, calls):
                if found != expected(pattern):
                    different += 1
                    print(f"{tree_of(pattern).hex()}: {found} calls, not {expected(pattern)}")
            figures = collections.Counter(calls)
            line = " ".join(str(figures[c]) for c in range(max(n, *calls) + 1))
            print(line)
            if line != triangle[n]:
                different += 1
                print(f"line {n} of the triangle is {triangle[n]}")
            tried += len(patterns)
    return f"{tried} literals of up to {longest} items", different


def lines_of_triangle():
    with open(os.path.join(ROOT, "crates/triangle/stdout")) as lines:
        return lines.read().splitlines()


class Counted(ctypes.Structure):
    _fields_ = [("answer", ctypes.c_uint8), ("number", ctypes.c_uint32)]


def entry_of(archive):
    if not os.path.exists(archive):
        sys.exit(f"{archive}: not there (`tools/archives counting` makes it)")
    with tempfile.TemporaryDirectory() as folder:
        shared = os.path.join(folder, "counting.so")
        subprocess.run(["cc", "-shared", "-o", shared, "-Wl,--whole-archive", archive, "-Wl,--no-whole-archive"], check=True)
        entry = ctypes.CDLL(shared).rest_spread_calls
    entry.argtypes, entry.restype = [ctypes.c_uint32, ctypes.c_uint32], Counted
    return entry


def of_entry(archive, file):
    """Asks the entry. Returns how many cases were tried, and how many of them and of the triangle's lines differ."""
    entry = entry_of(archive)
    tried = refused = different = 0
    triangle = []
    with open(file) as lines:
        for line in lines:
            if line.startswith("# | "):
                triangle.append(line[4:].rstrip("\n"))
            elif line.strip() and not line.startswith("#"):
                n, c, answer, number = map(int, line.split())
                got = entry(n, c)
                tried += 1
                refused += got.answer != 0
                if (got.answer, got.number) != (answer, number):
                    different += 1
                    print(f"{n} {c}: {got.answer} {got.number}, not {answer} {number}")
    if triangle and triangle != lines_of_triangle():
        different += 1
        print(f"the triangle of {file} is another")
    return f"{tried} cases, {refused} of them refused, {len(triangle)} lines of the triangle", different


def main():
    parser = argparse.ArgumentParser()
    parser.add_argument("--longest", type=int, default=12)
    parser.add_argument("--binary", default=os.path.join(ROOT, "crates/lower/out/lower"))
    parser.add_argument("--entry", nargs="?", const=os.path.join(ROOT, "tools/calls.txt"))
    parser.add_argument("--archive", default=os.path.join(ROOT, "target/staticlib/libcounting.a"))
    asked = parser.parse_args()
    what, different = of_entry(asked.archive, asked.entry) if asked.entry else of_lower(asked.binary, asked.longest)
    print(f"{what}, {different} different")
    sys.exit(different > 0)


if __name__ == "__main__":
    main()
