#!/usr/bin/env python3
"""Measures the text of rewritten trees beside copying it, and beside lowering.

    tools/bench/text.py [--printer FILE] [--library FILE] [--seconds S] [TREE..]

Wants cc, target/staticlib/libprinter.a and target/staticlib/librest_spread.a, which `tools/archives NAME` makes (or the
two FILEs). All trees, or those that are named, are measured in one run by turns. Prints a table: medians in microseconds and the least
time, then the ratio to copying the text and, of all trees, to lowering ordinary-16k, by medians and by the least times.
"""
import argparse
import pathlib
import subprocess
import tempfile

import trees
from run import HERE, ROOT, run

LONGEST = 32768
STATIC = ROOT / "target" / "staticlib"


def parentheses(n):
    """A name in n parentheses."""
    inner = trees.ref("a")
    return trees.finished([trees.wide(0x0101), trees.wide(1), bytes([3, 3]), trees.wide(1)] + [bytes([31, 1])] * n + inner)


def objects(n):
    """Objects in each other."""
    outer = [bytes([24, 1]), trees.wide(1), bytes([25, 7])] + trees.static("a")
    return trees.finished([trees.wide(0x0101), trees.wide(1), bytes([3, 3]), trees.wide(1)] + outer * n + trees.ref("a") + [bytes([0])] * n)


def quasis(n, filled=False):
    """One Template of n quasis of a byte, without an expression, or with one behind each but the last."""
    made = [trees.node(22, trees.byte(1), trees.text("q"))] * n
    exprs = trees.listed([trees.ref("")] * (n - 1)) if filled else None
    return trees.program([trees.statement(trees.node(23, trees.listed(made), exprs))])


TREES = {
    **{name: trees.TREES[name] for name in ("slip", "ordinary-4k", "ordinary-16k", "plain-16k")},
    "ordinary-32k": lambda: trees.ordinary(LONGEST),
    "plain-32k": lambda: trees.ordinary(LONGEST, False),
    "classes-32k": lambda: trees.classes(LONGEST),
    **{f"parentheses-{n}": lambda n=n: parentheses(n) for n in (2047, 4094, 8188, 16377)},
    **{f"objects-{n}": lambda n=n: objects(n) for n in (337, 675, 1350, 2700)},
    **{f"quasis-{n}": lambda n=n: quasis(n) for n in (500, 1000, 2000, 4000)},
    **{f"filled-{n}": lambda n=n: quasis(n, True) for n in (400, 800, 1600, 3200)},
}


def main():
    words = argparse.ArgumentParser(description=__doc__.splitlines()[0])
    words.add_argument("--printer", default=STATIC / "libprinter.a")
    words.add_argument("--library", default=STATIC / "librest_spread.a")
    words.add_argument("--seconds", type=float, default=10)
    words.add_argument("names", nargs="*", metavar="TREE")
    given = words.parse_args()
    names = given.names or list(TREES)
    if "ordinary-16k" not in names:
        names.append("ordinary-16k")
    with tempfile.TemporaryDirectory() as name:
        folder = pathlib.Path(name)
        run(["cc", "-O2", "-o", folder / "text", HERE / "text.c", given.printer, given.library])
        for tree in names:
            (folder / tree).write_bytes(TREES[tree]())
        lines = run([folder / "text", given.seconds, *[folder / tree for tree in names]], stdout=subprocess.PIPE).stdout.decode()
    rows = [line.split() for line in lines.splitlines()]
    lowering, lowest = next((float(row[9]), float(row[10])) for row in rows if row[0] == "ordinary-16k")
    print("| Tree | Bytes | Answer | Text | Printing | least | Copying | Lowering | least | to copying | to lowering 16 KB | by the least |")
    print("|---|--:|--:|--:|--:|--:|--:|--:|--:|--:|--:|--:|")
    for tree, size, answer, long, _, *times in rows:
        time, least, copied, _, lower, low = map(float, times)
        own = f"{lower:,.1f} | {low:,.1f}" if lower else " | "
        print(f"| {tree} | {int(size):,} | {answer} | {int(long):,} | {time:,.1f} | {least:,.1f} | {copied:.2f} | {own} | {time / copied:,.1f} | {time / lowering:.2f} | {least / lowest:.2f} |")
    print(f"{rows[0][4]} rounds")


if __name__ == "__main__":
    main()
