#!/usr/bin/env python3
"""Measures lowering beside clearing and copying the same buffers and, if it is there, beside the Rust reference.

    tools/bench/run.py [--reference FILE] [--library FILE] [--beside FILE] [--rounds N] [--seconds S] [TREE..]

Wants cc and target/staticlib/librest_spread.a, which `tools/archives rest_spread` makes (or FILE). The reference is the
built program of docs/DIFFERENCES.md; it measures itself (--bench=SECONDS) and is given the depth limit 128. --beside names
another archive, such as one from before a change; a tree that it answers otherwise is not compared. TREE are names in
trees.py; without any, all of them are measured. For each tree all are run by turns, and the least time of a call in all
rounds is taken. Prints a table: times in microseconds, then the ratios to clearing and copying, to the reference, and to
the other archive.
"""
import argparse
import os
import pathlib
import subprocess
import sys
import tempfile

import trees

HERE = pathlib.Path(__file__).resolve().parent
ROOT = HERE.parent.parent


def run(words, **how):
    try:
        return subprocess.run([str(word) for word in words], check=True, **how)
    except OSError as error:
        sys.exit(f"{words[0]}: {error.strerror}")
    except subprocess.CalledProcessError as error:
        sys.exit(f"{words[0]}: ended with status {error.returncode}")


def built(source, library, program):
    if not os.path.exists(library):
        sys.exit(f"{library}: not there (`tools/archives rest_spread` makes it)")
    run(["cc", "-O2", "-o", program, source, library])
    return program


def measured(bench, other, reference, tree, rounds, seconds):
    """Length, answer and lengths of the result; the least times of lowering, of clearing and copying, of the reference and of the
    other archive if they are run."""
    facts, lower, clear, rust, beside = None, [], [], [], []
    for _ in range(rounds):
        words = run([bench, seconds, tree], stdout=subprocess.PIPE).stdout.decode().split()
        facts = [int(word) for word in words[1:5]]
        lower.append(float(words[6]))
        clear.append(float(words[8]))
        if other is not None:
            words = run([other, seconds, tree], stdout=subprocess.PIPE).stdout.decode().split()
            if int(words[2]) == facts[1]:
                beside.append(float(words[6]))
        if reference is None:
            continue
        with open(tree, "rb") as given:
            command = [reference, "--template-key=node", "--limit=128", "--classes", "--stems", f"--bench={seconds}"]
            words = run(command, stdin=given, stdout=subprocess.PIPE).stdout.decode().split()
        if int(words[0]) != facts[1]:
            sys.exit(f"{tree}: the answer is {facts[1]}, the reference's {words[0]}")
        rust.append(float(words[2]))
    return facts, min(lower), min(clear), min(rust, default=None), min(beside, default=None)


def main():
    words = argparse.ArgumentParser(description=__doc__.splitlines()[0])
    words.add_argument("--reference", metavar="FILE")
    words.add_argument("--library", default=ROOT / "target" / "staticlib" / "librest_spread.a")
    words.add_argument("--beside", metavar="FILE")
    words.add_argument("--rounds", type=int, default=3)
    words.add_argument("--seconds", type=float, default=0.2)
    words.add_argument("names", nargs="*", metavar="TREE")
    given = words.parse_args()
    for name in given.names:
        if name not in trees.TREES:
            sys.exit(f"{name}: no tree of trees.py has this name")
    with tempfile.TemporaryDirectory() as name:
        folder = pathlib.Path(name)
        bench = built(HERE / "bench.c", given.library, folder / "bench")
        other = given.beside and built(HERE / "bench.c", given.beside, folder / "other")
        ends = (" Other | to other |", "--:|--:|") if other else ("", "")
        print("| Tree | Bytes | Answer | Tree, list | Lowering | Clear, copy | Rust | to clear, copy | to Rust |" + ends[0])
        print("|---|--:|--:|--:|--:|--:|--:|--:|--:|" + ends[1])
        for name in given.names or trees.TREES:
            tree = folder / name
            tree.write_bytes(trees.TREES[name]())
            reference = None if name in trees.ALONE else given.reference
            facts, lower, clear, rust, beside = measured(bench, other, reference, tree, given.rounds, given.seconds)
            length, answer, out, list_ = facts
            of_rust, to_rust = of(lower, rust)
            times = f"{lower:,.1f} | {clear:.1f} | {of_rust} | {lower / clear:,.1f} | {to_rust}"
            end = " {} | {} |".format(*of(lower, beside)) if other else ""
            print(f"| {name} | {length:,} | {answer} | {out:,}, {list_:,} | {times} |{end}", flush=True)


def of(lower, time):
    """A time and the ratio to it, as text; nothing if it was not taken."""
    return ("", "") if time is None else (f"{time:,.1f}", f"{lower / time:.2f}")


if __name__ == "__main__":
    main()
