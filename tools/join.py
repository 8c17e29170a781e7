#!/usr/bin/env python3
"""Puts handed-out declarations into place (request 10), in Python. It shares nothing with the crates, which are held to it.

    joined(tree, list, room) -> (0, bytes), or (3, b""), (12, b""), (13, b""), (7, b"")

    tools/join.py --vectors FILE [--definition | --entry [FILE] | --binary FILE]
                                             on the cases of a vector file (SLICE TREE LIST ANSWER JOINED)
    tools/join.py --count N [--seed N] [--lower FILE] [--binary FILE]
                                             on N made trees that are lowered by the built `lower`

The cases are run through the built program, which lends 32,768 bytes, so those with another slice are left out. With --entry
all are run, through rest_spread_join of the archive, and every lent byte is looked at; with --definition they are held to
`joined` alone. Of made trees each fifth lowered tree or list has a byte changed before it is joined. Prints each difference,
then the counts. The status is 1 where anything differs.
"""
import argparse
import collections
import concurrent.futures
import ctypes
import os
import random
import sys

import built
import read

ROOT = os.path.dirname(os.path.dirname(os.path.abspath(__file__)))

LONGEST_LIST = 16384
CONTAINERS = {"Program", "Block", "FunctionBody", "StaticBlock", "Case"}


class Body:
    """A container's body: where its count stands, and (position, mark) of each statement."""

    def __init__(self, at):
        self.at, self.statements = at, []


class Positions(read.RewrittenReader):
    """Reads rewritten nodes at places, and notes the bodies of containers."""

    def __init__(self, tree, at=0, marks=()):
        super().__init__(tree)
        self.at, self.marks, self.bodies = at, set(marks), []

    def below(self, place):
        form = read.REWRITTEN_FORM_AT[place].get(self.byte())
        if form is None:
            raise read.Refusal(3)
        fields, bits = read.REWRITTEN_FIELDS[form], self.byte()
        must = sum(1 << i for i, field in enumerate(fields) if not field.optional)
        if bits & must != must or bits >> len(fields):
            raise read.Refusal(3)
        for i, field in enumerate(fields):
            if not bits >> i & 1:
                continue
            if field.sort == "node":
                yield field.place
            elif field.sort == "chosen":
                yield field.places[0 if self.tree[self.at - 1] == 1 else 1]
            elif field.sort == "list":
                body = Body(self.at)
                if form in CONTAINERS and field.place == "statement":
                    self.bodies.append(body)
                for _ in range(self.number()):
                    if field.holes and self.tree[self.at : self.at + 1] == b"\0":
                        self.at += 1
                    else:
                        # The mark stands behind kind and bit map; where it does not, the node below is refused.
                        body.statements.append((self.at, int.from_bytes(self.tree[self.at + 2 : self.at + 4], "little")))
                        yield field.place
            elif field.sort == "mark":
                mark = self.number()
                if mark in self.marks:
                    raise read.Refusal(3)
                self.marks.add(mark)
            else:
                self.field(field, 0)


def entries_of(given, marks):
    """The entries (mark, count and declarators as bytes), the excluded keys in the same way, and all marks. Raises Refusal."""
    reader = Positions(given, 0, marks)

    def declarators():
        start = reader.at
        for _ in range(reader.number()):
            reader.tree_of("declarator")
        return given[start : reader.at]

    entries = []
    for _ in range(reader.number()):
        mark = reader.number()
        entries.append((mark, declarators()))
    excluded = declarators()
    if reader.at != len(given):
        raise read.Refusal(3)
    return entries, excluded, reader.marks


def wide(number):
    return number.to_bytes(2, "little")


def joined(tree, given, room=32768):
    if read.answer_rewritten(tree):
        return 3, b""
    reader = Positions(tree)
    reader.tree_of("program")
    if len(given) > LONGEST_LIST:
        return 12, b""
    try:
        entries, excluded, taken = entries_of(given, reader.marks)
    except read.Refusal:
        return 12, b""
    found = {mark for body in reader.bodies for _, mark in body.statements}
    if any(mark not in found for mark, _ in entries):
        return 13, b""
    free = (mark for mark in range(1, 65536) if mark not in taken)
    by_mark = collections.defaultdict(list)
    for mark, declarators in entries:
        by_mark[mark].append(declarators)
    # What changes, by position: (how many bytes are dropped, the new statements before it or the new count).
    counts = {body.at: len(body.statements) + sum(len(by_mark[m]) for _, m in body.statements) for body in reader.bodies}
    news = {at: by_mark[mark] for body in reader.bodies for at, mark in body.statements if by_mark[mark]}
    out, copied = bytearray(), 0
    for at in sorted(counts.keys() | news.keys()):
        out += tree[copied:at]
        copied = at
        if at in counts:
            head = at == 2 and excluded[:2] != b"\0\0"
            out += wide(counts[at] + head)
            copied += 2
            if head:
                out += b"\4\7" + wide(next(free)) + b"\3" + excluded
        else:
            for declarators in news[at]:
                out += b"\4\7" + wide(next(free)) + b"\1" + declarators
    out += tree[copied:]
    return (0, bytes(out)) if len(out) <= min(room, 32768) else (7, b"")


def said(binary, tree, given):
    """What the program prints: the answer and the tree. It lends a slice of 32,768 bytes."""
    number, text = built.ran(binary, wide(len(tree)) + tree + given).decode().split("\n")[:2]
    return int(number), bytes.fromhex(text)


def spelled(text):
    parts = [part.partition("*") for part in ("" if text == "-" else text).split("+")]
    return b"".join(bytes.fromhex(a) * int(n or 1) for a, _, n in parts)


def changed(rnd, given):
    out = bytearray(given)
    out[rnd.randrange(len(out))] = rnd.choice([0, 1, 2, 3, rnd.randrange(48), rnd.randrange(256)])
    return bytes(out)


def made(rnd, count, lower):
    """(tree, list) of so many trees that are lowered."""
    import lowering  # which imports cases, and that this file

    program = lowering.program_at(lower, False, None)
    while count:
        makers = rnd.choices([lowering.plain, lowering.deep, lowering.copied, lowering.long], [70, 10, 19, 1], k=1000)
        for number, _, _, tree, given in program([(0, maker(rnd)) for maker in makers]):
            if number == 0 and count:
                count -= 1
                tree, given = bytes.fromhex(tree), bytes.fromhex(given)
                if rnd.random() < 0.2:
                    tree, given = rnd.choice([(changed(rnd, tree), given), (tree, changed(rnd, given))])
                yield tree, given


def held(given):
    """Made trees through the built program, held to `joined`. Gives the status."""
    counts, different, entries = collections.Counter(), 0, 0
    with concurrent.futures.ThreadPoolExecutor(2) as pool:
        pairs = list(made(random.Random(given.seed), given.count, given.lower))
        found = pool.map(lambda pair: said(given.binary, *pair), pairs)
        for (tree, list_), answer in zip(pairs, found):
            expected = joined(tree, list_)
            counts[expected[0]] += 1
            entries += expected[0] == 0 and len(expected[1]) > len(tree)
            if answer != expected:
                different += 1
                print(f"expected {expected[0]}, found {answer[0]}: {tree.hex()[:200]} {list_.hex()[:200]}")
    print(", ".join(f"{number}: {counts[number]}" for number in sorted(counts)))
    print(f"{sum(counts.values())} trees, {entries} with new statements, {different} different")
    return 1 if different or not counts else 0


def read_cases(path):
    """(slice, tree, list, answer, joined tree) of each line."""
    for line in open(path):
        if not line.startswith("#") and line.strip():
            room, tree, entries, number, text = line.split()
            yield 32768 if room == "-" else int(room), spelled(tree), spelled(entries), int(number), spelled(text)


def encode(room, tree, given, number, text):
    """A case as the program vectors reads it."""
    return bytes([number]) + b"".join(map(wide, (room, len(tree), len(given), len(text)))) + tree + given + text


def chosen(path, count):
    """`count` of the cases, encoded, each with its answer: slices that are exact or too short first, then some of each
    answer."""
    fit = [case for case in read_cases(path) if case[0] <= 32768 and sum(map(len, (case[1], case[2], case[4]))) <= 4000]
    some = [case for case in fit if case[3] == 7 or case[3] == 0 and case[0] == len(case[4])][: count // 2]
    for number, most in [(3, 8), (12, 14), (13, 12), (0, count)]:
        more = [case for case in fit if case[3] == number and case not in some]
        step = max(1, len(more) // most)
        some += more[::step][: min(most, count - len(some))]
    return [(case[3], encode(*case)) for case in some]


class Joined(ctypes.Structure):
    _fields_ = [("answer", ctypes.c_uint8), ("tree_len", ctypes.c_size_t)]


def entry_of(archive):
    """What the entry of the archive gives: the answer, and the tree. Every byte that it was lent is looked at."""
    entry = built.entry(archive, "rest_spread_join")
    entry.argtypes, entry.restype = [ctypes.c_void_p, ctypes.c_size_t] * 3, Joined

    def called(tree, given, room):
        out = ctypes.create_string_buffer(b"\xaa" * (room + 1), room + 1)
        answer = entry(tree, len(tree), given, len(given), out, room)
        length, lent = answer.tree_len, out.raw
        if lent[length:room].strip(b"\0") or lent[room:] != b"\xaa" or (answer.answer and length):
            return answer.answer, b"bytes that are neither the tree's nor 0"
        return answer.answer, lent[:length]

    return called


def main():
    words = argparse.ArgumentParser(description=__doc__.splitlines()[0])
    words.add_argument("--vectors")
    words.add_argument("--count", type=int, default=20000)
    words.add_argument("--seed", type=int, default=1)
    words.add_argument("--lower", default=os.path.join(ROOT, "crates", "lower", "out", "lower"))
    words.add_argument("--definition", action="store_true")
    words.add_argument("--entry", nargs="?", metavar="FILE", const=os.path.join(ROOT, "target", "staticlib", "libjoining.a"))
    words.add_argument("--binary", default=os.path.join(ROOT, "crates", "join", "out", "join"))
    given = words.parse_args()
    if not given.vectors:
        sys.exit(held(given))
    run = entry_of(given.entry) if given.entry else joined
    counts, different = collections.Counter(), 0
    for room, tree, entries, number, text in read_cases(given.vectors):
        if given.definition or given.entry:
            found = run(tree, entries, room)
        elif room == 32768 and len(tree) <= 65535:
            found = said(given.binary, tree, entries)
        else:
            continue
        counts[number] += 1
        if found != (number, text):
            different += 1
            print(f"expected {number}, found {found[0]}: {room} {tree.hex()[:80]} {entries.hex()[:80]}")
    print(", ".join(f"{number}: {counts[number]}" for number in sorted(counts)))
    print(f"{sum(counts.values())} cases, {different} different")
    sys.exit(1 if different or not counts else 0)


if __name__ == "__main__":
    main()
