#!/usr/bin/env python3
"""Holds entry and program of the text to a vector file (SLICE TREE ANSWER TEXT; its head has the words).

    tools/text.py FILE [--archive FILE] [--binary FILE]

Each case goes through the entry of the archive that `tools/archives printer` makes, every byte of the slice; where no slice is named
through the built program text too, and again with a slice that is exactly long enough and one a byte too short. Prints each
difference, then the counts. The status is 1 where anything differs.
"""
import argparse
import ctypes
import re
import sys

import built

LONGEST = 294912


class Printed(ctypes.Structure):
    _fields_ = [("answer", ctypes.c_uint8), ("text_len", ctypes.c_size_t)]


def entry_of(archive):
    """The entry of the archive, which cc links."""
    entry = built.entry(archive, "rest_spread_text")
    entry.argtypes = [ctypes.c_char_p, ctypes.c_size_t, ctypes.c_void_p, ctypes.c_size_t]
    entry.restype = Printed
    return entry


def bytes_of(word):
    """Hex; parts are joined by +, and A*N is A, N times."""
    parts = [] if word == "-" else word.split("+")
    return b"".join(bytes.fromhex(p.split("*")[0]) * int((p.split("*") + ["1"])[1]) for p in parts)


def text_of(word):
    if word.startswith("hex:"):
        return bytes_of(word[4:])
    if word == "-":
        return b""
    marks = {b"\\\\": b"\\", b"\\s": b" ", b"\\n": b"\n"}
    plain = lambda m: marks.get(m[0]) or bytes.fromhex(m[0][2:].decode())
    return re.sub(rb"\\x..|\\.", plain, word.encode())


def main():
    parser = argparse.ArgumentParser()
    parser.add_argument("file")
    parser.add_argument("--archive", default="target/staticlib/libprinter.a")
    parser.add_argument("--binary", default="crates/text/out/text")
    words = parser.parse_args()
    entry = entry_of(words.archive)
    room = ctypes.create_string_buffer(LONGEST)
    counts = {"cases": 0, "calls": 0, "runs": 0, "wrong": 0}

    def call(tree, size, answer, text):
        ctypes.memset(room, 1, LONGEST)
        r = entry(tree, len(tree), room, size)
        kept = text if answer == 0 else b""
        alike = (r.answer, r.text_len, room.raw[:size]) == (answer, len(kept), kept.ljust(size, b"\0"))
        counts["calls"] += 1
        if not alike or room.raw[size : size + 8].strip(b"\1"):
            counts["wrong"] += 1
            print("wrong: slice %d, tree %s" % (size, tree.hex()[:200]))

    for line in open(words.file):
        if line.startswith("#") or not line.strip():
            continue
        slice_, tree, answer, text = line.split()
        tree, answer, text = bytes_of(tree), int(answer), text_of(text)
        counts["cases"] += 1
        call(tree, LONGEST if slice_ == "-" else int(slice_), answer, text)
        if slice_ != "-":
            continue
        counts["runs"] += 1
        told = built.ran(words.binary, tree)
        if told != (text if answer == 0 else b"%d\n" % answer):
            counts["wrong"] += 1
            print("wrong: program, tree %s" % tree.hex()[:200])
        if answer == 0:
            call(tree, len(text), 0, text)
            if text:
                call(tree, len(text) - 1, 10, b"")
    print(", ".join("%d %s" % (n, what) for what, n in counts.items()))
    return 1 if counts["wrong"] else 0


if __name__ == "__main__":
    sys.exit(main())
