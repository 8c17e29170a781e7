#!/usr/bin/env python3
"""A second generator of trees, written from request 2 alone; it shares nothing with the crates, which are held to it.

    draw(seed) -> (tree, state afterwards), seed not 0

    tools/drawn.py SEED                    prints the answer, the state afterwards and the tree in hex
    tools/drawn.py --vectors FILE          holds this generator to stored cases
    tools/drawn.py --entry FROM COUNT      holds the entry of libdrawing.a to this generator, seed by seed, with a slice of 16,384
                                           bytes and one a byte too short, every byte of both
    tools/drawn.py --read FROM COUNT       the same, and hands each tree to the built treecheck, which has to take it
    tools/drawn.py --lower FROM COUNT      the same with the built lower, which has to answer 0, 5, 6, 7 or 11
"""
import ctypes
import struct
import sys

import built

# A kind's fields, bit 0 first. A field is a place or, with * or ~, a list of nodes at that place; A/B is a place by the byte before;
# ' a text, # a mark, + a number, LOW-HIGH a byte; ? at the end: it may be absent. A place in the table with a colon lays a kind out
# in its own way: KIND:NAME.
FIELDS = {
    "1": "statement*",
    "2": "# statement*",
    "3": "# expression",
    "4": "# 1-3 declarator*",
    "5": "binding expression?",
    "6": "# init? expression? expression? statement",
    "7": "# left expression statement",
    "8": "# left expression statement 0-1?",
    "9": "# block handler? block?",
    "10": "param? block",
    "11": "# expression?",
    "12": "# ' child*",
    "13": "#",
    "14": "# 1-2 name? param* binding? body?",
    "14:declaration": "# 1-1 name? param* binding? body?",
    "14:expression": "# 2-2 name? param* binding? body?",
    "15": "binding expression?",
    "16": "literal*? statement*",
    "17": "param* binding? arrowbody",
    "18": "' +?",
    "19": "' +?",
    "22": "1-6 ' '?",
    "23": "literal* expression*?",
    "24": "property*",
    "25": "key expression 0-31",
    "26": "expression",
    "27": "1-2 target/leaf expression",
    "28": "expression*",
    "29": "expression argument*",
    "30": "expression '",
    "31": "expression",
    "32": "argument*",
    "33": "' child*",
    "34": "pair* name?",
    "35": "key value 0-3",
    "36": "value* binding?",
    "37": "binding expression",
    "34:target": "targetpair* leaf?",
    "35:target": "key targetvalue 0-3",
    "36:target": "targetvalue* target?",
    "37:target": "target expression",
    "38": "'",
    "39": "'",
    "40": "'? expression? member*",
    "41": "key expression? 0-31",
    "42": "statement*",
    "43": "# expression case*",
    "44": "expression? statement*",
}
STATEMENTS = "2 3 4 6 7 8 9 11 12 13 43 "
EXPRESSIONS = "17 18 22 23 24 27 28 29 30 31 32 33 40 "
LEAVES = "18 30 31 33 "
PLACES = {
    "program": "1",
    "statement": STATEMENTS + "14:declaration",
    "expression": EXPRESSIONS + "14:expression",
    "child": STATEMENTS + EXPRESSIONS + "14 26",
    "declarator": "5",
    "block": "2",
    "handler": "10",
    "param": "15",
    "body": "16",
    "arrowbody": EXPRESSIONS + "14:expression 16",
    "literal": "22",
    "key": EXPRESSIONS + "14:expression 38 39",
    "property": "25 26",
    "argument": EXPRESSIONS + "14:expression 26",
    "init": EXPRESSIONS + "14:expression 4",
    "binding": "19 34 36",
    "name": "19",
    "pair": "35",
    "value": "19 34 36 37",
    "target": LEAVES + "34:target 36:target",
    "leaf": LEAVES,
    "left": LEAVES + "34:target 36:target 4",
    "targetpair": "35:target",
    "targetvalue": LEAVES + "34:target 36:target 37:target",
    "member": "41 42",
    "case": "44",
}
ALLOWED = {p: sorted(((int(f.split(":")[0]), f) for f in forms.split())) for p, forms in PLACES.items()}
FIELDS = {form: [(f.rstrip("?"), f.endswith("?")) for f in fields.split()] for form, fields in FIELDS.items()}


def shortest_bytes():
    """The bytes of the shortest node of each form, worked out level by level until nothing changes."""
    best = {form: 1 << 20 for form in FIELDS}
    while True:
        at = {p: min(best[f] for _, f in forms) for p, forms in ALLOWED.items()}

        def field(f):
            if f in "#+":
                return 2
            if f == "'":
                return 3
            if f[0].isdigit():
                return 1
            if f[-1] == "*":
                return 2
            return min(at[p] for p in f.split("/"))

        new = {form: 2 + sum(field(f) for f, may in fields if not may) for form, fields in FIELDS.items()}
        if new == best:
            return best
        best = new


BYTES = shortest_bytes()
SHORTEST = {p: min(forms, key=lambda kf: (BYTES[kf[1]], kf[0])) for p, forms in ALLOWED.items()}


class Generator:
    def __init__(self, seed):
        self.x = seed
        self.begun = 0
        self.mark = 0
        self.out = bytearray()

    def next(self):
        x = self.x
        x ^= x << 13 & 0xFFFFFFFF
        x ^= x >> 17
        x ^= x << 5 & 0xFFFFFFFF
        self.x = x
        return x

    def wide(self, n):
        self.out += bytes((n & 255, n >> 8))

    def ends(self, depth):
        return depth >= 12 or self.begun >= 400

    def node(self, place, depth):
        allowed = ALLOWED[place]
        if len(allowed) == 1:
            kind, form = allowed[0]
        elif self.ends(depth):
            kind, form = SHORTEST[place]
        else:
            kind, form = allowed[self.next() % len(allowed)]
        self.begun += 1
        start = len(self.out)
        self.out += bytes((kind, 0))
        bits = 0
        before = 0
        for bit, (field, may) in enumerate(FIELDS[form]):
            if may:
                if self.ends(depth) or self.next() % 2 == 0:
                    continue
            bits |= 1 << bit
            if field == "#":
                self.mark += 1
                self.wide(self.mark)
            elif field == "+":
                self.wide(self.next() % 65536)
            elif field == "'":
                self.wide(1)
                self.out.append(ord("a") + self.next() % 26)
            elif field[0].isdigit():
                low, high = map(int, field.split("-"))
                before = low if low == high else low + self.next() % (high - low + 1)
                self.out.append(before)
            elif field[-1] == "*":
                count = 0 if self.ends(depth) else self.next() % 4
                self.wide(count)
                for _ in range(count):
                    self.node(field[:-1], depth + 1)
            elif "/" in field:
                self.node(field.split("/")[0 if before == 1 else 1], depth + 1)
            else:
                self.node(field, depth + 1)
        self.out[start + 1] = bits


def draw(seed):
    g = Generator(seed)
    g.node("program", 1)
    return bytes(g.out), g.x


def vectors(path):
    tried = wrong = 0
    for line in open(path, encoding="ascii"):
        words = line.split()
        if words[:1] == ["numbers"]:
            g = Generator(int(words[1]))
            got = [str(g.next()) for _ in words[2:]]
            good = got == words[2:]
        elif words[:1] == ["tree"]:
            seed, room, answer, after, tree = words[1:]
            if seed == "0":
                good = (answer, after, tree) == ("8", "0", "-")
            else:
                drawn, x = draw(int(seed))
                fits = len(drawn) <= int(room)
                want = ("0", str(x), drawn.hex()) if fits else ("7", "0", "-")
                good = (answer, after, tree) == want
        else:
            continue
        tried += 1
        if not good:
            wrong += 1
            print("wrong: %s" % line[:100].rstrip())
    print("%d cases, %d wrong" % (tried, wrong))


def chosen(path, count):
    """`count` of the cases of trees, as the program vectors reads them: spread over the file, each seed once."""
    found = {}
    for line in open(path, encoding="ascii"):
        words = line.split()
        if words[:1] == ["tree"] and words[3] != "7":
            tree = b"" if words[5] == "-" else bytes.fromhex(words[5])
            found.setdefault(words[1], struct.pack("<IIH", int(words[1]), int(words[4]), len(tree)) + tree)
    return [list(found.values())[i * len(found) // count] for i in range(count)]


class Drawn(ctypes.Structure):
    _fields_ = [("answer", ctypes.c_uint8), ("next", ctypes.c_uint32), ("tree_len", ctypes.c_size_t)]


def entry_of(archive):
    """The entry of the archive that `tools/archives drawing` makes, which cc links."""
    entry = built.entry(archive, "rest_spread_draw")
    entry.argtypes, entry.restype = [ctypes.c_uint32, ctypes.c_void_p, ctypes.c_size_t], Drawn
    return entry


def read_alike(tree):
    """Whether treecheck takes the tree, and gives as many marks as it should."""
    told = built.ran("crates/treecheck/out/treecheck", tree).split()
    return told[:2] == [b"0", b"%d" % len(tree)]


def lowered(tree):
    told = built.ran("crates/lower/out/lower", b"\0" + tree).split()
    return told[0] in (b"0", b"5", b"6", b"7", b"11")


def compared(first, count, check, archive="target/staticlib/libdrawing.a"):
    """Holds the entry to this generator, and hands each tree to a program."""
    entry = entry_of(archive)
    room = ctypes.create_string_buffer(16384)
    wrong = longest = total = 0
    for seed in range(first, first + count):
        tree, after = draw(seed)
        r = entry(seed, room, 16384)
        alike = (r.answer, r.next, room.raw) == (0, after, tree.ljust(16384, b"\0")) and r.tree_len == len(tree)
        r = entry(seed, room, len(tree) - 1)
        alike = alike and (r.answer, r.next, r.tree_len, room.raw[: len(tree) - 1]) == (7, 0, 0, bytes(len(tree) - 1))
        if not alike or not check(tree):
            wrong += 1
            print("wrong: seed %d" % seed)
        longest, total = max(longest, len(tree)), total + len(tree)
    print("%d seeds, %d wrong; the longest tree has %d bytes, all have %d" % (count, wrong, longest, total))


def main(words):
    checks = {"--entry": lambda tree: True, "--read": read_alike, "--lower": lowered}
    if len(words) == 2 and words[0] == "--vectors":
        return vectors(words[1])
    if len(words) == 3 and words[0] in checks and words[1].isdigit() and words[2].isdigit():
        return compared(int(words[1]), int(words[2]), checks[words[0]])
    if len(words) != 1 or not words[0].isdigit() or not int(words[0]):
        sys.exit("usage: tools/drawn.py SEED | --vectors FILE | --entry FROM COUNT | --read FROM COUNT | --lower FROM COUNT")
    drawn, x = draw(int(words[0]))
    print("0\n%d\n%s" % (x, drawn.hex()))


if __name__ == "__main__":
    main(sys.argv[1:])
