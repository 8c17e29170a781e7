#!/usr/bin/env python3
"""Holds a program that lowers to the Rust reference on made trees: valid ones, damaged ones, and ones at the limits.

    tools/lowering.py --reference FILE [--binary FILE] [--stream] [--count N] [--seed N] [--shown N] [--deep N] [--limit N]
    tools/lowering.py --reference FILE --grid ..             on the trees of grid.py, which try each rule of the grammar
    tools/lowering.py --reference FILE --vectors FOLDER ..   on the inputs of the vector files in FOLDER
    tools/lowering.py --reference FILE --self-test [--count N] [--seed N]   whether the comparison sees what it should

The reference is the Rust module over stand-ins (docs/DIFFERENCES.md); it is run with --batch --template-key=node --retired
--classes --stems, so it is given the options without the retired 8, reads classes and switches, and writes the stem of each
temporary. The program is `lower`, run once for each case; with --stream it is one
that takes many cases: options byte, 16-bit length, tree, and so on. It names no depth limit, which means 128, and the
reference is given 128. With --limit N, or --limit draw for another limit with each batch, both are given that limit, and the
program is the loader's command.

Compared are the answer, both masks, and tree and list as equal.py compares results: spelling counts, and temporaries by
first appearance. How many have other bytes is counted beside that. A tree with an assignment in whose target an object with
a rest stands below another one is left out and counted: there request 6 is another rule than the reference's. The reference
takes forms alone, so it is given each tree with the promised strings as the forms of numbers that have none (request 8), and
results are compared with these forms put in; a tree in which a number has another form than its string is left out and
counted, since 11 may be met. Whether an input is a tree is asked of read.py: where it says 3 or 4 that is what is expected.
Of a hundred trees --deep go far down. Prints the first differences with their inputs, trees shrunk; then how many cases of
each shape had which answer, and in how many a helper stands. The status is 1 where anything differs, in either way.

--self-test changes one spelling in a result of the reference, of a literal, a quasi, a directive or a literal in the list,
and each change must be seen; it swaps two temporaries' numbers throughout, and that must not be seen.
"""
import argparse
import collections
import concurrent.futures
import functools
import itertools
import os
import random
import subprocess
import sys

import cases
import equal
import fuzz
import grid
import nodes
import read
from keys import HIGHEST, has_other_form, lacks_form, promised, with_forms

# Asked several times of each tree.
answer_of = functools.lru_cache(4 * 2000)(read.answer)

BATCH = 2000
MADE_BY = "`rt run` in crates/lower builds it"
TREE, LIST = 32768, 16384
NAMES = [b"a", b"b", b"c", b"k", b"s", b"", b"state", b"deadline"]
# Literals by sort: a form, and spellings of it. A boolean and a null have their words.
STRING, NUMBER, BOOLEAN, NULL, BIGINT, REGEXP = range(1, 7)
SPELLINGS = {
    NUMBER: [(b"16", [b"16", b"0x10", b"16.0", b"0b10000", b"1.6e1"]), (b"0", [b"0", b"0x0", b".0", b"0e5"]), (b"1.5", [b"1.5", b"1.50", b"15e-1"])],
    BOOLEAN: [(b"true", [b"true"]), (b"false", [b"false"])],
    NULL: [(b"null", [b"null"])],
    BIGINT: [(b"16", [b"16n", b"0x10n", b"0b10000n"])],
    REGEXP: [(b"/a/g", [b"/a/g"]), (b"/[b]/", [b"/[b]/"])],
}


# Spellings on either side of those for which a string is promised.
ODD = [b"%d" % HIGHEST, b"0x%x" % HIGHEST, b"%d" % (HIGHEST + 1), b"0x%X" % (HIGHEST + 1), b"0x00" + b"0" * 40 + b"fF", b"0X1f", b"0x", b"05", b"1_0", b"0xg", b"", b"00", b"5", b"0xabc"]


def spelled_number(rnd):
    """A number near an edge of those for which a string is promised, or any: decimal or hexadecimal, with or without zeros."""
    value = rnd.choice([0, 1, 9, 10, 16, HIGHEST - 1, HIGHEST, HIGHEST + 1, rnd.randrange(1 << rnd.randrange(1, 80))])
    zeros = b"0" * rnd.choice([0, 0, 0, 0, 1, 40])
    if rnd.random() < 0.5:
        return zeros + b"%d" % value
    return b"0x" + zeros + bytes(rnd.choice([digit, digit & ~32]) if digit > 57 else digit for digit in b"%x" % value)


def other_form(rnd, form):
    """A form that is another number's, or no number's."""
    return rnd.choice([b"", b"017", b"7", b"0x10", form + b"0", b"0" + form, form[:-1], form + b"n"])


def spelled_strings(name):
    """Spellings of a string, as a literal or a quasi has them."""
    return [b"'" + name + b"'", b'"' + name + b'"', name] + [b"'\\x%02x%s'" % (name[0], name[1:]) for _ in name[:1]]

# How often a form is chosen, by its name and for some places in another way. What is not listed counts 1.
WEIGHT = {
    "Reference": 5, "Binding": 3, "Literal": 2, "Object": 5, "Assignment": 6, "Arrow": 3, "FunctionExpression": 2,
    "FunctionDeclaration": 3, "FunctionEither": 2, "Declaration": 6, "ExpressionStatement": 6, "ForOf": 3, "Try": 2,
    "Sequence": 0.7, "OtherExpression": 0.7, "OtherStatement": 0.7, "Empty": 0.5, "BindObject": 4, "TargetObject": 4,
    "BindArray": 1.5, "TargetArray": 1.5, "BindDefault": 2, "TargetDefault": 2, "Member": 0.7, "Parenthesised": 0.7,
    "Spread": 1.5, "StaticKey": 10, "PrivateKey": 1, "FunctionBody": 10, "ClassMember": 3,
}
WEIGHT_AT = {
    ("key", "Literal"): 5, ("key", "Template"): 4, ("key", "Reference"): 5, ("key", "Assignment"): 1, ("key", "Object"): 1,
    ("key", "Arrow"): 1, ("key", "FunctionExpression"): 1, ("head", "Declaration"): 5, ("init", "Declaration"): 12,
    ("leaf", "Parenthesised"): 1, ("child", "Spread"): 0.5,
}
# Other weights in trees that are to have classes and switches, and in those that are to have none.
CLASSES = {"Class": 6, "Switch": 6}
NO_CLASSES = {"Class": 0, "Switch": 0}
# Other weights of keys in trees that are to have many numbers.
NUMBERS = {("key", "Literal"): 30}
# Other weights in trees that are to be rich in patterns.
RICH = {
    "BindObject": 9, "TargetObject": 9, "BindArray": 4, "TargetArray": 4, "BindDefault": 3, "TargetDefault": 3, "Reference": 8,
    "Assignment": 12,
}
# How often an optional field stands.
STANDS = {
    ("BindObject", 1): 0.6, ("TargetObject", 1): 0.6, ("BindArray", 1): 0.3, ("TargetArray", 1): 0.3,
    ("Declarator", 1): 0.85, ("Param", 1): 0.25, ("Try", 2): 0.9, ("Catch", 0): 0.9, ("FunctionBody", 0): 0.2,
    ("FunctionDeclaration", 5): 0.9, ("FunctionExpression", 5): 0.9, ("FunctionEither", 5): 0.9, ("Arrow", 1): 0.15,
    ("FunctionDeclaration", 4): 0.15, ("FunctionExpression", 4): 0.15, ("FunctionEither", 4): 0.15, ("Literal", 2): 0.75,
}
# Lists that have another number of items.
COUNTS = {
    ("Template", 0): [0, 1, 1, 1, 2], ("Template", 1): [0, 0, 1, 2], ("Declaration", 2): [0, 1, 1, 1, 2],
    ("Sequence", 0): [0, 1, 2, 2], ("FunctionBody", 0): [0, 1], ("Program", 0): [1, 1, 2, 4], ("Block", 1): [0, 1, 2],
}


class Maker:
    """Writes a tree without its marks, whose places it notes. `size` bounds its nodes and `flat` its depth, both roughly;
    `goal` is the depth that one path of it reaches; `refused` says whether what is refused with 5 or 6 may stand in it."""

    def __init__(self, rnd, size, goal=0, refused=True):
        self.rnd, self.size, self.goal, self.refused = rnd, size, goal, refused
        self.flat = rnd.choice([8, 12, 16, 24, 40, 70])
        self.weight = {**WEIGHT, **RICH} if rnd.random() < 0.4 else WEIGHT
        self.weight = {**self.weight, **(CLASSES if rnd.random() < 0.6 else NO_CLASSES)}
        self.has_numbers = rnd.random() < 0.45
        self.out, self.marks, self.nodes, self.last = bytearray(), [], 0, 0

    def is_done(self, depth):
        return self.nodes > self.size or depth > self.flat

    def choose(self, place, depth, goes_down):
        forms = read.PLACES[place].split()
        if goes_down:
            forms = [form for form in forms if form in fuzz.DEEP_FORMS]
        elif self.is_done(depth):
            least = min(grid.HEIGHT[form] for form in forms)
            forms = [form for form in forms if grid.HEIGHT[form] == least]
        at = {**WEIGHT_AT, **NUMBERS} if self.has_numbers else WEIGHT_AT
        weights = [at.get((place, form), self.weight.get(form, 1)) for form in forms]
        return self.rnd.choices(forms, weights)[0]

    def node(self, place, depth=1, on_path=True):
        self.nodes += 1
        goes_down = on_path and depth < self.goal and place in fuzz.DEEP_PLACES
        form = self.choose(place, depth, goes_down)
        if form == "Literal":
            self.literal()
            return
        fields = read.FIELDS[form]
        down = None
        if goes_down:
            down = self.rnd.choice([field for field in fields if fuzz.goes_deep(field, fuzz.DEEP_PLACES)])
        more = 0.2 if self.is_done(depth) else 1
        stand = [f is down or not f.optional or self.stands(form, i, more) for i, f in enumerate(fields)]
        self.out += bytes([read.KIND[form], sum(1 << i for i, is_there in enumerate(stand) if is_there)])
        for i, field in enumerate(fields):
            if stand[i]:
                self.field(form, i, field, depth, field is down)

    def literal(self):
        rnd = self.rnd
        sort = NUMBER if self.has_numbers and rnd.random() < 0.7 else rnd.randint(STRING, REGEXP)
        if sort == STRING:
            form = rnd.choice(NAMES) if rnd.random() < 0.97 else rnd.randbytes(rnd.randrange(40))
            spelled = spelled_strings(form)
        else:
            form, spelled = rnd.choice(SPELLINGS[sort])
            if sort == NUMBER and rnd.random() < 0.6:
                spelled = [rnd.choice(ODD) if rnd.random() < 0.5 else spelled_number(rnd)]
                form = promised(spelled[0]) or form
            if sort == NUMBER and rnd.random() < 0.03:
                form = other_form(rnd, form)
        spelling = rnd.choice(spelled)
        can_lack = self.refused or (sort == NUMBER and promised(spelling) is not None)
        has_form = not can_lack or self.stands("Literal", 2, 1)
        self.out += bytes([read.KIND["Literal"], 7 if has_form else 3, sort]) + cases.wide(len(spelling)) + spelling
        if has_form:
            self.out += cases.wide(len(form)) + form

    def stands(self, form, i, more):
        likely = STANDS.get((form, i), 0.4)
        return self.rnd.random() < (likely if form in ("Literal", "Declarator") or form.endswith("Object") else likely * more)

    def field(self, form, i, field, depth, on_path):
        rnd = self.rnd
        if field.sort == "node":
            place = field.place
            if form == "TargetArray" and not self.refused:
                place = "leaf"
            self.node(place, depth + 1, on_path)
        elif field.sort == "chosen":
            self.node(field.places[0 if self.last == 1 else 1], depth + 1, on_path)
        elif field.sort == "list":
            count = rnd.choice(COUNTS.get((form, i), [0, 1, 1, 2, 3])) if not self.is_done(depth) else 0
            count = max(count, on_path)
            self.out += cases.wide(count)
            path = rnd.randrange(count) if on_path else -1
            for item in range(count):
                if field.holes and item != path and rnd.random() < 0.2:
                    self.out.append(0)
                else:
                    self.node(field.place, depth + 1, item == path)
        elif field.sort == "text":
            text = rnd.choice(NAMES) if rnd.random() < 0.97 else rnd.randbytes(rnd.randrange(40))
            self.out += cases.wide(len(text)) + text
        elif field.sort == "byte":
            self.last = rnd.randint(field.low, field.high)
            if form == "Assignment" and rnd.random() < 0.85:
                self.last = 1
            self.out.append(self.last)
        elif field.sort == "mark":
            self.marks.append(len(self.out))
            self.out += b"\0\0"
        else:
            self.out += cases.wide(rnd.choice([0, 1, 2, 3, 256, rnd.randrange(65536)]))


class Copies(Maker):
    """A Maker of object patterns with rest that have a Template of one quasi as a key, with another such pattern in it, and
    so on. What stands in a key is written again for the rest, so that in the end the result is past its limit."""

    def __init__(self, rnd):
        super().__init__(rnd, rnd.choice([20, 60, 200]), 0, rnd.random() < 0.5)
        self.flat = 6
        self.likely = rnd.choice([0.02, 0.1, 0.3])

    def some(self, place):
        """A node, a small one more often than not."""
        self.node(place, 4 if self.rnd.random() < self.likely else 9, False)

    def key(self, levels):
        """`[`a`[..]]: ` and in it the next pattern; at the end spreads, so that the result gets long."""
        self.out += bytes([23, 3, 1, 0, 22, 7, 1, 0, 0, 0, 0, 1, 0])
        if levels == 0:
            count = self.rnd.choice([1, 1, 5, 50, 300])
            self.out += bytes([24, 1]) + cases.wide(count) + bytes([26, 1, 18, 1, 0, 0]) * count
        elif self.rnd.random() < 0.15:
            # an arrow function with a declaration
            self.out += bytes([17, 5, 0, 0, 16, 2, 1, 0, 4, 7])
            self.marks.append(len(self.out))
            self.out += bytes([0, 0, 2, 1, 0, 5, 3])
            self.pattern(levels - 1, "bind_property", "bind_item", "name")
            self.some("expression")
        else:
            self.assignment(levels - 1)

    def pattern(self, levels, part, item, rest):
        before, after = self.rnd.choice([(0, 0), (0, 0), (0, 1), (1, 0), (1, 1)])
        self.out += bytes([34, 3]) + cases.wide(before + 1 + after)
        for _ in range(before):
            self.some(part)
        self.out += bytes([35, 7])
        self.key(levels)
        self.some(item)
        self.out.append(1)
        for _ in range(after):
            self.some(part)
        self.some(rest)

    def assignment(self, levels):
        self.out += bytes([27, 7, 1])
        if self.rnd.random() < 0.2:
            self.out += bytes([36, 1, 1, 0])
        self.pattern(levels, "target_property", "target_item", "leaf")
        self.some("expression")


class Piece:
    """The bytes of a statement, and where its marks stand."""

    def __init__(self, out, marks):
        self.out, self.marks = bytes(out), list(marks)


def numbered(out, marks):
    out = bytearray(out)
    for number, at in enumerate(marks, 1):
        out[at : at + 2] = cases.wide(number % 65536)
    return bytes(out)


def joined(pieces):
    """A Program of these statements."""
    out, marks = bytearray(b"\1\1" + cases.wide(len(pieces))), []
    for piece in pieces:
        marks += [len(out) + at for at in piece.marks]
        out += piece.out
    return numbered(out, marks)


def made(rnd, size, goal=0, refused=None):
    maker = Maker(rnd, size, goal, rnd.random() < 0.4 if refused is None else refused)
    maker.node("program")
    return numbered(maker.out, maker.marks)


def plain(rnd):
    return made(rnd, rnd.choice([5, 12, 12, 30, 30, 80, 200]))


def deep(rnd):
    goal = rnd.choice([40, 61, 62, 63, 64, 65, 66, rnd.randint(65, 128), rnd.randint(65, 128), 124, 125, 126, 127, 128, 129, 130])
    return made(rnd, rnd.choice([0, 20, 60, 150]), goal)


def damaged(rnd):
    tree = rnd.choice([plain, plain, plain, deep])(rnd)
    if rnd.random() < 0.5:
        # a byte alone, which more often leaves a tree
        tree = bytearray(tree)
        tree[rnd.randrange(len(tree))] = rnd.choice([0, 1, 2, 3, rnd.randrange(48), rnd.randrange(256)])
        return bytes(tree)
    return fuzz.damaged(rnd, tree)


def copied(rnd):
    """A tree with keys in keys, which are written again and again; at times something is refused behind them."""
    maker = Copies(rnd)
    behind = rnd.random() < 0.2
    maker.out += bytes([1, 1, 1 + behind, 0, 3, 3])
    maker.marks.append(len(maker.out))
    maker.out += b"\0\0"
    maker.assignment(rnd.randrange(13))
    if behind:
        maker.refused = True
        maker.node("statement", 2, False)
    return numbered(maker.out, maker.marks)


def statement(rnd, size, refused=False):
    maker = Maker(rnd, size, 0, refused)
    maker.node("statement", 2, False)
    return Piece(maker.out, maker.marks)


def named(length):
    """A statement of length + 8 bytes that is written as it stands."""
    return Piece(bytes([12, 7, 0, 0]) + cases.wide(length) + b"n" * length + b"\0\0", [2])


def keyed(length):
    """A statement whose key, a name of that length, goes out to the list."""
    key = bytes([18, 1]) + cases.wide(length) + b"k" * length
    name = bytes([18, 1, 1, 0, 97])
    pattern = bytes([34, 3, 1, 0, 35, 7]) + key + name + b"\1" + name
    return Piece(bytes([3, 3, 0, 0, 27, 7, 1]) + pattern + name, [2])


def long(rnd):
    """A tree with a length about the limit."""
    length = read.LONGEST + rnd.choice([-1, 0, 0, 0, 1, rnd.randint(-300, 20)])
    pool = [statement(rnd, rnd.choice([2, 6, 15, 40]), rnd.random() < 0.02) for _ in range(20)]
    pieces, used = [], 4
    while True:
        piece = rnd.choice(pool)
        if used + len(piece.out) > length - 8:
            break
        pieces.append(piece)
        used += len(piece.out)
    pieces.insert(rnd.randrange(len(pieces) + 1), named(length - used - 8))
    return joined(pieces)


class Measured:
    """A statement, and by how much it makes tree and list longer."""

    def __init__(self, piece, tree, list_):
        self.piece, self.tree, self.list = piece, tree, list_
        self.length = len(piece.out)


def measured(reference, pieces):
    """Those of the statements that are lowered. Statements side by side change nothing in each other's lengths. Those
    that the reference no longer judges are left out."""
    answers = reference([(0, joined([piece])) for piece in pieces])
    for piece, (number, _, _, tree, list_) in zip(pieces, answers):
        if number == 0 and not nodes.has_rest_below_rest(joined([piece])):
            yield Measured(piece, len(tree) // 2 - 4, len(list_) // 2 - 4)


def full(rnd, pool, name, key):
    """A tree whose result, or its list, has a length about the limit; None where there is no room for it. `name` and
    `key` are the statements of named(0) and keyed(0), measured."""
    slack = rnd.choice([-2, -1, 0, 0, 1, 1, 2, rnd.randint(-200, 200)])
    by_list = rnd.random() < 0.5
    if by_list:
        ratio, most = (lambda m: m.list / m.length), LIST + slack
        size, rest, filler, make = (lambda m: m.list), key.list, key, keyed
    else:
        ratio, most = (lambda m: m.tree / m.length), TREE + slack
        size, rest, filler, make = (lambda m: m.tree), name.tree, name, named
    dense = [m for m in pool if ratio(m) > (0.2 if by_list else 2.2)]
    if not dense:
        return None
    chosen, used, length = [], 4, 4 + filler.length
    stop = most - rnd.choice([300, 3000])
    while used < stop and length < read.LONGEST - 400:
        m = rnd.choice(dense)
        if used + size(m) + rest > most:
            break
        chosen.append(m.piece)
        used += size(m)
        length += m.length
    extra = most - used - rest
    if extra < 0 or length + extra > read.LONGEST:
        return None
    chosen.insert(rnd.randrange(len(chosen) + 1), make(extra))
    return joined(chosen)


def fulls(rnd, reference):
    """Trees with results about the limits, without end."""
    while True:
        pieces = [statement(rnd, rnd.choice([2, 4, 8, 15])) for _ in range(600)]
        (name,), (key,) = measured(reference, [named(0)]), measured(reference, [keyed(0)])
        pool = list(measured(reference, pieces))
        for _ in range(200):
            some = rnd.sample(pool, min(len(pool), rnd.choice([30, 100, 300])))
            tree = full(rnd, some, name, key)
            if tree is not None:
                yield tree


def random_options(rnd):
    return rnd.choices([0, rnd.randrange(16), rnd.randrange(16, 256)], [70, 29, 1])[0]


def random_limit(rnd):
    return rnd.choice([64, 65, 127, 128, rnd.randint(1, 128), rnd.randint(1, 128)])


def trees(rnd, count, reference, far):
    """(shape, options, tree), so many; `far` of a hundred go far down."""
    about, others = fulls(rnd, reference), (92 - far) / 82
    for _ in range(count):
        weights = [52 * others, far, 30 * others, 4, 1, 3]
        shape = rnd.choices(["valid", "deep", "damaged", "copied", "long", "full"], weights)[0]
        maker = {"valid": plain, "deep": deep, "damaged": damaged, "copied": copied, "long": long}.get(shape)
        yield shape, random_options(rnd), maker(rnd) if maker else next(about)


class Refused(tuple):
    """What is printed for a refusal."""

    def __new__(cls, number):
        return super().__new__(cls, (number, 0, 0, "", ""))


def ran(words, given, made_by):
    """What a program prints; one line and the end if it is not there or fails."""
    try:
        return subprocess.run(words, input=given, stdout=subprocess.PIPE, check=True).stdout.decode()
    except OSError as error:
        sys.exit(f"{words[0]}: {error.strerror} ({made_by})")
    except subprocess.CalledProcessError as error:
        sys.exit(f"{words[0]}: ended with status {error.returncode}")


def reference_at(path, limit):
    def run(batch):
        lines = "".join(f"{options:02x}{tree.hex()}\n" for options, tree in batch)
        words = [path, "--batch", "--template-key=node", "--retired", "--classes", "--stems", f"--limit={limit or read.DEEPEST}"]
        wrote = ran(words, lines.encode(), "docs/DIFFERENCES.md says what the reference program is").splitlines()
        if len(wrote) != len(batch):
            sys.exit(f"{path}: {len(batch)} cases were sent, {len(wrote)} lines came back")
        for line in wrote:
            number, helpers, options, tree, list_ = line.split()
            yield int(number), int(helpers), int(options), tree.strip("-"), list_.strip("-")

    return lambda batch: list(run(batch))


def printed(lines):
    number, helpers, options = map(int, lines[0].split())
    return number, helpers, options, lines[1], lines[2]


def program_at(path, is_stream, limit):
    words = [path] if limit is None else [path, "--hex", "--options-first", "--depth", str(limit)]

    def once(case):
        options, tree = case
        try:
            wrote = subprocess.run(words, input=bytes([options]) + tree, stdout=subprocess.PIPE).stdout.decode()
        except OSError as error:
            sys.exit(f"{path}: {error.strerror} ({MADE_BY})")
        lines = wrote.split("\n")
        if len(lines) != 4:
            sys.exit(f"{path}: three lines are due, and it printed {wrote!r}")
        return printed(lines)

    def singly(batch):
        with concurrent.futures.ThreadPoolExecutor(2) as pool:
            return list(pool.map(once, batch))

    def stream(batch):
        given = b"".join(bytes([options]) + cases.wide(len(tree)) + tree for options, tree in batch)
        wrote = ran(words, given, MADE_BY).split("\n")
        if len(wrote) != 3 * len(batch) + 1:
            sys.exit(f"{path}: {len(batch)} cases were sent, {len(wrote) - 1} lines came back")
        return [printed(wrote[3 * i : 3 * i + 3]) for i in range(len(batch))]

    return stream if is_stream else singly


def expected(batch, reference, limit):
    """What should be printed for each case, and how many trees the reference reads otherwise than read.py."""
    wanted, otherwise = [], 0
    numbers = [1 if options > 15 else answer_of(tree, limit or read.DEEPEST)[0] for options, tree in batch]
    given = [(options, tree if number else with_forms(tree)) for (options, tree), number in zip(batch, numbers)]
    for number, answer in zip(numbers, reference(given)):
        otherwise += number != (answer[0] if answer[0] in (1, 3, 4) else 0)
        wanted.append(Refused(number) if number else answer)
    return wanted, otherwise


# ---- making a tree smaller


def encoded(root):
    out, marks = bytearray(), []

    def put(node):
        bits = sum(1 << i for i, value in enumerate(node.values) if value is not None)
        out.extend([read.KIND[node.form], bits])
        for field, value in zip(read.FIELDS[node.form], node.values):
            if value is None:
                continue
            if field.sort in ("node", "chosen"):
                put(value)
            elif field.sort == "list":
                out.extend(cases.wide(len(value)))
                for item in value:
                    if item is None:
                        out.append(0)
                    else:
                        put(item)
            elif field.sort == "text":
                out.extend(cases.wide(len(value)) + value)
            elif field.sort == "byte":
                out.append(value)
            else:
                if field.sort == "mark":
                    marks.append(len(out))
                out.extend(cases.wide(value))

    put(root)
    return numbered(out, marks)


def instead(place, node):
    """Smaller nodes that may stand in place of this one."""
    forms = read.PLACES[place].split()
    waiting = list(node.below())
    for inner in waiting:
        if inner.form in forms:
            yield inner
        else:
            waiting.extend(inner.below())
    if "Reference" in forms and node.form != "Reference":
        yield nodes.Node("Reference", [b"a", None])


def others(field, before, value):
    """Smaller values of a field; `before` is the value of the field before it."""
    if field.optional:
        yield None
    if field.sort == "list":
        for some in {max(1, len(value) // 2), 1}:
            for start in range(0, len(value), some):
                yield value[:start] + value[start + some :]
        for at, item in enumerate(value):
            if item is not None:
                for other in instead(field.place, item):
                    yield value[:at] + [other] + value[at + 1 :]
    elif field.sort == "node":
        yield from instead(field.place, value)
    elif field.sort == "chosen":
        yield from instead(field.places[0 if before == 1 else 1], value)
    elif field.sort == "text" and len(value) > 1:
        yield value[:1]


def smaller(root):
    """Trees with one thing less."""
    waiting = [root]
    for node in waiting:
        waiting.extend(node.below())
        for i, field in enumerate(read.FIELDS[node.form]):
            value = node.values[i]
            if value is not None:
                for other in others(field, node.values[i - 1], value):
                    node.values[i] = other
                    yield encoded(root)
                node.values[i] = value


def shrunk(case, differs):
    """A smaller case that differs too."""
    options, tree = case
    while True:
        tried = sorted({t for t in smaller(nodes.parsed(tree)) if len(t) < len(tree)}, key=len)
        for start in range(0, len(tried), BATCH):
            some = [(options, t) for t in tried[start : start + BATCH]]
            found = next((c for c, is_other in zip(some, differs(some)) if is_other), None)
            if found:
                break
        else:
            return options, tree
        tree = found[1]


# ---- comparing


def result_of(answer):
    """Tree and list of an answer, as bytes."""
    return bytes.fromhex(answer[3]), bytes.fromhex(answer[4])


def is_equal(want, got):
    """Whether two answers are equal: number, masks, and results that are equal."""
    if want[:3] != got[:3]:
        return False
    if want[0] or want == got:
        return want == got
    try:
        return equal.is_equal(formed(want), formed(got))
    except equal.Unreadable:
        return False


def formed(answer):
    """Tree and list of an answer, the promised strings put in as forms: the reference is given them, the program keeps none."""
    tree, listed = result_of(answer)
    return with_forms(tree), with_forms(listed, True)


def is_shorter(want, got):
    """Whether a result fits, and with the forms that the reference is given does not."""
    if want[0] != 7 or got[0]:
        return False
    tree, listed = formed(got)
    return len(tree) > TREE or len(listed) > LIST


def has_same_bytes(want, got):
    return want == got or (want[:3] == got[:3] and not want[0] and formed(want) == formed(got))


def self_test(rnd, count, reference):
    """Whether each change of a spelling is seen, and no swap of temporaries. Prints what was tried and what was seen."""
    tried, seen = collections.Counter(), collections.Counter()
    for _ in range(0, count, BATCH):
        batch = [(0, plain(rnd)) for _ in range(min(count, BATCH))]
        for answer in reference(batch):
            if answer[0]:
                continue
            result = result_of(answer)
            by_sort = collections.defaultdict(list)
            for part, at, what, has_form in equal.spellings(result):
                by_sort[what + (", with a form" if has_form else "")].append((part, at))
            for sort, places in by_sort.items():
                tree, listed = equal.respelled(result, *rnd.choice(places))
                tried[sort] += 1
                seen[sort] += not is_equal(answer, (*answer[:3], tree.hex(), listed.hex()))
            numbers = equal.numbers(result)
            if len(numbers) > 1:
                tree, listed = equal.swapped(result, *rnd.sample(numbers, 2))
                tried["swap"] += 1
                seen["swap"] += not is_equal(answer, (*answer[:3], tree.hex(), listed.hex())) or (tree, listed) == result
    for sort in sorted(tried):
        print(f"{sort}: {seen[sort]} of {tried[sort]} seen")
    changes = [word + form for word in ("literal", "quasi", "directive", "list") for form in ("", ", with a form")]
    is_good = all(tried[sort] and seen[sort] == tried[sort] for sort in changes) and tried["swap"] and not seen["swap"]
    print("self-test: " + ("ok" if is_good else "FAILED"))
    return is_good


def text_of(answer):
    return "{} {} {} {} {}".format(*answer[:3], answer[3] or "-", answer[4] or "-")


def main():
    words = argparse.ArgumentParser(description=__doc__.splitlines()[0])
    words.add_argument("--reference", required=True)
    words.add_argument("--binary", default=os.path.join(cases.ROOT, "crates", "lower", "out", "lower"))
    words.add_argument("--stream", action="store_true")
    words.add_argument("--count", type=int, default=10000)
    words.add_argument("--seed", type=int, default=1)
    words.add_argument("--shown", type=int, default=5, help="how many differences are printed")
    words.add_argument("--grid", action="store_true")
    words.add_argument("--vectors")
    words.add_argument("--self-test", action="store_true")
    words.add_argument("--deep", type=int, default=10)
    words.add_argument("--limit")
    given = words.parse_args()
    rnd = random.Random(given.seed)
    if given.self_test:
        sys.exit(0 if self_test(rnd, given.count, reference_at(given.reference, None)) else 1)

    def differs(batch):
        wanted, _ = expected(batch, reference, limit)
        return [why_left_out(*case) is None and not is_shorter(a, b) and not (has_same_bytes(a, b) and is_equal(a, b)) for case, a, b in zip(batch, wanted, program(batch))]

    def why_left_out(options, tree):
        """Why the reference says nothing of a tree; None if it does."""
        if options > 15 or answer_of(tree, limit or read.DEEPEST)[0]:
            return None
        if nodes.has_rest_below_rest(tree):
            return "below"
        if has_other_form(tree):
            return "form"
        return "long" if len(with_forms(tree)) > 16384 else None

    if given.vectors:
        names = cases.there(given.vectors)
        source = (case for name in names for case in recorded(given.vectors, name))
    elif given.grid:
        source = (("grid", 0, tree) for tree in grid.grid())
    else:
        source = trees(rnd, given.count, reference_at(given.reference, None), given.deep)
    counts, total, unequal, different, otherwise, far, newer, formless = collections.defaultdict(collections.Counter), 0, 0, 0, 0, 0, 0, 0
    left = collections.Counter()
    while some := list(itertools.islice(source, BATCH)):
        limit = random_limit(rnd) if given.limit == "draw" else int(given.limit) if given.limit else None
        reference, program = reference_at(given.reference, limit), program_at(given.binary, given.stream, limit)
        why = [why_left_out(*case[1:]) for case in some]
        some = [case for case, reason in zip(some, why) if reason is None]
        left += collections.Counter(why)
        batch = [(options, tree) for _, options, tree in some]
        wanted, others = expected(batch, reference, limit)
        otherwise += others
        far += sum(answer_of(tree, 64)[0] == 4 for _, tree in batch)
        newer += sum(answer_of(tree)[0] == 0 and nodes.has_classes(tree) for _, tree in batch)
        formless += sum(answer_of(tree)[0] == 0 and lacks_form(tree) for _, tree in batch)
        for (shape, *_), case, want, got in zip(some, batch, wanted, program(batch)):
            if is_shorter(want, got):
                left["long"] += 1
                continue
            total += 1
            counts[shape][want[0]] += 1
            counts[shape]["lowered"] += want[1] > 0
            is_other, has_other_bytes = not is_equal(want, got), not has_same_bytes(want, got)
            unequal += is_other
            different += has_other_bytes
            if (is_other or has_other_bytes) and max(unequal, different) <= given.shown:
                if answer_of(case[1], limit or read.DEEPEST)[0] == 0:
                    case = shrunk(case, differs)
                    (want,), _ = expected([case], reference, limit)
                    (got,) = program([case])
                print(f"{shape}, limit {limit}: {case[0]:02x} {case[1].hex()}\n  expected {text_of(want)}\n  found    {text_of(got)}")
    counts["all"] = sum(counts.values(), collections.Counter())
    columns = ["lowered", 0, 1, 3, 4, 5, 6, 7]
    print("shape".ljust(10), *(f"{name:>8}" for name in columns), "     all")
    for shape, by in counts.items():
        print(shape.ljust(10), *(f"{by[name]:8}" for name in columns), f"{sum(by.values()) - by['lowered']:8}")
    print(f"the reference reads {otherwise} otherwise than read.py")
    print(
        f"{total} cases, {unequal} unequal, {different} with other bytes; {far} have a node at depth 65, "
        f"{newer} are trees with kinds 40 to 44, {formless} have a number whose form was put in; left out were {left['below']} "
        f"with an object with a rest below another one, {left['form']} with a number with another's form, {left['long']} too long with forms"
    )
    sys.exit(1 if unequal or different or not total else 0)


def recorded(folder, name):
    with open(os.path.join(folder, name + ".txt")) as lines:
        for line in lines:
            if line.strip() and not line.startswith("#"):
                # a limit may stand before it
                case = bytes.fromhex(line.split()[-6])
                yield name, case[0] if case else 0, case[1:]


if __name__ == "__main__":
    main()
