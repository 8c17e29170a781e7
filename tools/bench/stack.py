#!/usr/bin/env python3
"""Measures how much stack a call takes, over trees that go down to the last level.

    tools/bench/stack.py [--library FILE] [--seed N] [--starts N] [--steps N] [--shown N]

Wants cc and target/staticlib/librest_spread.a (or FILE). First come the trees of trees.py. Then chains: at each place of the
grammar that a path meets it goes on in one way, drawn once: through the same form and field, with the same nodes beside
it; so far down as the tree has 128 levels. --starts chains are drawn, the best of them are changed in one place at a time,
--steps times, and what takes more stack is kept. Prints the trees of trees.py that take the most, then the chains.
"""
import argparse
import pathlib
import random
import subprocess
import sys
import tempfile

import run
import trees

HERE = pathlib.Path(__file__).resolve().parent
sys.path.insert(0, str(HERE.parent))

import cases
import fuzz
import grid
import lowering
import read


class Way:
    """How a path goes on from a place: a form, the field that leads down, and what stands beside it."""

    def __init__(self, rnd, place):
        self.form = rnd.choice([form for form in read.PLACES[place].split() if form in fuzz.DEEP_FORMS])
        fields = read.FIELDS[self.form]
        self.down = rnd.choice([i for i, field in enumerate(fields) if fuzz.goes_deep(field, fuzz.DEEP_PLACES)])
        self.parts, last, size = [], 0, rnd.choice([0, 2, 4, 8])
        for i, field in enumerate(fields):
            maker = lowering.Maker(rnd, size, 0, False)
            maker.flat, maker.last = 4, last
            if i == self.down:
                self.place = field.places[0 if last == 1 else 1] if field.sort == "chosen" else field.place
                self.parts.append(list_around(rnd, maker, field) if field.sort == "list" else [lowering.Piece(b"", []), None])
            elif not field.optional or rnd.random() < 0.5:
                maker.field(self.form, i, field, 1, False)
                last = maker.last
                self.parts.append([lowering.Piece(maker.out, maker.marks)])
            else:
                self.parts.append(None)
        bits = sum(1 << i for i, part in enumerate(self.parts) if part is not None)
        self.head = bytes([read.KIND[self.form], bits])

    def name(self):
        return f"{self.form}.{self.down}"


def list_around(rnd, maker, field):
    """A list with the path in it: what stands before it, then None for the path, then what stands behind."""
    count = rnd.choice([1, 1, 2, 3])
    path = rnd.randrange(count)
    pieces = [lowering.Piece(cases.wide(count), [])]
    for item in range(count):
        if item == path:
            pieces.append(None)
            continue
        maker.out, maker.marks = bytearray(), []
        maker.node(field.place, 1, False)
        pieces.append(lowering.Piece(maker.out, maker.marks))
    return pieces


def chain(rnd, ways):
    """A tree that goes down by these ways, to which those are added that it needs; or None."""
    for goal in range(128, 100, -1):
        out, marks = bytearray(), []
        put(rnd, ways, out, marks, "program", 1, goal)
        tree = lowering.numbered(out, marks)
        if len(tree) > read.LONGEST:
            return None
        if read.answer(tree, 128)[0] == 0:
            return tree
    return None


def put(rnd, ways, out, marks, place, depth, goal):
    if depth >= goal or place not in fuzz.DEEP_PLACES:
        form = min(read.PLACES[place].split(), key=lambda form: grid.HEIGHT[form])
        maker = lowering.Maker(random.Random(0), 0, 0, False)
        maker.flat = 0
        maker.node(place, 1, False)
        add(out, marks, lowering.Piece(maker.out, maker.marks))
        return
    if place not in ways:
        ways[place] = Way(rnd, place)
    way = ways[place]
    out += way.head
    for part in way.parts:
        for piece in part or []:
            if piece is None:
                put(rnd, ways, out, marks, way.place, depth + 1, goal)
            else:
                add(out, marks, piece)


def add(out, marks, piece):
    marks += [len(out) + at for at in piece.marks]
    out += piece.out


def measured(program, made):
    """(answer, bytes of stack) for each tree."""
    given = b"".join(b"\0" + cases.wide(len(tree)) + tree for tree in made)
    wrote = subprocess.run([program], input=given, stdout=subprocess.PIPE, check=True).stdout.decode().split("\n")
    return [tuple(map(int, line.split())) for line in wrote[:-1]]


def described(ways):
    """The ways that the path goes round in."""
    seen, place = [], "program"
    while place in ways and place not in seen:
        seen.append(place)
        place = ways[place].place
    circle = seen[seen.index(place) :] if place in seen else seen
    return " > ".join(ways[place].name() for place in circle)


def main():
    words = argparse.ArgumentParser(description=__doc__.splitlines()[0])
    words.add_argument("--library", default=run.ROOT / "target" / "staticlib" / "librest_spread.a")
    words.add_argument("--seed", type=int, default=1)
    words.add_argument("--starts", type=int, default=2000)
    words.add_argument("--steps", type=int, default=4000)
    words.add_argument("--shown", type=int, default=8)
    given = words.parse_args()
    rnd = random.Random(given.seed)
    with tempfile.TemporaryDirectory() as folder:
        program = run.built(HERE / "stack.c", given.library, pathlib.Path(folder) / "stack")
        names = list(trees.TREES)
        of_bench = sorted(zip(measured(program, [trees.TREES[name]() for name in names]), names), key=lambda row: -row[0][1])
        for (answer, stack), name in of_bench[: given.shown]:
            print(f"{stack:9,} bytes, answer {answer}: {name}")
        best = drawn(program, rnd, given.starts)
        tried = given.starts
        for _ in range(0, given.steps, 50):
            best, more = changed(program, rnd, best)
            tried += more
        for stack, answer, ways, tree in best[: given.shown]:
            print(f"{stack:9,} bytes, answer {answer}, {len(tree):,} bytes of tree: {described(ways)}")
        print(f"{len(names)} trees of trees.py and {tried} chains: at most {max(best[0][0], of_bench[0][0][1]):,} bytes of stack")
        print(f"the worst chain: {best[0][3].hex()}")


def drawn(program, rnd, count):
    made = []
    while len(made) < count:
        ways = {}
        tree = chain(rnd, ways)
        if tree:
            made.append((ways, tree))
    return kept(program, made)


def kept(program, made):
    """The twenty that take the most, of those that go round differently."""
    rows = [(stack, answer, ways, tree) for (ways, tree), (answer, stack) in zip(made, measured(program, [tree for _, tree in made]))]
    best, seen = [], set()
    for row in sorted(rows, key=lambda row: -row[0]):
        if described(row[2]) not in seen and len(best) < 20:
            seen.add(described(row[2]))
            best.append(row)
    return best


def changed(program, rnd, best):
    """The best of these and of fifty that differ from one of them in the way of one place or two."""
    made = [(ways, tree) for _, _, ways, tree in best]
    more = 0
    while more < 50:
        ways = dict(rnd.choice(best[: rnd.choice([1, 5, 20])])[2])
        for place in rnd.sample(list(ways), min(len(ways), rnd.choice([1, 1, 2]))):
            del ways[place]
        tree = chain(rnd, ways)
        if tree:
            made.append((ways, tree))
            more += 1
    return kept(program, made), more


if __name__ == "__main__":
    main()
