#!/usr/bin/env python3
"""Holds the program vectors to read.py on made trees: valid ones, wrong ones, and ones at the limits of depth and length.

    tools/fuzz.py [--count N] [--seed N] [--binary FILE]
    tools/fuzz.py --grid [--binary FILE]               on the trees of grid.py, which try each rule of the grammar
    tools/fuzz.py --vectors FOLDER [--binary FILE]     on all cases of the vector files in FOLDER, of reading and of lowering
    tools/fuzz.py --rewritten [--count N] [--seed N] [--binary FILE]
                                                       holds the program rewrittencheck to read.py on rewritten trees

The cases go to the program in batches, with the answers of read.py as the expected ones (for the lowering, those of the
files). Each made tree has a depth limit of its own: 64, the highest, or another. Prints each difference with its tree, then the counts. The status is 1 where anything differs.
"""
import argparse
import collections
import itertools
import os
import random
import re
import resource
import subprocess
import sys

import cases
import read
from grid import HEIGHT, grid, places_of

BATCH = 5000
# The program refuses a case whose tree is longer.
ROOM = 20000
NEVER = 10**9


def goes_deep(field, places):
    return bool(places_of(field)) and places.issuperset(places_of(field))


def descents():
    """The places and forms below which trees of any height stand."""
    places, forms = set(read.PLACES), set(read.FIELDS)
    for _ in range(20):
        forms = {name for name in forms if any(goes_deep(field, places) for field in read.FIELDS[name])}
        places = {name for name in places if forms.intersection(read.PLACES[name].split())}
    return places, forms


DEEP_PLACES, DEEP_FORMS = descents()
MISTAKES = "form", "missing", "extra", "byte", "mark", "hole", "made", "count", "text"


class Maker:
    """Writes a tree. `size` bounds its nodes roughly; `goal` is the depth that one path of it reaches; `wrong_at` is the
    number of the node, `wrong_below` the depth, where one mistake is made."""

    places, fields, kinds = read.PLACES, read.FIELDS, read.KIND

    def __init__(self, rnd, size, goal=0, wrong_at=NEVER, wrong_below=NEVER):
        self.rnd, self.size, self.goal = rnd, size, goal
        self.wrong_at, self.wrong_below = wrong_at, wrong_below
        self.out, self.mark, self.nodes, self.last = bytearray(), 1, 0, 0

    def put(self, number):
        self.out += cases.wide(number % 65536)

    def mistake(self, depth):
        self.nodes += 1
        if self.nodes < self.wrong_at and depth < self.wrong_below:
            return None
        self.wrong_at = self.wrong_below = NEVER
        return self.rnd.choice(MISTAKES)

    def choose(self, place, goes_down):
        forms = self.places[place].split()
        if goes_down:
            forms = [form for form in forms if form in DEEP_FORMS]
        elif self.nodes > self.size:
            least = min(HEIGHT.get(form, 1) for form in forms)
            forms = [form for form in forms if HEIGHT.get(form, 1) == least]
        return self.rnd.choice(forms)

    def node(self, place, depth=1, on_path=True):
        goes_down = on_path and depth < self.goal and place in DEEP_PLACES
        wrong = self.mistake(depth)
        if wrong == "hole":
            self.out.append(0)
            return
        if wrong == "made":
            self.out += self.rnd.choice([bytes([20, 3, 1, 0, 3]), bytes([21, 1, 1])])
            return
        form = self.rnd.choice(list(self.fields)) if wrong == "form" else self.choose(place, goes_down)
        fields = self.fields[form]
        down = None
        if goes_down and form in DEEP_FORMS:
            down = self.rnd.choice([field for field in fields if goes_deep(field, DEEP_PLACES)])
        likely = 0.5 if self.nodes < self.size else 0.1
        stand = [f is down or not f.optional or self.rnd.random() < likely for f in fields]
        if wrong == "missing":
            stand[self.rnd.randrange(len(fields))] = False
        bits = sum(1 << i for i, is_there in enumerate(stand) if is_there)
        if wrong == "extra":
            bits |= 1 << self.rnd.randrange(8)
        self.out += bytes([self.kinds[form], bits])
        for field, is_there in zip(fields, stand):
            if is_there:
                self.field(field, depth, field is down, wrong)

    def field(self, field, depth, on_path, wrong):
        rnd = self.rnd
        if field.sort == "node":
            self.node(field.place, depth + 1, on_path)
        elif field.sort == "chosen":
            self.node(field.places[0 if self.last == 1 else 1], depth + 1, on_path)
        elif field.sort == "list":
            few = 4 if self.nodes < self.size else 1
            count = rnd.randrange(few) + on_path
            self.put(rnd.choice([count + 1, max(count - 1, 0), 65535]) if wrong == "count" else count)
            path = rnd.randrange(count) if on_path else -1
            for i in range(count):
                if field.holes and i != path and rnd.random() < 0.3:
                    self.out.append(0)
                else:
                    self.node(field.place, depth + 1, i == path)
        elif field.sort == "text":
            text = rnd.randbytes(rnd.choice([0, 1, 1, 2, 5]))
            self.put(rnd.choice([len(text) + 1, 255, 65535]) if wrong == "text" else len(text))
            self.out += text
        elif field.sort == "byte":
            self.last = rnd.randint(field.low, field.high)
            if wrong == "byte":
                self.last = rnd.choice([field.low - 1, field.high + 1, rnd.randrange(256)]) % 256
            self.out.append(self.last)
        elif field.sort == "mark":
            self.put(self.mark + (rnd.choice([-1, 1, 256]) if wrong == "mark" else 0))
            self.mark += 1
        else:
            self.put(rnd.randrange(65536))


def plain(rnd, is_wrong, limit):
    size = rnd.choice([3, 10, 40, 150])
    maker = Maker(rnd, size, wrong_at=rnd.randint(1, size) if is_wrong else NEVER)
    maker.node("program")
    return bytes(maker.out)


def deep(rnd, is_wrong, limit):
    size, goal, wrong = rnd.choice([0, 100]), limit + rnd.randint(-3, 3), limit + rnd.randint(-9, 3)
    maker = Maker(rnd, size, goal, wrong_below=wrong if is_wrong else NEVER)
    maker.node("program")
    return bytes(maker.out)


def long(rnd, is_wrong, limit):
    """A tree of a length near the limit: statements, and one more that fills it up."""
    length = read.LONGEST + rnd.choice([-1, 0, 0, 1, 1, 2, rnd.randint(-300, 300)])
    maker = Maker(rnd, 0, wrong_at=rnd.randint(1, 2000) if is_wrong else NEVER)
    maker.out += bytes([1, 1, 0, 0])
    count = 1
    most = rnd.choice([100, length - 100, length - 100])
    while len(maker.out) < most:
        start, mark = len(maker.out), maker.mark
        maker.size = maker.nodes + rnd.choice([0, 20])
        maker.node("statement", 2, False)
        if len(maker.out) > length - 50:
            del maker.out[start:]
            maker.mark = mark
            break
        count += 1
    left = length - len(maker.out) - 8
    if rnd.random() < 0.5:
        maker.out += bytes([3, 3]) + cases.wide(maker.mark) + bytes([32, 1]) + cases.wide(left) + bytes(left)
    else:
        name = rnd.randbytes(left)
        maker.out += bytes([12, 7]) + cases.wide(maker.mark) + cases.wide(len(name)) + name + cases.wide(0)
    maker.out[2:4] = cases.wide(count)
    return bytes(maker.out)


class RewrittenMaker(Maker):
    """Writes a rewritten tree: with Temporaries and Helpers, marks in any order. A wrong mark is one that stands already."""

    places, fields, kinds = read.REWRITTEN_PLACES, read.REWRITTEN_FIELDS, read.REWRITTEN_KIND

    def __init__(self, *given, **named):
        super().__init__(*given, **named)
        self.marks = self.rnd.sample(range(65536), 4000)
        self.used = []

    def field(self, field, depth, on_path, wrong):
        if field.sort != "mark":
            super().field(field, depth, on_path, wrong)
            return
        again = wrong == "mark" and self.used
        self.used.append(self.rnd.choice(self.used) if again else self.marks.pop())
        self.put(self.used[-1])


def any_depth(rnd, is_wrong):
    """A tree of some size and a depth up to 200: Maker goes down by calls."""
    size, goal = rnd.choice([3, 10, 40, 150]), rnd.choice([0, 0, 20, 200])
    maker = RewrittenMaker(rnd, size, goal, wrong_at=rnd.randint(1, size) if is_wrong else NEVER)
    maker.node("program")
    return bytes(maker.out)


def around(rnd, levels, wrong):
    """A statement of so many levels of nodes in each other, of one kind or mixed, and a name; one byte of it changed."""
    starts = [bytes([31, 1]), bytes([32, 1, 1, 0]), bytes([28, 1, 1, 0]), bytes([33, 3, 0, 0, 1, 0])]
    ways = starts if rnd.random() < 0.3 else [rnd.choice(starts)]
    tree = bytearray([1, 1, 1, 0, 3, 3, 1, 0])
    for _ in range(levels):
        tree += rnd.choice(ways)
    tree += bytes([18, 1, 1, 0, 97])
    if wrong:
        tree[rnd.randrange(len(tree))] = rnd.randrange(256)
    return bytes(tree)


def rewritten_trees(rnd, count):
    """So many trees, whole, wrong and damaged, some of them deeper than input may be; and the deepest that there is."""
    yield bytes.fromhex("0101010003030100") + bytes.fromhex("1f01") * 16377 + bytes.fromhex("120102006161")
    for _ in range(count - 1):
        way = rnd.randrange(3)
        if rnd.random() < 0.02:
            yield around(rnd, rnd.choice([130, 3000, 5460, 8189, rnd.randrange(16400)]), way)
            continue
        tree = any_depth(rnd, way == 1)
        yield damaged(rnd, tree) if way == 2 else tree


def small_stack():
    """No depth may take the machine's stack by the level: 512 KB are enough for every tree."""
    resource.setrlimit(resource.RLIMIT_STACK, (512 * 1024, 512 * 1024))


def replay_rewritten(binary, source):
    """Runs the program on each tree, with a stack of 512 KB. Prints the differences; returns how many there are."""
    expected, different = collections.Counter(), 0
    for tree in source:
        number = read.answer_rewritten(tree)
        expected[number] += 1
        try:
            done = subprocess.run([binary], input=tree, stdout=subprocess.PIPE, check=True, preexec_fn=small_stack)
            wrote = done.stdout.decode()
        except OSError as error:
            sys.exit(f"{binary}: {error.strerror} (`rt run` in crates/rewrittencheck builds it)")
        if wrote != f"{number}\n":
            different += 1
            print(f"expected {number}, found {wrote.strip()}: {tree.hex()}")
    print(f"expected: accepted {expected[0]}, refused 3: {expected[3]}")
    print(f"{sum(expected.values())} cases, {different} different")
    return different


def damaged(rnd, tree):
    """The tree with some bytes changed, taken out, put in or doubled, or cut, or with bytes after it."""
    tree = bytearray(tree)
    if rnd.random() < 0.2:
        return bytes(tree[: rnd.randrange(len(tree) + 1)])
    if rnd.random() < 0.1:
        return bytes(tree + rnd.randbytes(rnd.randint(1, 3)))
    for _ in range(rnd.choice([1, 1, 1, 2, 4])):
        at = rnd.randrange(len(tree) + 1)
        some = rnd.choice([0, 1, 2, 3, rnd.randrange(48), rnd.randrange(256)])
        way = rnd.randrange(4)
        if way == 0:
            tree[at : at + 1] = [some]
        elif way == 1:
            del tree[at : at + rnd.choice([1, 1, 2, 4])]
        elif way == 2:
            tree.insert(at, some)
        else:
            tree[at:at] = tree[at : at + rnd.randint(1, 12)]
    return bytes(tree)


def trees(rnd, count):
    """So many trees, each with its limit."""
    made = 0
    while made < count:
        shape = rnd.choices([plain, deep, long], [60, 38, 2])[0]
        limit = rnd.choice([64, read.DEEPEST, read.DEEPEST, rnd.randint(1, read.DEEPEST)])
        way = rnd.randrange(3)
        tree = shape(rnd, way == 1, limit)
        if way == 2:
            tree = damaged(rnd, tree)
        if len(tree) <= ROOM:
            made += 1
            yield limit, tree


def run(binary, stream, count):
    """Runs the program on that many cases. Returns its differences, by case, and the lines on reading and lowering."""
    try:
        wrote = subprocess.run([binary], input=stream, stdout=subprocess.PIPE, check=True).stdout.decode()
    except OSError as error:
        sys.exit(f"{binary}: {error.strerror} (`rt run` in crates/vectors builds it)")
    *lines, reading, lowering, _, _, total = wrote.splitlines()
    if total != f"{count} cases, {len(lines)} wrong":
        sys.exit(f"{binary}: {count} cases were sent, {len(lines)} lines came back, and it says: {total}")
    differences = [re.fullmatch(r"case (\d+): (.*)", line).groups() for line in lines]
    return [(int(at) - 1, difference) for at, difference in differences], reading, lowering


def replay(binary, batch):
    """Runs the program on limits and expected answers with their trees. Prints the differences; returns how many trees it
    accepted, refused by 3 and by 4, and how many answers differ."""
    differences, reading, _ = run(binary, b"".join(cases.encode(*case) for case in batch), len(batch))
    for at, difference in differences:
        limit, *_, tree = batch[at]
        print(f"limit {limit}: {difference}: {tree.hex()}")
    counts = re.fullmatch(r"reading: accepted (\d+), refused 3: (\d+), refused 4: (\d+)", reading)
    return [*map(int, counts.groups()), len(differences)]


def replay_lowerings(binary, batch):
    """Runs the program on cases of lowering. Prints the differences and what it counted; returns how many calls differ."""
    differences, _, lowering = run(binary, b"".join(cases.encode_lowering(*case) for _, case in batch), len(batch))
    for at, difference in differences:
        print(f"{batch[at][0]}: {difference}")
    print(f"{lowering}, {len(differences)} different")
    return len(differences)


def batches(source):
    while batch := list(itertools.islice(source, BATCH)):
        yield batch


def main():
    words = argparse.ArgumentParser(description=__doc__.splitlines()[0])
    words.add_argument("--count", type=int, default=10000)
    words.add_argument("--seed", type=int, default=1)
    words.add_argument("--binary")
    words.add_argument("--grid", action="store_true")
    words.add_argument("--vectors")
    words.add_argument("--rewritten", action="store_true")
    given = words.parse_args()
    program = "rewrittencheck" if given.rewritten else "vectors"
    given.binary = given.binary or os.path.join(cases.ROOT, "crates", program, "out", program)
    if given.rewritten:
        sys.exit(1 if replay_rewritten(given.binary, rewritten_trees(random.Random(given.seed), given.count)) else 0)
    if given.vectors:
        names = cases.there(given.vectors)
        source = cases.expected(case for name in names for case in cases.load(given.vectors, name))
    else:
        whole = ((read.DEEPEST, tree) for tree in grid())
        made = whole if given.grid else trees(random.Random(given.seed), given.count)
        source = ((limit, *read.answer(tree, limit), tree) for limit, tree in made)
    expected, found = collections.Counter(), collections.Counter()
    for batch in batches(source):
        expected.update(number for _, number, _, _ in batch)
        found.update(dict(zip((0, 3, 4, "different"), replay(given.binary, batch))))
    for who, counts in ("expected", expected), ("found", found):
        print(f"{who}: accepted {counts[0]}, refused 3: {counts[3]}, refused 4: {counts[4]}")
    total = sum(expected.values())
    print(f"{total} cases, {found['different']} different")
    if given.vectors:
        found["different"] += replay_lowerings(given.binary, [case for name in names for case in cases.load_lowerings(given.vectors, name)])
    sys.exit(1 if found["different"] or not total else 0)


if __name__ == "__main__":
    main()
