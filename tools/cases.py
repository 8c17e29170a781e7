#!/usr/bin/env python3
"""Makes and shows the stored cases of the program vectors: crates/vectors/stdin and stdout.

    tools/cases.py --show N..          the stored cases with these numbers, as text and in hexadecimal
    tools/cases.py --reference FILE FOLDER           makes the list anew from FOLDER, says whether it is the stored one
    tools/cases.py --reference FILE --write FOLDER   makes it and stores it
    tools/cases.py --reference FILE --list FOLDER    says what each case is, too
    tools/cases.py --joined [--write] FOLDER         the same with the cases of joining made anew, and all before them as stored

FOLDER has the vector files, whole; they are kept outside the repository (loader/tests/data has a part of them):
document01.txt, readings.txt, extra.txt and recorded.txt, which are the base's and run with a depth limit of 64; cr4.txt;
cr5.txt, whose lines have seven words, the first the limit (`-` where none is named); cr12.txt; and cr1.txt, with the base's
limit. What a file from before request 4 records of a result with a temporary is restated with its stem: as cr4.txt has it,
and for recorded.txt and cr1.txt by the reference. Then comes cr6.txt: a case of an earlier file with an object with a rest
below another one in a target, where request 6 is another rule, is restated as cr6.txt has it, and left out where it does not
have it. cr8.txt is the last: a case of an earlier file that is refused with 6 and has a number whose string is promised
without its form is restated as cr8.txt has it, or by the reference, which is given the forms. A case's number is the one
that vectors prints. The cases of reading come first, none of cr8.txt. Such a case is a zero byte; two bytes, the limit and the
expected answer of reading; two 16-bit numbers, the tree's length and the expected next mark (0 on a refusal); then the
tree. Expected answers are those recorded in the vector files or given here; read.py has to agree with each, and supplies
the marks.

A case of lowering is a byte 1 where no limit is named, or a byte 2 and the limit, a 32-bit number; the options byte, the
expected answer, helper mask and options mask, a byte each; three 16-bit numbers, the lengths of the tree, of the expected
tree and of the expected list; then these three. What is expected is recorded in the vector files or given here.

A case of drawing is a byte 3; two 32-bit numbers, the seed and the state after its tree; the tree's length, 16 bits; then
the tree. They are of cr2.txt, and come behind those of lowering.

A case of joining is a byte 4; the expected answer, a byte; four 16-bit numbers, the lengths of the slice that is lent, of the
tree, of the list and of the joined tree (0 on a refusal); then the last three. They are of cr10.txt, and come last.
"""
import argparse
import os
import signal
import subprocess
import sys

import drawn
import equal
import join
import keys
import nodes
import read
import show

ROOT = os.path.dirname(os.path.dirname(os.path.abspath(__file__)))
STORED = os.path.join(ROOT, "crates", "vectors", "stdin")
SUMMARY = os.path.join(ROOT, "crates", "vectors", "stdout")


def wide(number):
    return number.to_bytes(2, "little")


def encode(limit, number, mark, tree):
    return bytes([0, limit, number]) + wide(len(tree)) + wide(mark) + tree


def encode_lowering(limit, options, number, helpers, mask, tree, result, listed):
    kind = b"\1" if limit is None else b"\2" + limit.to_bytes(4, "little")
    lengths = wide(len(tree)) + wide(len(result)) + wide(len(listed))
    return kind + bytes([options, number, helpers, mask]) + lengths + tree + result + listed


# The base's limit. The vector files with the limit of their cases where the lines name none; None is for a caller who names
# none either. A part of cr4.txt, and of cr6.txt, that restates cases of the base, and one of cr5.txt that holds no longer, by the
# first words of their heads.
BASE_LIMIT = 64
BASE = ["document01", "readings", "extra", "recorded"]
FILES = dict.fromkeys(BASE, BASE_LIMIT) | {"cr4": None, "cr5": None, "cr12": None, "cr1": BASE_LIMIT, "cr6": None, "cr8": None}
RESTATED = "---- the cases of document01.txt, readings.txt and extra.txt whose result this request changes"
NO_LONGER = "---- with temporaries, while request 4 is not in force"
# The option that is no longer shown in the mask (request 12). The base's files record masks that show it, and are restated.
RETIRED = 8
# How many cases of drawing and of joining are stored.
DRAWINGS = 60
JOININGS = 80
# Stems of temporaries: in place of a pattern, of excluded keys, of a value.
REF, EXCLUDED, VALUE = 1, 2, 3


def there(folder):
    """The vector files that a folder has, by name."""
    names = [name for name in FILES if os.path.isfile(os.path.join(folder, name + ".txt"))]
    return names or sys.exit(f"{folder}: no vector file is there")


class Reading:
    """A stored case of reading."""

    def __init__(self, limit, answer, mark, tree):
        self.limit, self.answer, self.mark, self.tree = limit, answer, mark, tree


class Lowering:
    """A stored case of lowering."""

    def __init__(self, limit, options, answer, helpers, mask, tree, result, listed):
        self.limit, self.options, self.answer, self.helpers, self.mask = limit, options, answer, helpers, mask
        self.tree, self.result, self.listed = tree, result, listed


class Drawing:
    """A stored case of drawing."""

    def __init__(self, seed, state, tree):
        self.seed, self.state, self.tree = seed, state, tree


class Joining:
    """A stored case of joining, and where it stands in the list."""

    def __init__(self, start, answer, room, tree, listed, result):
        self.start, self.answer, self.room, self.tree, self.listed, self.result = start, answer, room, tree, listed, result


def load_stored():
    """The stored cases in their order; case N is the item N - 1."""
    with open(STORED, "rb") as stored:
        data = stored.read()
    found, at = [], 0

    def number():
        nonlocal at
        at += 2
        return int.from_bytes(data[at - 2 : at], "little")

    def take(length):
        nonlocal at
        at += length
        return data[at - length : at]

    while at < len(data):
        kind = take(1)
        if kind == b"\3":
            seed, state = (int.from_bytes(take(4), "little") for _ in range(2))
            found.append(Drawing(seed, state, take(number())))
            continue
        if kind == b"\4":
            start, (answer,), room = at - 1, take(1), number()
            lengths = number(), number(), number()
            found.append(Joining(start, answer, room, *map(take, lengths)))
            continue
        if kind == b"\0":
            limit, answer = take(2)
            length, mark = number(), number()
            found.append(Reading(limit, answer, mark, take(length)))
        else:
            limit = None if kind == b"\1" else int.from_bytes(take(4), "little")
            options, answer, helpers, mask = take(4)
            lengths = number(), number(), number()
            found.append(Lowering(limit, options, answer, helpers, mask, *map(take, lengths)))
    return found


def shown(number, case):
    """Lines on a stored case: what comes out, then the bytes."""

    def as_text(tree, marks):
        try:
            return show.tree_text(tree, marks)
        except (show.NoTree, RecursionError):
            return "no tree"

    short = case.tree.hex() if len(case.tree) <= 2000 else f"{len(case.tree)} bytes"
    if isinstance(case, Drawing):
        return [f"case {number}, drawing, seed {case.seed}: {as_text(case.tree, False)}", f"  then   {case.state}", f"  tree   {short}"]
    if isinstance(case, Reading):
        answer = f"0 {len(case.tree)} {case.mark}" if case.answer == 0 else case.answer
        return [f"case {number}, reading, limit {case.limit}: {as_text(case.tree, False)}", f"  prints {answer}", f"  tree   {short}"]
    if isinstance(case, Joining):
        lines = [f"case {number}, joining, slice {case.room}: {as_text(case.tree, True)}"]
        lines += [f"  gives  {case.answer or as_text(case.result, True)}", f"  tree   {short}", f"  list   {case.listed.hex()}"]
        return lines + ([] if case.answer else [f"  result {case.result.hex()}"])
    options = f", options {case.options}" if case.options else ""
    limit = "" if case.limit is None else f", limit {case.limit}"
    lines = [f"case {number}, lowering{limit}{options}: {as_text(case.tree, False)}"]
    if case.answer:
        return lines + [f"  gives  {case.answer}", f"  tree   {short}"]
    handed = show.list_text(case.listed)
    lines += [f"  gives  {as_text(case.result, True)}"] + ([f"  list   {handed}"] if handed else [])
    lines += [f"  helpers {case.helpers}, options {case.mask}", f"  tree   {short}"]
    if len(case.result) <= 2000:
        lines += [f"  result {case.result.hex()}", f"  list   {case.listed.hex()}"]
    return lines


def lines_of(folder, name, part=None):
    """The cases of a vector file: what each is, its limit (None where none is named) and the words of its line. Those of one
    part of it, or of all parts that are stored."""
    what, holds = "", part is None
    with open(os.path.join(folder, name + ".txt")) as lines:
        for at, line in enumerate(lines, 1):
            if line.startswith("#"):
                what = line[1:].strip()
                if what.startswith("----"):
                    holds = what.startswith(part) if part else not what.startswith((RESTATED, NO_LONGER))
            elif line.strip() and holds:
                words = line.split()
                limit = words.pop(0) if len(words) == 7 else "-"
                yield f"{name}:{at} {what}".strip(), FILES[name] if limit == "-" else int(limit), words
                what = ""


def load(folder, name):
    """The cases of a vector file: what each is, its limit, the answer of reading (None where it is not recorded) and the tree."""
    for what, limit, (given, number, *_) in lines_of(folder, name):
        # 9 is no limit to read with; 1 and 2 come before reading, 3 and 4 from it, all else after it
        if number == "9":
            continue
        reading = {"1": None, "2": None, "3": 3, "4": 4}.get(number, 0)
        # the first byte is the options
        yield what, limit or read.DEEPEST, reading, bytes.fromhex(given)[1:]


def load_lowerings(folder, name, part=None):
    """The same as cases of lowering: what each is, and what encode_lowering takes."""
    for what, limit, (given, number, helpers, mask, *results) in lines_of(folder, name, part):
        options, tree = bytes.fromhex(given)[0], bytes.fromhex(given)[1:]
        result, listed = (b"" if word == "-" else bytes.fromhex(word) for word in results)
        yield what, (limit, options, int(number), int(helpers), int(mask) & ~RETIRED, tree, result, listed)


def has_temporary(case):
    result, listed = case[6:]
    return bool(result) and any(reader.numbers for reader in equal.read((result, listed)))


def restated(folder, name, some, reference):
    """Cases from before request 4, those whose result has a temporary as they are with its stem."""
    known = {(case[1], case[5]): case[2:] for _, case in load_lowerings(folder, "cr4", "----")}
    changed = [case for _, case in some if has_temporary(case)]
    if name in ("recorded", "cr1"):
        known = dict(zip(((case[1], case[5]) for case in changed), asked(reference, changed)))
    for what, case in some:
        if has_temporary(case):
            if (case[1], case[5]) not in known:
                sys.exit(f"{what}: its result has a temporary, and cr4.txt does not have it")
            case = case[:2] + tuple(known[case[1], case[5]])
        yield what, case


def by_parts(folder, some):
    """Cases from before request 6 as it has them. Before the lowering come the answers 1, 3, 4 and 9."""
    known = {(case[1], case[5]): case[2:] for _, case in load_lowerings(folder, "cr6", "----")}
    for what, case in some:
        if case[2] in (1, 3, 4, 9) or not nodes.has_rest_below_rest(case[5]):
            yield what, case
        elif (case[1], case[5]) in known:
            yield what, case[:2] + known[case[1], case[5]]


def by_numbers(folder, some, reference):
    """Cases from before request 8 as it has them: what was refused with 6 where a promised form is wanting is as cr8.txt has
    it, or is asked of the reference with these forms put in; they are taken out of its result."""
    known = {(case[1], case[5]): case[2:] for _, case in load_lowerings(folder, "cr8", "----")}
    changed = [case for _, case in some if case[2] == 6 and keys.lacks_form(case[5]) and (case[1], case[5]) not in known]
    # a mark that no spelling ends with
    given = [case[:5] + (keys.with_forms(case[5], mark=b"!!"),) for case in changed]
    for case, (number, helpers, mask, _, result, listed) in zip(changed, asked(reference, given)):
        results = (result, listed) if number else (keys.without_marked(result, b"!!"), keys.without_marked(listed, b"!!", True))
        known[case[1], case[5]] = number, helpers, mask, case[5], *results
    for what, case in some:
        yield what, case[:2] + known.get((case[1], case[5]), case[2:])


def asked(reference, changed):
    """What the reference gives for these cases: answer, masks, tree, result and list."""
    words = [reference, "--batch", "--template-key=node", "--retired", "--classes", "--stems", f"--limit={BASE_LIMIT}"]
    lines = "".join(f"{case[1]:02x}{case[5].hex()}\n" for case in changed)
    wrote = subprocess.run(words, input=lines.encode(), stdout=subprocess.PIPE, check=True).stdout.decode().splitlines()
    for case, line in zip(changed, wrote, strict=True):
        *numbers, result, listed = line.split()
        yield *map(int, numbers), case[5], *(b"" if word == "-" else bytes.fromhex(word) for word in (result, listed))


def blocks(count):
    """A Program and count Blocks, each in the last."""
    tree = bytes([1, 1]) + wide(1 if count else 0)
    for mark in range(1, count + 1):
        tree += bytes([2, 3]) + wide(mark) + wide(1 if mark < count else 0)
    return tree


def wrapped(count, inner):
    """A Program with an ExpressionStatement that has inner within count Parenthesised."""
    return bytes([1, 1, 1, 0, 3, 3, 1, 0]) + bytes([31, 1]) * count + inner


def sized(length):
    """A tree of that many bytes: a Program with an OtherStatement of a long name."""
    name = bytes(length - 12)
    return bytes([1, 1, 1, 0, 12, 7, 1, 0]) + wide(len(name)) + name + wide(0)


def made():
    """Cases at the edges of the refusals 3 and 4, for a limit of 64 and for the highest."""
    deep = blocks(64)
    cut = deep[:-6]
    array, hole, name = bytes([32, 1]), bytes([1, 0, 0]), bytes([1, 0, 18, 1, 1, 0, 97])
    base = [
        ("empty", 3, b""),
        ("Program without items", 0, blocks(0)),
        ("Program, 63 blocks each in the last", 0, blocks(63)),
        ("Program, 64 blocks each in the last", 4, deep),
        ("a count that cannot fit, then depth 65", 4, deep[:2] + wide(65535) + deep[4:]),
        ("a count that cannot fit, no depth 65", 3, bytes([1, 1]) + wide(65535) + blocks(63)[4:]),
        ("a text that cannot fit", 3, bytes([1, 1, 1, 0, 3, 3, 1, 0, 18, 1]) + wide(65535) + b"a"),
        ("16,385 bytes with depth 65", 3, deep + bytes(16385 - len(deep))),
        ("16,384 bytes with depth 65", 4, deep + bytes(16384 - len(deep))),
        ("16,384 bytes, a tree", 0, sized(16384)),
        ("16,385 bytes, else a tree", 3, sized(16385)),
        ("depth 65: the kind byte of a Block alone", 4, cut + bytes([2])),
        ("depth 65: the kind byte of a Temporary", 3, cut + bytes([20])),
        ("depth 65: no kind byte", 3, cut),
        ("depth 65: a Block with a wrong map", 4, cut + bytes([2, 255])),
        ("depth 65: a Function where its sort would be met later", 4, wrapped(62, bytes([14]))),
        ("depth 65: a pattern where an expression stands", 3, wrapped(62, bytes([34]))),
        ("depth 65: a hole", 0, wrapped(61, array + hole)),
        ("depth 65: an item", 4, wrapped(61, array + name)),
        ("depth 65: an Array", 4, wrapped(62, array + hole)),
        ("depth 64: a name", 0, wrapped(61, name[2:])),
        ("a byte after the tree", 3, blocks(1) + b"\0"),
        ("a second Program", 3, blocks(0) + blocks(0)),
    ]
    return [(what, BASE_LIMIT, number, tree) for what, number, tree in base] + [
        ("Program, 127 blocks each in the last", read.DEEPEST, 0, blocks(127)),
        ("Program, 128 blocks each in the last", read.DEEPEST, 4, blocks(128)),
    ]


def doubled(source, rest):
    """`let {...r} = s, {...q} = t;` with names of these lengths for s and r; and what it becomes:
    `let r = X({}, (E(s), s)), q = X({}, (E(t), t));`, where s and t stand twice."""

    def named(kind, name):
        return bytes([kind, 1]) + wide(len(name)) + name

    tree = result = bytes([1, 1, 1, 0, 4, 7, 1, 0, 2, 2, 0])
    for name, value in (b"r" * rest, b"s" * source), (b"q", b"t"):
        empty = bytes([29, 3, 21, 1, 3, 1, 0]) + named(18, value)
        copy = bytes([29, 3, 21, 1, 2, 2, 0, 24, 1, 0, 0, 28, 1, 2, 0]) + empty + named(18, value)
        tree += bytes([5, 3, 34, 3, 0, 0]) + named(19, name) + named(18, value)
        result += bytes([5, 3]) + named(19, name) + copy
    return tree, result


def handed_out(key, count):
    """`{ ({a, ...r} = s); [{...o}, ...] = b; }` with a key of that many bytes for a and that many objects; and what it
    becomes, with v for `$value`: `{ (v1 = s, {a} = v1, r = W(v1, $excluded2)); ([$ref3, ...] = b, (v7 = $ref3, {} = v7,
    o = X({}, (E(v7), v7)), v7), ...); }` with the list `@2: v1 | @3: $ref3, ... | @3: v7 | ... | excluded: $excluded2 = ["a"]`."""

    def assigned(target, value):
        return bytes([27, 7, 1]) + target + value

    def property_of(value):
        return bytes([35, 7, 38, 1]) + wide(key) + b"k" * key + value + bytes([2])

    def temporary(number):
        stem = EXCLUDED if number == 2 else REF if number in outer else VALUE
        return bytes([20, 3]) + wide(number) + bytes([stem])

    def declared(*numbers):
        return wide(len(numbers)) + b"".join(bytes([5, 1]) + temporary(number) for number in numbers)

    def named(letter):
        return bytes([18, 1, 1, 0]) + letter

    def sequence(*items):
        return bytes([28, 1]) + wide(len(items)) + b"".join(items)

    def moved(to, source):
        empty = bytes([29, 3, 21, 1, 3, 1, 0]) + temporary(to)
        copy = bytes([29, 3, 21, 1, 2, 2, 0, 24, 1, 0, 0]) + sequence(empty, temporary(to))
        bare = assigned(bytes([34, 1, 0, 0]), temporary(to))
        return sequence(assigned(temporary(to), temporary(source)), bare, assigned(named(b"o"), copy), temporary(to))

    outer, inner = range(3, 3 + count), range(3 + count, 3 + 2 * count)
    head, second, third = bytes([1, 1, 1, 0, 2, 3, 1, 0, 2, 0]), bytes([3, 3, 2, 0]), bytes([3, 3, 3, 0])
    one = property_of(named(b"a"))
    objects = (bytes([34, 3, 0, 0]) + named(b"o")) * count
    tree = head + second + assigned(bytes([34, 3, 1, 0]) + one + named(b"r"), named(b"s"))
    tree += third + assigned(bytes([36, 1]) + wide(count) + objects, named(b"b"))
    without = bytes([29, 3, 21, 1, 4, 2, 0]) + temporary(1) + temporary(2)
    kept = assigned(bytes([34, 1, 1, 0]) + one, temporary(1))
    result = head + second + sequence(assigned(temporary(1), named(b"s")), kept, assigned(named(b"r"), without))
    array = bytes([36, 1]) + wide(count) + b"".join(map(temporary, outer))
    result += third + sequence(assigned(array, named(b"b")), *map(moved, inner, outer))
    listed = wide(2 + count) + wide(2) + declared(1) + wide(3) + declared(*outer)
    listed += b"".join(wide(3) + declared(number) for number in inner)
    listed += bytes([1, 0, 5, 3]) + temporary(2) + bytes([32, 1, 1, 0, 22, 7, 1, 0, 0]) + wide(key) + b"k" * key
    return tree, result, listed


def made_lowerings():
    """Cases at the edges of the refusals that are the entry's own."""
    listing, long = bytes.fromhex("0101010003030100180101001a011201010061"), sized(16384)
    fits, over = doubled(16340, 2), doubled(16340, 3)
    full, past = handed_out(16275, 4), handed_out(16276, 4)
    base = [
        ("no tree", (0, 3, 0, 0, b"", b"", b"")),
        ("options 16, no tree", (16, 1, 0, 0, b"", b"", b"")),
        ("options 255, a tree", (255, 1, 0, 0, listing, b"", b"")),
        ("options 16, 16,385 bytes", (16, 1, 0, 0, bytes(16385), b"", b"")),
        ("16,384 bytes, unchanged", (15, 0, 0, 7, long, long, bytes(4))),
        ("16,385 bytes, else a tree", (0, 3, 0, 0, sized(16385), b"", b"")),
        ("Program, 64 blocks each in the last", (0, 4, 0, 0, blocks(64), b"", b"")),
        ("a result of 32,768 bytes", (0, 0, 6, 0, *fits, bytes(4))),
        ("a result of 32,769 bytes", (0, 7, 0, 0, over[0], b"", b"")),
        ("a list of 16,384 bytes", (0, 0, 14, 0, *full)),
        ("a list of 16,385 bytes", (0, 7, 0, 0, past[0], b"", b"")),
    ]
    return [(what, (BASE_LIMIT, *case)) for what, case in base]


def sample(cases):
    """Of the recorded cases that are not long, the 4, fifty 3 and thirty trees, spread evenly."""
    return spread(cases, [(4, 2000, 100), (3, 500, 50), (0, 300, 30)], lambda case: case[2], lambda case: len(case[3]))


def sample_lowerings(cases):
    """All recorded 5, 6 and 7, the 4; of the others that are not long twenty 1, forty 3 and two hundred trees, spread evenly."""
    counts = [(7, 20000, 10), (6, 20000, 100), (5, 20000, 100), (4, 2000, 100), (3, 500, 40), (1, 500, 20), (0, 1000, 200)]
    return spread(cases, counts, lambda case: case[1][2], lambda case: sum(map(len, case[1][5:])))


def spread(cases, counts, answer, size):
    chosen = []
    for number, most, count in counts:
        fit = [case for case in cases if answer(case) == number and size(case) <= most]
        step = max(1, len(fit) // count)
        chosen += fit[::step][:count]
    return chosen


def stored(folder):
    cases = made()
    for name in FILES:
        # those of cr8.txt are trees like others
        some = [] if name == "cr8" else load(folder, name)
        cases += sample(list(some)) if name == "recorded" else some
    return cases


def stored_lowerings(folder, reference):
    cases = made_lowerings()
    for name in FILES:
        some = list(load_lowerings(folder, name))
        if name == "recorded":
            some = sample_lowerings(some)
        if name in BASE or name == "cr1":
            some = list(restated(folder, name, some, reference))
        if name != "cr8":
            some = by_numbers(folder, some if name == "cr6" else list(by_parts(folder, some)), reference)
        cases += some
    return cases


def expected(cases):
    """Each tree with its limit, expected answer and mark. Stops where read.py and a recorded answer differ."""
    for what, limit, number, tree in cases:
        found, mark = read.answer(tree, limit)
        if number is not None and number != found:
            sys.exit(f"{what}: recorded {number}, read.py says {found}")
        yield limit, found, mark, tree


def summary(numbers, lowered, drawings, joined):
    """The last lines of the program vectors where nothing is wrong, from the answers of reading, of lowering and of joining
    and the number of drawings."""
    counts = [numbers.count(number) for number in (0, 3, 4)]
    done = lowered.count(0)
    # two calls for each case, and three more where a tree is lowered
    calls = 2 * len(lowered) + 3 * done
    return (
        f"reading: accepted {counts[0]}, refused 3: {counts[1]}, refused 4: {counts[2]}\n"
        f"lowering: lowered {done}, refused {len(lowered) - done}, calls {calls}\n"
        f"drawing: drawn {drawings}\n"
        f"joining: joined {joined.count(0)}, refused {len(joined) - joined.count(0)}\n"
        f"{len(numbers) + len(lowered) + drawings + len(joined)} cases, 0 wrong\n"
    )


def show_stored(words):
    found = load_stored()
    for word in words:
        if not word.isdecimal() or not 1 <= int(word) <= len(found):
            sys.exit(f"{word}: the stored cases have the numbers 1 to {len(found)}")
        print("\n".join(shown(int(word), found[int(word) - 1])))


def stored_before(joined):
    """The stored list without its cases of joining, and the summary with these answers of joining instead."""
    found = load_stored()
    with open(STORED, "rb") as stored:
        data = stored.read()
    starts = [case.start for case in found if isinstance(case, Joining)]
    answers = {kind: [case.answer for case in found if isinstance(case, kind)] for kind in (Reading, Lowering)}
    drawings = sum(isinstance(case, Drawing) for case in found)
    return data[: min(starts, default=len(data))], summary(answers[Reading], answers[Lowering], drawings, joined)


def made_list(given, folder, joined):
    """The list from the vector files, without its cases of joining, and the summary with these answers of joining."""
    cases, lowerings = stored(folder), stored_lowerings(folder, given.reference)
    drawings = drawn.chosen(os.path.join(folder, "cr2.txt"), DRAWINGS)
    answers = list(expected(cases))
    if given.list:
        names = [(what, number, tree) for (what, *_), (_, number, _, tree) in zip(cases, answers)]
        names += [(what, case[2], case[5]) for what, case in lowerings]
        for at, (what, number, tree) in enumerate(names, 1):
            print(f"{at}: {number}, {len(tree)} bytes, {what}")
    stream = b"".join(encode(*case) for case in answers) + b"".join(encode_lowering(*case) for _, case in lowerings)
    stream += b"".join(b"\3" + case for case in drawings)
    return stream, summary([number for _, number, _, _ in answers], [case[2] for _, case in lowerings], len(drawings), joined)


def main():
    words = argparse.ArgumentParser(description=__doc__.splitlines()[0])
    words.add_argument("--show", action="store_true", help="print stored cases")
    words.add_argument("--write", action="store_true", help="store the list that is made")
    words.add_argument("--list", action="store_true", help="say what each case is")
    words.add_argument("--joined", action="store_true", help="make the cases of joining alone")
    words.add_argument("--reference", metavar="FILE", help="the Rust reference, which restates results with temporaries")
    words.add_argument("given", nargs="+", metavar="FOLDER or N")
    given = words.parse_args()
    if given.show:
        return show_stored(given.given)
    if len(given.given) != 1:
        words.error("one folder is wanted")
    if given.reference is None and not given.joined:
        words.error("--reference is wanted, to restate recorded.txt")
    folder = given.given[0]
    try:
        joinings = join.chosen(os.path.join(folder, "cr10.txt"), JOININGS)
        joined = [number for number, _ in joinings]
        stream, lines = stored_before(joined) if given.joined else made_list(given, folder, joined)
    except OSError as error:
        sys.exit(f"{error.filename}: {error.strerror}")
    stream += b"".join(b"\4" + case for _, case in joinings)
    print(f"{len(stream)} bytes\n{lines}", end="")
    if given.write:
        with open(STORED, "wb") as out:
            out.write(stream)
        with open(SUMMARY, "w") as out:
            out.write(lines)
        print("stored")
        return
    with open(STORED, "rb") as before, open(SUMMARY) as said:
        is_same = before.read() == stream and said.read() == lines
    print("this is what is stored" if is_same else "what is stored is another list; --write stores this one")
    sys.exit(0 if is_same else 1)


if __name__ == "__main__":
    # a reader that stops early, as head does, is no fault
    signal.signal(signal.SIGPIPE, signal.SIG_DFL)
    main()
