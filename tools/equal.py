"""Equal results: reads rewritten trees and lists, and says which results are equal (crates/equal, specs/Equal).

    is_equal(a, b)     of two results, each a tree and a list: whether their canonical forms have the same bytes
    canonical(a)       the canonical form: temporaries renumbered from 1 by first appearance, tree before list; stems stay
    spellings(a)       where the Literals' spellings stand: (part, position, what), part 0 is the tree and 1 the list
    respelled(a, at)   the result with another spelling there
    swapped(a, x, y)   the result with two temporaries' numbers swapped throughout

It has a table of its own and shares nothing with read.py. What is no result raises Unreadable.
"""

# The fields of each kind, bit 0 first: . a node, * a list (a zero byte is a hole), ' a text, = a byte, # a mark, + a number.
LAYOUT = dict(
    (int(kind), fields)
    for kind, fields in (
        line.split()
        for line in """
        1 *     | 2 #*     | 3 #.  | 4 #=* | 5 ..  | 6 #.... | 7 #... | 8 #...= | 9 #... | 10 ..
        11 #.   | 12 #'*   | 13 #  | 14 #=.*.. | 15 .. | 16 ** | 17 *.. | 18 '+ | 19 '+  | 20 +=
        21 =    | 22 =''   | 23 ** | 24 *  | 25 ..= | 26 .   | 27 =.. | 28 *    | 29 .*  | 30 .'
        31 .    | 32 *     | 33 '* | 34 *. | 35 ..= | 36 *.  | 37 ..  | 38 '    | 39 '
        40 '.*  | 41 ..=   | 42 *  | 43 #.* | 44 .*
        """.replace("\n", "|").split("|")
        if line.strip()
    )
)
TEMPORARY, LITERAL, TEMPLATE, FUNCTION_BODY = 20, 22, 23, 16


class Unreadable(Exception):
    """The bytes are no tree, or no list."""


class Reader:
    """Goes through a tree or a list and notes where the temporaries' numbers and the spellings stand."""

    def __init__(self, data):
        self.data, self.at = data, 0
        self.numbers, self.spellings = [], []

    def byte(self):
        if self.at >= len(self.data):
            raise Unreadable
        self.at += 1
        return self.data[self.at - 1]

    def wide(self):
        return self.byte() + 256 * self.byte()

    def go(self, field):
        """One field, and all that stands in it. What waits is a field and, of a Literal, what it is; or a count of items."""
        waiting = [(field, "literal")]
        while waiting:
            field, what = waiting.pop()
            if isinstance(field, int):
                if field:
                    waiting.append((field - 1, what))
                    if self.data[self.at : self.at + 1] == b"\0":
                        self.at += 1
                    else:
                        waiting.append((".", what))
            elif field == ".":
                waiting.extend(reversed(list(self.opened(what))))
            elif field == "*":
                waiting.append((self.wide(), what))
            elif field == "'":
                length = self.wide()
                self.at += length
                if self.at > len(self.data):
                    raise Unreadable
            elif field == "=":
                self.byte()
            else:
                self.wide()

    def opened(self, what):
        """A node's kind and bit map are read: its fields that stand."""
        kind, bits = self.byte(), self.byte()
        fields = LAYOUT.get(kind, "")
        if not fields or bits >> len(fields):
            raise Unreadable
        stand = [(i, field) for i, field in enumerate(fields) if bits >> i & 1]
        if kind == TEMPORARY and stand and stand[0][1] == "+":
            self.numbers.append(self.at)
        if kind == LITERAL and bits >> 1 & 1:
            self.spellings.append((self.at + (bits & 1), what, bits >> 2 & 1))
        first = {TEMPLATE: "quasi", FUNCTION_BODY: "directive"}.get(kind, "literal")
        for i, field in stand:
            yield field, "literal" if i else first

    def entries(self):
        for _ in range(self.wide()):
            self.wide()
            self.go("*")
        self.go("*")

    def ended(self):
        if self.at != len(self.data):
            raise Unreadable
        return self


def read(result):
    """Readers of the tree and the list of a result, at their ends."""
    tree, listed = Reader(result[0]), Reader(result[1])
    tree.go(".")
    listed.entries()
    return tree.ended(), listed.ended()


def renumbered(result, change):
    """The result with each temporary's number changed, in the order in which they appear."""
    parts = []
    for reader in read(result):
        data = bytearray(reader.data)
        for at in reader.numbers:
            data[at : at + 2] = change(int.from_bytes(data[at : at + 2], "little")).to_bytes(2, "little")
        parts.append(bytes(data))
    return tuple(parts)


def canonical(result):
    places = {}
    return renumbered(result, lambda number: places.setdefault(number, len(places) + 1))


def is_equal(a, b):
    return canonical(a) == canonical(b)


def spellings(result):
    for part, reader in enumerate(read(result)):
        for at, what, has_form in reader.spellings:
            yield part, at, "list" if part else what, has_form


def respelled(result, part, at):
    data = result[part]
    length = int.from_bytes(data[at : at + 2], "little")
    old = data[at + 2 : at + 2 + length]
    new = b"'" if not old else bytes([old[0] ^ 1]) + old[1:]
    changed = data[:at] + len(new).to_bytes(2, "little") + new + data[at + 2 + length :]
    return (changed, result[1]) if part == 0 else (result[0], changed)


def numbers(result):
    """The temporaries' numbers by first appearance."""
    seen = {}
    renumbered(result, lambda number: seen.setdefault(number, number))
    return list(seen)


def swapped(result, x, y):
    return renumbered(result, lambda number: {x: y, y: x}.get(number, number))
