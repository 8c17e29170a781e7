#!/usr/bin/env python3
"""Prints a tree as text, in the notation of the pages (docs/RULES.md, 'How results are written').

    tools/show.py [--hex] < TREE          a tree, or what the program lower prints
    tools/show.py --list LIST < TREE      a tree and its list, each a file of bytes
    tools/show.py --nodes < TREE          a line for each node: where it begins, its kind, and the fields that are no nodes

A tree of bytes, or with --hex of hexadecimal digits, is printed without its marks if it has no Temporary and no Helper,
and with them otherwise; what lower prints, its three lines, is recognised and printed whole. Nothing is checked: bytes
that are no tree are said to be none.
"""
import argparse
import re
import signal
import sys

import read

TEMPORARY, HELPER = 20, 21
STEMS = {1: "ref", 2: "excluded", 3: "value", 4: "key"}
HELPERS = {1: "S", 2: "X", 3: "E", 4: "W", 5: "K"}
KINDS = {1: "var", 2: "let", 3: "const"}
NAMES = (
    "Program Block ExpressionStatement Declaration Declarator For ForIn ForOf Try Catch Return OtherStatement Empty Function Param "
    "FunctionBody Arrow Reference Binding Temporary Helper Literal Template Object Property Spread Assignment Sequence Call Member "
    "Parenthesised Array OtherExpression ObjectPattern PatternProperty ArrayPattern Default StaticKey PrivateKey "
    "Class ClassMember StaticBlock Switch Case"
).split()
# The sorts of the fields of each kind, bit 0 first. Forms of one kind differ in their places alone.
SORTS = {read.KIND[form]: [field.sort for field in fields] for form, fields in read.FIELDS.items()}
SORTS.update({TEMPORARY: ["number", "byte"], HELPER: ["byte"]})


class NoTree(Exception):
    pass


class Node:
    """A kind and its fields; None where a field is absent, and where an item is a hole."""

    def __init__(self, kind, fields, at):
        self.kind, self.fields, self.at = kind, fields, at

    def __getitem__(self, i):
        return self.fields[i]


class Decoder:
    def __init__(self, data):
        self.data, self.at = data, 0

    def take(self, count):
        if self.at + count > len(self.data):
            raise NoTree
        self.at += count
        return self.data[self.at - count : self.at]

    def wide(self):
        return int.from_bytes(self.take(2), "little")

    def node(self):
        at = self.at
        kind, bits = self.take(2)
        if kind not in SORTS:
            raise NoTree
        return Node(kind, [self.field(sort) if bits >> i & 1 else None for i, sort in enumerate(SORTS[kind])], at)

    def field(self, sort):
        if sort in ("node", "chosen"):
            return self.node()
        if sort == "list":
            return self.nodes()
        if sort == "text":
            return self.take(self.wide())
        return self.take(1)[0] if sort == "byte" else self.wide()

    def nodes(self):
        items = []
        for _ in range(self.wide()):
            if self.data[self.at : self.at + 1] == b"\0":
                self.at += 1
                items.append(None)
            else:
                items.append(self.node())
        return items


def name_text(name):
    return re.sub(r"[^\x21-\x7e]", lambda c: f"\\x{ord(c[0]):02x}", name.decode("latin-1"))


class Printer:
    def __init__(self, marks):
        self.marks = marks

    def mark(self, number):
        return f"@{number} " if self.marks else ""

    def joined(self, items):
        return ", ".join("" if item is None else self.text(item) for item in items)

    def statements(self, items):
        # of bytes that are no tree a list may be missing
        return "".join(self.text(item) + " " for item in items or [])

    def text(self, n):
        return getattr(self, f"kind_{n.kind}")(n, *n.fields)

    def kind_1(self, n, body):
        return self.statements(body).strip()

    def kind_2(self, n, mark, body):
        return self.mark(mark) + "{ " + self.statements(body) + "}"

    def kind_3(self, n, mark, expression):
        text = self.text(expression)
        return self.mark(mark) + (f"({text})" if text.startswith("{") else text) + ";"

    def declaration(self, n):
        return self.mark(n[0]) + KINDS[n[1]] + " " + self.joined(n[2])

    def kind_4(self, n, *_):
        return self.declaration(n) + ";"

    def kind_5(self, n, left, value):
        return self.text(left) + (f" = {self.text(value)}" if value else "")

    def head(self, n):
        return self.declaration(n) if n.kind == 4 else self.text(n)

    def kind_6(self, n, mark, init, test, update, body):
        parts = (self.head(init) if init else "") + ";" + (f" {self.text(test)}" if test else "")
        parts += ";" + (f" {self.text(update)}" if update else "")
        return f"{self.mark(mark)}for ({parts}) {self.text(body)}"

    def kind_7(self, n, mark, left, right, body):
        return f"{self.mark(mark)}for ({self.head(left)} in {self.text(right)}) {self.text(body)}"

    def kind_8(self, n, mark, left, right, body, wait):
        word = "" if wait is None else " await" if wait else " await=0"
        return f"{self.mark(mark)}for{word} ({self.head(left)} of {self.text(right)}) {self.text(body)}"

    def kind_9(self, n, mark, block, handler, finalizer):
        text = f"{self.mark(mark)}try {self.text(block)}"
        if handler:
            text += f" {self.text(handler)}"
        return text + (f" finally {self.text(finalizer)}" if finalizer else "")

    def kind_10(self, n, param, body):
        return "catch " + (f"({self.text(param)}) " if param else "") + self.text(body)

    def kind_11(self, n, mark, value):
        return self.mark(mark) + "return" + (f" {self.text(value)}" if value else "") + ";"

    def kind_12(self, n, mark, name, children):
        return f"{self.mark(mark)}other {name_text(name)}({self.joined(children)});"

    def kind_13(self, n, mark):
        return self.mark(mark) + ";"

    def parameters(self, params, rest):
        parts = [self.text(param) for param in params] + ([f"...{self.text(rest)}"] if rest else [])
        return "(" + ", ".join(parts) + ")"

    def kind_14(self, n, mark, sort, name, params, rest, body):
        head = "function" + (f" {self.text(name)}" if name else "") + self.parameters(params, rest)
        return self.mark(mark) + head + (f" {self.text(body)}" if body else ";")

    def kind_15(self, n, pattern, value):
        return self.text(pattern) + (f" = {self.text(value)}" if value else "")

    def kind_16(self, n, directives, body):
        first = "" if directives is None else "".join(self.text(d) + "; " for d in directives) or "[] "
        return "{ " + first + self.statements(body) + "}"

    def kind_17(self, n, params, rest, body):
        text = self.text(body)
        if body.kind != 16 and text.startswith("{"):
            text = f"({text})"
        return f"{self.parameters(params, rest)} => {text}"

    def kind_18(self, n, name, symbol):
        return name_text(name) + ("" if symbol is None else f"#{symbol}")

    kind_19 = kind_18

    def kind_20(self, n, number, stem):
        return f"${STEMS.get(stem, '')}{number}"

    def kind_21(self, n, number):
        return HELPERS.get(number, f"helper {number}")

    def kind_22(self, n, sort, spelling, form):
        if form is None:
            return name_text(spelling) + "!"
        return name_text(spelling) or f'"{name_text(form)}"'

    def kind_23(self, n, quasis, expressions):
        text = "`" + "|".join(name_text(quasi[1]) for quasi in quasis) + "`"
        return text + ("" if expressions is None else f"[{self.joined(expressions)}]")

    def kind_24(self, n, properties):
        return "{" + self.joined(properties) + "}"

    def key(self, key, flags):
        is_bare = key.kind in (38, 39) or (key.kind == 22 and not flags & 1)
        return self.text(key) if is_bare else f"[{self.text(key)}]"

    def kind_25(self, n, key, value, flags):
        key = self.key(key, flags)
        value_text = self.text(value)
        if flags & 28 and value.kind == 14:
            word = "get " if flags & 8 else "set " if flags & 16 else ""
            return word + key + value_text.partition("function")[2]
        return key if flags & 2 and value_text.split("#")[0] == key else f"{key}: {value_text}"

    def kind_26(self, n, value):
        return f"...{self.text(value)}"

    def kind_27(self, n, op, left, right):
        return f"{self.text(left)} {'=' if op == 1 else '+='} {self.text(right)}"

    def kind_28(self, n, expressions):
        return f"({self.joined(expressions)})"

    def kind_29(self, n, callee, arguments):
        args = [self.text(a) for a in arguments]
        # X({}, (E(s), s)) is the one call of X
        if callee.kind == HELPER and callee[0] == 2 and len(args) == 2 and args[0] == "{}":
            source = args[1].partition(", ")[2].removesuffix(")")
            if args[1] == f"(E({source}), {source})":
                args = [source]
        return f"{self.text(callee)}({', '.join(args)})"

    def kind_30(self, n, value, name):
        return f"{self.text(value)}.{name_text(name)}"

    def kind_31(self, n, value):
        return f"({self.text(value)})"

    def kind_32(self, n, items):
        return f"[{self.joined(items)}]"

    def kind_33(self, n, name, children):
        return f"other {name_text(name)}({self.joined(children)})"

    def kind_34(self, n, properties, rest):
        parts = [self.text(p) for p in properties] + ([f"...{self.text(rest)}"] if rest else [])
        return "{" + ", ".join(parts) + "}"

    def kind_35(self, n, key, value, flags):
        key, text = self.key(key, flags), self.text(value)
        is_short = flags & 2 and re.split("[# ]", text)[0] == key
        return text if is_short else f"{key}: {text}"

    def kind_36(self, n, items, rest):
        parts = ["" if item is None else self.text(item) for item in items]
        return "[" + ", ".join(parts + ([f"...{self.text(rest)}"] if rest else [])) + "]"

    def kind_37(self, n, left, right):
        return f"{self.text(left)} = {self.text(right)}"

    def kind_38(self, n, name):
        return name_text(name)

    def kind_39(self, n, name):
        return f"#{name_text(name)}"

    def kind_40(self, n, name, parent, members):
        head = "class" + (f" {name_text(name)}" if name is not None else "") + (f" extends {self.text(parent)}" if parent else "")
        return head + " { " + self.statements(members) + "}"

    def kind_41(self, n, key, value, flags):
        word = "static " if flags & 2 else ""
        key = self.key(key, flags)
        if flags & 28 and value and value.kind == 14:
            word += "get " if flags & 8 else "set " if flags & 16 else ""
            return word + key + self.text(value).partition("function")[2]
        return word + key + (f" = {self.text(value)}" if value else "") + (f"{{{{{flags}}}}}" if flags & 28 else "") + ";"

    def kind_42(self, n, body):
        return "static { " + self.statements(body) + "}"

    def kind_43(self, n, mark, discriminant, cases):
        return f"{self.mark(mark)}switch ({self.text(discriminant)}) " + "{ " + self.statements(cases) + "}"

    def kind_44(self, n, test, body):
        return (f"case {self.text(test)}:" if test else "default:") + "".join(" " + self.text(item) for item in body)


def kinds(n):
    """The kinds of the node and of all nodes below it."""
    if isinstance(n, Node):
        return {n.kind}.union(*map(kinds, n.fields))
    return set().union(*map(kinds, n)) if isinstance(n, list) else set()


def tree_text(data, marks=None):
    decoder = Decoder(data)
    tree = decoder.node()
    if decoder.at != len(data):
        raise NoTree
    return Printer(bool(kinds(tree) & {TEMPORARY, HELPER}) if marks is None else marks).text(tree)


def node_lines(n, level=0):
    """A line for the node, and one for each below it. Signs are those of docs/FORMAT.md; absent fields are left out."""
    signs = {"text": "'", "byte": "=", "mark": "#", "number": "+"}
    words, below = [], []
    for sort, value in zip(SORTS[n.kind], n.fields):
        if isinstance(value, Node):
            below.append(value)
        elif isinstance(value, list):
            words.append(f"*{len(value)}")
            below += [item for item in value if item is not None]
        elif value is not None:
            words.append(signs[sort] + (name_text(value) if sort == "text" else str(value)))
    yield " ".join([f"{n.at:5}  " + "  " * level + f"{n.kind} {NAMES[n.kind - 1]}"] + words)
    for node in below:
        yield from node_lines(node, level + 1)


def list_text(data):
    """The entries and the excluded keys; nothing for an empty list."""
    decoder, parts = Decoder(data), []
    for _ in range(decoder.wide()):
        mark = decoder.wide()
        parts.append(f"@{mark}: {Printer(True).joined(decoder.nodes())}")
    if excluded := decoder.nodes():
        parts.append(f"excluded: {Printer(True).joined(excluded)}")
    return "; ".join(parts)


def helper_text(mask):
    return " ".join(letter for bit, letter in enumerate(HELPERS.values()) if mask >> bit & 1) or "none"


def printed(text):
    """What the program lower printed: answer and masks, then tree and list in hexadecimal."""
    answer, helpers, options = map(int, text.splitlines()[0].split())
    if answer:
        return f"refused: {answer}"
    tree, handed = text.splitlines()[1:3]
    lines = [f"helpers: {helper_text(helpers)}", tree_text(bytes.fromhex(tree), True)]
    listed = list_text(bytes.fromhex(handed))
    return "\n".join(lines + ([f"list: {listed}"] if listed else []))


def main():
    words = argparse.ArgumentParser(description=__doc__.splitlines()[0])
    words.add_argument("--hex", action="store_true", help="the tree is in hexadecimal")
    words.add_argument("--list", metavar="FILE", help="the list that belongs to the tree")
    words.add_argument("--nodes", action="store_true", help="a line for each node")
    given = words.parse_args()
    data = sys.stdin.buffer.read()
    try:
        if re.match(rb"\d+ \d+ \d+\n", data):
            print(printed(data.decode()))
            return
        if given.hex:
            data = bytes.fromhex(data.decode())
        text = tree_text(data, True if given.list else None)
        print("\n".join(node_lines(Decoder(data).node())) if given.nodes else text)
        if given.list:
            with open(given.list, "rb") as listed:
                print(f"list: {list_text(listed.read()) or 'empty'}")
    except (NoTree, ValueError, RecursionError):
        sys.exit("these bytes are no tree")
    except FileNotFoundError as error:
        sys.exit(f"{error.filename}: {error.strerror}")


if __name__ == "__main__":
    # a reader that stops early, as head does, is no fault
    signal.signal(signal.SIGPIPE, signal.SIG_DFL)
    main()
