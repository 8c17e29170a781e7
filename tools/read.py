#!/usr/bin/env python3
"""Reads tree bytes: document 01, 'Tree bytes', with request 1, in Python. It shares nothing with the crates, which are held to it.

    answer(tree, limit) -> (0, next mark), (3, 0) or (4, 0)
    answer_rewritten(tree) -> 0 or 3, for a rewritten tree (request 7)

As a program it prints for a tree on standard input what the program treecheck prints; with --rewritten, what
rewrittencheck prints.
"""
import sys

LONGEST = 16384
LONGEST_REWRITTEN = 32768
# The highest limit, and that of a caller who names none.
DEEPEST = 128

# A form: its name, its kind, and its fields, bit 0 first. A field is
#   PLACE   a node that may stand at that place    PLACE*  a list of such nodes    PLACE~  the same, holes allowed
#   A/B     a node: place A where the byte before it is 1, else place B
#   '       a text       #  a mark       +  a number       =LOW-HIGH  a byte
# and ends with ? where it may be absent. The patterns have two forms: Bind.. for bindings, Target.. for targets.
FORMS = """
Program             1   statement*
Block               2   # statement*
ExpressionStatement 3   # expression
Declaration         4   # =1-3 declarator*
Declarator          5   binding expression?
For                 6   # init? expression? expression? statement
ForIn               7   # head expression statement
ForOf               8   # head expression statement =0-1?
Try                 9   # block catch? block?
Catch               10  param? block
Return              11  # expression?
OtherStatement      12  # ' child*
Empty               13  #
FunctionDeclaration 14  # =1-1 name? param* binding? body?
FunctionExpression  14  # =2-2 name? param* binding? body?
FunctionEither      14  # =1-2 name? param* binding? body?
Param               15  binding expression?
FunctionBody        16  literal*? statement*
Arrow               17  param* binding? arrow_body
Reference           18  ' +?
Binding             19  ' +?
Literal             22  =1-6 ' '?
Template            23  literal* expression*?
Object              24  member*
Property            25  key expression =0-31
Spread              26  expression
Assignment          27  =1-2 target/leaf expression
Sequence            28  expression*
Call                29  expression argument*
Member              30  expression '
Parenthesised       31  expression
Array               32  argument~
OtherExpression     33  ' child*
BindObject          34  bind_property* name?
BindProperty        35  key bind_item =0-3
BindArray           36  bind_item~ binding?
BindDefault         37  binding expression
TargetObject        34  target_property* leaf?
TargetProperty      35  key target_item =0-3
TargetArray         36  target_item~ target?
TargetDefault       37  target expression
StaticKey           38  '
PrivateKey          39  '
Class               40  '? expression? class_member*
ClassMember         41  key expression? =0-31
StaticBlock         42  statement*
Switch              43  # expression case*
Case                44  expression? statement*
"""

# What lowering makes; input has neither.
MADE_FORMS = """
Temporary           20  + =1-4
Helper              21  =1-5
"""

STATEMENT = "Block ExpressionStatement Declaration For ForIn ForOf Try Return OtherStatement Empty Switch "
EXPRESSION = (
    "Arrow Reference Literal Template Object Assignment Sequence Call Member Parenthesised Array OtherExpression Class "
)
LEAF = "Reference Member Parenthesised OtherExpression "
BINDING = "Binding BindObject BindArray "
TARGET = LEAF + "TargetObject TargetArray "

# The forms that may stand at a place.
PLACES = {
    "program": "Program",
    "statement": STATEMENT + "FunctionDeclaration",
    "expression": EXPRESSION + "FunctionExpression",
    "child": STATEMENT + EXPRESSION + "FunctionEither Spread",
    "argument": EXPRESSION + "FunctionExpression Spread",
    "key": EXPRESSION + "FunctionExpression StaticKey PrivateKey",
    "init": EXPRESSION + "FunctionExpression Declaration",
    "head": TARGET + "Declaration",
    "arrow_body": EXPRESSION + "FunctionExpression FunctionBody",
    "member": "Property Spread",
    "binding": BINDING,
    "target": TARGET,
    "leaf": LEAF,
    "name": "Binding",
    "bind_property": "BindProperty",
    "target_property": "TargetProperty",
    "bind_item": BINDING + "BindDefault",
    "target_item": TARGET + "TargetDefault",
    "declarator": "Declarator",
    "block": "Block",
    "catch": "Catch",
    "param": "Param",
    "body": "FunctionBody",
    "literal": "Literal",
    "class_member": "ClassMember StaticBlock",
    "case": "Case",
}


def with_made(forms):
    """The forms of a place in a rewritten tree: Temporaries too where there are names, Helpers where every expression
    may stand."""
    here = set(forms.split())
    if here & {"Reference", "Binding"}:
        forms += " Temporary"
    if here >= set(EXPRESSION.split()):
        forms += " Helper"
    return forms


REWRITTEN_PLACES = {place: with_made(forms) for place, forms in PLACES.items()}


class Field:
    """A field of a form: its sort, whether it may be absent, and the places or bounds that its sort needs."""

    def __init__(self, text):
        self.optional = text.endswith("?")
        text = text.removesuffix("?")
        if text in "'#+":
            self.sort = {"'": "text", "#": "mark", "+": "number"}[text]
        elif text[0] == "=":
            self.sort = "byte"
            self.low, self.high = map(int, text[1:].split("-"))
        elif text[-1] in "*~":
            self.sort = "list"
            self.place, self.holes = text[:-1], text[-1] == "~"
        elif "/" in text:
            self.sort = "chosen"
            self.places = text.split("/")
        else:
            self.sort = "node"
            self.place = text


def read_forms(text):
    lines = [line.split() for line in text.splitlines() if line]
    kinds = {name: int(kind) for name, kind, *_ in lines}
    fields = {name: [Field(f) for f in rest] for name, _, *rest in lines}
    return kinds, fields


# KIND and FIELDS by a form's name; FORM_AT by a place, then a kind byte.
KIND, FIELDS = read_forms(FORMS)
FORM_AT = {place: {KIND[form]: form for form in forms.split()} for place, forms in PLACES.items()}
# The same of rewritten trees.
REWRITTEN_KIND, REWRITTEN_FIELDS = read_forms(FORMS + MADE_FORMS)
REWRITTEN_FORM_AT = {
    place: {REWRITTEN_KIND[form]: form for form in forms.split()} for place, forms in REWRITTEN_PLACES.items()
}


class Refusal(Exception):
    """The number of a refusal."""


class Reader:
    def __init__(self, tree, deepest):
        self.tree, self.deepest = tree, deepest
        self.at, self.mark = 0, 1

    def byte(self):
        if self.at == len(self.tree):
            raise Refusal(3)
        self.at += 1
        return self.tree[self.at - 1]

    def number(self):
        low = self.byte()
        return low + 256 * self.byte()

    def node(self, place, depth):
        form = FORM_AT[place].get(self.byte())
        if form is None:
            raise Refusal(3)
        if depth > self.deepest:
            raise Refusal(4)
        fields, bits = FIELDS[form], self.byte()
        must = sum(1 << i for i, field in enumerate(fields) if not field.optional)
        if bits & must != must or bits >> len(fields):
            raise Refusal(3)
        for i, field in enumerate(fields):
            if bits >> i & 1:
                self.field(field, depth)

    def field(self, field, depth):
        if field.sort == "node":
            self.node(field.place, depth + 1)
        elif field.sort == "chosen":
            self.node(field.places[0 if self.tree[self.at - 1] == 1 else 1], depth + 1)
        elif field.sort == "list":
            for _ in range(self.number()):
                if field.holes and self.tree[self.at : self.at + 1] == b"\0":
                    self.at += 1
                else:
                    self.node(field.place, depth + 1)
        elif field.sort == "text":
            length = self.number()
            if length > len(self.tree) - self.at:
                raise Refusal(3)
            self.at += length
        elif field.sort == "byte":
            if not field.low <= self.byte() <= field.high:
                raise Refusal(3)
        elif field.sort == "mark":
            if self.number() != self.mark:
                raise Refusal(3)
            self.mark += 1
        else:
            self.number()


class RewrittenReader(Reader):
    """Reads a rewritten tree. Each open node is a generator on a list, which yields the place of each node below it: no
    depth is too much for Python."""

    def __init__(self, tree):
        super().__init__(tree, None)
        self.marks = set()

    def tree_of(self, place):
        open_nodes = [self.below(place)]
        while open_nodes:
            inner = next(open_nodes[-1], None)
            if inner is None:
                open_nodes.pop()
            else:
                open_nodes.append(self.below(inner))

    def below(self, place):
        form = REWRITTEN_FORM_AT[place].get(self.byte())
        if form is None:
            raise Refusal(3)
        fields, bits = REWRITTEN_FIELDS[form], self.byte()
        must = sum(1 << i for i, field in enumerate(fields) if not field.optional)
        if bits & must != must or bits >> len(fields):
            raise Refusal(3)
        for i, field in enumerate(fields):
            if not bits >> i & 1:
                continue
            if field.sort == "node":
                yield field.place
            elif field.sort == "chosen":
                yield field.places[0 if self.tree[self.at - 1] == 1 else 1]
            elif field.sort == "list":
                for _ in range(self.number()):
                    if field.holes and self.tree[self.at : self.at + 1] == b"\0":
                        self.at += 1
                    else:
                        yield field.place
            elif field.sort == "mark":
                mark = self.number()
                if mark in self.marks:
                    raise Refusal(3)
                self.marks.add(mark)
            else:
                self.field(field, 0)


def answer_rewritten(tree):
    """0 for a rewritten tree, else 3."""
    if len(tree) > LONGEST_REWRITTEN:
        return 3
    reader = RewrittenReader(bytes(tree))
    try:
        reader.tree_of("program")
    except Refusal:
        return 3
    return 0 if reader.at == len(tree) else 3


def answer(tree, deepest=DEEPEST):
    """(0, next mark) for a tree, (number, 0) for what is refused."""
    if len(tree) > LONGEST:
        return 3, 0
    reader = Reader(bytes(tree), deepest)
    try:
        reader.node("program", 1)
        if reader.at != len(tree):
            raise Refusal(3)
    except Refusal as refusal:
        return refusal.args[0], 0
    return 0, reader.mark


if __name__ == "__main__":
    given = sys.stdin.buffer.read()
    if sys.argv[1:] == ["--rewritten"]:
        print(answer_rewritten(given))
        sys.exit()
    number, mark = answer(given)
    print(f"0 {len(given)} {mark}" if number == 0 else number)
