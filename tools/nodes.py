"""Accepted trees as nodes, and what is asked of them.

    parsed(tree)               the root
    has_classes(tree)          whether a node of kinds 40 to 44 stands in it
    has_rest_below_rest(tree)  whether in the target of an assignment, or of a for head that assigns, an object with a rest
                               stands below another one: there request 6 is another rule than the Rust's
"""
import read


class Node:
    """A node: its form, and for each field a Node, a list of Nodes (None is a hole), a text, a number, or None where it is
    absent. A mark is 0."""

    def __init__(self, form, values):
        self.form, self.values = form, values

    def below(self):
        for value in self.values:
            for node in value if isinstance(value, list) else [value]:
                if isinstance(node, Node):
                    yield node


class Parser(read.Reader):
    """Makes a Node of an accepted tree."""

    def node(self, place, depth):
        form, bits = read.FORM_AT[place][self.byte()], self.byte()
        fields = read.FIELDS[form]
        return Node(form, [self.field(field, depth) if bits >> i & 1 else None for i, field in enumerate(fields)])

    def field(self, field, depth):
        if field.sort == "node":
            return self.node(field.place, depth)
        if field.sort == "chosen":
            return self.node(field.places[0 if self.tree[self.at - 1] == 1 else 1], depth)
        if field.sort == "list":
            return [self.item(field, depth) for _ in range(self.number())]
        if field.sort == "text":
            length = self.number()
            self.at += length
            return self.tree[self.at - length : self.at]
        if field.sort == "byte":
            return self.byte()
        return self.number() * (field.sort == "number")

    def item(self, field, depth):
        if field.holes and self.tree[self.at] == 0:
            self.at += 1
            return None
        return self.node(field.place, depth)


def parsed(tree):
    return Parser(tree, 0).node("program", 0)


def all_in(tree):
    waiting = [parsed(tree)]
    for node in waiting:
        waiting.extend(node.below())
    return waiting


def has_classes(tree):
    return any(read.KIND[node.form] >= read.KIND["Class"] for node in all_in(tree))


def nests(target, inside=False):
    """Whether an object with a rest stands below another one, or below `target` where it is inside one already. They are
    looked for through properties, items and the left of defaults."""
    if not isinstance(target, Node):
        return False
    if target.form == "TargetObject":
        properties, rest = target.values
        if inside and rest is not None:
            return True
        return any(nests(part.values[1], inside or rest is not None) for part in properties)
    if target.form == "TargetArray":
        return any(nests(item, inside) for item in target.values[0])
    return target.form == "TargetDefault" and nests(target.values[0], inside)


def has_rest_below_rest(tree):
    return any(node.form in ("Assignment", "ForIn", "ForOf") and nests(node.values[1]) for node in all_in(tree))
