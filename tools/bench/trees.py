#!/usr/bin/env python3
"""Makes the trees that are measured: trees.py FOLDER writes one file each. Ordinary ones, the largest, and hostile ones."""
import os
import pathlib
import sys

EXAMPLES = pathlib.Path(__file__).resolve().parent.parent.parent / "examples"
LONGEST = 16384


class Mark:
    """Stands for a mark, which is known only once the tree is whole."""


MARK = Mark()


def wide(n):
    return n.to_bytes(2, "little")


# A node is a list of byte strings and marks.


def text(s):
    s = s.encode()
    return [wide(len(s)) + s]


def listed(nodes):
    return [wide(len(nodes))] + [part for node in nodes for part in node]


def node(kind, *fields):
    bits = sum(1 << i for i, field in enumerate(fields) if field is not None)
    return [bytes([kind, bits])] + [part for field in fields if field is not None for part in field]


def byte(n):
    return [bytes([n])]


def finished(parts):
    mark, out = 0, bytearray()
    for part in parts:
        if part is MARK:
            mark += 1
            part = wide(mark)
        out += part
    return bytes(out)


def program(statements):
    return finished(node(1, listed(statements)))


def ref(name):
    return node(18, text(name))


def binding(name):
    return node(19, text(name))


def number(n):
    return node(22, byte(2), text(str(n)), text(str(n)))


def static(name):
    return node(38, text(name))


def statement(expression):
    return node(3, [MARK], expression)


def declare(kind, *declarators):
    return node(4, [MARK], byte(kind), listed([node(5, *d) for d in declarators]))


def call(callee, *args):
    return node(29, callee, listed(args))


def member(expression, name):
    return node(30, expression, text(name))


def literal(*properties):
    return node(24, listed(properties))


def prop(name, value):
    return node(25, static(name), value, byte(0))


def spread(expression):
    return node(26, expression)


def assign(left, right):
    return node(27, byte(1), left, right)


def pattern(properties, rest=None):
    return node(34, listed(properties), rest)


def taken(name, value, flags=0):
    return node(35, static(name), value, byte(flags))


def array_pattern(items, rest=None):
    return node(36, listed(items), rest)


def other(name, *children):
    return node(33, text(name), listed(children))


def block(*statements):
    return node(2, [MARK], listed(statements))


def returned(expression):
    return node(11, [MARK], expression)


def function(name, params, *statements):
    return node(14, [MARK], byte(1), binding(name), listed([node(15, p) for p in params]), None, node(16, None, listed(statements)))


def arrow(params, body):
    return node(17, listed([node(15, p) for p in params]), None, body)


# ---- ordinary


def handler(i):
    """A slip handler: it writes a new deadline and lays the old state over it."""
    state = ref("state")
    return function(
        f"onSlip{i}",
        [binding("event"), pattern([taken("deadline", binding("deadline"), 2)], binding("state"))],
        declare(3, (binding("now"), call(member(ref("clock"), "now")))),
        declare(3, (binding("next"), literal(prop("deadline", other("+", ref("now"), number(200))), prop("slips", number(0)), spread(state)))),
        node(12, [MARK], text("if"), listed([other(">", member(ref("next"), "slips"), number(3)), block(statement(call(ref("stop"), ref("next"))))])),
        returned(literal(spread(ref("next")), prop("slips", other("+", member(ref("next"), "slips"), number(1))))),
    )


def plain(i):
    """Statements without anything to lower."""
    return function(
        f"read{i}",
        [binding("channel"), binding("gain")],
        declare(2, (binding("sum"), number(0))),
        node(
            8,
            [MARK],
            declare(3, (binding("sample"), None)),
            member(ref("channel"), "samples"),
            block(statement(assign(ref("sum"), other("+", ref("sum"), other("*", ref("sample"), ref("gain")))))),
        ),
        node(12, [MARK], text("if"), listed([other("<", ref("sum"), number(0)), block(statement(call(member(ref("log"), "warn"), ref("channel"), ref("sum"))))])),
        returned(literal(prop("channel", ref("channel")), prop("sum", ref("sum")))),
    )


def ordinary(length, lowered=True):
    """Handlers and plain functions by turns, up to that length."""
    made, i = [], 0
    while True:
        i += 1
        more = handler(i) if lowered and i % 3 == 1 else plain(i)
        if len(program(made + [more])) > length:
            return program(made)
        made.append(more)


def assigner(i):
    """A function that takes its state apart in an assignment, so that a temporary and the keys are handed out."""
    return function(
        f"onEdge{i}",
        [binding("state")],
        statement(assign(pattern([taken("deadline", ref("deadline"), 2)], ref("others")), ref("state"))),
        returned(call(ref("wake"), ref("deadline"))),
    )


def handed(entries, length):
    """So many assigners, and plain functions among them up to that length."""
    made = [assigner(i) for i in range(entries)]
    while len(program(made + [plain(0)])) <= length:
        made.insert(2 * len(made) % (entries + 1), plain(len(made)))
    return program(made)


def channel(i):
    """A class that holds a channel: a slip handler as a method, a static block, and a switch in another method."""
    name = f"Channel{i}"

    def method(key, params, *statements):
        value = node(14, [MARK], byte(2), None, listed([node(15, p) for p in params]), None, node(16, None, listed(statements)))
        return node(41, static(key), value, byte(4))

    taking = pattern([taken("deadline", binding("deadline"), 2)], binding("state"))
    again = literal(prop("deadline", other("+", ref("now"), number(200))), spread(ref("state")))
    members = [
        method("onSlip", [binding("now"), taking], returned(again)),
        node(42, listed([statement(call(member(ref("bench"), "register"), ref(name)))])),
        method(
            "gain",
            [binding("mode")],
            node(43, [MARK], ref("mode"), listed([node(44, number(n), listed([returned(number(10 * n))])) for n in (1, 2)] + [node(44, None, listed([returned(number(0))]))])),
        ),
    ]
    return node(12, [MARK], text("class"), listed([node(40, text(name), None, listed(members))]))


def classes(length):
    """Such classes and plain functions by turns, up to that length."""
    made, i = [], 0
    while True:
        i += 1
        more = channel(i) if i % 2 == 1 else plain(i)
        if len(program(made + [more])) > length:
            return program(made)
        made.append(more)


# ---- hostile


def spreads(n):
    return program([statement(literal(*[spread(ref(""))] * n))])


def mixed(n):
    """Properties and spreads by turns."""
    return program([statement(literal(*[prop("", ref("")), spread(ref(""))] * (n // 2)))])


def nested_literals(depth, length):
    """Literals in literals, each with a spread behind the inner one; the innermost fills the tree."""
    levels = (depth - 4) // 2

    def whole(n):
        inner = literal(*[spread(ref(""))] * n)
        for _ in range(levels):
            inner = literal(spread(inner), spread(ref("")))
        return program([statement(inner)])

    n = 0
    while len(whole(n + 1)) <= length:
        n += max(1, (length - len(whole(n))) // 8)
    return whole(n)


def array_rests(n, kind):
    """n object rests in one array pattern."""
    leaf = ref if kind == "assignment" else binding
    top = array_pattern([pattern([], leaf(""))] * n)
    if kind == "assignment":
        return program([statement(assign(top, ref("")))])
    if kind == "declaration":
        return program([declare(2, (top, ref("")))])
    return program([function("", [top])])


def parameters(n):
    return program([function("", [pattern([], binding(""))] * n)])


def number_keys(n, spelled):
    """n keys of an object with a rest, numbers without forms, declared."""

    def part(key):
        return node(35, node(22, byte(2), text(key)), binding(""), byte(0))

    return program([declare(2, (pattern([part(spelled(i)) for i in range(n)], binding("r")), ref("s")))])


def nested_pattern(depth, length, kind):
    """Objects with rest in objects with rest; of an assignment by arrays, so that each gets its own."""
    leaf = ref if kind != "declaration" else binding
    levels = (depth - 6) // (3 if kind == "arrays" else 2)

    def whole(n):
        inner = pattern([taken("a", leaf(""))] * n, leaf(""))
        for _ in range(levels):
            value = array_pattern([inner]) if kind == "arrays" else inner
            inner = pattern([taken("a", value)], leaf(""))
        if kind == "declaration":
            return program([declare(2, (inner, ref("")))])
        return program([statement(assign(array_pattern([inner]) if kind == "arrays" else inner, ref("")))])

    n = 0
    while len(whole(n + 1)) <= length:
        n += max(1, (length - len(whole(n))) // 14)
    return whole(n)


def nested_arrays(depth, kind):
    """Array patterns in array patterns, each with an object rest behind the inner one; the innermost fills the tree."""
    leaf = ref if kind == "assignment" else binding

    def whole(n):
        inner = array_pattern([pattern([], leaf(""))] * n)
        for _ in range(depth - 6):
            inner = array_pattern([inner, pattern([], leaf(""))])
        if kind == "assignment":
            return program([statement(assign(inner, ref("")))])
        if kind == "declaration":
            return program([declare(2, (inner, ref("")))])
        return program([function("", [inner])])

    n = 0
    while len(whole(n + 1)) <= LONGEST:
        n += max(1, (LONGEST - len(whole(n))) // 8)
    return whole(n)


def loops(depth):
    """Loops in loops, each with an object rest in its head."""
    inner = node(13, [MARK])
    for _ in range(depth - 4):
        inner = node(8, [MARK], declare(2, (pattern([], binding("")), None)), ref(""), inner)
    return program([inner])


def template_keys(levels, length=0, declared=False):
    """At root a key that is a template of one quasi is written twice, with an assignment in it that has such a key, and so
    on; or, declared, a function with such a declaration. The innermost fills the tree up to the length."""

    def whole(n):
        inner = literal(*[spread(ref(""))] * n)
        for _ in range(levels):
            if declared:
                made = declare(2, (pattern([templated(inner, binding("")), node(35, ref(""), binding(""), byte(1))], binding("")), ref("")))
                inner = node(17, listed([]), None, node(16, None, listed([made])))
            else:
                inner = assign(pattern([templated(inner, ref(""))], ref("")), ref(""))
        return program([statement(inner)])

    def templated(inner, value):
        return node(35, node(23, listed([node(22, byte(1), text(""), text(""))]), listed([inner])), value, byte(1))

    n = 1
    while len(whole(n + 1)) <= length:
        n += max(1, (length - len(whole(n))) // 8)
    return whole(n)


TREES = {
    "slip": (EXAMPLES / "slip.tree").read_bytes,
    "ordinary-1k": lambda: ordinary(1024),
    "ordinary-2k": lambda: ordinary(2048),
    "ordinary-4k": lambda: ordinary(4096),
    "plain-4k": lambda: ordinary(4096, False),
    "classes-4k": lambda: classes(4096),
    "ordinary-16k": lambda: ordinary(LONGEST),
    "plain-16k": lambda: ordinary(LONGEST, False),
    "handed-16k": lambda: handed(50, 14500),
    **{f"spreads-{n}": lambda n=n: spreads(n) for n in (337, 675, 1350, 2700)},
    **{f"mixed-{n}": lambda n=n: mixed(n) for n in (250, 500, 1000, 1900)},
    **{f"literals-{d}-{k}k": lambda d=d, k=k: nested_literals(d, 1024 * k) for d, k in ((30, 4), (60, 4), (30, 16), (60, 16), (124, 16))},
    **{f"array-{kind}-{n}": lambda n=n, kind=kind: array_rests(n, kind) for kind in ("assignment", "declaration", "parameter") for n in (250, 500, 1000, 2000)},
    **{f"keys-hexadecimal-{n}": lambda n=n: number_keys(n, lambda i: f"0x{i % 256:02x}") for n in (250, 500, 1000)},
    "keys-decimal-1000": lambda: number_keys(1000, lambda i: f"{1000 + i}"),
    **{f"parameters-{n}": lambda n=n: parameters(n) for n in (250, 500, 1000, 1600)},
    **{f"pattern-{kind}-{d}-{k}k": lambda d=d, k=k, kind=kind: nested_pattern(d, 1024 * k, kind) for kind in ("declaration", "assignment", "arrays") for d, k in ((30, 4), (60, 4), (30, 16), (60, 16), (124, 16))},
    **{f"arrays-{kind}-{d}": lambda d=d, kind=kind: nested_arrays(d, kind) for kind in ("assignment", "declaration", "parameter") for d in (30, 60, 124)},
    **{f"loops-{d}": lambda d=d: loops(d) for d in (15, 30, 60, 124)},
    # 30 keys in each other reach level 124
    **{f"templates-{n}": lambda n=n: template_keys(n) for n in (4, 6, 8, 10, 12, 14, 30)},
    **{f"templates-{n}-16k": lambda n=n: template_keys(n, LONGEST) for n in (4, 6, 8, 10, 12, 14, 30)},
    **{f"templates-declared-{n}-16k": lambda n=n: template_keys(n, LONGEST, True) for n in (2, 4, 6, 8)},
}

# the reference would take seconds or minutes for one call, or has no string for a number without a form
ALONE = {"keys-hexadecimal-250", "keys-hexadecimal-500", "keys-hexadecimal-1000", "keys-decimal-1000", "templates-10-16k", "templates-12-16k", "templates-14-16k", "templates-30-16k", "templates-30"}


def main():
    if len(sys.argv) != 2:
        sys.exit(__doc__)
    os.makedirs(sys.argv[1], exist_ok=True)
    for name, make in TREES.items():
        with open(os.path.join(sys.argv[1], name), "wb") as out:
            out.write(make())


if __name__ == "__main__":
    main()
