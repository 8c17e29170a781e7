"""Small trees that try each rule of the grammar by itself, valid and wrong: grid() yields them.

The root and each node field are given each form and bytes that are no form's kind; each form is given each map; each
byte field is given each byte.
"""
import cases
import read

# Stands for a mark, which is known only once the tree is whole.
MARK = None


def finished(parts):
    """The bytes of a list of byte strings and marks."""
    mark, tree = 0, b""
    for part in parts:
        if part is MARK:
            mark += 1
            part = cases.wide(mark)
        tree += part
    return tree


def places_of(field):
    if field.sort == "chosen":
        return field.places
    return [field.place] if field.sort in ("node", "list") else []


def least_height(forms):
    return min(forms, key=lambda form: HEIGHT[form])


def heights():
    """The least height of a node of each form."""
    height = dict.fromkeys(read.FIELDS, 99)
    for _ in range(20):
        for form, fields in read.FIELDS.items():
            below = [0]
            for field in fields:
                if field.sort in ("node", "chosen") and not field.optional:
                    below += [min(height[f] for f in read.PLACES[place].split()) for place in places_of(field)]
            height[form] = 1 + max(below)
    return height


HEIGHT = heights()


def small_field(field):
    if field.sort == "mark":
        return [MARK]
    if field.sort == "byte":
        return [bytes([field.low])]
    if field.sort == "text":
        return [b"\1\0a"]
    if field.sort in ("number", "list"):
        return [b"\0\0"]
    return small(least_height(read.PLACES[places_of(field)[0]].split()))


def with_fields(form, parts, bits=None):
    """A node of the form. `parts` has what stands in some fields; of the others only those that must stand do, and are
    small. `bits` is another map to write."""
    fields = read.FIELDS[form]
    stand = sum(1 << i for i, field in enumerate(fields) if i in parts or not field.optional)
    node = [bytes([read.KIND[form], stand if bits is None else bits])]
    for i, field in enumerate(fields):
        if stand >> i & 1:
            node += parts.get(i, small_field(field))
    return node


def small(form):
    return with_fields(form, {})


def with_node(form, at, choice, node):
    """A node of the form with another in the field; `choice` says by which of its places."""
    field = read.FIELDS[form][at]
    parts = {at: [b"\1\0"] + node if field.sort == "list" else node}
    if field.sort == "chosen":
        parts[at - 1] = [bytes([1 + choice])]
    return with_fields(form, parts)


def surroundings():
    """For each form a function that makes a whole tree around a node of that form."""
    around = {"Program": lambda node: node}
    waiting = ["Program"]
    for form in waiting:
        for at, field in enumerate(read.FIELDS[form]):
            for choice, place in enumerate(places_of(field)):
                for inner in read.PLACES[place].split():
                    if inner not in around:
                        around[inner] = lambda node, f=form, a=at, c=choice: around[f](with_node(f, a, c, node))
                        waiting.append(inner)
    return around


def grid():
    around = surroundings()
    nodes = [small(form) for form in read.FIELDS]
    nodes += [[b"\0"], [bytes([20, 3, 1, 0, 3])], [bytes([21, 1, 1])], [bytes([45, 0])], [bytes([255, 0])]]
    for node in nodes:
        yield finished(node)
    for form, fields in read.FIELDS.items():
        for at, field in enumerate(fields):
            for choice, _ in enumerate(places_of(field)):
                for node in nodes:
                    yield finished(around[form](with_node(form, at, choice, node)))
            if field.sort == "byte":
                for byte in range(256):
                    yield finished(around[form](with_fields(form, {at: [bytes([byte])]})))
        for bits in range(256):
            parts = {i: small_field(field) if bits >> i & 1 else [] for i, field in enumerate(fields)}
            yield finished(around[form](with_fields(form, parts, bits)))
