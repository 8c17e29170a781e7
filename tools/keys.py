"""Numbers as property keys (request 8): the strings that are promised for them, and the forms of Literals in trees and lists."""
import re

import equal

# The sort of a Literal that is a number, and the highest for which a string is promised.
NUMBER = 2
HIGHEST = 9_007_199_254_740_991


def text(content):
    return len(content).to_bytes(2, "little") + content


def promised(spelling):
    """The string that is promised for a number with this spelling, or None."""
    if re.fullmatch(rb"0|[1-9][0-9]*", spelling):
        value = int(spelling)
    elif re.fullmatch(rb"0x[0-9a-fA-F]+", spelling):
        value = int(spelling[2:], 16)
    else:
        return None
    return b"%d" % value if value <= HIGHEST else None


def numbers_in(data, is_list):
    """Of each Literal that is a number: where its spelling stands, the spelling, and whether it has a form."""
    # kind, bit map and sort of one
    if not re.search(rb"\x16[\x01\x03\x05\x07]\x02", data):
        return
    reader = equal.Reader(data)
    reader.entries() if is_list else reader.go(".")
    for at, _, has_form in reader.spellings:
        if data[at - 2] & 1 and data[at - 1] == NUMBER:
            length = int.from_bytes(data[at : at + 2], "little")
            yield at, bytes(data[at + 2 : at + 2 + length]), has_form


def lacks_form(tree):
    """Whether a number without a form has a promised string."""
    return any(not has_form and promised(spelling) is not None for _, spelling, has_form in numbers_in(tree, False))


def with_forms(data, is_list=False, mark=b""):
    """A tree, or a list, with the promised string as the form of each number that has none, and a mark behind its spelling."""
    out = bytearray(data)
    for at, spelling, has_form in sorted(numbers_in(data, is_list), reverse=True):
        form = promised(spelling)
        if not has_form and form is not None:
            out[at : at + 2 + len(spelling)] = text(spelling + mark) + text(form)
            out[at - 2] |= 4
    return bytes(out)


def without_marked(data, mark, is_list=False):
    """A tree, or a list, in which the numbers with that mark lose it and their forms."""
    out = bytearray(data)
    for at, spelling, has_form in sorted(numbers_in(data, is_list), reverse=True):
        if has_form and spelling.endswith(mark):
            end = at + 2 + len(spelling)
            out[at : end + 2 + int.from_bytes(data[end : end + 2], "little")] = text(spelling[: -len(mark)])
            out[at - 2] &= ~4
    return bytes(out)


def has_other_form(tree):
    """Whether a number has a form that is not its promised string: 11, where it is an excluded key."""
    for at, spelling, has_form in numbers_in(tree, False):
        start = at + 2 + len(spelling)
        length = int.from_bytes(tree[start : start + 2], "little")
        if has_form and promised(spelling) not in (None, tree[start + 2 : start + 2 + length]):
            return True
    return False
