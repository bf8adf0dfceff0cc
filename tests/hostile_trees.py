"""Trees as no puts make them, of which all but `crowd` keep every rule: as records and a region by docs/FORMATS.md, and the steps that bring them to the program `steps`."""
import struct

from hash_files import spelled_number
from tree_files import NODES, page_key


def step(kind, key=b"", value=b"", number=0):
    return kind + struct.pack(">III", number, len(key), len(value)) + key + value


def leaf(prev, after, *items):
    """A leaf of these keys, each with its values."""
    content = spelled_number(prev) + spelled_number(after)
    for key, (first, *others) in items:
        content += b"".join(map(spelled_number, (len(key), len(first), len(others)))) + key + first
        content += b"".join(spelled_number(len(value)) + value for value in others)
    return content


def node(heir, *entries):
    return spelled_number(heir) + b"".join(spelled_number(page) + spelled_number(len(key)) + key for key, page in entries)


def region(root, first, last, leaves, nodes, pairs, decimal=False):
    """That of a tree by bytes, or by numbers, with four keys a leaf and four entries a node."""
    return struct.pack("<B7xII6Q", decimal, 4, 4, root, first, last, leaves, nodes, pairs).ljust(128, b"\0")


def chain(count, page, first=1):
    """So many nodes above a page, each with an heir alone, the lowest first; and the highest."""
    rows = {}
    for number in range(first, first + count):
        rows[page_key(NODES + number)] = node(page)
        page = NODES + number
    return rows, page


def tower(count):
    """A leaf of one pair below so many nodes."""
    rows, root = chain(count, 1)
    rows[b"1"] = leaf(0, 0, (b"a", [b"x"]))
    return rows, region(root, 1, 1, 1, count, 1)


def fork(count, length=2**24, decimal=False):
    """A root above two towers: the pair at `a` stands in the first, the one at `c` in the second, or by numbers those at `1` and `3`. Both are bounded by a key of so many bytes, so that to copy it for
    each node takes longer than a test may."""
    low, bound, high = (b"1", b"2".rjust(length, b"0"), b"3") if decimal else (b"a", b"b" * length, b"c")
    first, heir = chain(count, 1)
    second, other = chain(count, 2, count + 1)
    root = NODES + 2 * count + 1
    rows = {**first, **second, page_key(root): node(heir, (bound, other))}
    rows[b"1"], rows[b"2"] = leaf(0, 2, (low, [b"x"])), leaf(1, 0, (high, [b"y"]))
    return rows, region(root, 1, 2, 2, 2 * count + 1, 2, decimal)


def crowd(count):
    """A leaf of one pair below a root whose heir it is, and so many entries of which each names it: rule 3 is broken."""
    rows = {b"1": leaf(0, 0, (b"a", [b"x"])), page_key(NODES + 1): node(1, *[(b"", 1)] * count)}
    return rows, region(NODES + 1, 1, 1, 1, 1, 1)


def heap(count):
    """A leaf of one key with so many values without bytes."""
    return {b"1": leaf(0, 0, (b"a", [b""] * count))}, region(1, 1, 1, 1, 0, count)


def stream(rows, opaque, steps):
    """The input of `steps rows`."""
    return b"".join(step(b"w", key, value) for key, value in rows.items()) + step(b"h", b"", opaque) + steps
