"""Trees by docs/FORMATS.md, as plainly as they can be said: `read` gives the pairs of a tree's records and checks each rule."""
import struct

from hash_files import Broken, check, number_at

NODES = 2**48
COLUMN = b"column"


def page_key(page):
    return b"#%x" % (page - NODES) if page >= NODES else b"%x" % page


def texts(content, at, *sizes):
    """So many bytes each, and the place behind them."""
    found = []
    for size in sizes:
        check(at + size <= len(content), "B2")
        found.append(content[at : at + size])
        at += size
    return found, at


def numbers(content, at, count):
    found = []
    for _ in range(count):
        try:
            number, at = number_at(content, at)
        except IndexError:
            raise Broken("B2") from None
        check(number < 2**64, "B2")
        found.append(number)
    return found, at


class Leaf:
    def __init__(self, content):
        (self.prev, self.next), at = numbers(content, 0, 2)
        self.size = len(content) - at
        self.items = []
        while at < len(content):
            (key_size, size, more), at = numbers(content, at, 3)
            (key, value), at = texts(content, at, key_size, size)
            values = [value]
            for _ in range(more):
                (size,), at = numbers(content, at, 1)
                (value,), at = texts(content, at, size)
                values.append(value)
            self.items.append((key, values))


class Node:
    def __init__(self, content):
        (self.heir,), at = numbers(content, 0, 1)
        self.entries = []
        while at < len(content):
            (child, key_size), at = numbers(content, at, 2)
            (key,), at = texts(content, at, key_size)
            self.entries.append((key, child))


def ascend(keys, order):
    return all(order(one) < order(other) for one, other in zip(keys, keys[1:]))


class Tree:
    """The pages of a tree: its numbers are those of the region in the header."""

    def __init__(self, records, region, order, index=False):
        self.order = order
        code = region[0]
        self.leaf_limit, self.node_limit = struct.unpack_from("<II", region, 8)
        self.root, self.first, self.last, leaf_ids, node_ids, self.count = struct.unpack_from("<6Q", region, 16)
        limits = (self.leaf_limit, self.node_limit)
        check(code <= 1 and all(4 <= limit <= 256 for limit in limits) and leaf_ids < NODES and node_ids < NODES, "B1")
        ids = [*range(1, leaf_ids + 1), *range(NODES + 1, NODES + node_ids + 1)]
        self.pages = {page: (Node if page >= NODES else Leaf)(records[page_key(page)]) for page in ids if page_key(page) in records}
        check(len(self.pages) + (index and COLUMN in records) == len(records), "B2")
        self.leaves = []
        self.height = 0
        self.seen = set()
        self.walk(self.root, 1, None, None)
        check(self.seen == set(self.pages), "B3")
        check(len({depth for _, depth, _, _ in self.leaves}) == 1, "B4")

    def walk(self, page, depth, low, high):
        """All leaves below a page, in order, with their depths and bounds."""
        check(page in self.pages and page not in self.seen, "B3")
        self.seen.add(page)
        self.height = max(self.height, depth)
        here = self.pages[page]
        if isinstance(here, Leaf):
            self.leaves.append((page, depth, low, high))
            return
        keys = [key for key, _ in here.entries]
        check(len(keys) <= self.node_limit, "B5")
        check(ascend(keys, self.order), "B6")
        below = [here.heir] + [child for _, child in here.entries]
        for child, one, other in zip(below, [low, *keys], [*keys, high]):
            self.walk(child, depth + 1, one, other)

    def pairs(self):
        """Each pair, once the rules of leaves hold."""
        found = []
        for page, _, low, high in self.leaves:
            leaf = self.pages[page]
            keys = [key for key, _ in leaf.items]
            check(len(keys) <= self.leaf_limit and (len(keys) < 2 or leaf.size <= 65536) and (keys or page == self.root), "B5")
            check(ascend(keys, self.order), "B6")
            check(all(low is None or self.order(low) <= self.order(key) for key in keys), "B6")
            check(all(high is None or self.order(key) < self.order(high) for key in keys), "B6")
            found += [(key, value) for key, values in leaf.items for value in values]
        ids = [page for page, *_ in self.leaves]
        check(self.first == ids[0] and self.last == ids[-1], "B7")
        for prev, page, after in zip([0, *ids], ids, [*ids[1:], 0]):
            check((self.pages[page].prev, self.pages[page].next) == (prev, after), "B7")
        check(self.count == len(found), "B8")
        return found
