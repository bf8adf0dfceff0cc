"""Hash files by docs/FORMATS.md, as plainly as they can be said: `made` makes one of pairs, `read` gives the pairs of one and checks each rule of its layout, and `Laid` follows
puts and outs block by block."""
import struct

HEAD = 256


class Broken(Exception):
    """The name of the first rule that fails."""


def check(holds, rule):
    if not holds:
        raise Broken(rule)


def bucket_of(key, buckets):
    number = 19780211
    for byte in key:
        number = (number * 37 + byte) % 2**64
    return number % buckets


def second_hash(key):
    number = 751
    for byte in reversed(key):
        number = number * 31 % 2**32 ^ byte
    return number % 256


def spelled_number(number):
    """A number in groups of seven bits, the least first; each but the last is complemented."""
    groups = b""
    while number >= 128:
        groups += bytes([255 - number % 128])
        number //= 128
    return groups + bytes([number])


def number_at(content, at):
    """The number that is spelled at a place, and the place behind it."""
    number, power = 0, 1
    while content[at] >= 128:
        number += (255 - content[at]) * power
        power *= 128
        at += 1
    return number + content[at] * power, at + 1


def order(key):
    return second_hash(key), len(key), key


def head(kind, apow, fpow, large, buckets, records, size, first):
    front = b"ToKyO CaBiNeT".ljust(32, b"\0") + bytes([kind, 0, apow, fpow, large, 0, 0, 0])
    return (front + struct.pack("<QQQQ", buckets, records, size, first)).ljust(HEAD, b"\0")


def first_record(apow, fpow, large, buckets):
    unit = 2**apow
    return -(-(HEAD + (8 if large else 4) * buckets + 64 + 4 * 2**fpow) // unit) * unit


def record(key, value, left, right, unit, large):
    width = 8 if large else 4
    body = spelled_number(len(key)) + spelled_number(len(value)) + key + value
    padding = -(4 + 2 * width + len(body)) % unit
    return b"\xC8" + bytes([second_hash(key)]) + left.to_bytes(width, "little") + right.to_bytes(width, "little") + struct.pack("<H", padding) + body + bytes(padding)


def made(pairs, buckets=3, apow=4, fpow=0, large=False):
    """The file of these pairs, laid and hung in their order, without free blocks."""
    unit, width = 2**apow, 8 if large else 4
    first = at = first_record(apow, fpow, large, buckets)
    places, below, roots = {}, {}, [0] * buckets
    for key, value in pairs:
        places[key], below[key] = at >> apow, [0, 0]
        at += len(record(key, value, 0, 0, unit, large))
    at_place = {place: key for key, place in places.items()}
    for key, _ in pairs:
        bucket = bucket_of(key, buckets)
        if roots[bucket] == 0:
            roots[bucket] = places[key]
            continue
        there = at_place[roots[bucket]]
        side = 0 if order(key) > order(there) else 1
        while below[there][side]:
            there = at_place[below[there][side]]
            side = 0 if order(key) > order(there) else 1
        below[there][side] = places[key]
    front = head(0, apow, fpow, large, buckets, len(pairs), at, first) + b"".join(root.to_bytes(width, "little") for root in roots)
    return front.ljust(first, b"\0") + b"".join(record(key, value, *below[key], unit, large) for key, value in pairs)


def blocks_of(content, first, size, unit, width):
    """The records, each by its place as key, value, left and right; and the free blocks, each by its place with its size."""
    at, records, free = first, {}, {}
    while at < size:
        if content[at] == 0xB0:
            length = struct.unpack_from("<I", content, at + 1)[0]
            free[at] = length
        else:
            check(content[at] == 0xC8, "L3")
            left, right = (int.from_bytes(content[at + 2 + side * width : at + 2 + (side + 1) * width], "little") for side in (0, 1))
            padding = struct.unpack_from("<H", content, at + 2 + 2 * width)[0]
            key_size, behind = number_at(content, at + 4 + 2 * width)
            value_size, behind = number_at(content, behind)
            key, value = content[behind : behind + key_size], content[behind + key_size : behind + key_size + value_size]
            length = behind + key_size + value_size + padding - at
            records[at] = (key, value, left, right, content[at + 1])
            check(content[at + length - padding : at + length] == bytes(padding), "padding")
        check(length > 0 and length % unit == 0 and at + length <= size, "L3")
        at += length
    return records, free


def pool_of(content, at, end, apow):
    """The free blocks that are listed: places and sizes."""
    listed, place = [], 0
    while content[at : at + 2] != b"\0\0":
        step, at = number_at(content, at)
        size, at = number_at(content, at)
        check(at + 2 <= end, "L9")
        place += step
        listed.append((place << apow, size << apow))
    check(content[at:end] == bytes(end - at), "zeros behind the list")
    return listed


def walked(records, root, apow, seen):
    """The keys below a place, the greatest first."""
    stack, keys = [], []
    place = root
    while stack or place:
        while place:
            at = place << apow
            check(at in records, "L4")
            check(at not in seen, "L5")
            seen.add(at)
            stack.append(at)
            place = records[at][2]
        at = stack.pop()
        keys.append(records[at][0])
        place = records[at][3]
    return keys


def read(content, wanted=0):
    """The pairs of a file of a type that is settled: no bytes behind its size, no free block at its end, and all free blocks that fit listed."""
    check(len(content) >= HEAD and content.startswith(b"ToKyO CaBiNeT"), "L1")
    kind, _, apow, fpow, option = struct.unpack_from("<BBBBB", content, 32)
    buckets, count, size, first = struct.unpack_from("<QQQQ", content, 40)
    check(kind == wanted and option in (0, 1) and first >= first_record(apow, fpow, option, buckets), "L1")
    check(len(content) == size, "length")
    width, unit = 8 if option else 4, 2**apow
    records, free = blocks_of(content, first, size, unit, width)
    seen, pairs = set(), {}
    for bucket in range(buckets):
        root = int.from_bytes(content[HEAD + bucket * width : HEAD + (bucket + 1) * width], "little")
        keys = walked(records, root, apow, seen)
        check(all(bucket_of(key, buckets) == bucket for key in keys), "L6")
        orders = [order(key) for key in keys]
        check(all(one > other for one, other in zip(orders, orders[1:])), "L7")
    check(seen == set(records), "L5")
    check(all(second_hash(key) == hashed for key, _, _, _, hashed in records.values()), "L6")
    check(len(records) == count, "L8")
    for key, value, *_ in records.values():
        pairs[key] = value
    pool = HEAD + width * buckets
    end = pool + 64 + 4 * 2**fpow
    listed = pool_of(content, pool, end, apow)
    check(listed == sorted(free.items())[: len(listed)], "L9")
    check(len(listed) == len(free) or len(content[pool:end].rstrip(b"\0")) > end - pool - 24, "the list is as long as it may be")
    check(all(at + length < size and at + length not in free for at, length in free.items()), "free blocks are joined, and none ends the file")
    return pairs


class Laid:
    """A file as puts and outs make it, each settled: its records, free blocks and trees, by place in bytes; 0 is no record."""

    def __init__(self, buckets, apow=4, fpow=0, large=False):
        self.apow, self.fpow, self.large, self.unit = apow, fpow, large, 2**apow
        self.first = self.size = first_record(apow, fpow, large, buckets)
        self.roots, self.records, self.free = [0] * buckets, {}, {}

    def spelled(self, at):
        key, value, left, right = self.records[at]
        return record(key, value, left >> self.apow, right >> self.apow, self.unit, self.large)

    def take(self, length):
        fits = [(size, at) for at, size in self.free.items() if size >= length]
        if not fits:
            self.size += length
            return self.size - length
        size, at = min(fits)
        del self.free[at]
        if size > length:
            self.free[at + length] = size - length
        return at

    def give(self, at, length):
        for before, size in list(self.free.items()):
            if before + size == at:
                del self.free[before]
                at, length = before, size + length
        length += self.free.pop(at + length, 0)
        self.free[at] = length

    def settle(self):
        for at, length in list(self.free.items()):
            if at + length == self.size:
                del self.free[at]
                self.size = at

    def link(self, key):
        """Where the place of a key stands, or would: a list and an index into it."""
        holder, index = self.roots, bucket_of(key, len(self.roots))
        while holder[index] and self.records[holder[index]][0] != key:
            holder = self.records[holder[index]]
            index = 2 if order(key) > order(holder[0]) else 3
        return holder, index

    def put(self, key, value):
        holder, index = self.link(key)
        at = holder[index]
        left, right = self.records[at][2:] if at else (0, 0)
        length = len(record(key, value, 0, 0, self.unit, self.large))
        if at:
            room = len(self.spelled(at))
            del self.records[at]
            if room < length:
                self.give(at, room)
                at = self.take(length)
            elif room > length:
                self.give(at + length, room - length)
        else:
            at = self.take(length)
        self.records[at] = [key, value, left, right]
        holder[index] = at
        self.settle()

    def out(self, key):
        holder, index = self.link(key)
        at = holder[index]
        left, right = self.records[at][2:]
        if left and right:
            last = left
            while self.records[last][3]:
                last = self.records[last][3]
            self.records[last][3] = right
        holder[index] = left or right
        self.give(at, len(self.spelled(at)))
        del self.records[at]
        self.settle()

    def content(self):
        """The file, with zeros in the rest of each free block."""
        width, pool, last = 8 if self.large else 4, b"", 0
        for at, length in sorted(self.free.items()):
            pair = spelled_number((at >> self.apow) - last) + spelled_number(length >> self.apow)
            if len(pool) + len(pair) + 2 > 64 + 4 * 2**self.fpow:
                break
            pool, last = pool + pair, at >> self.apow
        front = head(0, self.apow, self.fpow, self.large, len(self.roots), len(self.records), self.size, self.first)
        front += b"".join((root >> self.apow).to_bytes(width, "little") for root in self.roots) + pool
        blocks = {at: self.spelled(at) for at in self.records}
        blocks.update({at: (b"\xB0" + struct.pack("<I", length)).ljust(length, b"\0") for at, length in self.free.items()})
        return front.ljust(self.first, b"\0") + b"".join(blocks[at] for at in sorted(blocks))

    def masked(self, content, trees):
        """These bytes with zeros in the rest of what are free blocks here, and, but where `trees`, in the buckets and chains."""
        content, width = bytearray(content), 8 if self.large else 4
        blanks = [(at + 5, at + length) for at, length in self.free.items()]
        if not trees:
            blanks += [(HEAD, HEAD + width * len(self.roots))] + [(at + 2, at + 2 + 2 * width) for at in self.records]
        for start, end in blanks:
            content[start:end] = bytes(len(content[start:end]))
        return bytes(content)

    def is_file(self, content, trees):
        return self.masked(content, trees) == self.masked(self.content(), trees)
