"""Fixed-length files by docs/FORMATS.md, as plainly as they can be said: `made` makes one of values by id, `read` gives the values of one and checks each rule of its layout."""
import struct

HEAD = 256


class Broken(Exception):
    """The name of the first rule that fails."""


def check(holds, rule):
    if not holds:
        raise Broken(rule)


def size_field(width):
    """The bytes of a cell's size."""
    return 1 if width <= 255 else 2 if width <= 65535 else 4


def greatest_allowed(width, limit):
    return (limit - HEAD) // (size_field(width) + width)


def head(width, limit, records, least, greatest):
    """The 256 bytes at the front."""
    front = b"ToKyO CaBiNeT".ljust(32, b"\0") + b"\2" + bytes(15)
    size = HEAD + (size_field(width) + width) * greatest
    return (front + struct.pack("<QQIxxxxQQQ", records, size, width, limit, least, greatest)).ljust(HEAD, b"\0")


def cell(width, value):
    """The cell of a value, or of none."""
    mark = b"\1" if value == b"" else b""
    return len(value or b"").to_bytes(size_field(width), "little") + ((value or b"") + mark).ljust(width, b"\0")


def made(values, width=255, limit=268435456):
    least, greatest = min(values, default=0), max(values, default=0)
    cells = b"".join(cell(width, values.get(number)) for number in range(1, greatest + 1))
    return head(width, limit, len(values), least, greatest) + cells


def read(content):
    """The values by id of a file that is settled: no bytes behind its size, and zeros behind each value."""
    check(len(content) >= HEAD and content.startswith(b"ToKyO CaBiNeT") and content[32] == 2 and content[36] == 0, "F1")
    records, size, width, limit, least, greatest = struct.unpack_from("<QQIxxxxQQQ", content, 48)
    field = size_field(width)
    check(1 <= width <= 2**20 and 512 <= limit <= 2**40, "F1")
    check(least <= greatest <= greatest_allowed(width, limit) and (least > 0 or greatest == 0) and size == HEAD + (field + width) * greatest, "F1")
    check(len(content) == size, "length")
    values = {}
    for number in range(1, greatest + 1):
        at = HEAD + (number - 1) * (field + width)
        length = int.from_bytes(content[at : at + field], "little")
        room = content[at + field : at + field + width]
        check(length <= width and (length > 0 or room[0] in (0, 1)), "F3")
        if length > 0 or room[0] == 1:
            values[number] = room[:length]
        check(room[max(length, 1) :] == bytes(width - max(length, 1)), "zeros behind a value")
    check(len(values) == records, "F4")
    check(least == min(values, default=0) and greatest == max(values, default=0), "F5")
    return values
