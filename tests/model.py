"""The databases of docs/PROTOCOL.md as plainly as they can be said: dictionaries and lists, requests as bytes in, replies as bytes out.

A `Model` holds one database and the one walk of its server. `read` finds the whole request at a place of some bytes, `spelled` spells one."""
import re
import struct

MOST_KEY = 1_048_576
MOST_VALUE = 16_777_216
MOST_REQUEST = 33_554_432
MOST_REPLY = 67_108_864
MOST_INDEXES = 16

PUT, PUTKEEP, PUTCAT, PUTSHL, PUTNR, OUT = 0x10, 0x11, 0x12, 0x13, 0x18, 0x20
GET, MGET, VSIZ, ITERINIT, ITERNEXT, FWMKEYS = 0x30, 0x31, 0x38, 0x50, 0x51, 0x58
ADDINT, ADDDOUBLE, EXT, SYNC, OPTIMIZE, VANISH = 0x60, 0x61, 0x68, 0x70, 0x71, 0x72
COPY, RESTORE, SETMST, RNUM, SIZE, STAT, MISC, REPL = 0x73, 0x74, 0x78, 0x80, 0x81, 0x88, 0x90, 0xA0

# The fields of a request in the order of its numbers and sizes. K: a text of at most MOST_KEY bytes, V: of at most MOST_VALUE, 4 and 8: a number of so many bytes;
# last k or v: a count, and so many texts.
FORMS = {
    PUT: "KV", PUTKEEP: "KV", PUTCAT: "KV", PUTSHL: "KV4", PUTNR: "KV", OUT: "K", GET: "K", MGET: "k", VSIZ: "K", ITERINIT: "", ITERNEXT: "",
    FWMKEYS: "K4", ADDINT: "K4", ADDDOUBLE: "K88", EXT: "K4KV", SYNC: "", OPTIMIZE: "K", VANISH: "", COPY: "K", RESTORE: "K84", SETMST: "K484",
    RNUM: "", SIZE: "", STAT: "", MISC: "K4v", REPL: "84",
}  # fmt: skip
MOST = {"K": MOST_KEY, "k": MOST_KEY, "V": MOST_VALUE, "v": MOST_VALUE}
UPDATES = {PUT, PUTKEEP, PUTCAT, PUTSHL, PUTNR, OUT, ADDINT, VANISH}
UPDATING_NAMES = {b"put", b"putkeep", b"putcat", b"out", b"putlist", b"outlist", b"putdup", b"vanish", b"setindex"}


class Failed(Exception):
    """The request is answered with failure."""


class NotWhole(Exception):
    """No whole request stands there: a part of one, or bad bytes."""


def check(holds):
    if not holds:
        raise Failed


def words(*numbers):
    return b"".join(struct.pack(">I", number) for number in numbers)


# Requests as bytes.


def spelled(command, *fields):
    """The bytes of a request with these fields, in the order of FORMS."""
    heads, texts = bytes([0xC8, command]), b""
    for form, field in zip(FORMS[command], fields, strict=True):
        if form == "4":
            heads += words(field)
        elif form == "8":
            heads += struct.pack(">Q", field)
        elif form in "KV":
            heads += words(len(field))
            texts += field
        else:
            heads += words(len(field))
            texts += b"".join(words(len(text)) + text for text in field)
    return heads + texts


class Reader:
    """Bytes, and the place that was read up to."""

    def __init__(self, stream, at):
        self.stream, self.start, self.at = stream, at, at

    def bytes(self, count):
        text = self.stream[self.at : self.at + count]
        self.at += count
        if len(text) < count or self.at - self.start > MOST_REQUEST:
            raise NotWhole
        return text

    def number(self, width=4):
        return int.from_bytes(self.bytes(width), "big")

    def size(self, most):
        size = self.number()
        if size > most:
            raise NotWhole
        return size


def read(stream, at):
    """The request at a place: its command, its fields, and the place behind it. Raises NotWhole."""
    reader = Reader(stream, at)
    if reader.number(1) != 0xC8:
        raise NotWhole
    command = reader.number(1)
    if command not in FORMS:
        raise NotWhole
    heads = []
    for form in FORMS[command]:
        heads.append(reader.number(int(form)) if form in "48" else reader.number() if form in "kv" else reader.size(MOST[form]))
    fields = []
    for form, head in zip(FORMS[command], heads):
        if form in "48":
            fields.append(head)
        elif form in "KV":
            fields.append(reader.bytes(head))
        else:
            fields.append([reader.bytes(reader.size(MOST[form])) for _ in range(head)])
    return command, fields, reader.at


# Text commands.

MOST_LINE = 2048
STORING = {b"set": PUT, b"add": PUTKEEP, b"replace": PUT, b"append": PUTCAT}
STORING_LINE = re.compile(rb" *(?:set|add|replace|append) +[^ ]{1,250} +[0-9]{1,10} +-?[0-9]{1,10} +([0-9]{1,8})(?: +noreply)? *", re.DOTALL)


def read_line(stream, at):
    """The text command at a place: its words, its value, and the place behind it. Raises NotWhole."""
    end = stream.find(b"\n", at, at + MOST_LINE)
    if end < 0:
        raise NotWhole
    line = stream[at:end].removesuffix(b"\r")
    said = [word for word in line.split(b" ") if word]
    if said == [b"quit"]:
        raise NotWhole
    if not said or said[0] not in STORING:
        return said, b"", end + 1
    stored = STORING_LINE.fullmatch(line)
    if not stored or int(stored[1]) > MOST_VALUE:
        raise NotWhole
    behind = end + 1 + int(stored[1])
    if stream[behind : behind + 2] != b"\r\n":
        raise NotWhole
    return said, stream[end + 1 : behind], behind + 2


def counted(text):
    """The number below 2^64 of 1 to 20 digits, or none."""
    return int(text) if re.fullmatch(rb"[0-9]{1,20}", text) and int(text) < 2**64 else None


# Texts.


def number_of(text):
    """The number of a text, in units of 10^-9."""
    sign, whole, decimals = re.match(rb"[\x00-\x20]*([+-]?)([0-9]*)(?:\.([0-9]*))?", text).groups()
    units = min(int(whole.lstrip(b"0")[:19] or b"0"), 10**18 - 1) * 10**9 + int(((decimals or b"") + b"0" * 9)[:9])
    return -units if sign == b"-" else units


def tokens(text):
    return [token for token in re.split(b"[ ,]", text) if token]


def by_bytes(key):
    return key


def decimal(key):
    return (number_of(key.split(b"\0")[0]), key)


def is_number(text, digits):
    return re.fullmatch(rb"[0-9]{1,%d}" % digits, text) is not None


def natural(text):
    check(is_number(text, 10))
    return int(text)


def limit(text):
    """A maximum: a number, or None for no limit."""
    check(re.fullmatch(rb"-?[0-9]{1,10}", text))
    return None if int(text) < 0 else int(text)


# Databases. `held` is the data; keys are those of replies. A request that fails may leave `held` changed: `Model` puts it back.


class Values:
    """What databases of keys and values share. `get` and `put` speak of a key's first value."""

    order = staticmethod(by_bytes)
    indexes = {}

    def get(self, key):
        return self.held.get(key)

    def put(self, key, value):
        check(len(value) <= MOST_VALUE)
        self.held[key] = value

    def putkeep(self, key, value):
        check(self.get(key) is None)
        self.put(key, value)

    def putcat(self, key, value):
        self.put(key, (self.get(key) or b"") + value)

    def putshl(self, key, value, width):
        joined = (self.get(key) or b"") + value
        self.put(key, joined[max(len(joined) - width, 0) :])

    def addint(self, key, number):
        value = self.get(key)
        value = bytes(4) if value is None else value
        check(len(value) == 4)
        total = (int.from_bytes(value, "little") + number) % 2**32
        self.put(key, total.to_bytes(4, "little"))
        return total

    def out(self, key):
        check(self.held.pop(key, None) is not None)

    def shown(self, key):
        return key

    def pairs_of(self, key):
        return [] if self.get(key) is None else [(self.shown(key), self.get(key))]

    def keys(self):
        return sorted(self.held, key=self.order)

    def vanish(self):
        self.held = type(self.held)()

    def count(self):
        return len(self.held)

    def size(self):
        return sum(len(key) + len(value) for key, value in self.held.items())

    # misc

    def misc_put(self, mode, key, value):
        {b"put": self.put, b"putkeep": self.putkeep, b"putcat": self.putcat}[mode](key, value)

    def misc_get(self, key):
        check(self.get(key) is not None)
        return [self.get(key)]

    def putlist(self, pairs):
        for key, value in pairs:
            self.put(key, value)

    def outlist(self, keys):
        for key in keys:
            if self.get(key) is not None:
                self.out(key)

    def getlist(self, keys):
        return [text for key in keys for pair in self.pairs_of(key) for text in pair]

    def putdup(self, key, value):
        raise Failed

    def range(self, first, most, end):
        raise Failed

    def setindex(self, column, code):
        raise Failed

    def search(self, args):
        raise Failed


class Hash(Values):
    def __init__(self, memory):
        self.held = {}
        self.type = b"on-memory hash" if memory else b"hash"


class Tree(Values):
    """Pairs in order, those of a key in the order in which they came."""

    def __init__(self, memory, order):
        self.held = []
        self.order = order
        self.type = b"on-memory tree" if memory else b"B+ tree"

    def get(self, key):
        return next((value for there, value in self.held if there == key), None)

    def put(self, key, value):
        check(len(value) <= MOST_VALUE)
        for place, (there, _) in enumerate(self.held):
            if there == key:
                self.held[place] = (key, value)
                return
        self.putdup(key, value)

    def putdup(self, key, value):
        check(len(value) <= MOST_VALUE)
        self.held = sorted(self.held + [(key, value)], key=lambda pair: self.order(pair[0]))

    def out(self, key):
        check(self.get(key) is not None)
        self.held.remove((key, self.get(key)))

    def pairs_of(self, key):
        return [pair for pair in self.held if pair[0] == key]

    def keys(self):
        return list(dict.fromkeys(key for key, _ in self.held))

    def size(self):
        return sum(len(key) + len(value) for key, value in self.held)

    def putlist(self, pairs):
        for key, value in pairs:
            self.putdup(key, value)

    def outlist(self, keys):
        self.held = [pair for pair in self.held if pair[0] not in keys]

    def range(self, first, most, end):
        def within(key):
            return self.order(first) <= self.order(key) and (end is None or self.order(key) < self.order(end))

        return [text for pair in [pair for pair in self.held if within(pair[0])][:most] for text in pair]


class Fixed(Values):
    type = b"fixed-length"

    def __init__(self, width, greatest):
        self.held = {}
        self.width, self.greatest = width, greatest

    def id_of(self, key):
        """The id of a key, or None where it is bad."""
        least, most = min(self.held, default=0), max(self.held, default=0)
        number = {b"min": least, b"max": most, b"prev": least - 1, b"next": most + 1}.get(key)
        if number is None and is_number(key, 20):
            number = int(key)
        return number if number is not None and 1 <= number <= self.greatest else None

    def get(self, key):
        return self.held.get(self.id_of(key))

    def put(self, key, value):
        number = self.id_of(key)
        check(number is not None)
        self.held[number] = value[: self.width]

    def addint(self, key, number):
        check(self.width >= 4)
        return super().addint(key, number)

    def out(self, key):
        check(self.get(key) is not None)
        del self.held[self.id_of(key)]

    def shown(self, key):
        return b"%d" % self.id_of(key)

    def keys(self):
        return [b"%d" % number for number in sorted(self.held)]

    def size(self):
        return sum(len(b"%d" % number) + len(value) for number, value in self.held.items())


def column_fits(name, value):
    return len(name) > 0 and b"\0" not in name + value and len(name) <= MOST_KEY and len(value) <= MOST_KEY


class Table(Values):
    """Rows, each a dictionary of its columns in their order, and the types of the indexed columns."""

    type = b"table"

    def __init__(self):
        self.held, self.indexes = {}, {}

    def row_of_text(self, text):
        parts, row = text.split(b"\0"), {}
        for name, value in zip(parts[::2], parts[1::2]):
            check(column_fits(name, value))
            row[name] = value
        return row

    def row_of_texts(self, texts):
        row = dict(zip(texts[::2], texts[1::2]))
        check(len(texts) == 2 * len(row) and all(column_fits(*column) for column in row.items()))
        return row

    def text_of(self, row):
        return b"\0".join(part for column in row.items() for part in column)

    def set(self, mode, key, row):
        check(mode != b"putkeep" or key not in self.held)
        if mode == b"putcat":
            there = self.held.get(key, {})
            row = {**there, **{name: value for name, value in row.items() if name not in there}}
        check(len(self.text_of(row)) <= MOST_VALUE)
        self.held[key] = row

    def get(self, key):
        return self.text_of(self.held[key]) if key in self.held else None

    def put(self, key, text):
        self.set(b"put", key, self.row_of_text(text))

    def putkeep(self, key, text):
        self.set(b"putkeep", key, self.row_of_text(text))

    def putcat(self, key, text):
        self.set(b"putcat", key, self.row_of_text(text))

    def putshl(self, key, value, width):
        raise Failed

    def addint(self, key, number):
        raise Failed

    def size(self):
        return sum(len(key) + sum(len(name) + len(value) for name, value in row.items()) for key, row in self.held.items())

    def misc_put(self, mode, key, *texts):
        self.set(mode, key, self.row_of_texts(texts))

    def misc_get(self, key):
        check(key in self.held)
        return [part for column in self.held[key].items() for part in column]

    def setindex(self, column, code):
        check(0 < len(column) <= MOST_KEY and b"\0" not in column and code in (b"0", b"1", b"2", b"9999"))
        check(column in self.indexes or code != b"9999" and len(self.indexes) < MOST_INDEXES)
        if code == b"9999":
            del self.indexes[column]
        else:
            self.indexes[column] = code

    def search(self, args):
        query = Query(args)
        found = query.found(self.held)
        if query.deed == b"count":
            return [b"%d" % len(found)]
        if query.deed == b"get":
            return [text for key in found for text in (key, self.get(key))]
        if query.deed == b"out":
            for key in found:
                del self.held[key]
            return []
        return found


# Search.

NEGATED, UNINDEXED = 2**24, 2**25


def between(value, expression):
    least, most = sorted(number_of(token) for token in tokens(expression)[:2])
    return least <= value <= most


def follow(value, expression):
    wanted, there = tokens(expression), tokens(value)
    return any(there[at : at + len(wanted)] == wanted for at in range(len(there) + 1))


OPERATORS = {
    0: lambda v, e: v == e,
    1: lambda v, e: e in v,
    2: lambda v, e: v.startswith(e),
    3: lambda v, e: v.endswith(e),
    4: lambda v, e: set(tokens(e)) <= set(tokens(v)),
    5: lambda v, e: bool(set(tokens(e)) & set(tokens(v))),
    6: lambda v, e: v in tokens(e),
    8: lambda v, e: number_of(v) == number_of(e),
    9: lambda v, e: number_of(v) > number_of(e),
    10: lambda v, e: number_of(v) >= number_of(e),
    11: lambda v, e: number_of(v) < number_of(e),
    12: lambda v, e: number_of(v) <= number_of(e),
    13: lambda v, e: between(number_of(v), e),
    14: lambda v, e: number_of(v) in [number_of(token) for token in tokens(e)],
    15: lambda v, e: follow(v, e),
    16: lambda v, e: all(token in tokens(v) for token in tokens(e)),
    17: lambda v, e: any(token in tokens(v) for token in tokens(e)),
}


def column_of(key, row, name):
    return key if name == b"" else row.get(name)


class Query:
    def __init__(self, args):
        self.conditions, self.sort, self.most, self.skip, self.deed = [], None, None, 0, None
        for arg in args:
            self.read(*arg.split(b"\0"))

    def read(self, word, *parts):
        if word == b"addcond" and len(parts) == 3:
            self.add(parts[0], natural(parts[1]), parts[2])
        elif word == b"setorder" and len(parts) == 2 and parts[1] in (b"0", b"1", b"2", b"3"):
            self.sort = parts
        elif word == b"setlimit" and len(parts) in (1, 2):
            self.most = limit(parts[0])
            self.skip = natural(parts[1]) if len(parts) == 2 else 0
        else:
            check(word in (b"get", b"out", b"count") and not parts and self.deed is None)
            self.deed = word

    def add(self, column, operator, expression):
        negated = operator & NEGATED != 0
        operator &= ~(NEGATED | UNINDEXED)
        check(operator in OPERATORS and (operator != 13 or len(tokens(expression)) >= 2))
        self.conditions.append((column, operator, negated, expression))

    def holds(self, key, row):
        for column, operator, negated, expression in self.conditions:
            value = column_of(key, row, column)
            if (value is not None and OPERATORS[operator](value, expression)) == negated:
                return False
        return True

    def found(self, rows):
        keys = sorted(key for key, row in rows.items() if self.holds(key, row))
        if self.sort:
            column, way = self.sort
            bytes_of = {key: column_of(key, rows[key], column) or b"" for key in keys}
            keys.sort(key=bytes_of.get)
            if way == b"1":
                keys.sort(key=bytes_of.get, reverse=True)
            elif way in (b"2", b"3"):
                keys.sort(key=lambda key: number_of(bytes_of[key]) * (1 if way == b"2" else -1))
        keys = keys[self.skip :]
        return keys if self.most is None else keys[: self.most]


# The server of one database.


def database(kind, decimal_order=False, width=255, greatest=1_048_575):
    """An empty database: kind is hash, memhash, tree, memtree, fixed or table."""
    return {
        "hash": lambda: Hash(False),
        "memhash": lambda: Hash(True),
        "tree": lambda: Tree(False, decimal if decimal_order else by_bytes),
        "memtree": lambda: Tree(True, decimal if decimal_order else by_bytes),
        "fixed": lambda: Fixed(width, greatest),
        "table": Table,
    }[kind]()


def listed(texts):
    return words(len(texts)) + b"".join(words(len(text)) + text for text in texts)


def sized(text):
    return words(len(text)) + text


def updates(command, fields):
    """Whether a request changes contents, by its bytes alone."""
    if command != MISC:
        return command in UPDATES
    name, _, args = fields
    return name in UPDATING_NAMES or name == b"search" and b"out" in args


def may_copy(base, label):
    """A database in files is copied under a label."""
    return not base.type.startswith(b"on-memory") and re.fullmatch(rb"[a-z0-9_]{1,64}", label) is not None


class Model:
    """A database, and the walk. Each call of `answer` is one request."""

    def __init__(self, base):
        self.base, self.walk = base, None
        self.ok = self.updated = False

    def answer(self, command, fields):
        """The reply's bytes; whether it succeeded and whether it changed contents stand in `ok` and `updated`."""
        held, indexes = self.base.held.copy(), self.base.indexes.copy()
        try:
            reply = b"\0" + (self.misc(*fields) if command == MISC else self.told(command, fields))
            check(len(reply) <= MOST_REPLY)
            self.ok = True
        except Failed:
            self.base.held, self.base.indexes = held, indexes
            reply = b"\1" + (words(0) if command == MISC else b"")
            self.ok = False
        self.updated = self.ok and updates(command, fields)
        return b"" if command == PUTNR else reply

    def replies(self, stream):
        """What a connection with this input is sent, up to its first bytes that are no whole request and no whole text command."""
        at, replies = 0, b""
        try:
            while at < len(stream):
                if stream[at] == 0xC8:
                    command, fields, at = read(stream, at)
                    replies += self.answer(command, fields)
                else:
                    said, value, at = read_line(stream, at)
                    replies += self.say(said, value)
        except NotWhole:
            pass
        return replies

    def say(self, said, value):
        """The reply to a text command."""
        word, rest = (said[0], said[1:]) if said else (b"", [])
        quiet = rest[-1:] == [b"noreply"] and len(rest) == {b"set": 5, b"add": 5, b"replace": 5, b"append": 5, b"delete": 2, b"incr": 3, b"decr": 3, b"flush_all": 1}.get(word)
        rest = rest[:-1] if quiet else rest
        is_key = bool(rest) and len(rest[0]) <= 250
        if word == b"get" and rest and all(len(key) <= 250 for key in rest):
            return self.say_all(rest)
        if word in STORING:
            line = self.say_stored(word, rest[0], value)
        elif word == b"delete" and is_key and len(rest) == 1:
            line = b"NOT_FOUND" if self.found(rest[0]) is None else self.done(b"DELETED", OUT, rest[0])
        elif word in (b"incr", b"decr") and is_key and len(rest) == 2 and counted(rest[1]) is not None:
            line = self.say_counted(rest[0], counted(rest[1]) * (1 if word == b"incr" else -1))
        elif word == b"flush_all" and not rest:
            line = self.done(b"OK", VANISH)
        else:
            return b"VERSION 1.1\r\n" if said == [b"version"] else b"ERROR\r\n"
        return b"" if quiet else line + b"\r\n"

    def found(self, key):
        reply = self.answer(GET, [key])
        return reply[5:] if self.ok else None

    def done(self, line, command, *fields):
        self.answer(command, list(fields))
        return line if self.ok else b"SERVER_ERROR"

    def say_all(self, keys):
        lines = b""
        for key in keys:
            value = self.found(key)
            if value is not None:
                lines += b"VALUE %s 0 %d\r\n%s\r\n" % (key, len(value), value)
        lines += b"END\r\n"
        return lines if len(lines) <= MOST_REPLY else b"SERVER_ERROR\r\n"

    def say_stored(self, word, key, value):
        held = self.found(key) is not None
        if held if word == b"add" else not held and word in (b"replace", b"append"):
            return b"NOT_STORED"
        return self.done(b"STORED", STORING[word], key, value)

    def say_counted(self, key, by):
        held = self.found(key)
        if held is None:
            return b"NOT_FOUND"
        if counted(held) is None:
            return b"CLIENT_ERROR cannot increment or decrement non-numeric value"
        number = b"%d" % ((counted(held) + by) % 2**64 if by > 0 else max(counted(held) + by, 0))
        return self.done(number, PUT, key, number)

    def told(self, command, fields):
        """What stands behind the reply's first byte."""
        base = self.base
        if command in (PUT, PUTNR):
            base.put(*fields)
        elif command == PUTKEEP:
            base.putkeep(*fields)
        elif command == PUTCAT:
            base.putcat(*fields)
        elif command == PUTSHL:
            base.putshl(*fields)
        elif command == OUT:
            base.out(*fields)
        elif command == VANISH:
            base.vanish()
        elif command == ADDINT:
            return words(base.addint(*fields))
        elif command in (GET, VSIZ):
            value = base.get(*fields)
            check(value is not None)
            return sized(value) if command == GET else words(len(value))
        elif command == MGET:
            pairs = [(base.shown(key), base.get(key)) for key in fields[0] if base.get(key) is not None]
            return words(len(pairs)) + b"".join(words(len(k), len(v)) + k + v for k, v in pairs)
        elif command == ITERINIT:
            self.walk = base.keys()
        elif command == ITERNEXT:
            return sized(self.next())
        elif command == FWMKEYS:
            prefix, most = fields
            keys = [key for key in base.keys() if key.startswith(prefix)]
            return listed(keys if most >= 2**31 else keys[:most])
        elif command == RNUM:
            return struct.pack(">Q", base.count())
        elif command == SIZE:
            return struct.pack(">Q", base.size())
        elif command == STAT:
            return sized(b"type\t%s\nrnum\t%d\nsize\t%d\n" % (base.type, base.count(), base.size()))
        else:
            check(command in (SYNC, OPTIMIZE) or command == COPY and may_copy(self.base, *fields))
        return b""

    def next(self):
        for place, key in enumerate(self.walk or []):
            if self.base.get(key) is not None:
                self.walk = self.walk[place + 1 :]
                return key
        raise Failed

    def misc(self, name, options, args):
        check(options % 2 == 0 or not updates(MISC, [name, options, args]))
        base, count, is_table = self.base, len(args), isinstance(self.base, Table)
        if name in (b"put", b"putkeep", b"putcat"):
            check(count % 2 == 1 if is_table else count == 2)
            return listed(self.of_keys(args[:1], base.misc_put, name, *args))
        if name in (b"out", b"get"):
            check(count == 1)
            return listed(self.of_keys(args, base.out if name == b"out" else base.misc_get, *args))
        if name == b"putlist":
            check(count % 2 == 0 and not is_table)
            return listed(self.of_keys(args[::2], base.putlist, list(zip(args[::2], args[1::2]))))
        if name == b"outlist":
            return listed(self.of_keys(args, base.outlist, args))
        if name == b"getlist":
            check(not is_table)
            return listed(self.of_keys(args, base.getlist, args))
        if name == b"putdup":
            check(count == 2)
            return listed(self.of_keys(args[:1], base.putdup, *args))
        if name == b"range":
            check(count in (2, 3) and isinstance(base, Tree))
            end = args[2] if count == 3 else None
            return listed(self.of_keys(args[::2], base.range, args[0], limit(args[1]), end))
        if name == b"vanish":
            check(count == 0)
            return listed(self.of_keys([], base.vanish))
        if name == b"setindex":
            check(count == 2)
            return listed(self.of_keys([], base.setindex, *args))
        check(name == b"search")
        return listed(base.search(args))

    def of_keys(self, keys, deed, *args):
        """What a deed answers, where its keys aren't too long."""
        check(all(len(key) <= MOST_KEY for key in keys))
        return deed(*args) or []
