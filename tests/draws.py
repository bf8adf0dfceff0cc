"""Draws requests and text commands for a database of a kind from a seed: mostly such as succeed and meet what is held, some of another kind, odd or cut."""
import random

import model

KEYS = [b"", b"a", b"aa", b"ab", b"abc", b"b", b"\0", b"\xff", b"\xff\xff", b"12345678", b"123456789", b"12345678\0", b"1234567", b"12345678abcdefgh",
        b"12345678abcdefghi", b"12345678abcdefgh12345678", b"12345678abcdefgh12345679", b"12345678abcdefgh12345678\0", b"k" * 127, b"k" * 128]  # fmt: skip
DECIMAL_KEYS = [b"", b"1", b"01", b"2", b"10", b"9", b"-1", b"-10", b"x", b" 7", b"7", b"7\0", b"7\0b", b"7\0a", b"1.5", b"1.50", b"1.25", b"+3", b".5", b"-.5",
                b"9" * 19, b"2000000000000000000", b"10000000000000000000", b"1000000000000000000.5", b"0.0000000001", b"0.000000001", b"\0005", b" \x009"]  # fmt: skip
IDS = [b"1", b"2", b"3", b"4", b"5", b"9", b"10", b"12", b"007", b"7", b"00000000000000000005"]
WORDS = [b"min", b"max", b"prev", b"next"]
BAD_IDS = [b"", b"0", b"00", b"x", b"1x", b"-1", b" 1", b"minx", b"Max", b"000000000000000000005", b"18446744073709551616", b"18446744073709551617"]
ROW_KEYS = [b"p1", b"p2", b"p3", b"p4", b"p5", b"p6", b"p10", b"10", b"9", b"", b"-3", b"p", b"p\0q", b"a b,c"]
COLUMNS = [b"n", b"n", b"n", b"m", b"c", b"nn", b" "]
VALUES = [b"", b"2", b"02", b"10", b"-3", b"2.5", b"x", b"red", b"red, blue", b"blue sky", b"sky blue,", b"red 2"]
RARE = [b" 2", b"1e3", b"2\xff", b"redder", b",", b"3 2", b"2000000000000000000", b"10000000000000000000", b"1000000000000000000.5", b"9" * 19, b"0.0000000001", b"-0.5"]
NUMBERS = [0, 1, 2, 5, 200, 0x7FFFFFFF, 0x80000000, 0xFFFFFFFE, 0xFFFFFFFF]
LIMITS = [b"0", b"1", b"2", b"3", b"10", b"-1", b"-0", b"0000000002", b"9999999999", b"-9999999999"]
BAD_LIMITS = [b"", b"-", b"+1", b"x", b"1 ", b"--1", b"00000000001", b"1.0"]
OPERATORS = sorted(model.OPERATORS)
BAD_OPERATORS = [b"", b"7", b"18", b"19", b"99", b"x", b"-1", b"+0", b"67108864", b"00000000000", b"16777223", b"4294967296", b"9999999999"]
NAMES = sorted(model.UPDATING_NAMES | {b"get", b"getlist", b"range", b"search"})

# How often each request comes; misc by kind stands in `Draws`.
WEIGHTS = {
    model.PUT: 9, model.PUTKEEP: 6, model.PUTCAT: 6, model.PUTSHL: 5, model.PUTNR: 6, model.OUT: 6, model.GET: 8, model.MGET: 5, model.VSIZ: 5, model.ITERINIT: 2,
    model.ITERNEXT: 9, model.FWMKEYS: 6, model.ADDINT: 8, model.ADDDOUBLE: 1, model.EXT: 1, model.SYNC: 1, model.OPTIMIZE: 1, model.VANISH: 0.3, model.COPY: 0.2,
    model.RESTORE: 1, model.SETMST: 1, model.RNUM: 3, model.SIZE: 4, model.STAT: 3, model.REPL: 1,
}  # fmt: skip
MISC_WEIGHTS = {
    b"put": 5, b"putkeep": 3, b"putcat": 4, b"out": 4, b"get": 4, b"putlist": 4, b"outlist": 2, b"getlist": 4, b"putdup": 2, b"range": 2, b"vanish": 0.2,
    b"setindex": 1, b"search": 1,
}  # fmt: skip
LINES = {
    b"set": 9, b"add": 5, b"replace": 4, b"append": 5, b"get": 10, b"delete": 5, b"incr": 6, b"decr": 5, b"flush_all": 0.3, b"version": 1, b"gets": 1, b"quit": 0.1, b"": 0.5,
}  # fmt: skip
COUNTS = [b"0", b"1", b"5", b"007", b"18446744073709551615", b"18446744073709551614", b"9223372036854775808"]
BAD_COUNTS = [b"", b"x", b"-1", b"18446744073709551616", b"000000000000000000001", b"1 2"]
OF_TREES = {b"putdup": 12, b"range": 10, b"getlist": 8}
OF_TABLES = {b"put": 10, b"putlist": 1, b"getlist": 1, b"setindex": 6, b"search": 45}


class Draws:
    """Requests for a kind of database. Where `short`, no value has more than a few bytes."""

    def __init__(self, seed, kind, decimal=False, short=False):
        self.draw = random.Random(seed)
        self.kind, self.decimal, self.short = kind, decimal, short
        self.misc_weights = dict(MISC_WEIGHTS)
        if kind in ("tree", "memtree"):
            self.misc_weights.update(OF_TREES)
        if kind == "table":
            self.misc_weights.update(OF_TABLES)

    def odds(self, part):
        return self.draw.random() < part

    def one(self, *lists):
        return self.draw.choice(self.draw.choice(lists))

    def some(self, drawn, most):
        return [drawn() for _ in range(self.draw.randrange(most))]

    def weighed(self, weights):
        return self.draw.choices(list(weights), list(weights.values()))[0]

    # Texts.

    def key(self):
        if self.kind == "fixed":
            return self.weighed_list([(IDS, 10), (WORDS, 5), (BAD_IDS, 1)])
        if self.kind == "table":
            return self.draw.choice(ROW_KEYS)
        if self.decimal:
            return self.draw.choice(DECIMAL_KEYS)
        return self.draw.choice(KEYS if not self.short else KEYS[:13])

    def weighed_list(self, lists):
        return self.draw.choice(self.draw.choices([texts for texts, _ in lists], [weight for _, weight in lists])[0])

    def value(self):
        if self.kind == "table":
            return self.row_text()
        sizes = [0, 1, 3, 4, 4, 4, 5, 8, 9] if self.short else [0, 1, 3, 4, 4, 4, 5, 127, 128, 256, 300]
        return bytes(self.draw.choice(b"ab\0\xff") for _ in range(self.draw.choice(sizes)))

    def prefix(self):
        if self.kind == "fixed":
            return self.draw.choice([b"", b"1", b"2", b"0", b"10", b"m"])
        return self.key()[: self.draw.randrange(4)] if self.odds(0.7) else self.key()

    def column(self):
        return self.draw.choice(COLUMNS)

    def columns(self):
        return [text for name in dict.fromkeys(self.some(self.column, 5)) for text in (name, self.column_value())]

    def column_value(self):
        return self.weighed_list([(VALUES, 5), (RARE, 1)])

    def row_text(self):
        """The text of a row, here and there with a repeated or an empty name, or an odd part."""
        parts = self.columns()
        if self.odds(0.15) and parts:
            parts += [parts[0], self.column_value()]
        if self.odds(0.1):
            parts.append(self.column())
        if self.odds(0.05):
            parts[:0] = [b"", self.column_value()]
        return b"\0".join(parts)

    # Text commands.

    def line(self):
        """The bytes of one text command."""
        word, key = self.weighed(LINES), self.key() or b"k"
        end, quiet = self.draw.choice([b"\r\n", b"\r\n", b"\n"]), b" noreply" if self.odds(0.2) else b""
        if word in model.STORING:
            value = self.draw.choice(COUNTS) if self.odds(0.4) else self.value()
            return b"%s %s %d %d %d%s%s%s\r\n" % (word, key, self.draw.choice(NUMBERS), self.draw.choice([0, -1, 60]), len(value), quiet, end, value)
        if word == b"get":
            rest = [self.key() for _ in range(self.draw.randrange(5))]
        elif word in (b"incr", b"decr"):
            rest = [key, self.weighed_list([(COUNTS, 9), (BAD_COUNTS, 1)])]
        else:
            rest = [key] if word == b"delete" or self.odds(0.1) else []
        return b" ".join([word, *rest]) + (b"" if word == b"quit" else quiet) + end

    def piece(self):
        """The bytes of a request or of a text command."""
        return self.line() if self.odds(0.5) else self.request()

    # Requests.

    def request(self):
        """The bytes of one request."""
        if self.odds(0.6 if self.kind == "table" else 0.3):
            return model.spelled(model.MISC, *self.misc())
        command = self.weighed(WEIGHTS)
        return model.spelled(command, *(self.field(command, form) for form in model.FORMS[command]))

    def field(self, command, form):
        if form == "4":
            return self.draw.choice(NUMBERS)
        if form == "8":
            return self.draw.choice(NUMBERS) << 32 | self.draw.choice(NUMBERS)
        if form == "V":
            return self.value()
        if form == "k":
            return self.some(self.key, 6)
        return self.prefix() if command == model.FWMKEYS else self.key()

    def misc(self):
        """The name, options and arguments of a misc."""
        name = self.weighed(self.misc_weights)
        args = self.args(name)
        options = self.draw.choice(NUMBERS) if self.odds(0.15) else 0
        if self.odds(0.03):
            name = self.draw.choice(NAMES + [b"nosuch", b"", b"put\0", b"Put"])
        if self.odds(0.03):
            args = args[:-1]
        if self.odds(0.03):
            args = args + [self.key()]
        return name, options, args

    def args(self, name):
        if name in (b"put", b"putkeep", b"putcat"):
            return [self.key()] + (self.call_columns() if self.kind == "table" else [self.value()])
        if name == b"putlist":
            return [text for key in self.some(self.key, 5) for text in (key, self.value())]
        if name in (b"outlist", b"getlist"):
            return self.some(self.key, 3 if name == b"outlist" else 6)
        if name == b"putdup":
            return [self.key(), self.value()]
        if name == b"range":
            return [self.key(), self.limit()] + ([self.key()] if self.odds(0.5) else [])
        if name == b"vanish":
            return []
        if name == b"setindex":
            return self.index()
        if name == b"search":
            return self.conditions()
        return [self.key()]

    def call_columns(self):
        """A row's names and values as arguments, seldom such as no row has."""
        parts = self.columns()
        if self.odds(0.03):
            parts += [b"", b"1"]
        if self.odds(0.03):
            parts += [b"z", b"1\0"]
        if self.odds(0.03):
            parts += [b"z\0", b"1"]
        if self.odds(0.03) and parts:
            parts += [parts[0], b"1"]
        return parts

    def limit(self):
        return self.weighed_list([(LIMITS, 12), (BAD_LIMITS, 1)])

    def index(self):
        many = [b"c%d" % number for number in range(20)]
        column = self.weighed_list([(COLUMNS, 4), (many, 8), ([b"", b"n\0"], 1)])
        return [column, self.weighed_list([([b"0", b"1", b"2"], 9), ([b"9999"], 3), ([b"3", b"00", b"", b"09999", b"-1"], 1)])]

    # Search.

    def conditions(self):
        parts = [self.condition() for _ in range(self.draw.choice([0, 1, 1, 1, 1, 2]))]
        if self.odds(0.5):
            way = self.weighed_list([([b"0", b"1", b"2", b"3"], 20), ([b"4", b"00", b""], 1)])
            parts.append([b"setorder", self.searched_column(), way])
        if self.odds(0.5):
            parts.append([b"setlimit", self.limit()] + self.skip())
        if self.odds(0.05):
            parts.append([b"setlimit", self.limit()] + self.skip())
        if self.odds(0.45):
            parts.append([self.weighed_list([([b"get"], 6), ([b"count"], 4), ([b"out"], 1)])])
        if self.odds(0.04):
            parts.append(self.draw.choice([[b"get"], [b"count"], [b"nosuch"], [b""], [b"get", b""], [b"addcond", b"n", b"0"], [b"addcond", b"n", b"0", b"2", b""]]))
        self.draw.shuffle(parts)
        return [b"\0".join(part) for part in parts]

    def skip(self):
        return [self.weighed_list([([b"0", b"1", b"2", b"0000000001"], 15), ([b"-1", b"", b"x", b"00000000001"], 1)])] if self.odds(0.5) else []

    def searched_column(self):
        return b"" if self.odds(0.2) else self.column()

    def condition(self):
        operator = self.draw.choice(OPERATORS)
        flags = (2**24 if self.odds(0.2) else 0) + (2**25 if self.odds(0.15) else 0)
        text = self.draw.choice(BAD_OPERATORS) if self.odds(0.03) else b"%d" % (operator + flags)
        if self.odds(0.05):
            text = text.rjust(10, b"0")
        return [b"addcond", self.searched_column(), text, self.expression(operator)]

    def expression(self, operator):
        if operator in (4, 5, 6, 13, 14, 15, 16, 17) and self.odds(0.8):
            return b" ".join(self.draw.choice([b"2", b"3", b"-3", b"10", b"red", b"blue", b"sky", b"p1", b"x"]) for _ in range(self.draw.randrange(1, 4)))
        text = self.column_value() if self.odds(0.8) else self.draw.choice(ROW_KEYS).replace(b"\0", b"")
        if operator in (1, 2, 3):
            start = self.draw.randrange(len(text) + 1)
            text = text[start : start + self.draw.choice([1, 2, 3, 9])]
        return text


def at_limits(kind):
    """Requests at the limits of keys, values, arguments and replies, the last of them past a limit of the wire."""
    long_key, longer_key = b"k" * model.MOST_KEY, b"k" * (model.MOST_KEY + 1)
    value = b"v" * (model.MOST_VALUE if kind != "table" else model.MOST_KEY)
    text = value if kind != "table" else b"n\0" + value
    key, args = b"5", [b"5", value] if kind != "table" else [b"5", b"n", value]

    def misc(name, *args):
        return model.spelled(model.MISC, name, 0, list(args))

    requests = [
        model.spelled(model.PUT, key, text),
        model.spelled(model.PUTCAT, key, b"x"),
        model.spelled(model.PUTSHL, key, b"x", 0xFFFFFFFF),
        model.spelled(model.PUTSHL, key, b"x", model.MOST_VALUE),
        misc(b"putcat", key, b"x"),
        model.spelled(model.VSIZ, key),
        model.spelled(model.MGET, [key] * 3),
        model.spelled(model.MGET, [key] * 4),
        misc(b"getlist", *[key] * 4),
        model.spelled(model.SIZE),
        misc(b"put", *args),
        misc(b"putlist", b"6", b"2", key, value),
        misc(b"putdup", key, value),
        misc(b"outlist", key),
        model.spelled(model.PUT, long_key, b"n\x002"),
        misc(b"putkeep", long_key[1:], *args[1:]),
        model.spelled(model.FWMKEYS, b"k", 0xFFFFFFFF),
        model.spelled(model.ITERINIT),
        model.spelled(model.ITERNEXT),
        model.spelled(model.RNUM),
    ]
    if kind == "table":
        columns = [text for name in b"abcdefghijklmno" for text in (bytes([name]), value)]
        last = b"v" * (model.MOST_VALUE - 15 * model.MOST_KEY - 16 - 31)
        requests.append(misc(b"put", key, *columns, b"p", last + b"v"))
        requests.append(misc(b"put", key, *columns, b"p", last))
        requests.append(model.spelled(model.PUTCAT, key, b"p\0x"))
        requests.append(model.spelled(model.PUTCAT, key, b"q\0"))
        requests.append(model.spelled(model.VSIZ, key))
    for name in NAMES:
        requests.append(misc(name, longer_key))
        requests.append(misc(name, longer_key, b"1"))
        requests.append(misc(name, b"a", b"1", longer_key))
    requests.append(model.spelled(model.RNUM))
    requests.append(model.spelled(model.GET, longer_key))
    return requests
