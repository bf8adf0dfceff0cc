#!/usr/bin/env python3
"""A client of tokyo's server, for Python programs and for the shell, in one file on Python's standard library alone.

This file is outside the proved core: it was written from docs/PROTOCOL.md, and tests (tests/client) are all that speaks for it.

    import tokyo

    with tokyo.Tokyo("127.0.0.1", 1978) as db:
        db.put("one", b"first")
        db.get("one")                     # b"first"
        db.get("two", None)               # None; without a default it raises Refused
        many = db.pipeline()              # sent together, answered together
        for number in range(10_000):
            many.put(str(number), "x")
        answers = many.run()
        for key in db.keys():             # a walk over all keys
            ...

A text (key, value, prefix, path, argument) is given as bytes or as a str, which is taken as UTF-8, and comes back as bytes.

What may be raised: `Refused` where the server answered with failure, which changed nothing; `Broken` where the connection failed or was
closed, and its kind `TimedOut` where nothing moved for the timeout. Behind these two the connection is closed, and of a request that was
under way it isn't known whether it was carried out. `ValueError` and `TypeError` come before anything is sent.

A connection belongs to one thread at a time. The server serves 64 connections at once, and closes one more as it opens."""
import collections
import collections.abc
import itertools
import os
import selectors
import socket
import sys
import time

MOST_KEY = 1_048_576
MOST_VALUE = 16_777_216
MOST_REQUEST = 33_554_432

LEXICAL, DECIMAL, TOKEN, REMOVE = "0", "1", "2", "9999"  # types of an index: by bytes, by number, of tokens, none any more
PIECE = 1 << 18


class TokyoError(Exception):
    """All that the calls of this module raise of their own."""


class Refused(TokyoError):
    """The server answered this request with failure. It changed nothing, and the connection goes on."""

    def __init__(self, name):
        super().__init__(f"{name} was refused")
        self.name = name


class Broken(TokyoError):
    """The connection failed, or the server closed it."""


class TimedOut(Broken):
    """Nothing was sent and nothing came for the whole timeout."""


# ---- requests as bytes


def text(given, most=MOST_VALUE):
    """The bytes of a text: bytes as they are, a str as UTF-8. Raises TypeError, and ValueError where it is longer than the protocol allows."""
    if isinstance(given, str):
        given = given.encode()
    elif not isinstance(given, (bytes, bytearray, memoryview)):
        raise TypeError(f"a text is bytes or a str, and not {type(given).__name__}")
    given = bytes(given)
    if len(given) > most:
        raise ValueError(f"a text of {len(given)} bytes, where {most} are the most")
    return given


def number(given, width, name):
    """The bytes of a number, the greatest first; one below zero as its two's complement."""
    if isinstance(given, bool) or not isinstance(given, int):
        raise TypeError(f"{name} is an int, and not {type(given).__name__}")
    if not -(1 << (8 * width - 1)) <= given < 1 << (8 * width):
        raise ValueError(f"{name} is {given}, which {width} bytes don't hold")
    return (given % (1 << (8 * width))).to_bytes(width, "big")


def size(given):
    return len(given).to_bytes(4, "big")


class Request:
    """A request: its name, its bytes, and the reading of what stands behind the `00` of its reply (None where there is no reply)."""

    def __init__(self, name, command, heads, texts, reading):
        self.name, self.reading = name, reading
        self.bytes = bytes([0xC8, command]) + heads + texts
        self.default = RAISE
        if len(self.bytes) > MOST_REQUEST:
            raise ValueError(f"a request of {len(self.bytes)} bytes, where {MOST_REQUEST} are the most")

    def reply(self):
        """Reads the reply: yields how many bytes it wants next, is sent them, and returns the answer, which may be a Refused."""
        first = yield 1
        if first == b"\1":
            if self.name.startswith("misc"):
                yield 4
            return Refused(self.name) if self.default is RAISE else self.default
        if first != b"\0":
            raise Broken(f"a reply to {self.name} begins with the byte {first.hex()}")
        return (yield from self.reading())


RAISE = object()


def nothing():
    return None
    yield


def natural(width):
    def reading():
        return int.from_bytes((yield width), "big")

    return reading


def sized():
    return (yield int.from_bytes((yield 4), "big"))


def texts():
    found = []
    for _ in range(int.from_bytes((yield 4), "big")):
        found.append((yield from sized()))
    return found


def pairs():
    found = []
    for _ in range(int.from_bytes((yield 4), "big")):
        sizes = yield 8
        key = yield int.from_bytes(sizes[:4], "big")
        found.append((key, (yield int.from_bytes(sizes[4:], "big"))))
    return found


def made(reading, make):
    """A reading, and what is made of its answer."""

    def both():
        return make((yield from reading()))

    return both


def in_pairs(found):
    return list(zip(found[::2], found[1::2]))


def row_of(found):
    """The columns of a row's text, or of its parts, as a dict."""
    parts = found.split(b"\0") if isinstance(found, bytes) else found
    return dict(in_pairs(parts)) if parts != [b""] else {}


class Requests:
    """All requests of the protocol, each as a call. Of a `Tokyo` a call asks at once and answers; of a `Pipeline` it is kept for later."""

    def _ask(self, request):
        raise NotImplementedError

    def _of_pair(self, name, command, key, value, *, width=b"", reading=nothing):
        key, value = text(key, MOST_KEY), text(value)
        return self._ask(Request(name, command, size(key) + size(value) + width, key + value, reading))

    def _of_text(self, name, command, given, *, numbers=b"", reading=nothing, default=RAISE):
        given = text(given, MOST_KEY)
        request = Request(name, command, size(given) + numbers, given, reading)
        request.default = default
        return self._ask(request)

    def _plain(self, name, command, reading=nothing):
        return self._ask(Request(name, command, b"", b"", reading))

    # changes

    def put(self, key, value):
        """Sets the value of a key; in a tree it replaces the key's first value."""
        return self._of_pair("put", 0x10, key, value)

    def putkeep(self, key, value):
        """As put, but refused where the key is held."""
        return self._of_pair("putkeep", 0x11, key, value)

    def putcat(self, key, value):
        """Joins a value behind that of the key, or behind nothing."""
        return self._of_pair("putcat", 0x12, key, value)

    def putshl(self, key, value, width):
        """Joins a value behind that of the key, and keeps the last `width` bytes."""
        return self._of_pair("putshl", 0x13, key, value, width=number(width, 4, "width"))

    def putnr(self, key, value):
        """As put, without a reply: what becomes of it isn't said."""
        return self._of_pair("putnr", 0x18, key, value, reading=None)

    def out(self, key):
        """Takes a key out, of a tree its first value. Refused where it isn't held."""
        return self._of_text("out", 0x20, key)

    def addint(self, key, amount):
        """Adds to the number that four bytes of value hold, and answers the sum, from 0 to 2^32 - 1; it wraps there. A key that isn't held
        begins with 0. Refused where the value has another length."""
        return self._of_text("addint", 0x60, key, numbers=number(amount, 4, "amount"), reading=natural(4))

    def adddouble(self, key, integer, fraction):
        """Always refused by this server."""
        return self._of_text("adddouble", 0x61, key, numbers=number(integer, 8, "integer") + number(fraction, 8, "fraction"))

    def vanish(self):
        """Takes all keys out."""
        return self._plain("vanish", 0x72)

    # questions

    def get(self, key, default=RAISE):
        """The value of a key, of a tree its first. Where it isn't held, the default, and with none it is refused."""
        return self._of_text("get", 0x30, key, reading=sized, default=default)

    def mget(self, *keys):
        """The pairs of those keys that are held, in the order asked. Refused where the reply would have more than 64 MiB."""
        keys = [text(key, MOST_KEY) for key in keys]
        return self._ask(Request("mget", 0x31, size(keys), b"".join(size(key) + key for key in keys), pairs))

    def vsiz(self, key, default=RAISE):
        """The size of the value of a key. Where it isn't held, the default, and with none it is refused."""
        return self._of_text("vsiz", 0x38, key, reading=natural(4), default=default)

    def fwmkeys(self, prefix, maximum=-1):
        """The keys that begin with a prefix, in ascending order, at most so many; all where the maximum is below zero."""
        return self._of_text("fwmkeys", 0x58, prefix, numbers=number(maximum, 4, "maximum"), reading=texts)

    def iterinit(self):
        """Begins the one walk of the whole server over its keys. See `Tokyo.keys`."""
        return self._plain("iterinit", 0x50)

    def iternext(self):
        """The next key of the walk that is still held. Refused where none is left, and before any iterinit."""
        return self._plain("iternext", 0x51, sized)

    def rnum(self):
        """The number of keys, of a tree that of its pairs."""
        return self._plain("rnum", 0x80, natural(8))

    def size(self):
        """The bytes of all keys and values."""
        return self._plain("size", 0x81, natural(8))

    def stat(self):
        """A dict of names and values, all of them str: `type`, `rnum` and `size`."""
        return self._plain("stat", 0x88, made(sized, lambda found: dict(line.split("\t", 1) for line in found.decode().splitlines())))

    # the whole server

    def sync(self):
        """Succeeds; what was answered is kept anyway."""
        return self._plain("sync", 0x70)

    def optimize(self, parameters=b""):
        """Succeeds, and leaves the contents."""
        return self._of_text("optimize", 0x71, parameters)

    def copy(self, label):
        """Copies the files under a label: 1 to 64 lower-case letters, digits or '_'. Refused of a database in memory. The answer comes once the copy
        is on the disk: a large one wants a longer timeout."""
        return self._of_text("copy", 0x73, label)

    def restore(self, path, timestamp=0, options=0):
        """Always refused by this server."""
        return self._of_text("restore", 0x74, path, numbers=number(timestamp, 8, "timestamp") + number(options, 4, "options"))

    def setmst(self, host, port, timestamp=0, options=0):
        """Always refused by this server."""
        return self._of_text("setmst", 0x78, host, numbers=number(port, 4, "port") + number(timestamp, 8, "timestamp") + number(options, 4, "options"))

    def repl(self, timestamp, server):
        """Refused where the server keeps no update log, or where the id is its own. Else a feed of records would come, which no call reads: see `behind`."""
        return self._ask(Request("repl", 0xA0, number(timestamp, 8, "timestamp") + number(server, 4, "server"), b"", nothing))

    def ext(self, name, key=b"", value=b"", options=0):
        """Always refused by this server."""
        name, key, value = text(name, MOST_KEY), text(key, MOST_KEY), text(value)
        heads = size(name) + number(options, 4, "options") + size(key) + size(value)
        return self._ask(Request("ext", 0x68, heads, name + key + value, nothing))

    # misc

    def misc(self, name, *arguments, options=0, make=lambda found: found):
        """Asks by name, and answers the texts of the reply: any name of the protocol's table, with the arguments that it wants."""
        named, arguments = text(name, MOST_KEY), [text(argument) for argument in arguments]
        heads = size(named) + number(options, 4, "options") + size(arguments)
        said = "misc " + named.decode(errors="backslashreplace")
        return self._ask(Request(said, 0x90, heads, named + b"".join(size(given) + given for given in arguments), made(texts, make)))

    def _misc_of_row(self, name, key, value):
        row = [part for column in value.items() for part in column] if isinstance(value, collections.abc.Mapping) else [value]
        return self.misc(name, key, *row, make=lambda _: None)

    def misc_put(self, key, value):
        """As put. The value is a text or, for a table, a dict of its columns; so of the next two."""
        return self._misc_of_row("put", key, value)

    def misc_putkeep(self, key, value):
        """As putkeep."""
        return self._misc_of_row("putkeep", key, value)

    def misc_putcat(self, key, value):
        """As putcat; in a table it adds the columns that the row lacks."""
        return self._misc_of_row("putcat", key, value)

    def misc_out(self, key):
        """As out."""
        return self.misc("out", key, make=lambda _: None)

    def misc_get(self, key):
        """The value of a key as the only item of a list; of a table the names and values of its row."""
        return self.misc("get", key)

    def misc_vanish(self):
        """As vanish."""
        return self.misc("vanish", make=lambda _: None)

    def row(self, key):
        """The row of a primary key of a table, as a dict. Refused where it isn't held."""
        return self.misc("get", key, make=row_of)

    def putlist(self, pairs):
        """Puts the pairs of a dict or a list in order; if one fails, all do. A tree adds each behind the values of its key. Not for a table."""
        pairs = pairs.items() if isinstance(pairs, collections.abc.Mapping) else pairs
        return self.misc("putlist", *(part for pair in pairs for part in pair), make=lambda _: None)

    def outlist(self, *keys):
        """Takes out those of the keys that are held, of a tree with all their values."""
        return self.misc("outlist", *keys, make=lambda _: None)

    def getlist(self, *keys):
        """The pairs of those keys that are held, of a tree all of them. Not for a table."""
        return self.misc("getlist", *keys, make=in_pairs)

    def putdup(self, key, value):
        """Adds a pair behind those of the key. For trees alone."""
        return self.misc("putdup", key, value, make=lambda _: None)

    def range(self, first, maximum=-1, end=None):
        """The pairs from the first key on and before the end key, at most so many. For trees alone."""
        return self.misc("range", first, str(maximum), *([] if end is None else [end]), make=in_pairs)

    def setindex(self, column, kind=LEXICAL):
        """Makes an index on a column of a table by bytes (LEXICAL), by number (DECIMAL) or of tokens (TOKEN), or takes it out (REMOVE)."""
        return self.misc("setindex", column, kind, make=lambda _: None)

    def search(self, *conditions, order=None, limit=None, do=None):
        """Asks a table for rows: conditions of a column, an operator and an expression; an order of a column and a type from 0 to 3; a limit of a
        maximum, or of a maximum and a skip; and what is done, which is None (answers primary keys), "get" (pairs of a primary key and a dict),
        "count" (a number) or "out" (takes the rows out, and answers None)."""
        asked = [joined("addcond", column, str(operator), expression) for column, operator, expression in conditions]
        if order is not None:
            asked.append(joined("setorder", order[0], str(order[1])))
        if limit is not None:
            asked.append(joined("setlimit", *map(str, limit if isinstance(limit, tuple) else (limit,))))
        if do is not None:
            asked.append(do)
        makes = {None: list, "count": lambda found: int(found[0]), "out": lambda _: None}
        makes["get"] = lambda found: [(key, row_of(row)) for key, row in in_pairs(found)]
        if do not in makes:
            raise ValueError("what a search does is None, 'get', 'count' or 'out'")
        return self.misc("search", *asked, make=makes[do])


def joined(*parts):
    return b"\0".join(text(part) for part in parts)


# ---- connections


def pieces(requests):
    """The bytes of requests in pieces that a send may take at once."""
    gathered, length = [], 0
    for request in requests:
        gathered.append(request.bytes)
        length += len(request.bytes)
        if length >= PIECE:
            yield memoryview(b"".join(gathered))
            gathered, length = [], 0
    if gathered:
        yield memoryview(b"".join(gathered))


class Replies:
    """Reads the replies to requests from the bytes that come, in whatever pieces."""

    def __init__(self, requests):
        self.answers = [None] * len(requests)
        self.awaited = collections.deque((place, request) for place, request in enumerate(requests) if request.reading is not None)
        self.came, self.at = bytearray(), 0
        self.reading = None

    def take(self, data):
        self.came += data
        while self.awaited:
            if self.reading is None:
                self.reading = self.awaited[0][1].reply()
                self.wanted = next(self.reading)
            if not self._read_one():
                break
        if not self.awaited and self.at < len(self.came):
            raise Broken("the server sent more than was asked for")
        del self.came[: self.at]
        self.at = 0

    def _read_one(self):
        """Reads on in the first reply; whether it is there whole."""
        while len(self.came) - self.at >= self.wanted:
            given = bytes(self.came[self.at : self.at + self.wanted])
            self.at += self.wanted
            try:
                self.wanted = self.reading.send(given)
            except StopIteration as ended:
                place, _ = self.awaited.popleft()
                self.answers[place], self.reading = ended.value, None
                return True
        return False


class Tokyo(Requests):
    """A connection to a server. It is open from the start, and closed by `close`, at the end of a `with`, and by each Broken.

    The timeout, in seconds, is how long the opening may take, and how long nothing may move in either direction; None waits without end.
    Raises Broken where nobody listens, or it can't be reached."""

    def __init__(self, host="127.0.0.1", port=1978, timeout=30.0):
        self.timeout, self.address = timeout, (host, port)
        self._socket = self._selector = None
        try:
            opened = socket.create_connection((host, port), timeout)
        except TimeoutError as error:
            raise TimedOut(f"{host} port {port} doesn't answer") from error
        except (OSError, UnicodeError, OverflowError) as error:
            raise Broken(f"no connection to {host} port {port}: {error}") from error
        opened.setsockopt(socket.IPPROTO_TCP, socket.TCP_NODELAY, 1)
        opened.setblocking(False)
        self._socket, self._selector = opened, selectors.DefaultSelector()
        self._watched = selectors.EVENT_READ
        self._selector.register(opened, self._watched)

    def __enter__(self):
        return self

    def __exit__(self, *_):
        self.close()

    def close(self):
        """Closes the connection; once more does nothing."""
        if self._socket is not None:
            self._selector.close()
            self._socket.close()
            self._socket = None

    def pipeline(self):
        """An empty pipeline over this connection."""
        return Pipeline(self)

    def keys(self, batch=64):
        """Begins the server's walk and yields its keys in ascending order. The server has one walk for all its clients: another that begins one
        takes this over, and then keys come again or are missed. A key that is taken out before its turn isn't given, and one that is put
        behind the beginning neither. `batch` keys are asked for at once."""
        self.iterinit()
        while True:
            asked = self.pipeline()
            for _ in range(batch):
                asked.iternext()
            for key in asked.run():
                if isinstance(key, Refused):
                    return
                yield key

    def _ask(self, request):
        answer = self._exchange([request])[0]
        if isinstance(answer, Refused):
            raise answer
        return answer

    def _exchange(self, requests):
        """Sends requests and reads their replies meanwhile: a server that can't send on may not read on, so neither waits for the other."""
        if self._socket is None:
            raise Broken("the connection is closed")
        try:
            return self._both_ways(requests)
        except OSError as error:
            self.close()
            raise Broken(f"the connection broke: {error}") from error
        except BaseException:
            # replies under way would be taken for those of later requests
            self.close()
            raise

    def _both_ways(self, requests):
        replies, left = Replies(requests), pieces(requests)
        unsent = self._send(next(left, b"")) or next(left, b"")
        while unsent or replies.awaited:
            ready = self._wait(bool(unsent))
            if ready & selectors.EVENT_READ:
                data = self._socket.recv(PIECE)
                if not data:
                    raise Broken("the server closed the connection")
                replies.take(data)
            if ready & selectors.EVENT_WRITE:
                unsent = self._send(unsent) or next(left, b"")
        return replies.answers

    def _send(self, unsent):
        """What is left of some bytes once the system took what it takes now."""
        if not unsent:
            return unsent
        try:
            return unsent[self._socket.send(unsent) :]
        except BlockingIOError:
            return unsent

    def _wait(self, writes):
        watched = selectors.EVENT_READ | (selectors.EVENT_WRITE if writes else 0)
        if watched != self._watched:
            self._selector.modify(self._socket, watched)
            self._watched = watched
        ready = self._selector.select(self.timeout)
        if not ready:
            raise TimedOut(f"nothing moved for {self.timeout} seconds")
        return ready[0][1]


class Pipeline(Requests):
    """Requests that are kept until `run`, which sends them together. Each call answers its place in what `run` answers."""

    def __init__(self, over):
        self._over, self._kept = over, []

    def __len__(self):
        return len(self._kept)

    def _ask(self, request):
        self._kept.append(request)
        return len(self._kept) - 1

    def run(self):
        """Asks all that is kept, in order, and answers a list: of each request its answer, or a Refused, which isn't raised. The pipeline is
        empty then, also where Broken is raised."""
        kept, self._kept = self._kept, []
        return self._over._exchange(kept)


# ---- a database as one stream of bytes

# A dump begins with these bytes. Then stand the pairs, each as the size of its key, the size of its value, the key and the value, and at the end
# FFFFFFFF and the number of pairs in eight bytes. Sizes have four bytes, the greatest first, as in the protocol.
DUMP = b"tokyo dump 1\n"
DUMP_END = b"\xff\xff\xff\xff"


class NoDump(TokyoError):
    """What was to be loaded is no dump, or breaks off."""


def in_lists(items, measure, most=1000, most_bytes=1 << 20):
    """Yields items in lists: so many at most, and so many bytes, or one larger item alone."""
    found, length = [], 0
    for item in items:
        if found and (len(found) == most or length + measure(item) > most_bytes):
            yield found
            found, length = [], 0
        found.append(item)
        length += measure(item)
    if found:
        yield found


def pairs_of(db, keys, of_tree):
    """The pairs of those keys that are held. Where their reply would be too long they are asked for in halves."""
    try:
        return db.getlist(*keys) if of_tree else db.mget(*keys)
    except Refused:
        if len(keys) == 1:
            raise
    half = len(keys) // 2
    return pairs_of(db, keys[:half], of_tree) + pairs_of(db, keys[half:], of_tree)


def dump(db):
    """Yields a whole database as bytes: keys and values of any bytes, of a tree all values of a key in their order. It takes the server's walk (see
    `Tokyo.keys`). Each value is as it was when it was read, so the whole need never have stood so at one moment. Refused of a table, and where
    the values of one key of a tree have more bytes than a reply may."""
    kind = db.stat()["type"]
    if kind == "table":
        raise Refused("dump of a table")
    yield DUMP
    number = 0
    # (a Tokyo Tyrant gives a key of a tree once for each of its values)
    walk = (key for key, _ in itertools.groupby(db.keys(1000)))
    for keys in in_lists(walk, len):
        pairs = pairs_of(db, keys, "tree" in kind)
        yield b"".join(size(key) + size(value) + key + value for key, value in pairs)
        number += len(pairs)
    yield DUMP_END + number.to_bytes(8, "big")


def pairs_in(stream):
    """Yields the pairs of a dump, read from a stream of bytes. Raises NoDump where it is none, or breaks off."""

    def some(length):
        found = stream.read(length)
        if len(found) < length:
            raise NoDump("the dump breaks off")
        return found

    if stream.read(len(DUMP)) != DUMP:
        raise NoDump("this is no dump")
    number = 0
    while (head := some(4)) != DUMP_END:
        key_size, value_size = int.from_bytes(head, "big"), int.from_bytes(some(4), "big")
        if key_size > MOST_KEY or value_size > MOST_VALUE:
            raise NoDump("the dump has a key or a value that is too long")
        key = some(key_size)
        yield key, some(value_size)
        number += 1
    if int.from_bytes(some(8), "big") != number:
        raise NoDump("the dump says that it has another number of pairs")


def load(db, stream, at_once=8):
    """Puts the pairs of a dump, and answers their number. They go in lists (`putlist`), some of them at once, and each list is put whole or not at
    all; a tree gets its pairs behind those that it has. Raises Refused or NoDump where the first of them comes; what was put before stays."""
    many, number = db.pipeline(), 0

    def send():
        for answer in many.run():
            if isinstance(answer, Refused):
                raise answer

    for pairs in in_lists(pairs_in(stream), lambda pair: len(pair[0]) + len(pair[1])):
        many.putlist(pairs)
        number += len(pairs)
        if len(many) == at_once:
            send()
    send()
    return number


# ---- replicas

NO_SERVER = 0xFFFF_FFFF  # an id that no server has


def stamps(address, above=0, quiet=1.0, timeout=30.0):
    """Yields the timestamps of the records above one that the server at this address (a host and a port) has, until none came for so many seconds.
    Refused where it keeps no update log."""
    try:
        with socket.create_connection(address, timeout) as feed:
            feed.sendall(b"\xc8\xa0" + number(above, 8, "above") + NO_SERVER.to_bytes(4, "big"))
            yield from stamps_in(feed, quiet)
    except OSError as error:
        raise Broken(f"no feed of {address[0]} port {address[1]}: {error}") from error


def stamps_in(feed, quiet):
    """Reads the id of the server, and then records, of which it yields the timestamps."""
    came = bytearray()
    while len(came) < 4:
        came += some_of(feed)
        if came[0] == 1:
            raise Refused("repl")
    del came[:4]
    feed.settimeout(quiet)
    while True:
        at = 0
        while len(came) - at >= 25 and len(came) - at >= 25 + int.from_bytes(came[at + 21 : at + 25], "big"):
            yield int.from_bytes(came[at + 1 : at + 9], "big")
            at += 25 + int.from_bytes(came[at + 21 : at + 25], "big")
        del came[:at]
        try:
            came += some_of(feed)
        except TimeoutError:
            return


def some_of(feed):
    data = feed.recv(PIECE)
    if not data:
        raise Broken("the server closed the feed")
    return data


class Behind(collections.namedtuple("Behind", "records master replica")):
    """How many records the master has above the replica's last, and the last timestamps of both."""

    @property
    def microseconds(self):
        """How much later the master's last record is than the replica's."""
        return max(self.master - self.replica, 0)


def behind(master, replica, above=0, quiet=1.0, timeout=30.0):
    """How far a replica is behind its master, each an address (a host and a port): a Behind. It reads both logs above a timestamp, until nothing came for
    so many seconds: give it the replica's of the last call, or 0, which reads the whole logs. Records that are written behind its beginning, by this
    machine's clock, count for neither. What the replica takes while it is read isn't seen as missing."""
    began = time.time_ns() // 1000

    def had(address):
        return itertools.takewhile(lambda stamp: stamp <= began, stamps(address, above, quiet, timeout))

    last = max(had(replica), default=above)
    later = [stamp for stamp in had(master) if stamp > last]
    return Behind(len(later), max(later, default=last), last)


# ---- the command line

USAGE = """tokyo.py [-host h] [-port p] COMMAND

put KEY VALUE       set a value          get [-n] KEY      print a value (-n: without a newline)
putkeep KEY VALUE   if there is none     mget KEY ...      print keys and values, a tab between
putcat KEY VALUE    join it behind       list [PREFIX]     print the keys that begin so, or all
out KEY             take a key out       rnum, size, stat  print figures
vanish [-y]         take all keys out; asks first, but with -y
misc NAME ARG ...   ask by name, and print each text of the reply
copy LABEL          copy the server's files under a label, beside them
dump                print the whole database, for load: keys and values of any bytes
load                put what a dump has, from the standard input, and print how many
behind HOST PORT [TIMESTAMP]
                    how far the server is behind its master, which is there: print how many records, how many microseconds,
                    and the timestamp to give next time (with none both logs are read whole)

The host is 127.0.0.1 and the port 1978 where they aren't given.
Status 0: done. 1: the server refused it, or vanish wasn't confirmed. 2: wrong words. 3: the connection failed.
4: what dump prints wasn't taken, or what load reads is no whole dump.
"""


class WrongWords(Exception):
    """Words of the command line that are in no command."""


def lines(found):
    return b"".join(part + b"\n" for part in found)


def asked_to_vanish(db, words):
    if not words:
        print("take out all keys? [y/N] ", end="", file=sys.stderr, flush=True)
        if sys.stdin.readline().strip().lower() not in ("y", "yes"):
            raise Refused("vanish")
    db.vanish()


def copy_files(db, words):
    """The server answers once the copy is on the disk, however long that takes."""
    db.timeout = None
    db.copy(*words)


def print_dump(db):
    """Prints a dump piece by piece. A reader that goes away before its end is a failure."""
    for piece in dump(db):
        try:
            sys.stdout.buffer.write(piece)
            sys.stdout.buffer.flush()
        except OSError as error:
            os.dup2(os.open(os.devnull, os.O_WRONLY), sys.stdout.fileno())
            raise NoDump(f"the dump wasn't taken: {error.strerror}") from error


def how_far_behind(db, words):
    """The lines of `behind`, of the server that this is a connection to."""
    found = behind((os.fsdecode(words[0]), natural_word(words[1], 65_535)), db.address, natural_word(words[2], (1 << 63) - 1) if words[2:] else 0)
    return b"records\t%d\nmicroseconds\t%d\ntimestamp\t%d\n" % (found.records, found.microseconds, found.replica)


def natural_word(word, most):
    if not (word.isdigit() and len(word) <= 20 and int(word) <= most):
        raise WrongWords
    return int(word)


# By name: how many words there may be, and what is printed.
COMMANDS = {
    "put": (2, 2, lambda db, words: db.put(*words)),
    "putkeep": (2, 2, lambda db, words: db.putkeep(*words)),
    "putcat": (2, 2, lambda db, words: db.putcat(*words)),
    "out": (1, 1, lambda db, words: db.out(*words)),
    "get": (1, 2, lambda db, words: db.get(words[-1]) + (b"\n" if len(words) == 1 else b"")),
    "mget": (1, None, lambda db, words: lines(key + b"\t" + value for key, value in db.mget(*words))),
    "list": (0, 1, lambda db, words: lines(db.fwmkeys(*(words or [b""])))),
    "rnum": (0, 0, lambda db, words: b"%d\n" % db.rnum()),
    "size": (0, 0, lambda db, words: b"%d\n" % db.size()),
    "stat": (0, 0, lambda db, words: lines(f"{name}\t{value}".encode() for name, value in db.stat().items())),
    "vanish": (0, 1, asked_to_vanish),
    "copy": (1, 1, copy_files),
    "misc": (1, None, lambda db, words: lines(db.misc(*words))),
    "dump": (0, 0, lambda db, words: print_dump(db)),
    "load": (0, 0, lambda db, words: b"%d\n" % load(db, sys.stdin.buffer)),
    "behind": (2, 3, how_far_behind),
}


def order_of(words):
    """The host, the port, the command and its words. Raises WrongWords."""
    options = {"-host": b"127.0.0.1", "-port": b"1978"}
    while len(words) >= 2 and os.fsdecode(words[0]) in options:
        options[os.fsdecode(words[0])] = words[1]
        words = words[2:]
    port = options["-port"]
    if not (port.isdigit() and len(port) <= 5 and 1 <= int(port) <= 65_535) or not words:
        raise WrongWords
    name, words = os.fsdecode(words[0]), words[1:]
    least, most, _ = COMMANDS.get(name, (1, 0, None))
    if len(words) < least or most is not None and len(words) > most:
        raise WrongWords
    if name == "get" and len(words) == 2 and words[0] != b"-n" or name == "vanish" and words and words != [b"-y"]:
        raise WrongWords
    return os.fsdecode(options["-host"]), int(port), name, words


def show(found):
    """Prints bytes. A reader that went away is no fault."""
    try:
        sys.stdout.buffer.write(found)
        sys.stdout.buffer.flush()
    except BrokenPipeError:
        os.dup2(os.open(os.devnull, os.O_WRONLY), sys.stdout.fileno())


def main(words):
    """Runs the command line; answers its exit status."""
    if words in (["-h"], ["--help"]):
        show(USAGE.encode())
        return 0
    try:
        host, port, name, words = order_of([os.fsencode(word) for word in words])
        with Tokyo(host, port) as db:
            found = COMMANDS[name][2](db, words)
    except WrongWords:
        sys.stderr.write(USAGE)
        return 2
    except ValueError as error:
        print(f"tokyo.py: {error}", file=sys.stderr)
        return 2
    except Refused as error:
        print(f"tokyo.py: {error}", file=sys.stderr)
        return 1
    except Broken as error:
        print(f"tokyo.py: {error}", file=sys.stderr)
        return 3
    except NoDump as error:
        print(f"tokyo.py: {error}", file=sys.stderr)
        return 4
    if found is not None:
        show(found)
    return 0


if __name__ == "__main__":
    sys.exit(main(sys.argv[1:]))
