"""Tables by docs/FORMATS.md, as plainly as they can be said: `read` gives the rows and the indexes of a table's files and checks each of their rules."""
import os

import hash_files
import model
import tree_files
from hash_files import Broken, check, number_at

INDEX_FILES = range(3, 19)
TYPES = {0: b"0", 1: b"1", 2: b"2"}
# By type: the byte that is the order of its tree.
ORDERS = {b"0": 0, b"1": 1, b"2": 0}


def name_of(name, file):
    """The name of a file of the database of a name."""
    return name if file == 0 else f"{name}.idx.{file - 3:02}"


def files_of(name):
    """The bytes of each file that isn't empty."""
    found = {}
    for file in (0, *INDEX_FILES):
        path = name_of(name, file)
        if os.path.exists(path) and os.path.getsize(path) > 0:
            with open(path, "rb") as stream:
                found[file] = stream.read()
    return found


def row_of(content):
    """The columns of a row's bytes, by name."""
    at, row = 0, {}
    try:
        while at < len(content):
            name_size, at = number_at(content, at)
            size, at = number_at(content, at)
            check(at + name_size + size <= len(content), "C1")
            name, value = content[at : at + name_size], content[at + name_size : at + name_size + size]
            at += name_size + size
            check(model.column_fits(name, value) and name not in row, "C1")
            row[name] = value
    except IndexError:
        raise Broken("C1") from None
    return row


def row_bytes(row):
    return b"".join(hash_files.spelled_number(len(name)) + hash_files.spelled_number(len(value)) + name + value for name, value in row.items())


def entries(rows, name, code):
    """The keys of the tree of an index: what it has of a column's value, a zero byte, the primary key."""
    parts = [(part, key) for key, row in rows.items() if name in row for part in (set(model.tokens(row[name])) if code == b"2" else [row[name]])]
    return [part + b"\0" + key for part, key in parts]


def index_of(content, rows, seen):
    """The name and the type of the index that a file has."""
    records = hash_files.read(content, 1)
    region = content[128:256]
    check(region[0] <= 1, "B1")
    order = model.decimal if region[0] == 1 else model.by_bytes
    tree = tree_files.Tree(records, region, order, index=True)
    pairs = tree.pairs()
    column = records.get(tree_files.COLUMN, b"")
    check(len(column) > 1 and column[0] in TYPES, "C2")
    name, code = column[1:], TYPES[column[0]]
    check(ORDERS[code] == region[0] and name not in seen, "C2")
    check(pairs == sorted(((key, b"") for key in entries(rows, name, code)), key=lambda pair: order(pair[0])), "C3")
    return name, code


def read(files):
    """The rows by primary key, and the types of the indexed columns."""
    if 0 not in files:
        check(not files, "C2")
        return {}, {}
    rows = {key: row_of(value) for key, value in hash_files.read(files[0], 3).items()}
    indexes = {}
    for file in INDEX_FILES:
        if file in files:
            name, code = index_of(files[file], rows, indexes)
            indexes[name] = code
    return rows, indexes
