#!/usr/bin/env python3
"""Writes what crates/tests_kinds reads on its standard input: drawn requests to databases of all kinds, and what the model in tests/model.py answers.
With no words it writes the whole of that file; its words are otherwise a shape of those in SHAPES, a seed and how many requests: tests/tables.py SHAPE SEED COUNT.
With `show` and then these three and a number it prints that request, counted from 0, and its answer.

For each database: its kind's number, whether its order is decimal (a byte each), its width (4), its greatest id allowed (8), how many requests (4); then for each of
these what it is answered (a byte: 1 where it succeeds, 2 more where it changes contents), the sizes of request and reply (4 each), and their bytes.
A repl is told nothing by the database itself."""
import os
import sys

sys.dont_write_bytecode = True
sys.path.insert(0, os.path.dirname(os.path.abspath(__file__)))
import draws  # noqa: E402
import model  # noqa: E402

NUMBERS = {"hash": 0, "tree": 1, "fixed": 2, "table": 3, "memhash": 4, "memtree": 5}
# By name: the kind, whether the order is decimal, the width and the greatest id allowed.
SHAPES = {
    "memhash": ("memhash", False, 0, 0),
    "hash": ("hash", False, 0, 0),
    "memtree": ("memtree", False, 0, 0),
    "tree": ("tree", False, 0, 0),
    "decimal": ("tree", True, 0, 0),
    "fixed": ("fixed", False, 8, 12),
    "narrow": ("fixed", False, 3, 5),
    "table": ("table", False, 0, 0),
}
COUNTS = {"memhash": 2000, "hash": 1000, "memtree": 2000, "tree": 1000, "decimal": 2500, "fixed": 2000, "narrow": 1000, "table": 5000}
SEED = 1


def steps(shape, seed, count):
    """Each drawn request, and what it is answered: the byte, and the reply."""
    kind, decimal, width, greatest = SHAPES[shape]
    drawn = draws.Draws(seed, kind, decimal, short=True)
    asked = model.Model(model.database(kind, decimal, width, greatest))
    for _ in range(count):
        request = drawn.request()
        command, fields, _ = model.read(request, 0)
        reply = asked.answer(command, fields)
        if command == model.REPL:
            yield request, 1, b""
        else:
            yield request, asked.ok + 2 * asked.updated, reply


def table(shape, seed, count):
    kind, decimal, width, greatest = SHAPES[shape]
    head = bytes([NUMBERS[kind], decimal]) + model.words(width) + greatest.to_bytes(8, "big") + model.words(count)
    return head + b"".join(bytes([said]) + model.words(len(request), len(reply)) + request + reply for request, said, reply in steps(shape, seed, count))


def main():
    words = sys.argv[1:]
    if words[:1] == ["show"]:
        request, said, reply = list(steps(words[1], int(words[2]), int(words[3])))[int(words[4])]
        command, fields, _ = model.read(request, 0)
        print(f"{request.hex()}\n{command:02x} {fields}\nis answered {reply.hex()}, {said}")
    elif words:
        sys.stdout.buffer.write(table(words[0], int(words[1]), int(words[2])))
    else:
        for shape, count in COUNTS.items():
            sys.stdout.buffer.write(table(shape, SEED, count))


main()
