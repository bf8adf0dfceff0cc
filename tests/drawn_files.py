#!/usr/bin/env python3
"""Prints the drawn cases of crates/play_files: a hash file and trees that grow and shrink, and what a model of them has."""


def title(text):
    print(f"# {text}\n")


def drawn_map():
    """Puts and outs on a hash file, packed in both forms; its length is that of its records, each a multiple of 16."""
    keys = 600
    held = {}

    def key(i):
        return f"6b{i // 250:02x}{i % 250:02x}"

    def draw(x):
        for _ in range(4000):
            x = (x * 6364136223846793005 + 1442695040888963407) % 2**64
            i = (x >> 33) % keys
            if x >> 63 == 0 or i not in held:
                length, byte = (x >> 48) % 200, (x >> 20) % 256
                held[i] = (byte, length)
                print(f"put {key(i)} = {byte:02x}*{length}")
            else:
                del held[i]
                print(f"out {key(i)}")

    def look():
        print(f"count {len(held)}")
        for i in range(keys):
            if i in held:
                byte, length = held[i]
                print(f"get {key(i)} = {byte:02x}*{length}")
            else:
                print(f"none {key(i)}")

    def ends(first, width):
        size = first
        for _, length in held.values():
            numbers = 2 if length < 128 else 3
            size += (2 * width + 7 + numbers + length + 15) // 16 * 16
        print(f"ends {size}")

    print("case a drawn map stays in both forms")
    print("hash 50 small")
    draw(7)
    look()
    print("pack")
    # the head, fifty entries and the pool end at 524, in the large form at 724
    ends(528, 4)
    look()
    draw(8)
    print("enlarge")
    ends(736, 8)
    look()
    draw(9)
    print("enlarge")
    ends(736, 8)
    print("mark\npack\nsame\nopens\n")


def key_of(x):
    return f"{x // 256:02x}{x % 256:02x}"


def grown_tree():
    """A thousand keys, each with two values, put in an order of their own."""
    print("case a thousand keys keep all rules")
    print("tree 4 4")
    x = 1
    for _ in range(10):
        for _ in range(100):
            print(f"add {key_of(x)} = {x % 251:02x}")
            print(f"add {key_of(x)} = 'second'")
            x = (x * 21 + 7) % 1000
        print("settle\nrule plain 0")
    print("count 2000")
    for x in range(1000):
        print(f"all {key_of(x)} = #{x % 251:02x} #'second'")
    print()


def shrunk_tree():
    """Four hundred keys, each with two values, taken out in another order than they were put in."""
    print("case four hundred keys go and all rules are kept")
    print("tree 4 4")
    x = 1
    for _ in range(400):
        print(f"add {key_of(x)} = 'first'")
        print(f"add {key_of(x)} = 'second'")
        x = (x * 21 + 7) % 400
    print("count 800")
    x = 0
    for _ in range(8):
        for _ in range(50):
            print(f"out {key_of(x)}")
            print(f"get {key_of(x)} = 'second'")
            print(f"out_all {key_of(x)}")
            x = (x * 41 + 3) % 400
        print("settle\nrule plain 0")
    print("height 1\ncount 0\nrecords 1\n")


if __name__ == "__main__":
    title("Drawn by tests/drawn_files.py.")
    drawn_map()
    grown_tree()
    shrunk_tree()
