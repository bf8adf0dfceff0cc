"""The requests of `tokyo drill`, and what it prints, as docs/OPERATIONS.md says."""
import model

DEEDS = ("put", "put", "putcat", "out")


def requests(seed, count):
    """Each request: what it does, its key, and the value that a put has."""
    x = seed
    for _ in range(count):
        x = (x * 6364136223846793005 + 1442695040888963407) % 2**64
        yield DEEDS[x // 2**20 % 4], b"%d" % (1 + x // 2**33 % 1000), b"%d" % (x // 2**44)


def ask(base, deed, key, value):
    """Makes a request on a database of the model, and tells whether it succeeds."""
    value = b"v\0" + value if base.type == b"table" else value
    try:
        if deed == "out":
            base.out(key)
        else:
            getattr(base, deed)(key, value)
    except model.Failed:
        return False
    return True


def line(base, seed, count):
    """Makes the requests on a database of the model that is empty, and gives what is printed."""
    ok = sum(ask(base, *request) for request in requests(seed, count))
    return b"requests %d ok %d refused %d records %d size %d\n" % (count, ok, count - ok, base.count(), base.size())


def marks(base, seed, count):
    """What an empty database of the model holds at the start, after each hundred requests and at the end."""
    yield dict(base.held)
    for number, request in enumerate(requests(seed, count), 1):
        ask(base, *request)
        if number % 100 == 0 or number == count:
            yield dict(base.held)
