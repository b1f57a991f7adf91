"""The names, messages and lines of growing size that bench/growing/run measures."""

import os
import struct
import sys

sys.path.insert(0, os.path.dirname(os.path.dirname(os.path.abspath(__file__))))

from inputs import addresses, chain, name, zone

RECORDS = (1, 10, 100, 1_000, 10_000)
LABELS = (1, 16, 64, 127)

# The records of each message that grows by labels, and of each one against which it is measured.
OWNERS = 8

# The first state of std's FoldHasher. If 32 octets or more begin with this number plus their count, little-endian, the next 8 octets
# don't change their hash.
STATE = 0x243F6A8885A308D3

# A parent of 44 octets: a name below it may begin with such a number, whose first octet is then the length of a label.
PARENT = "a" * 20 + "." + "b" * 21


def names(texts):
    """The names of a question and of owners in wire format."""
    return b"".join(map(name, texts))


def one_owner(count):
    return names(["example.com"] * (1 + count))


def hosts(count):
    """Owners of one parent."""
    return names(["sub.example.com", *(f"h{i}.sub.example.com" for i in range(count))])


def digits(count):
    """Owners as in a reverse zone: a name has ten names below it at most."""
    return names(["sub.example.com", *(".".join(reversed(str(i))) + ".sub.example.com" for i in range(count))])


def numbered(count, begin, size):
    """Owners of PARENT whose first labels have `size` octets: these, 8 digits, and zeros."""
    more = bytes(size - len(begin) - 8)
    owners = (bytes([size]) + begin + f"{i:08}".encode() + more + name(PARENT) for i in range(count))
    return name(PARENT) + b"".join(owners)


def begin_of(size):
    """With what `size` octets begin so that the next 8 don't count."""
    return struct.pack("<Q", STATE + size)


def equal_names(count):
    """Owners whose octets have one hash."""
    begin = begin_of(1 + 16 + len(name(PARENT)))
    assert begin[0] == 16
    return numbered(count, begin[1:], 16)


def other_names(count):
    """Like `equal_names`, with different hashes."""
    return numbered(count, begin_of(0)[1:], 16)


def equal_labels(count):
    """Owners whose first labels have one hash."""
    return numbered(count, begin_of(32), 32)


def other_labels(count):
    """Like `equal_labels`, with different hashes."""
    return numbered(count, begin_of(31), 32)


def labels(count, first="a"):
    """A name of this many labels of one octet."""
    return ".".join([first] + ["a"] * (count - 1))


def long_owners(count):
    """Owners of many labels that differ in the first alone."""
    return names(["example", *(labels(count, chr(ord("b") + i % 16)) for i in range(OWNERS))])


def long_others(count):
    """Owners of many labels whose suffixes have equal labels at both ends, and differ in the last but one."""
    def other(i):
        return ".".join(["a"] * max(count - 2, 0) + [chr(ord("b") + i % 16)] * (count > 1) + ["a"])

    return names(["example", *map(other, range(OWNERS))])


def message(owners):
    """A message with an address of each owner in wire format, uncompressed."""
    head = struct.pack(">6H", 0xADD, 0x8180, 0, len(owners), 0, 0)
    return head + b"".join(owner + struct.pack(">HHIHI", 1, 1, 60, 4, i) for i, owner in enumerate(owners))


def long_names(count):
    return message([name(labels(count, chr(ord("b") + i % 16))) for i in range(OWNERS)])


def line(count):
    return f"{labels(count)}. 3600 IN A 192.0.2.1".encode()


# The first word says what is done: growing.c.
BY_RECORDS = {
    "write owner": one_owner,
    "write hosts": hosts,
    "write reverse": digits,
    "read owner": lambda count: addresses(count).octets,
    "read hosts": lambda count: zone(count).octets,
}
BY_LABELS = {
    "write labels": long_owners,
    "read labels": long_names,
    "line labels": line,
}

# Works whose octets someone may have chosen to make them slow: the way that takes longer, and the work that it is compared with.
HOSTILE = {
    "write names of one hash": (lambda: equal_names(400), "index", "write names of others"),
    "write names of others": (lambda: other_names(400), "index", None),
    "write labels of one hash": (lambda: equal_labels(400), "hash", "write labels of others"),
    "write labels of others": (lambda: other_labels(400), "hash", None),
    "write 10,000 hosts": (lambda: hosts(10_000), "tree", "write 10,000 reverse"),
    "write 10,000 reverse": (lambda: digits(10_000), "tree", None),
    "write 127 labels alike": (lambda: long_others(127), "static", "write 127 labels"),
    "write 127 labels": (lambda: long_owners(127), "static", None),
    "read 126 pointers": (lambda: chain(False, 400).octets, "Message", "read owner"),
    "read 126 pointers alternating": (lambda: chain(False, 400, 2).octets, "Message", "read owner"),
    "read owner": (lambda: addresses(432).octets, "Message", None),
}


def grown():
    """The works that grow, as work, size, way and octets. The way `*` is all."""
    for sizes, works in ((RECORDS, BY_RECORDS), (LABELS, BY_LABELS)):
        for work, octets_of in works.items():
            for size in sizes:
                yield work, size, "*", octets_of(size)


def guarded():
    """Few of them, as ../count counts them in `./test`."""
    return (it for it in grown() if it[1] in (100, 16))


def hostile():
    """The other works. Their size is 0."""
    for work, (octets_of, way, _) in HOSTILE.items():
        yield work, 0, way, octets_of()


def write(path, works):
    """Writes works to a file for the programs of growing.c."""
    with open(path, "wb") as it:
        for work, size, way, octets in works:
            it.write(f"{work}:{size}|{way}|{len(octets)}\n".encode() + bytes(octets))
