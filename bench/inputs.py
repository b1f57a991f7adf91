#!/usr/bin/env python3
"""Prints the messages of the bench, one a line: its workload, its sum (peer.h), its octets.

The sum is `-` if the message has to be refused, or `?` if libraries may differ. The output is always the
same.
"""

import struct

ROOT = b"\0"


def name(text):
    labels = [label for label in text.split(".") if label]
    return b"".join(bytes([len(x)]) + x.encode() for x in labels) + ROOT


def name_sum(text):
    return len([label for label in text.split(".") if label]) + len(name(text))


class Message:
    """Octets, their sum, and a compression table of all suffixes within pointer range."""

    def __init__(self, ident, flags, counts):
        self.octets = bytearray(struct.pack(">6H", ident, flags, *counts))
        self.sum = ident + flags + sum(counts)
        self.places = {}

    def name(self, text):
        labels = [label for label in text.split(".") if label]
        out = bytearray()
        for i in range(len(labels)):
            suffix = ".".join(labels[i:])
            if suffix in self.places:
                self.octets += out + struct.pack(">H", 0xC000 | self.places[suffix])
                return
            place = len(self.octets) + len(out)
            if place < 1 << 14:
                self.places[suffix] = place
            out += bytes([len(labels[i])]) + labels[i].encode()
        self.octets += out + ROOT

    def question(self, text, rtype):
        self.name(text)
        self.octets += struct.pack(">HH", rtype, 1)
        self.sum += name_sum(text) + rtype + 1

    def head(self, text, rtype, ttl):
        self.name(text)
        self.octets += struct.pack(">HHI", rtype, 1, ttl)
        self.sum += name_sum(text) + rtype + 1 + ttl

    def data(self, octets):
        self.octets += struct.pack(">H", len(octets)) + octets

    def a(self, text, ttl, address):
        self.head(text, 1, ttl)
        self.data(bytes(address))
        self.sum += int.from_bytes(bytes(address), "big")

    def ns(self, text, ttl, target):
        self.head(text, 2, ttl)
        place = len(self.octets)
        self.octets += b"\0\0"
        self.name(target)
        struct.pack_into(">H", self.octets, place, len(self.octets) - place - 2)
        self.sum += name_sum(target)

    def mx(self, text, ttl, preference, exchange):
        self.head(text, 15, ttl)
        place = len(self.octets)
        self.octets += struct.pack(">HH", 0, preference)
        self.name(exchange)
        struct.pack_into(">H", self.octets, place, len(self.octets) - place - 2)
        self.sum += preference + name_sum(exchange)

    def soa(self, text, ttl, numbers):
        self.head(text, 6, ttl)
        self.data(name("ns0." + text) + name("mail." + text) + struct.pack(">5I", *numbers))
        self.sum += name_sum("ns0." + text) + name_sum("mail." + text) + sum(numbers)

    def rrsig(self, text, ttl, numbers, signer, size):
        self.head(text, 46, ttl)
        self.data(struct.pack(">HBBIIIH", *numbers) + name(signer) + bytes(range(size)))
        self.sum += sum(numbers) + name_sum(signer) + size


def response():
    msg = Message(0, 0x81A0, (1, 1, 0, 0))
    msg.question("example.com", 1)
    msg.a("example.com", 3600, (203, 0, 113, 1))
    assert len(msg.octets) == 45
    return msg


def larger():
    msg = Message(0xBEEF, 0x8580, (1, 20, 4, 8))
    msg.question("www.example.com", 1)
    for i in range(20):
        msg.a("www.example.com", 300, (192, 0, 2, i))
    for i in range(4):
        msg.ns("example.com", 86400, f"ns{i}.example.com")
    for i in range(8):
        msg.a(f"ns{i // 2}.example.com", 86400, (198, 51, 100, i))
    return msg


def zone(count):
    """A message with `count` records, each with its own owner."""
    msg = Message(0x1234, 0x8400, (1, count, 0, 0))
    msg.question("sub.example.com", 252)
    for i in range(count):
        msg.a(f"h{i}.sub.example.com", 3600, (10, 0, i // 256, i % 256))
    return msg


def apex():
    """The first and the last message of a transfer, whose other messages are those of `zone`."""
    msg = Message(0x1234, 0x8400, (1, 1, 0, 0))
    msg.question("sub.example.com", 252)
    msg.soa("sub.example.com", 3600, (2026113000, 7200, 900, 1209600, 300))
    return msg


def addresses(count):
    """A message with `count` records of one owner."""
    msg = Message(0xADD, 0x8180, (1, count, 0, 0))
    msg.question("example.com", 1)
    for i in range(count):
        msg.a("example.com", 60, struct.pack(">I", i))
    return msg


def mail():
    """20 MX records, and 20 RRSIG records with signatures of 64 octets. The sum is that of all fields."""
    msg = Message(0x3A11, 0x8580, (1, 40, 0, 0))
    msg.question("example.com", 15)
    for i in range(20):
        msg.mx("example.com", 300, i, f"mail{i}.example.com")
    for i in range(20):
        msg.rrsig("example.com", 300, (15, 13, 2, 300, 1893456000 + i, 1890777600, 4660 + i), "example.com", 64)
    return msg


def query():
    """A query with an OPT record of three options: NSID, a cookie, and padding."""
    msg = Message(0x0DD5, 0x0100, (1, 0, 0, 1))
    msg.question("www.example.com", 1)
    options = b"".join(struct.pack(">HH", code, size) + bytes(size) for code, size in ((3, 0), (10, 8), (12, 24)))
    msg.octets += ROOT + struct.pack(">HHIH", 41, 1232, 0x8000, len(options)) + options
    return msg


def chain(broken, count=32, tops=1):
    """Owners of 127 labels. Each label but the last two is followed by a pointer.

    An owner has 126 pointers, which most libraries accept. The chain
    of labels is in the RDATA of a record of an unknown type.
    With two tops, every other owner begins at the second label.
    """
    msg = Message(0xBAD, 0x8180, (1, 1 + count, 0, 1 if broken else 0))
    msg.question("example.com", 1)
    msg.head("example.com", 65280, 60)
    msg.octets += struct.pack(">H", 5 + 4 * 125)
    places = [len(msg.octets)]
    msg.octets += b"\x01a\x01a\0"
    for _ in range(125):
        msg.octets += b"\x01a" + struct.pack(">H", 0xC000 | places[-1])
        places.append(len(msg.octets) - 4)
    msg.sum += 5 + 4 * 125
    for i in range(count):
        less = i % tops
        top = places[-1 - less]
        msg.octets += struct.pack(">HHHIHI", 0xC000 | top, 1, 1, 60, 4, 0x0A090800 + i)
        msg.sum += 127 - less + 255 - 2 * less + 1 + 1 + 60 + 0x0A090800 + i
    if broken:
        here = len(msg.octets)
        msg.octets += struct.pack(">HHHIH4B", 0xC000 | here, 1, 1, 60, 4, 1, 2, 3, 4)
    return msg


def pointers():
    """Owners of one label, through some 8,000 pointers of which each leads to the one before it.

    The pointers are in the RDATA of a record of an unknown type. Every other owner begins at the last but one.
    """
    count = 3071
    msg = Message(0xBAD2, 0x8180, (1, 1 + count, 0, 0))
    msg.question("example.com", 1)
    msg.head("example.com", 65280, 60)
    label = len(msg.octets) + 2
    tops = range(label + 3, 0x4000, 2)
    msg.octets += struct.pack(">H", 3 + 2 * len(tops)) + b"\x01a\0"
    for place in (label, *tops[:-1]):
        msg.octets += struct.pack(">H", 0xC000 | place)
    for i in range(count):
        msg.octets += struct.pack(">HHHIHI", 0xC000 | tops[-1 - i % 2], 1, 1, 60, 4, i)
    return msg


def garbage(count):
    """Random octets after a header with small counts."""
    seed = 20261122

    def octet():
        nonlocal seed
        seed = (seed * 6364136223846793005 + 1442695040888963407) % (1 << 64)
        return seed >> 56

    for i in range(count):
        head = struct.pack(">6H", i, 0x8180, 1, i % 4, 0, 0)
        tail = bytes(octet() for _ in range(60 + octet()))
        if i % 4:
            # Three of four have a well-formed question and up to three well-formed records before the random octets.
            head += name("example.com") + struct.pack(">HH", 1, 1)
            for _ in range(1 + octet() % 3):
                data = bytes(octet() for _ in range(octet() % 64))
                head += struct.pack(">HHHIH", 0xC00C, 65300, 1, octet(), len(data)) + data
        yield head + tail


def main():
    def line(label, total, octets):
        print(label, total, bytes(octets).hex())

    for label, msg in (("w1", response()), ("w2", larger()), ("w3", response()), ("w4", zone(500))):
        line(label, msg.sum, msg.octets)
    line("m40", mail().sum, mail().octets)
    line("q1", "?", query().octets)
    line("x1", apex().sum, apex().octets)
    line("x2500", zone(2500).sum, zone(2500).octets)
    line("w5a", chain(False).sum, chain(False).octets)
    line("w5b", "-", chain(True).octets)
    for octets in garbage(64):
        line("w5c", "?", octets)
    for count in (10, 100, 1000, 10000):
        line(f"n{count}", addresses(count).sum, addresses(count).octets)
    # Three messages of 64 KiB.
    for label, msg in (("f64", addresses(4093)), ("h64", chain(False, 4061)), ("h64b", chain(False, 4061, 2))):
        assert 65536 - 32 < len(msg.octets) < 65536, len(msg.octets)
        line(label, msg.sum, msg.octets)
    line("p64", "?", pointers().octets)
    for count in (1, 2, 5, 10, 20, 50, 100, 200, 500):
        line(f"z{count}", zone(count).sum, zone(count).octets)


if __name__ == "__main__":
    main()
