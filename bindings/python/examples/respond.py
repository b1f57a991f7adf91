"""Answers queries as a name server does over UDP: reads them from standard input, in hexadecimal, one a line, and prints the
responses. A question for AAAA gets 20 addresses. If these don't fit, the response has none of them, and TC is set. A line that
isn't in hexadecimal is reported on standard error, and then the exit status is 1."""

import sys
from binascii import unhexlify
from ipaddress import IPv6Address
from typing import Optional

from dnsm import Builder, Class, Edns, Error, Flag, Message, NoRoom, Section, Type

ADDRESSES = [(IPv6Address("2001:db8::") + n).packed for n in range(1, 21)]
# The octets of a message for a client without EDNS, and of the longest message.
PLAIN_LIMIT, MOST = 512, 1232
EDNS = Edns(udp_size=MOST)


def put_answers(builder: Builder, name: bytes) -> None:
    """Puts the addresses, or none of them with TC."""
    mark = builder.mark()
    try:
        for address in ADDRESSES:
            builder.put(Section.ANSWER, name, Type.AAAA, Class.IN, 300, address)
    except NoRoom:
        builder.rewind(mark)
        builder.flags |= Flag.TC


def respond(query: Message) -> Optional[bytes]:
    """The response to a query (opcode 0) with one question."""
    if Flag.QR in query.flags or query.opcode != 0 or query.counts[Section.QUESTION] != 1:
        return None
    (question, *_), edns = query, query.edns()
    limit = min(max(edns.udp_size, PLAIN_LIMIT), MOST) if edns else PLAIN_LIMIT
    builder = Builder(query.id, Flag.QR | Flag.AA | query.flags & Flag.RD, limit=limit)
    builder.put(Section.QUESTION, question.name_octets, question.type, question.class_)
    builder.reserved = EDNS.length() if edns else 0
    if (question.type, question.class_) == (Type.AAAA, Class.IN):
        put_answers(builder, question.name_octets)
    builder.reserved = 0
    if edns:
        builder.put_edns(EDNS)
    return builder.finish()


def answer(octets: bytes) -> str:
    """The response in hexadecimal, or that there is none."""
    try:
        response = respond(Message.from_wire(octets))
    except Error:
        response = None
    return response.hex() if response else "ignored"


failed = False
for number, line in enumerate(sys.stdin.buffer, 1):
    try:
        octets = unhexlify(line.rstrip(b"\n"))
    except ValueError:
        print(f"line {number}: not two hexadecimal digits for each octet", file=sys.stderr)
        failed = True
    else:
        print(answer(octets))
sys.exit(failed)
