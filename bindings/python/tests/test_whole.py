"""All fields of a message, and all reasons for an error. The octets are by hand (RFC 1035 section 4.1, RFC 6891 section 6.1)."""

import unittest

import dnsm
from dnsm import Builder, Class, Edns, Flag, Message, NewRecord, Opcode, Option, Rcode, Section, Status, Type, build

# A message with an item in each section. It has opcode 5, rcode 3 and the flags QR, AA, AD and CD.
WHOLE = bytes.fromhex(
    "1234ac330001000100010002"
    "076578616d706c650000ff0003"
    "c00c000f0001000102030007000a026d78c00c"
    "c00c0006000300001c200020026e73c00c04686f7374c00c0000000100000002000000030000000400000005"
    "c038000100010000012c0004c0000201"
    "000029100001028001000a00030000000a0002abcd"
)
MX = b"\0\x0a\2mx\7example\0"
SOA = b"\2ns\7example\0\4host\7example\0" + bytes.fromhex("0000000100000002000000030000000400000005")
ADDRESS = bytes([192, 0, 2, 1])
EDNS = Edns(4096, True, (Option(3), Option(10, b"\xab\xcd")), 2, 1, 1)
TEXTS = [
    "example. CH ANY",
    "example. 66051 IN MX 10 mx.example.",
    "example. 7200 CH SOA ns.example. host.example. 1 2 3 4 5",
    "ns.example. 300 IN A 192.0.2.1",
    ". 16941057 CLASS4096 OPT \\# 10 00030000000a0002abcd",
]


def texts(items):
    return [str(item) for item in items]


class Reading(unittest.TestCase):
    def test_the_header(self):
        message = Message.from_wire(WHOLE)
        self.assertEqual((message.id, message.header_flags, message.counts), (0x1234, 0xAC33, (1, 1, 1, 2)))
        self.assertEqual((message.opcode, message.rcode), (Opcode.UPDATE, Rcode.NXDOMAIN))
        self.assertEqual(message.flags, Flag.QR | Flag.AA | Flag.AD | Flag.CD)
        self.assertEqual((message.to_wire(), bytes(message)), (WHOLE, WHOLE))
        for flag in Flag:
            self.assertEqual(Message.from_wire(bytes(2) + flag.to_bytes(2, "big") + bytes(8)).flags, flag)

    def test_the_items(self):
        message = Message.from_wire(WHOLE)
        question, *records = message
        self.assertEqual((question.section, question.type, question.class_, question.offset), (0, 255, 3, 12))
        fields = [(it.section, it.type, it.class_, it.ttl, it.offset, it.data_offset) for it in records]
        self.assertEqual(
            fields,
            [(1, 15, 1, 66051, 25, 37), (2, 6, 3, 7200, 44, 56), (3, 1, 1, 300, 88, 100), (3, 41, 4096, 16941057, 104, 115)],
        )
        self.assertEqual(records[0].data, WHOLE[37:44])
        self.assertEqual(records[2].name_octets, b"\2ns\7example\0")
        self.assertEqual(texts(message), TEXTS)
        self.assertEqual(texts(message.questions), TEXTS[:1])
        self.assertEqual(texts(message.records), TEXTS[1:])
        self.assertEqual(texts(message.answer), TEXTS[1:2])
        self.assertEqual(texts(message.authority), TEXTS[2:3])
        self.assertEqual(texts(message.additional), TEXTS[3:])
        sections = ["question", "answer", "authority", "additional", "additional"]
        lines = ["id 4660 flags ac33"] + [f"{section} {text}" for section, text in zip(sections, TEXTS)]
        self.assertEqual(message.to_text(), "\n".join(lines))

    def test_items_before_an_error(self):
        message = Message.from_wire(WHOLE[:103])
        for items, wanted in ((message.questions, TEXTS[:1]), (message.answer, TEXTS[1:2]), (message.authority, TEXTS[2:3])):
            self.assertEqual(texts(items), wanted)
        for items in (message.additional, message.records, message):
            self.assertRaises(dnsm.MalformedMessage, texts, items)
        self.assertRaises(dnsm.MalformedMessage, message.edns)
        lines = ["answer " + TEXTS[1], "authority " + TEXTS[2], "error an octet that is needed is past the end of the message"]
        self.assertEqual(message.to_text().splitlines()[2:], lines)

    def test_names_in_rdata(self):
        mx, soa, address, _ = Message.from_wire(WHOLE).records
        self.assertEqual((mx.data_name(), mx.data_name(0)), ("mx.example.", "mx.example."))
        self.assertEqual((soa.data_name(), soa.data_name(1)), ("ns.example.", "host.example."))
        for record, index in ((mx, 1), (soa, 2), (address, 0)):
            with self.assertRaises(dnsm.DataError) as raised:
                record.data_name(index)
            self.assertEqual(raised.exception.status, Status.NO_NAME)
        self.assertEqual(dnsm.name_to_text(WHOLE, 61), "host.example.")

    def test_the_opt_record(self):
        message = Message.from_wire(WHOLE)
        self.assertEqual(message.edns(), EDNS)
        self.assertEqual(message.extended_rcode(), 19)
        self.assertEqual((EDNS.option(10), EDNS.option(11)), (Option(10, b"\xab\xcd"), None))
        twice = Edns(options=(Option(1, b"a"), Option(10, b"b"), Option(10, b"c"), Option(3, b"d")))
        self.assertEqual(twice.option(10), Option(10, b"b"))
        # An extended rcode of more than eight bits.
        high = Message.from_wire(WHOLE[:109] + b"\x12" + WHOLE[110:])
        self.assertEqual((high.edns().rcode_high, high.extended_rcode()), (0x12, 0x123))
        self.assertEqual(Message.from_wire(build(0, edns=Edns(rcode_high=0x12), rcode=3)).extended_rcode(), 0x123)
        plain = Message.from_wire(WHOLE[:111] + b"\0" + WHOLE[112:])
        self.assertEqual((plain.edns().dnssec_ok, plain.edns().flags), (False, 1))
        # The first of two, in the additional section only.
        records = [NewRecord(".", Type.OPT, b"", 0, size) for size in (1, 2, 3)]
        message = Message.from_wire(build(1, answer=records[:1], additional=records[1:]))
        self.assertEqual(message.edns().udp_size, 2)
        message = Message.from_wire(build(1, answer=records[:1], rcode=3))
        self.assertEqual((message.edns(), message.extended_rcode()), (None, 3))


    def test_long_data(self):
        data = bytes(number % 251 for number in range(65535))
        record = next(Message.from_wire(build(1, answer=[NewRecord(".", 65280, data)])).records)
        self.assertEqual(record.data, data)


class Writing(unittest.TestCase):
    def test_all_fields(self):
        flags = Flag.QR | Flag.AA | Flag.AD | Flag.CD
        answer = NewRecord("example", Type.MX, MX, 0x10203)
        authority = NewRecord("example", Type.SOA, SOA, 7200, Class.CH)
        additional = NewRecord("ns.example", Type.A, ADDRESS, 300)
        sections = {"answer": [answer], "authority": [authority], "additional": [additional]}
        questions = [("example", Type.ANY, Class.CH)]
        self.assertEqual(build(0x1234, flags, questions=questions, edns=EDNS, opcode=5, rcode=3, **sections), WHOLE)
        builder = Builder(0x1234, flags | 5 << 11 | 3)
        builder.put(Section.QUESTION, "example", Type.ANY, Class.CH)
        for section, it in enumerate((answer, authority, additional), 1):
            builder.put(section, it.name, it.type, it.class_, it.ttl, it.data)
        builder.put_edns(EDNS)
        self.assertEqual((builder.finish(), len(builder), builder.flags), (WHOLE, 125, 0xAC33))

    def test_an_opt_record(self):
        self.assertEqual((EDNS.ttl(), EDNS.data(), EDNS.length()), (0x01028001, WHOLE[115:], 21))
        self.assertEqual(build(0, edns=Edns())[12:], bytes.fromhex("00002904d0000000000000"))
        self.assertEqual(build(0, edns=EDNS, rcode=0x123)[3], 3)
        self.assertEqual(build(0, edns=EDNS, rcode=0x123)[17:21], bytes.fromhex("12028001"))
        for wrong in ({"udp_size": 65536}, {"flags": 0x8000}, {"rcode_high": 256}, {"version": 256}):
            self.assertRaises(ValueError, Edns(**wrong).ttl)
        self.assertRaises(ValueError, Option(65536).to_wire)
        self.assertRaises(dnsm.TooLong, Option(1, bytes(65536)).to_wire)

    def test_queries(self):
        asked = bytes.fromhex("010200000001000000000000016101620000")
        self.assertEqual(dnsm.query("a.b", Type.MX, Class.CH, id=0x102, recursion=False), asked + b"\x0f\0\3")
        asked = bytes.fromhex("01020100000100000000000001610162000001")
        self.assertEqual(dnsm.query("a.b", id=0x102), asked + b"\0\1")
        with_edns = dnsm.query("a.b", id=0x102, edns=Edns(512, True))
        self.assertEqual(with_edns, asked[:11] + b"\1" + asked[12:] + bytes.fromhex("0001000029020000008000" "0000"))
        with_edns = dnsm.query("a.b", Type.MX, Class.CH, id=0x102, recursion=False, edns=EDNS)
        question = bytes.fromhex("016101620000" "0f0003")
        self.assertEqual(with_edns, bytes.fromhex("01020000" "0001000000000001") + question + WHOLE[104:])
        self.assertRaises(dnsm.TooLong, dnsm.query, "a.b", id=1, edns=Edns(options=(Option(1, bytes(65532)),)))
        self.assertEqual(build(0x102, Flag.RD, questions=["a.b"]), asked + b"\0\1")
        self.assertEqual(build(0x102, Flag.RD, questions=[("a.b", Type.A)]), asked + b"\0\1")
        for authoritative, flags in ((True, "8500"), (False, "8100")):
            response = dnsm.respond_a(asked + b"\0\1", bytes([192, 0, 2, 9]), 0x1020304, authoritative=authoritative)
            head = bytes.fromhex("0102" + flags + "0001000100000000")
            self.assertEqual(response, head + asked[12:] + bytes.fromhex("0001c00c00010001010203040004c0000209"))
        self.assertEqual(dnsm.respond_a(asked + b"\0\1", ADDRESS, 60)[2:4], b"\x81\0")

    def test_a_long_limit(self):
        builder, data = Builder(1, limit=1500), bytes(1477)
        self.assertRaises(dnsm.NoRoom, builder.put, Section.ANSWER, ".", 65280, 1, 0, bytes(1478))
        builder.put(Section.ANSWER, ".", 65280, Class.IN, 0, data)
        self.assertEqual((len(builder), len(builder.finish())), (1500, 1500))
        self.assertRaises(ValueError, Builder, 1, limit=-1500)
        builder = Builder(1)
        builder.put(Section.ANSWER, ".", 65280, Class.IN, 0, bytes(65512))
        self.assertEqual(len(builder), 65535)
        self.assertRaises(dnsm.NoRoom, builder.put, Section.ANSWER, ".", 65280)

    def test_a_rewind_restores_reserved_octets(self):
        builder = Builder(1, limit=17)
        builder.reserved = 1
        mark = builder.mark()
        builder.reserved = 0
        builder.rewind(mark)
        self.assertEqual(builder.reserved, 1)
        self.assertRaises(dnsm.NoRoom, builder.put, Section.QUESTION, ".", Type.A)

    def test_the_empty_text_is_no_name(self):
        for call in (
            lambda: dnsm.query("", id=1),
            lambda: dnsm.query("", id=1, edns=EDNS),
            lambda: build(1, questions=[""]),
            lambda: build(1, answer=[NewRecord("", Type.A, ADDRESS)]),
            lambda: Builder(1).put(Section.QUESTION, "", Type.A),
        ):
            with self.assertRaises(dnsm.NameTextError) as raised:
                call()
            self.assertEqual(raised.exception.status, Status.BAD_TEXT)

    def test_a_name_in_octets_is_whole(self):
        for name, error in (
            (b"\0x", dnsm.NameTextError),
            (b"\1a\0\0", dnsm.NameTextError),
            (b"\2\0b\xc0\1", dnsm.NameTextError),
            (memoryview(b"\0\0"), dnsm.NameTextError),
            (b"", dnsm.MalformedMessage),
            (b"\1a", dnsm.MalformedMessage),
            (b"\x40", dnsm.MalformedMessage),
        ):
            self.assertRaises(error, build, 1, questions=[name])
            self.assertRaises(error, build, 1, answer=[NewRecord(name, Type.A, ADDRESS)])
            self.assertRaises(dnsm.NameTextError, Builder(1).put, Section.QUESTION, name, Type.A)


def question(octets):
    """A message of one question with these octets."""
    return Message.from_wire(bytes(5) + b"\1" + bytes(6) + octets)


def answering(head, octets):
    return lambda: dnsm.respond_a(head + bytes(6) + octets, ADDRESS, 0)


def putting(*records):
    builder = Builder(1, limit=64)
    for section, type_, data in records:
        builder.put(section, ".", type_, Class.IN, 0, data)


class Errors(unittest.TestCase):
    def test_each_has_its_class_and_its_number(self):
        address = list(Message.from_wire(WHOLE).records)[2]
        no_option = Message.from_wire(WHOLE[:122] + b"\3" + WHOLE[123:])
        one, wrong_class = bytes.fromhex("0000010001"), bytes.fromhex("0000010003")
        for status, kind, call in (
            (2, dnsm.MalformedMessage, lambda: Message.from_wire(bytes(11))),
            (3, dnsm.MalformedMessage, lambda: list(question(b"\x40" + one))),
            (4, dnsm.MalformedMessage, lambda: list(question(b"\xc0\x0c" + one))),
            (5, dnsm.MalformedMessage, lambda: list(question(b"?" * 256 + one))),
            (7, dnsm.NoRoom, lambda: putting((1, 65280, bytes(64)))),
            (8, dnsm.NameTextError, lambda: dnsm.name_from_text("a..b")),
            (9, dnsm.NotAnswerable, answering(bytes(6), b"")),
            (10, dnsm.Error, lambda: putting((1, 1, ADDRESS), (0, 1, b""))),
            (12, dnsm.TooLong, lambda: putting((1, 1, bytes(65536)))),
            (13, dnsm.TooLong, lambda: build(1, questions=["."] * 65536)),
            (14, dnsm.NotAnswerable, answering(b"\0\0\x80\0\0\1", one)),
            (15, dnsm.NotAnswerable, answering(b"\0\0\x08\0\0\1", one)),
            (16, dnsm.NotAnswerable, answering(b"\0\0\0\0\0\1", wrong_class)),
            (17, dnsm.NotAnswerable, answering(b"\0\0\0\0\0\1", bytes.fromhex("0000020001"))),
            (18, dnsm.Error, address.edns),
            (19, dnsm.MalformedMessage, no_option.edns),
            (20, dnsm.DataError, address.data_name),
            (21, dnsm.DataError, lambda: putting((1, Type.MX, bytes(4)))),
        ):
            with self.assertRaises(dnsm.Error) as raised:
                call()
            self.assertEqual((type(raised.exception), raised.exception.status), (kind, status))

    def test_all_have_a_class(self):
        kinds = {
            dnsm.MalformedMessage: (2, 3, 4, 5, 6, 19),
            dnsm.NoRoom: (7,),
            dnsm.NameTextError: (8,),
            dnsm.NotAnswerable: (9, 14, 15, 16, 17),
            dnsm.TooLong: (12, 13),
            dnsm.DataError: (20, 21),
            dnsm.Error: (10, 18),
            MemoryError: (11,),
        }
        for kind, statuses in kinds.items():
            for status in statuses:
                self.assertIs(type(dnsm._errors.error_of(status, "text")), kind, status)

    def test_those_of_a_later_version(self):
        error = dnsm._errors.error_of(99, "text")
        self.assertEqual((type(error), error.status, str(error)), (dnsm.Error, 99, "text"))
        self.assertIs(type(dnsm._errors.error_of(Status.NO_MEMORY, "text")), MemoryError)


class Numbers(unittest.TestCase):
    def test_they_are_registered(self):
        """As IANA has them in the registry of DNS parameters."""
        opcodes = {"QUERY": 0, "IQUERY": 1, "STATUS": 2, "NOTIFY": 4, "UPDATE": 5, "DSO": 6}
        self.assertEqual({it.name: it.value for it in Opcode}, opcodes)
        rcodes = {
            "NOERROR": 0,
            "FORMERR": 1,
            "SERVFAIL": 2,
            "NXDOMAIN": 3,
            "NOTIMP": 4,
            "REFUSED": 5,
            "YXDOMAIN": 6,
            "YXRRSET": 7,
            "NXRRSET": 8,
            "NOTAUTH": 9,
            "NOTZONE": 10,
            "DSOTYPENI": 11,
            "BADVERS": 16,
            "BADKEY": 17,
            "BADTIME": 18,
            "BADMODE": 19,
            "BADNAME": 20,
            "BADALG": 21,
            "BADTRUNC": 22,
            "BADCOOKIE": 23,
        }
        self.assertEqual({it.name: it.value for it in Rcode}, rcodes)


if __name__ == "__main__":
    unittest.main()
