"""What servers and forwarders use of the package."""

import copy
import struct
import unittest

from dnsm import (
    Builder,
    DataError,
    Edns,
    Field,
    FieldKind,
    Flag,
    MalformedMessage,
    Message,
    NameTextError,
    NewRecord,
    NoRoom,
    NotAnswerable,
    Option,
    OptionCode,
    Rcode,
    Reply,
    ReplyKind,
    Section,
    Status,
    StepKind,
    Transfer,
    TransferError,
    TransferState,
    Type,
    build,
    compare_names,
    data_from_text,
    first_message,
    library_version,
    missing_octets,
    name_end,
    name_from_text,
    name_hash,
    name_is_below,
    name_key,
    name_to_octets,
    name_to_text,
    names_are_equal,
    opcode_text,
    option_text,
    query,
    rcode_text,
    record_from_text,
)

# A response with rcode 0, and an OPT record with the upper bits 1 of the rcode: 16 is BADVERS (RFC 6891 section 9).
OPT = bytes.fromhex("000029 04d0 01000000 0000")
BAD_VERSION = bytes.fromhex("000780000000000000000001") + OPT

# A response for example.org: MX with a pointer in its RDATA, SRV, and MINFO with two pointers.
RESPONSE = bytes.fromhex(
    "123485800001000300000000 076578616d706c65036f726700 000f0001"
    "c00c 000f0001 00000e10 0009 000a 046d61696c c00c"
    "c00c 00210001 00000007 0009 000100020003 017800"
    "c00c 000e0001 00000007 0006 0161c00c c02b"
)

# Names in fields of octets: IPSECKEY has a gateway (RFC 4025), AMTRELAY a relay (RFC 8777), and HIP two servers (RFC 8005).
NAMES_IN_OCTETS = bytes.fromhex(
    "000080000000000300000000"
    "00 002d0001 00000000 0007 0a0302 016100 01"
    "00 01040001 00000000 0005 0a03 016200"
    "00 00370001 00000000 000f 0205 0003 2001 6b6579 016300 016400"
)


class Records(unittest.TestCase):
    def setUp(self) -> None:
        self.mx, self.srv, self.minfo = Message(RESPONSE).records

    def test_data(self) -> None:
        self.assertEqual(self.mx.data_octets(), b"\0\x0a" + name_from_text("mail.example.org"))
        self.assertEqual(self.minfo.data_octets(), name_from_text("a.example.org") + name_from_text("mail.example.org"))
        self.assertTrue(self.mx.has_data())

    def test_names(self) -> None:
        self.assertEqual(self.mx.data_name(), "mail.example.org.")
        self.assertEqual([self.minfo.data_name(index) for index in (0, 1)], ["a.example.org.", "mail.example.org."])
        self.assertRaises(DataError, self.minfo.data_name, 2)
        self.assertEqual(self.minfo.data_name_octets(), name_from_text("a.example.org"))
        self.assertEqual(self.minfo.data_name_octets(1), name_from_text("mail.example.org"))
        self.assertRaises(DataError, self.minfo.data_name_octets, 2)
        self.assertEqual([self.mx.data_name_offset(), *map(self.minfo.data_name_offset, (0, 1))], [43, 83, 87])
        self.assertEqual(name_to_text(RESPONSE, self.minfo.data_name_offset(1)), "mail.example.org.")
        self.assertEqual(name_to_octets(RESPONSE, 43), name_from_text("mail.example.org"))
        self.assertRaises(MalformedMessage, name_to_octets, RESPONSE, len(RESPONSE))
        self.assertRaises(DataError, self.minfo.data_name_offset, 2)
        self.assertEqual(name_end(RESPONSE, self.mx.offset), self.mx.offset + 2)
        self.assertEqual(name_end(RESPONSE, self.mx.data_offset + 2), self.mx.data_offset + 9)
        self.assertRaises(MalformedMessage, name_end, RESPONSE, len(RESPONSE))

    def test_names_in_octets(self) -> None:
        gateway, relay, servers = Message(NAMES_IN_OCTETS).records
        self.assertEqual([gateway.data_name(), relay.data_name()], ["a.", "b."])
        self.assertEqual([servers.data_name(index) for index in (0, 1)], ["c.", "d."])
        for record, count in ((gateway, 1), (relay, 1), (servers, 2)):
            self.assertRaises(DataError, record.data_name, count)

    def test_fields(self) -> None:
        numbers = [Field(FieldKind.NUMBER, number) for number in (1, 2, 3)]
        self.assertEqual(list(self.srv.fields()), [*numbers, Field(FieldKind.NAME, "x.")])

    def test_fields_of_octets(self) -> None:
        """RFC 1035 section 3.4.1, RFC 3596 section 2.2, RFC 8659 section 4.1, RFC 4034 section 3.1."""
        address, rrsig = b"0123456789abcdef", b"\0\x0f" + bytes(17) + b"sig"
        data = ((Type.A, address[:4]), (Type.AAAA, address), (Type.CAA, b"\0\5issuea"), (Type.RRSIG, rrsig))
        message = Message(build(1, answer=[NewRecord(".", *it) for it in data]))
        a, aaaa, caa, signature = (list(record.fields()) for record in message.answer)
        self.assertEqual((a, aaaa), ([Field(FieldKind.IPV4, address[:4])], [Field(FieldKind.IPV6, address)]))
        number = Field(FieldKind.NUMBER, 0)
        self.assertEqual(caa, [number, Field(FieldKind.STRING, b"issue"), Field(FieldKind.OCTETS, b"a")])
        name, octets = Field(FieldKind.NAME, "."), Field(FieldKind.OCTETS, b"sig")
        self.assertEqual(signature, [Field(FieldKind.TYPE, Type.MX), *[number] * 6, name, octets])

    def test_malformed(self) -> None:
        octets = bytes.fromhex("000080000000000100000000" + "00" + "00010001" + "00000007" + "0003" + "010203")
        (record,) = Message(octets).records
        self.assertFalse(record.has_data())
        self.assertRaises(DataError, record.data_octets)
        self.assertRaises(DataError, next, record.fields())


class Names(unittest.TestCase):
    def test_comparisons(self) -> None:
        self.assertTrue(names_are_equal("www.Example", b"\3WWW\7example\0"))
        self.assertFalse(names_are_equal("www.example", "wwv.example"))
        self.assertTrue(name_is_below("a.b.EXAMPLE", "b.example"))
        self.assertFalse(name_is_below("b.example", "a.b.example"))
        self.assertRaises(NameTextError, names_are_equal, "a..b", "a")

    def test_hashes(self) -> None:
        seed = bytes(range(16))
        self.assertEqual(name_hash("www.Example", seed), name_hash(b"\3WWW\7example\0", memoryview(seed)))
        self.assertNotEqual(name_hash("www.example", seed), name_hash("www.example", seed[:15] + b"\0"))
        self.assertNotEqual(name_hash("www.example", seed), name_hash("wwv.example", seed))

    def test_orders(self) -> None:
        """RFC 4034 section 6.1."""
        names = ["example", "a.example", "yljkjljk.a.example", "Z.a.example", "zABC.a.EXAMPLE", "z.example", "\\001.z.example"]
        for first, second in zip(names, names[1:]):
            self.assertEqual((compare_names(first, second), compare_names(second, first)), (-1, 1))
        self.assertEqual(compare_names("a.Example", "A.example."), 0)

    def test_keys(self) -> None:
        """RFC 4034 section 6.1."""
        names = ["example", "a.example", "yljkjljk.a.example", "Z.a.example", "zABC.a.EXAMPLE", "z.example", "\\001.z.example"]
        self.assertEqual(sorted(names, key=name_key), names)


class Settings(unittest.TestCase):
    def test_unchecked(self) -> None:
        """SRV isn't of RFC 1035, and MX is."""
        builder = Builder(1)
        self.assertFalse(builder.unchecked)
        self.assertRaises(DataError, builder.put, Section.ANSWER, "a", Type.SRV, data=b"\0")
        builder.unchecked = True
        builder.put(Section.ANSWER, "a", Type.SRV, data=b"\0")
        self.assertTrue(builder.unchecked)
        self.assertRaises(DataError, builder.put, Section.ANSWER, "a", Type.MX, data=b"\0")
        builder.unchecked = False
        self.assertFalse(builder.unchecked)
        self.assertRaises(DataError, builder.put, Section.ANSWER, "a", Type.SRV, data=b"\0")

    def test_id(self) -> None:
        builder = Builder(1)
        builder.id = 0x1234
        self.assertEqual((builder.id, builder.finish()[:2]), (0x1234, b"\x12\x34"))
        with self.assertRaises(ValueError):
            builder.id = 65536

    def test_limit(self) -> None:
        self.assertEqual(Builder.response(query("a", id=1), limit=100).limit, 100)
        builder = Builder(1, limit=100)
        self.assertEqual(builder.limit, 100)
        builder.limit = 16
        self.assertEqual(builder.limit, 16)
        self.assertRaises(NoRoom, builder.put, Section.QUESTION, ".", Type.A)
        builder.limit = 17
        builder.put(Section.QUESTION, ".", Type.A)
        builder.limit = 1000
        self.assertEqual(builder.limit, 100)
        self.assertRaises(NoRoom, builder.put, Section.ANSWER, ".", 65280, data=bytes(73))
        builder.put(Section.ANSWER, ".", 65280, data=bytes(72))
        self.assertEqual(len(builder), 100)


class Endings(unittest.TestCase):
    def test_trailing(self) -> None:
        self.assertEqual(Message(RESPONSE + b"more").trailing(), b"more")
        self.assertEqual((Message(RESPONSE).trailing(), Message(bytes(12)).trailing()), (b"", b""))
        self.assertRaises(MalformedMessage, Message(RESPONSE[:-1]).trailing)

    def test_options_before_an_error(self) -> None:
        message = Message(bytes.fromhex("000000070000000000000001 000029 04d0 12038001 0009 0003 0001 6e 000a0008"))
        (record,) = message.additional
        options, wanted = record.options(), Option(OptionCode.NSID, b"n")
        self.assertEqual(next(options), wanted)
        self.assertRaises(MalformedMessage, next, options)
        for read in (record.edns, message.edns, message.find_opt):
            with self.assertRaises(MalformedMessage) as raised:
                read()
            for error in (raised.exception, copy.copy(raised.exception)):
                self.assertEqual((error.status, error.edns), (Status.BAD_OPTION, Edns(1232, True, (wanted,), 3, 0x12, 1)))
        self.assertEqual(message.extended_rcode(), 0x127)
        with self.assertRaises(MalformedMessage) as raised:
            Message(b"")
        self.assertIsNone(raised.exception.edns)


class Responses(unittest.TestCase):
    def test_answers(self) -> None:
        asked = query("Example.org", Type.MX, id=0x1234)
        self.assertTrue(Message(RESPONSE).answers(asked))
        self.assertFalse(Message(RESPONSE).answers(query("example.org", Type.MX, id=1)))
        self.assertFalse(Message(asked).answers(asked))

    def test_copies(self) -> None:
        builder = Builder.response(query("example.org", Type.MX, id=7))
        for record in Message(RESPONSE).records:
            builder.put_from(record, Section.ANSWER, 5)
        made = Message(builder.finish())
        self.assertEqual((made.id, made.header_flags, made.counts), (7, 0x8100, (1, 3, 0, 0)))
        self.assertEqual([record.data_octets() for record in made.records], [it.data_octets() for it in Message(RESPONSE).records])
        self.assertEqual({record.ttl for record in made.records}, {5})

    def test_refused(self) -> None:
        self.assertRaises(NotAnswerable, Builder.response, RESPONSE)
        self.assertRaises(NotAnswerable, Builder.response, build(1))
        self.assertEqual(Builder.response(query("a", id=1), 3).flags, Flag.QR | Flag.RD | 3)

    def test_any_query(self) -> None:
        """RFC 6891 sections 6.1.1, 6.1.3 and 6.2.3: the rcode, and what the OPT record says."""
        asked = query("example.org", Type.MX, id=7)
        for opts, wanted, rcode, edns in (
            ((), 3, 3, None),
            (((0, 0),), 5, 5, Edns(512, True)),
            (((4096, 0),), 23, 23, Edns(4096, True, rcode_high=1)),
            (((4096, 1),), 5, 16, Edns(4096, True, rcode_high=1)),
            (((4096, 0), (512, 0)), 5, 1, Edns(4096, True)),
        ):
            octets = asked[:11] + bytes([len(opts)]) + asked[12:]
            octets += b"".join(b"\0" + struct.pack(">HHBBHH", 41, size, 0, version, 0x8000, 0) for size, version in opts)
            builder, said, answer = Builder.respond(octets, wanted, limit=40)
            self.assertEqual((said, answer, builder.flags), (rcode, edns, Flag.QR | Flag.RD | rcode & 15))
            self.assertEqual((len(builder), builder.reserved), (29, 11 if opts else 0))
            if answer is not None:
                self.assertRaises(NoRoom, builder.put_edns, answer)
                builder.reserved = 0
                builder.put_edns(answer)
                self.assertEqual(Message(builder.finish()).extended_rcode(), rcode)
        builder, said, answer = Builder.respond(asked[:28], 5)
        self.assertEqual((len(builder), said, answer), (12, 1, None))
        self.assertRaises(NotAnswerable, Builder.respond, RESPONSE)
        self.assertRaises(MalformedMessage, Builder.respond, asked[:11])
        self.assertRaises(ValueError, Builder.respond, asked, 4096)

    def test_sets(self) -> None:
        """RFC 2181 sections 5 and 9."""
        builder = Builder(7, Flag.QR, limit=55)
        records = [NewRecord("example.org", Type.A, bytes([192, 0, 2, last]), 300) for last in (1, 2)]
        builder.limit = 54
        self.assertFalse(builder.put_set(Section.ANSWER, records, required=False))
        self.assertRaises(DataError, builder.put_set, Section.ANSWER, [NewRecord("a", Type.A, b"")], required=False)
        self.assertEqual((builder.flags, len(builder)), (Flag.QR, 12))
        self.assertFalse(builder.put_set(Section.ANSWER, records, required=True))
        self.assertEqual((builder.flags, len(builder)), (Flag.QR | Flag.TC, 12))
        self.assertFalse(builder.put_set(Section.ANSWER, records[:1], required=False))
        builder.limit, builder.flags = 55, Flag.QR
        self.assertTrue(builder.put_set(Section.ANSWER, records, required=True))
        self.assertEqual((builder.flags, len(builder)), (Flag.QR, 55))
        self.assertEqual([it.data_octets()[3] for it in Message(builder.finish()).records], [1, 2])


class Texts(unittest.TestCase):
    def test_data(self) -> None:
        self.assertEqual(data_from_text(Type.MX, "10 mail.example.org."), b"\0\x0a" + name_from_text("mail.example.org"))
        self.assertRaises(NameTextError, data_from_text, Type.MX, "10")

    def test_records(self) -> None:
        record = record_from_text("a.org. 7 IN MX 10 b.org.")
        self.assertEqual((record.section, record.ttl, record.to_text()), (Section.ANSWER, 7, "a.org. 7 IN MX 10 b.org."))
        builder = Builder(1, Flag.QR)
        builder.put_from(record)
        self.assertEqual([str(it) for it in Message(builder.finish()).answer], [str(record)])
        self.assertRaises(NameTextError, record_from_text, "a.org. 7 IN MX 10")

    def test_numbers(self) -> None:
        self.assertEqual((opcode_text(5), opcode_text(3)), ("Update", "OPCODE3"))
        self.assertEqual((rcode_text(3), rcode_text(4095)), ("NXDomain", "RCODE4095"))
        self.assertEqual((option_text(3), option_text(4)), ("NSID", "OPTION4"))


class Opts(unittest.TestCase):
    def test_found(self) -> None:
        found = Message(BAD_VERSION).find_opt()
        self.assertEqual((found.rcode, found.edns.udp_size, found.record.type), (16, 1232, Type.OPT))
        self.assertIsNone(Message(RESPONSE).find_opt())

    def test_refused(self) -> None:
        two = BAD_VERSION[:11] + b"\2" + OPT + OPT
        self.assertRaises(MalformedMessage, Message(two).find_opt)
        self.assertRaises(MalformedMessage, Message(BAD_VERSION[:12] + b"\1a" + OPT).find_opt)
        self.assertRaises(MalformedMessage, Message(BAD_VERSION[:-1]).find_opt)


class Replies(unittest.TestCase):
    """RFC 2308 sections 2.1, 2.2 and 5: the lesser of the SOA record's TTL and its MINIMUM, 600. RFC 6672 section 2.2."""

    def setUp(self) -> None:
        self.query = query("a.example", Type.A, id=9)

    def said(self, rcode: int, section: str, *record: object, **others: object) -> Reply:
        octets = build(9, Flag.QR, questions=[("a.example", Type.A)], rcode=rcode, **{section: [NewRecord(*record)]}, **others)
        return Message(octets).reply_to(self.query, "example")

    def test_each(self) -> None:
        address, soa = bytes([192, 0, 2, 1]), b"\2ns\0\1h\0" + bytes(18) + bytes([2, 88])
        a, example = "a.example.", "example."
        found = self.said(0, "answer", a, Type.A, address, 300)
        self.assertEqual(found, Reply(ReplyKind.ANSWER, 300, 0, 0, a, None, None))
        none = self.said(0, "authority", example, Type.SOA, soa, 900)
        self.assertEqual(none, Reply(ReplyKind.NO_DATA, 600, 0, 0, a, example, None))
        aliases = [NewRecord(a, Type.CNAME, name_from_text("b.example"), 60)]
        none = self.said(0, "authority", example, Type.SOA, soa, 900, answer=aliases)
        self.assertEqual(none, Reply(ReplyKind.NO_DATA, 600, 60, 0, "b.example.", example, None))
        none = self.said(Rcode.NXDOMAIN, "authority", example, Type.SOA, soa, 100)
        self.assertEqual(none, Reply(ReplyKind.NO_NAME, 100, 0, 0, a, example, None))
        redirected = self.said(0, "answer", example, Type.DNAME, name_from_text("b.other"), 50)
        self.assertEqual(redirected, Reply(ReplyKind.DNAME, 50, 0, 0, a, example, "b.other."))
        failed = self.said(Rcode.SERVFAIL, "answer", a, Type.A, address, 300)
        self.assertEqual(failed, Reply(ReplyKind.FAILED, 0, 0, 2, None, None, None))

    def test_none(self) -> None:
        self.assertIsNone(Message(self.query).reply_to(self.query))
        self.assertIsNone(Message(RESPONSE).reply_to(self.query))
        self.assertRaises(MalformedMessage, Message(RESPONSE).reply_to, self.query[:11])
        self.assertRaises(NameTextError, Message(RESPONSE).reply_to, self.query, b"")

    def test_cached(self) -> None:
        message, cut = Message(RESPONSE), Message(RESPONSE[:-1])
        self.assertEqual((message.is_regular(), message.min_ttl(), message.records_end()), (True, 7, len(RESPONSE)))
        self.assertEqual(Message(RESPONSE + b"x").records_end(), len(RESPONSE))
        self.assertFalse(cut.is_regular())
        self.assertRaises(MalformedMessage, cut.min_ttl)
        self.assertRaises(MalformedMessage, cut.records_end)
        self.assertIsNone(Message(self.query).min_ttl())

    def test_aged(self) -> None:
        message, wanted = Message(RESPONSE), bytearray(RESPONSE)
        wanted[35:39], wanted[59], wanted[80] = (3000).to_bytes(4, "big"), 0, 0
        self.assertEqual((message.aged(600).to_wire(), message.to_wire()), (bytes(wanted), RESPONSE))
        self.assertEqual([record.ttl for record in message.aged(600).records], [3000, 0, 0])
        self.assertEqual(message.aged(0).to_wire(), RESPONSE)
        self.assertRaises(MalformedMessage, Message(RESPONSE[:-1]).aged, 600)
        wanted[51] = 35
        with self.assertRaises(MalformedMessage) as raised:
            Message(wanted).aged(600)
        self.assertEqual(raised.exception.status, Status.BAD_POINTER)
        self.assertRaises(ValueError, message.aged, 1 << 32)


def soa(serial: int) -> bytes:
    """An SOA record of the root."""
    return b"\0" + struct.pack(">HHIH", Type.SOA, 1, 0, 22) + b"\0\0" + struct.pack(">5I", serial, 0, 0, 0, 0)


def transferred(qtype: int, *records: bytes, id: int = 4660, flags: int = 0x8400) -> bytes:
    """A message of a transfer of the root; without a question if the type is 0."""
    question = b"\0" + struct.pack(">HH", qtype, 1) if qtype else b""
    return struct.pack(">6H", id, flags, 1 if qtype else 0, len(records), 0, 0) + question + b"".join(records)


NS = b"\0" + struct.pack(">HHIH", Type.NS, 1, 300, 1) + b"\0"


class TransferTest(unittest.TestCase):
    """RFC 1035 section 4.2.2, RFC 5936 section 2.2, RFC 1995 sections 2 and 4."""

    def test_frames(self) -> None:
        stream = b"\0\x0c" + bytes(12) + b"\0"
        self.assertEqual((first_message(stream), missing_octets(stream)), (bytes(12), 0))
        self.assertEqual((first_message(stream[:13]), missing_octets(stream[:13]), missing_octets(stream[14:])), (None, 1, 1))
        with self.assertRaises(MalformedMessage):
            first_message(b"\0\x0b" + bytes(11))
        with self.assertRaises(MalformedMessage):
            missing_octets(b"\0\0")

    def test_whole(self) -> None:
        transfer = Transfer(4660, ".")
        self.assertEqual(transfer.state, TransferState.WANTED)
        begin, add = transfer.take(transferred(Type.AXFR, soa(3), NS))
        self.assertEqual((begin.kind, begin.serial, begin.record.type if begin.record else 0), (StepKind.BEGIN, 3, Type.SOA))
        self.assertEqual((add.kind, add.serial, str(add.record)), (StepKind.ADD, None, ". 300 IN NS ."))
        self.assertEqual((transfer.state, transfer.has_ended()), (TransferState.WHOLE, False))
        with self.assertRaises(TransferError) as waits:
            transfer.end()
        self.assertEqual(waits.exception.status, Status.INCOMPLETE)
        (end,) = transfer.take(transferred(0, soa(3)))
        self.assertEqual((end, transfer.state, transfer.has_ended()), ((StepKind.END, 3, None), TransferState.ENDED, True))
        transfer.end()

    def test_changes(self) -> None:
        each = {
            "033445": transferred(Type.IXFR, soa(3), soa(1), NS, soa(3), NS, soa(3)),
            "0245": transferred(Type.IXFR, soa(3), NS, soa(3)),
            "1": transferred(Type.IXFR, soa(1)),
        }
        for kinds, message in each.items():
            transfer = Transfer(4660, b"\0", known=1)
            self.assertEqual("".join(str(int(step.kind)) for step in transfer.take(message)), kinds)
            self.assertTrue(transfer.has_ended())
        self.assertEqual(next(Transfer(4660, ".", known=1).take(each["1"])), (StepKind.UP_TO_DATE, 1, None))

    def test_errors(self) -> None:
        other = NS[:4] + b"\3" + NS[5:]
        each = {
            transferred(Type.AXFR, soa(3), id=1): Status.OTHER_QUERY,
            transferred(Type.IXFR, soa(3)): Status.OTHER_QUERY,
            transferred(Type.AXFR, soa(3), flags=0): Status.NO_RESPONSE,
            transferred(Type.AXFR, soa(3), flags=0x8405): Status.BAD_RCODE,
            transferred(Type.AXFR, soa(3), flags=0x8600): Status.TRUNCATED,
            transferred(Type.AXFR, soa(3), other): Status.WRONG_CLASS,
            transferred(Type.AXFR, NS): Status.NO_SOA,
            transferred(Type.AXFR, soa(3), NS, soa(4)): Status.WRONG_SOA,
            transferred(Type.AXFR, soa(3), soa(3), NS): Status.AFTER_END,
            transferred(Type.AXFR, soa(3))[:-1]: Status.SHORT_INPUT,
            b"": Status.SHORT_INPUT,
        }
        for message, status in each.items():
            transfer = Transfer(4660, ".")
            for again in (message, transferred(Type.AXFR, soa(3), soa(3))):
                with self.assertRaises((MalformedMessage, TransferError)) as raised:
                    list(transfer.take(again))
                self.assertEqual((raised.exception.status, transfer.has_ended()), (status, False))
        transfer = Transfer(4660, ".")
        next(transfer.take(transferred(Type.AXFR, soa(3), NS)))
        for call in (lambda: transfer.take(transferred(0, soa(3))), transfer.end, transfer.has_ended):
            with self.assertRaises(RuntimeError):
                call()
        with self.assertRaises(TransferError) as outside:
            list(Transfer(4660, "example").take(transferred(Type.AXFR, soa(3)).replace(b"\0\0\xfc", b"\7example\0\0\xfc")))
        self.assertEqual(outside.exception.status, Status.OUTSIDE_ZONE)
        for zone, words in ((".", {"known": 1 << 32}), (".", {"class_": -1})):
            with self.assertRaises(ValueError):
                Transfer(4660, zone, **words)
        with self.assertRaises(NameTextError):
            Transfer(4660, b"\0\0")


class Versions(unittest.TestCase):
    def test_library(self) -> None:
        self.assertEqual(library_version()[0], 2)


if __name__ == "__main__":
    unittest.main()
