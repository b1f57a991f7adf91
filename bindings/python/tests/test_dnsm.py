"""Tests over the installed package: `python3 -m unittest test_dnsm`."""

import copy
import doctest
import pickle
import re
import threading
import unittest

import dnsm
from dnsm import Builder, Class, Edns, Flag, Message, NewRecord, NoRoom, Option, Rcode, Section, Status, Type, build

# A response with the question example.com. IN A, and its address by a pointer to that name.
RESPONSE = bytes.fromhex(
    "123481800001000100000000076578616d706c6503636f6d0000010001c00c0001000100000e100004c0000201"
)


OWNER = b"\7example\3com\0"


def load_tests(loader, tests, pattern):
    """Adds the examples in the package's documentation."""
    tests.addTests(doctest.DocTestSuite(dnsm))
    tests.addTests(doctest.DocTestSuite(dnsm._builder, extraglobs=vars(dnsm)))
    return tests


class Reading(unittest.TestCase):
    def test_a_response(self):
        message = Message.from_wire(RESPONSE)
        self.assertEqual((message.id, message.header_flags, message.counts), (0x1234, 0x8180, (1, 1, 0, 0)))
        self.assertEqual(message.flags, Flag.QR | Flag.RD | Flag.RA)
        question, record = message
        self.assertEqual(str(question), "example.com. IN A")
        self.assertEqual(record.to_text(), "example.com. 3600 IN A 192.0.2.1")
        self.assertEqual((record.name, record.type, record.class_), ("example.com.", Type.A, Class.IN))
        self.assertEqual((record.ttl, record.data, record.section), (3600, b"\xc0\0\2\1", Section.ANSWER))
        self.assertEqual(record.name_octets, OWNER)
        self.assertEqual([str(it) for it in message.questions], [str(question)])
        self.assertEqual([str(it) for it in message.answer], [str(record)])
        self.assertEqual(list(message.additional), [])
        self.assertIsNone(message.edns())
        self.assertRaises(dnsm.DataError, record.data_name)

    def test_any_object_with_a_buffer(self):
        for octets in (bytearray(RESPONSE), memoryview(RESPONSE), memoryview(bytearray(b"x" + RESPONSE))[1:]):
            self.assertEqual(len(list(Message.from_wire(octets))), 2)
        for other in (45, "text", None, [1, 2]):
            self.assertRaises(TypeError, Message.from_wire, other)

    def test_a_message_is_not_changed_by_its_buffer(self):
        octets = bytearray(RESPONSE)
        message = Message.from_wire(octets)
        octets[:] = bytes(len(octets))
        self.assertEqual(message.to_wire(), RESPONSE)

    def test_every_prefix(self):
        for length in range(len(RESPONSE)):
            if length < 12:
                with self.assertRaises(dnsm.MalformedMessage) as raised:
                    Message.from_wire(RESPONSE[:length])
                self.assertEqual(raised.exception.status, Status.SHORT_INPUT)
            else:
                message = Message.from_wire(RESPONSE[:length])
                self.assertRaises(dnsm.MalformedMessage, list, message)
                self.assertTrue(str(message).splitlines()[-1].startswith("error "))
                if length >= 29:
                    self.assertEqual(len(list(message.questions)), 1)

    def test_items_before_an_error(self):
        items = iter(Message.from_wire(RESPONSE[:-1]))
        self.assertEqual(next(items).name, "example.com.")
        self.assertRaises(dnsm.MalformedMessage, next, items)


class Writing(unittest.TestCase):
    def test_options_are_read_as_written(self):
        edns = Edns(1232, True, (Option(3), Option(10, b"12345678")))
        message = Message.from_wire(build(1, questions=["a"], edns=edns, rcode=Rcode.BADVERS))
        read = message.edns()
        self.assertEqual((read.udp_size, read.dnssec_ok, read.options), (1232, True, edns.options))
        self.assertEqual(read.option(10).data, b"12345678")
        self.assertEqual((message.rcode, message.extended_rcode()), (0, Rcode.BADVERS))

    def test_what_is_refused(self):
        def answer(record):
            return lambda: build(1, answer=[record])

        for error, call in (
            (dnsm.NameTextError, lambda: build(1, questions=["a..b"])),
            (dnsm.NameTextError, lambda: dnsm.name_from_text("\xe9")),
            (dnsm.NameTextError, lambda: dnsm.name_from_text("\ud800")),
            (dnsm.DataError, answer(NewRecord("a", Type.A, b"1"))),
            (dnsm.TooLong, answer(NewRecord("a", Type.TXT, bytes(65536)))),
            (ValueError, answer(NewRecord("a", Type.A, bytes(4), ttl=1 << 32))),
            (ValueError, answer(NewRecord("a", 65536, bytes(4)))),
            (ValueError, lambda: build(70000)),
            (ValueError, lambda: build(-1)),
            (ValueError, lambda: build(1, rcode=16)),
            (TypeError, lambda: build(1.5)),
            (TypeError, lambda: build("1")),
            (TypeError, lambda: build(1, questions="a.b")),
            (TypeError, lambda: build(1, questions=[("a", Type.A, Class.IN, 0)])),
            (TypeError, answer(NewRecord("a", Type.A, "1234"))),
        ):
            self.assertRaises(error, call)
        self.assertEqual(build(1), b"\0\1" + bytes(10))

    def test_names_may_be_text_or_octets(self):
        for name in ("example.com", "example.com.", OWNER, memoryview(OWNER)):
            questions, answer = [(name, Type.A)], [NewRecord(name, Type.A, b"\xc0\0\2\1", 3600)]
            self.assertEqual(build(0x1234, 0x8180, questions=questions, answer=answer), RESPONSE)
            builder = Builder(0x1234, 0x8180)
            builder.put(Section.QUESTION, name, Type.A)
            builder.put(Section.ANSWER, name, Type.A, Class.IN, 3600, b"\xc0\0\2\1")
            self.assertEqual((builder.finish(), builder.finish(), len(builder)), (RESPONSE, RESPONSE, 45))

    def test_a_query_and_its_response(self):
        query = dnsm.query("a.example", id=7)
        self.assertEqual(query, dnsm.query("a.example.", Type.A, Class.IN, id=7))
        response = dnsm.respond_a(query, b"\xc0\0\2\x09", 60, authoritative=True)
        message = Message.from_wire(response)
        self.assertEqual([str(it) for it in message.answer], ["a.example. 60 IN A 192.0.2.9"])
        self.assertIn(Flag.AA, message.flags)
        self.assertRaises(dnsm.NotAnswerable, dnsm.respond_a, response, bytes(4), 60)
        self.assertRaises(ValueError, dnsm.respond_a, query, bytes(3), 60)

    def test_long_messages_and_texts(self):
        data = (b"\xff" + b"a" * 255) * 40
        message = Message.from_wire(build(1, answer=[NewRecord("a", Type.TXT, data)] * 9))
        self.assertEqual({len(it.data_text()) for it in message.records}, {40 * 258 - 1})
        self.assertGreater(len(bytes(message)), 65535)


class Building(unittest.TestCase):
    def put(self, builder):
        builder.put(Section.ANSWER, "example.com", Type.A, Class.IN, 3600, b"\xc0\0\2\1")

    def test_a_message_has_a_limit(self):
        for limit, reserved in ((44, 0), (45, 1), (60, 16)):
            builder = Builder(0x1234, 0x8180, limit=limit)
            builder.put(Section.QUESTION, "example.com", Type.A)
            builder.reserved = reserved
            self.assertRaises(NoRoom, self.put, builder)
            self.assertEqual((len(builder), builder.reserved), (29, reserved))
            self.assertEqual(builder.finish(), RESPONSE[:6] + bytes(6) + RESPONSE[12:29])

    def test_a_rewind(self):
        builder = Builder(0x1234, 0x8180, limit=45)
        builder.put(Section.QUESTION, "example.com", Type.A)
        mark = builder.mark()
        self.put(builder)
        builder.flags |= Flag.TC
        self.assertEqual((len(builder), builder.flags), (45, 0x8380))
        builder.flags = 0
        self.assertEqual((builder.flags, builder.finish()[2:4]), (0, b"\0\0"))
        builder.rewind(mark)
        self.assertEqual((len(builder), builder.flags), (29, 0x8180))
        self.put(builder)
        self.assertEqual(builder.finish(), RESPONSE)

    def test_an_opt_record(self):
        edns, builder = Edns(1232, options=(Option(3, b"id"),)), Builder(1, limit=12 + 17)
        builder.reserved = edns.length()
        self.assertRaises(NoRoom, builder.put, Section.QUESTION, ".", Type.A)
        builder.reserved = 0
        builder.put_edns(edns)
        self.assertEqual(builder.finish(), build(1, edns=edns))

    def test_what_is_refused(self):
        builder = Builder(1)
        builder.put(Section.ANSWER, "a", Type.A, Class.IN, 0, bytes(4))
        for error, words in (
            (dnsm.NameTextError, (Section.ANSWER, "a..b", Type.A)),
            (dnsm.NameTextError, (Section.ANSWER, b"\1a", Type.A)),
            (dnsm.TooLong, (Section.ANSWER, "a", Type.TXT, Class.IN, 0, bytes(65536))),
            (dnsm.Error, (Section.QUESTION, "a", Type.A)),
            (dnsm.Error, (4, "a", Type.A)),
            (ValueError, (Section.ANSWER, "a", 65536)),
            (ValueError, (Section.ANSWER, "a", Type.A, Class.IN, -1)),
            (TypeError, (Section.ANSWER, "a", Type.A, Class.IN, 0, "1234")),
        ):
            self.assertRaises(error, builder.put, *words)
        self.assertEqual(len(builder), 12 + 17)
        self.assertRaises(NoRoom, Builder, 1, limit=11)
        self.assertRaises(ValueError, Builder, 1, limit=-1)


def type_map(number):
    """The bit map that has one type (RFC 4034 section 4.1.2)."""
    window, bit = divmod(number, 256)
    octets = bytes(bit // 8) + bytes([0x80 >> bit % 8])
    return bytes([window, len(octets)]) + octets


class Other(unittest.TestCase):
    def test_types_have_the_numbers_of_the_library(self):
        for type_ in (Type.A, Type.SOA, Type.AAAA, Type.RRSIG, Type.NSEC3PARAM, Type.HTTPS, Type.SPF, Type.ANY, Type.CAA, Type.WALLET):
            message = Message.from_wire(build(1, answer=[NewRecord(".", Type.NSEC, b"\0" + type_map(type_))]))
            self.assertEqual(next(message.answer).data_text(), f". {type_.name}")

    def test_numbers_have_the_names_of_the_library(self):
        for text, read, enum in (
            (dnsm.type_text, dnsm.type_from_text, Type),
            (dnsm.class_text, dnsm.class_from_text, Class),
            (dnsm.opcode_text, dnsm.opcode_from_text, dnsm.Opcode),
            (dnsm.rcode_text, dnsm.rcode_from_text, Rcode),
            (dnsm.option_text, dnsm.option_from_text, dnsm.OptionCode),
            (dnsm.extended_error_text, dnsm.extended_error_from_text, dnsm.ExtendedErrorCode),
        ):
            for number in enum:
                self.assertEqual(re.sub("[^A-Z0-9]", "_", text(number).upper()), number.name)
                self.assertEqual(read(text(number)), number)

    def test_names(self):
        octets = dnsm.name_from_text("a\\.b.c")
        self.assertEqual(octets, b"\3a.b\1c\0")
        self.assertEqual(dnsm.name_to_text(octets), "a\\.b.c.")
        self.assertEqual(dnsm.type_text(Type.MX) + dnsm.class_text(Class.IN), "MXIN")
        self.assertEqual(dnsm.type_text(65280) + dnsm.class_text(2), "TYPE65280CLASS2")

    def test_numbers_from_text(self):
        for read, text, number in (
            (dnsm.type_from_text, "mx", 15),
            (dnsm.type_from_text, "TYPE65280", 65280),
            (dnsm.class_from_text, "class2", 2),
            (dnsm.opcode_from_text, "update", 5),
            (dnsm.rcode_from_text, "BadVers", 16),
            (dnsm.option_from_text, "cookie", 10),
            (dnsm.extended_error_from_text, "stale answer", 3),
        ):
            self.assertEqual(read(text), number)
        self.assertEqual(dnsm.extended_error_text(3) + dnsm.extended_error_text(49152), "Stale AnswerEDE49152")
        for text in ("", "15", "TYPE", "TYPE65536", "\xff", "\ud800"):
            self.assertRaises(dnsm.Error, dnsm.type_from_text, text)
        self.assertRaises(dnsm.Error, dnsm.opcode_from_text, "OPCODE256")
        self.assertRaises(dnsm.Error, dnsm.rcode_from_text, "RCODE4096")

    def test_names_in_rdata_end_with_it(self):
        # An NS record of one octet, which would be a label with octets after the RDATA; and one of a pointer to such a label.
        for octets in ("0000800000000001000000000000020001000000000001016100", "0000800000000001000000000000020001000000060002c014616100"):
            record = next(Message.from_wire(bytes.fromhex(octets)).answer)
            with self.assertRaises(dnsm.DataError) as raised:
                record.data_name()
            self.assertEqual(raised.exception.status, dnsm.Status.BAD_DATA)
            self.assertIn("\\#", record.data_text())

    def test_errors_are_copied(self):
        with self.assertRaises(dnsm.Error) as raised:
            dnsm.name_from_text("")
        error = raised.exception
        self.assertEqual(str(error), "the text, or the name of an item, isn't valid")
        for other in (copy.copy(error), pickle.loads(pickle.dumps(error))):
            self.assertEqual((type(other), other.status, str(other)), (type(error), error.status, str(error)))

    def test_threads(self):
        failed = []

        def work():
            for _ in range(300):
                if str(Message.from_wire(RESPONSE)).count("example.com.") != 2:
                    failed.append(1)

        threads = [threading.Thread(target=work) for _ in range(8)]
        for thread in threads:
            thread.start()
        for thread in threads:
            thread.join()
        self.assertEqual(failed, [])


if __name__ == "__main__":
    unittest.main()
