"""Messages that are read."""

from ctypes import byref, c_char, c_size_t, c_uint8, c_uint16, c_uint32
from itertools import chain, islice
from typing import Iterator, NamedTuple, Optional, Tuple, Union

from . import _calls
from ._calls import Octets
from ._edns import Edns, read_edns
from ._errors import Error, Status
from ._items import Question, Record
from ._names import Name, name_octets, name_to_text
from ._numbers import Flag, ReplyKind, Section, Type


class FoundOpt(NamedTuple):
    """The only OPT record of a message. `rcode` has twelve bits."""

    record: Record
    edns: Edns
    rcode: int


class Reply(NamedTuple):
    """What a reply says, and of which name.

    `ttl` is for how many seconds it may be cached: of `ANSWER` the least TTL of its records and the aliases; of `NO_DATA` and `NO_NAME` by
    the SOA record (RFC 2308 section 5), without which they shouldn't be; of `ALIAS` the least TTL of the aliases. `alias_ttl` is this TTL
    for `NO_DATA`, `NO_NAME` and `REFERRAL`. `rcode` is that of `FAILED`, of twelve bits. `name` is there for the kinds up to `DNAME`.
    `owner` is that of the records that say so: the SOA record of `NO_DATA` and `NO_NAME` if there is one, the NS records of `REFERRAL`, or
    the DNAME record of `DNAME`; then `target` is its target. Without them the numbers are 0, and the names None.

    `NO_DATA` without an owner, of another name than the question's, may come of a server that sends the alias alone: ask for `name`.
    """

    kind: ReplyKind
    ttl: int
    alias_ttl: int
    rcode: int
    name: Optional[str]
    owner: Optional[str]
    target: Optional[str]


class Message:
    """A message over a copy of its octets.

    The header has been read. Each iteration reads the questions and records in order, up to the first one that can't be read:
    then the iterator raises `MalformedMessage`.
    """

    __slots__ = ("_cursor", "_header", "_octets")

    def __init__(self, octets: Octets) -> None:
        self._octets = _calls.octets_of(octets)
        self._header, self._cursor = _calls.Header(), _calls.Cursor()
        status = _calls.library.dnsm_open(self._octets, len(self._octets), byref(self._header), byref(self._cursor))
        _calls.check(status)

    @classmethod
    def from_wire(cls, octets: Octets) -> "Message":
        """Reads the header. Raises `MalformedMessage` if there are fewer than 12 octets."""
        return cls(octets)

    def to_wire(self) -> bytes:
        """The octets, with those after the last item."""
        return self._octets

    def trailing(self) -> bytes:
        """The octets after the last item, which are no part of the message. Raises `MalformedMessage` if an item can't be read."""
        octets, cursor, item = self._octets, _calls.Cursor.from_buffer_copy(self._cursor), _calls.Item()
        while _calls.check(_calls.library.dnsm_next(octets, len(octets), byref(cursor), byref(item))):
            pass
        return octets[cursor.place :]

    @property
    def id(self) -> int:
        """The ID, which a response has of its query."""
        return int(self._header.id)

    @property
    def flags(self) -> Flag:
        """QR, AA, TC, RD, RA, AD and CD, without opcode and rcode."""
        return Flag(self.header_flags & 0x87B0)

    @property
    def header_flags(self) -> int:
        """The third and fourth octets of the header: flags, opcode and rcode."""
        return int(self._header.flags)

    @property
    def opcode(self) -> int:
        """The opcode, as `Opcode.UPDATE`. `opcode_text` is its name."""
        return int(self._header.opcode)

    @property
    def rcode(self) -> int:
        """The rcode of the header. `extended_rcode` has that of EDNS."""
        return int(self._header.rcode)

    @property
    def counts(self) -> Tuple[int, int, int, int]:
        """The number of items in each section, as the header says."""
        question, answer, authority, additional = self._header.counts
        return question, answer, authority, additional

    def __iter__(self) -> Iterator[Union[Question, Record]]:
        """All questions and records."""
        octets, cursor = self._octets, _calls.Cursor.from_buffer_copy(self._cursor)
        item, following = _calls.Item(), _calls.library.dnsm_next
        while _calls.check(following(octets, len(octets), byref(cursor), byref(item))):
            yield (Record if item.section else Question)(octets, item)
            item = _calls.Item()

    @property
    def questions(self) -> Iterator[Question]:
        """The questions."""
        return islice(self, self.counts[0])

    @property
    def records(self) -> Iterator[Record]:
        """The records of all sections."""
        return (item for item in self if isinstance(item, Record))

    @property
    def answer(self) -> Iterator[Record]:
        """The records of the answer section."""
        return self._section(Section.ANSWER)

    @property
    def authority(self) -> Iterator[Record]:
        """The records of the authority section."""
        return self._section(Section.AUTHORITY)

    @property
    def additional(self) -> Iterator[Record]:
        """The records of the additional section."""
        return self._section(Section.ADDITIONAL)

    def _section(self, section: Section) -> Iterator[Record]:
        """Ends after the section, so what can't be read after it raises nothing."""
        for item in islice(self, sum(self.counts[: section + 1])):
            if isinstance(item, Record) and item.section == section:
                yield item

    def answers(self, query: Octets) -> bool:
        """Whether this is the response to a query, by QR, ID, opcode and questions."""
        query = _calls.octets_of(query)
        status = _calls.library.dnsm_answers(query, len(query), self._octets, len(self._octets))
        return status not in (Status.NO_RESPONSE, Status.OTHER_QUERY) and _calls.check(status)

    def reply_to(self, query: Octets, zone: Name = ".") -> Optional[Reply]:
        """What this says of the first question of a query, or None if it is no reply to that, by QR, ID, opcode and questions.

        `zone` is the zone that the server was asked about: the root for a server that resolves. Only records whose owners are within it
        count, but NS records of a zone above can make it `LAME`. Ask `is_regular` first: another message can take seconds.
        Raises `MalformedMessage` if the query has fewer than 12 octets, and what other calls raise if the zone is no name.
        """
        query, zone, saying = _calls.octets_of(query), name_octets(zone), _calls.Saying()
        octets, call = self._octets, _calls.library.dnsm_reply
        status = call(query, len(query), octets, len(octets), zone, len(zone), byref(saying))
        if status in (Status.NO_RESPONSE, Status.OTHER_QUERY):
            return None
        _calls.check(status)
        pairs = ((saying.name, saying.name_len), (saying.owner, saying.owner_len), (saying.target, saying.target_len))
        name, owner, target = (name_to_text(bytes(buffer[:length])) if length else None for buffer, length in pairs)
        return Reply(ReplyKind(saying.kind), saying.ttl, saying.alias_ttl, saying.rcode, name, owner, target)

    def is_regular(self) -> bool:
        """Whether all items can be skipped, and each pointer of a name leads to a label of an earlier name (RFC 1035 section 4.1.4).

        To read a name of such a message, at most 128 pointers are followed, else some 8,000.
        """
        regular = c_uint8()
        _calls.check(_calls.library.dnsm_is_regular(self._octets, len(self._octets), byref(regular)))
        return regular.value == 1

    def min_ttl(self) -> Optional[int]:
        """The least TTL of the records, in seconds, or None if no record has one, as OPT, TSIG, TKEY and SIG haven't.

        Raises `MalformedMessage` if an item can't be skipped; pointers aren't followed.
        """
        ttl = c_uint32()
        return ttl.value if _calls.check(_calls.library.dnsm_min_ttl(self._octets, len(self._octets), byref(ttl))) else None

    def records_end(self) -> int:
        """The offset after the last item. Raises what `min_ttl` raises."""
        end = c_size_t()
        _calls.check(_calls.library.dnsm_records_end(self._octets, len(self._octets), byref(end)))
        return end.value

    def aged(self, seconds: int) -> "Message":
        """The message with each TTL lowered by some seconds, but not below 0: for a response that was in a cache for so long.

        Records of OPT, TSIG, TKEY and SIG have none. No other octet differs. Raises `MalformedMessage` unless the message `is_regular`.
        """
        octets = (c_char * len(self._octets)).from_buffer_copy(self._octets)
        _calls.check(_calls.library.dnsm_age(octets, len(octets), _calls.number(seconds, 32, "an age")))
        return type(self)(octets.raw)

    def find_opt(self) -> Optional[FoundOpt]:
        """The only OPT record of the message, anywhere in the additional section, or None.

        Raises `MalformedMessage` if there are two, if its owner isn't the root, or if an item or an option can't be read. The error for
        an option has the fields, and the options before it, in `edns`.
        """
        octets, item, fields, rcode = self._octets, _calls.Item(), _calls.OptFields(), c_uint16()
        status = _calls.library.dnsm_find_opt(octets, len(octets), byref(fields), byref(item), byref(rcode))
        if status == Status.NO_OPT:
            return None
        _calls.check(status)
        return FoundOpt(Record(octets, item), read_edns(octets, item), rcode.value)

    def edns(self) -> Optional[Edns]:
        """The first OPT record of the additional section, or None. Raises what `Record.edns` raises."""
        opt = self._opt()
        return opt.edns() if opt else None

    def extended_rcode(self) -> int:
        """The rcode with its upper eight bits, if there is an OPT record (RFC 6891 section 6.1.3)."""
        opt = self._opt()
        return self.rcode | (opt.ttl >> 24 << 4 if opt else 0)

    def _opt(self) -> Optional[Record]:
        return next((record for record in self.additional if record.type == Type.OPT), None)

    def to_text(self) -> str:
        """The message as text, up to the first item that can't be read, of which the text says why."""
        return "\n".join(chain([f"id {self.id} flags {self.header_flags:04x}"], self._lines()))

    def _lines(self) -> Iterator[str]:
        items = iter(self)
        while True:
            try:
                item = next(items)
            except StopIteration:
                return
            except Error as error:
                yield f"error {error}"
                return
            yield f"{item.section.name.lower()} {item}"

    def __str__(self) -> str:
        return self.to_text()

    def __repr__(self) -> str:
        return f"<Message id {self.id}, {len(self._octets)} octets>"

    def __bytes__(self) -> bytes:
        return self._octets
