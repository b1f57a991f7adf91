"""Messages that are written by one call."""

from ctypes import byref
from dataclasses import dataclass
from typing import Any, Iterable, List, Optional, Tuple, Union

from . import _calls
from ._calls import Octets
from ._edns import Edns, edns_fields
from ._items import Record
from ._names import Name, name_text
from ._numbers import Class, Flag, Section, Type

NewQuestion = Union[Name, Tuple[Name, int], Tuple[Name, int, int]]


@dataclass(frozen=True)
class NewRecord:
    """A record to write. `data` is RDATA, with names in it uncompressed (`name_from_text`)."""

    name: Name
    type: int
    data: Octets
    ttl: int = 0
    class_: int = Class.IN


def build(
    id: int,
    flags: int = 0,
    *,
    questions: Iterable[NewQuestion] = (),
    answer: Iterable[NewRecord] = (),
    authority: Iterable[NewRecord] = (),
    additional: Iterable[NewRecord] = (),
    edns: Optional[Edns] = None,
    opcode: int = 0,
    rcode: int = 0,
) -> bytes:
    """The octets of a message, with its names compressed.

    A question is a name, a name and its type, or both and its class; without them it is for A and IN. With `edns` an OPT record
    follows the other additional ones, and `rcode` may have twelve bits.

    Raises `NameTextError`, `DataError` or `TooLong` for an item that can't be written, and `MalformedMessage` for a name in octets
    that can't be read.
    """
    if isinstance(questions, str):
        raise TypeError("questions have to be a list, and are a text")
    items: List[_calls.NewItem] = []
    if edns is not None:
        upper = _calls.number(rcode, 12, "rcode") >> 4 or edns.rcode_high
        edns = Edns(edns.udp_size, edns.dnssec_ok, edns.options, edns.version, upper, edns.flags)
        additional = [*additional, NewRecord(".", Type.OPT, edns.data(), edns.ttl(), edns.udp_size)]
        rcode &= 15
    for question in questions:
        name, type_, class_ = _whole(question)
        items.append(_item(Section.QUESTION, NewRecord(name, type_, b"", 0, class_)))
    for section, records in ((Section.ANSWER, answer), (Section.AUTHORITY, authority), (Section.ADDITIONAL, additional)):
        items += [_item(section, record) for record in records]
    whole = _calls.number(flags, 16, "flags") | _calls.number(opcode, 4, "opcode") << 11 | _calls.number(rcode, 4, "rcode")
    array = (_calls.NewItem * len(items))(*items)
    # Enough for the message, or for what TCP carries. A longer message is written by a second call.
    capacity = min(sum((item.name_len + item.data_len + 12 for item in items), 12), 65535)
    return _calls.written(_calls.library.dnsm_build, _calls.number(id, 16, "id"), whole, array, len(items), capacity=capacity)


def record_from_text(text: str) -> Record:
    """The record that a text represents, as in a line of a zone file, over octets of its own, for `Builder.put_from`.

    Raises `NameTextError` if it represents none.
    """
    octets, item = text.encode("utf-8", "surrogatepass"), _calls.Item()

    def call(out: Any, capacity: int, length: Any) -> int:
        return int(_calls.library.dnsm_record_from_text(octets, len(octets), out, capacity, length, byref(item)))

    return Record(_calls.written(call), item)


def data_from_text(type: int, text: str) -> bytes:
    """The RDATA that a text represents, as in a zone file. Raises `NameTextError` if it represents none."""
    octets = text.encode("utf-8", "surrogatepass")
    return _calls.written(_calls.library.dnsm_data_from_text, _calls.number(type, 16, "a type"), octets, len(octets))


def query(
    name: Name,
    type: int = Type.A,
    class_: int = Class.IN,
    *,
    id: int,
    recursion: bool = True,
    edns: Optional[Edns] = None,
) -> bytes:
    """A query with one question, and with `edns` an OPT record. `recursion` sets RD.

    If it goes over UDP, choose the ID at random, as by `secrets.randbelow(65536)`. Raises `NameTextError` if the name is none, and
    `TooLong` for more than 65,535 octets of options.
    """
    text, type, class_ = name_text(name), _calls.number(type, 16, "a type"), _calls.number(class_, 16, "a class")
    asked = (_calls.number(id, 16, "id"), recursion, text, len(text), type, class_)
    if edns is None:
        return _calls.written(_calls.library.dnsm_query, *asked)
    fields, options = edns_fields(edns), edns.data()
    # Enough for each query with these options.
    capacity = 282 + len(options)
    return _calls.written(_calls.library.dnsm_query_opt, *asked, byref(fields), options, len(options), capacity=capacity)


def respond_a(octets: Octets, address: Octets, ttl: int, *, authoritative: bool = False) -> bytes:
    """The response to a query of class IN for type A or ANY, with one address. Raises `NotAnswerable` for all else."""
    octets, address = _calls.octets_of(octets), _calls.octets_of(address)
    if len(address) != 4:
        raise ValueError("an IPv4 address has 4 octets")
    ttl = _calls.number(ttl, 32, "ttl")
    return _calls.written(_calls.library.dnsm_respond_a, octets, len(octets), authoritative, ttl, address)


def _whole(question: NewQuestion) -> Tuple[Name, int, int]:
    """The question with its type and its class."""
    if not isinstance(question, tuple):
        return question, Type.A, Class.IN
    if len(question) > 3:
        raise TypeError("a question is a name, its type and its class")
    name, type_, *class_ = question
    return name, type_, class_[0] if class_ else Class.IN


def _item(section: Section, record: NewRecord) -> _calls.NewItem:
    """The record for the call. It keeps the octets that its pointers lead to."""
    name, data = name_text(record.name), _calls.octets_of(record.data)
    return _calls.NewItem(
        name,
        len(name),
        data,
        len(data),
        _calls.number(record.ttl, 32, "ttl"),
        _calls.number(record.type, 16, "a type"),
        _calls.number(record.class_, 16, "a class"),
        section,
    )
