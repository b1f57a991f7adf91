"""Questions and records of a message."""

from ctypes import byref, c_size_t
from typing import Iterator, NamedTuple, Union

from . import _calls
from ._edns import Edns, Option, read_edns, read_options
from ._errors import Status
from ._numbers import FieldKind, Section, class_text, type_text


class Field(NamedTuple):
    """A field of RDATA: an integer for a number or a record type, the text of a name, or octets."""

    kind: FieldKind
    value: Union[int, str, bytes]


class Question:
    """A question of a message. Its name is read on request, and can always be read."""

    __slots__ = ("_item", "_octets")

    def __init__(self, octets: bytes, item: _calls.Item) -> None:
        self._octets = octets
        self._item = item

    @property
    def section(self) -> Section:
        """The section that it is in."""
        return Section(self._item.section)

    @property
    def name(self) -> str:
        """The name as text, with a dot after each label."""
        return _calls.text(_calls.library.dnsm_name_text, self._octets, len(self._octets), self._item.place)

    @property
    def name_octets(self) -> bytes:
        """The octets of the name, without compression pointers."""
        return _calls.written(_calls.library.dnsm_name_octets, self._octets, len(self._octets), self._item.place)

    @property
    def type(self) -> int:
        """The record type, as `Type.MX`. `type_text` is its name."""
        return int(self._item.type)

    @property
    def class_(self) -> int:
        """The class, as `Class.IN`. `class_text` is its name."""
        return int(self._item.class_)

    @property
    def offset(self) -> int:
        """The offset of the name in the message."""
        return int(self._item.place)

    def to_text(self) -> str:
        """The name, the class and the type."""
        return f"{self.name} {class_text(self.class_)} {type_text(self.type)}"

    def __str__(self) -> str:
        return self.to_text()

    def __repr__(self) -> str:
        return f"<{type(self).__name__} {self.to_text()}>"


class Record(Question):
    """A record of a message."""

    __slots__ = ()

    @property
    def ttl(self) -> int:
        """In seconds."""
        return int(self._item.ttl)

    @property
    def data(self) -> bytes:
        """The RDATA as it is in the message; names in it may be compressed."""
        return self._octets[self._item.data : self._item.data + self._item.data_len]

    @property
    def data_offset(self) -> int:
        """The offset of the RDATA in the message. The TTL is six octets before it, in four octets, big-endian."""
        return int(self._item.data)

    def data_text(self) -> str:
        """The RDATA as in a zone file, or `\\#` and its octets if it isn't that of its type."""
        return _calls.text(_calls.library.dnsm_data_text, self._octets, len(self._octets), byref(self._item))

    def data_octets(self) -> bytes:
        """The RDATA with its names uncompressed, as `Builder.put` and `build` take it.

        Raises `DataError` if it isn't that of its type. Octets after the RDATA aren't read."""
        return _calls.written(_calls.library.dnsm_data_octets, self._octets, len(self._octets), byref(self._item))

    def has_data(self) -> bool:
        """Whether the RDATA is that of the record type."""
        status = _calls.library.dnsm_check_data(self._octets, len(self._octets), byref(self._item))
        return status != Status.BAD_DATA and _calls.check(status)

    def data_name(self, index: int = 0) -> str:
        """A name in the RDATA, counted from 0 in the order of the fields: SOA has two.

        Raises `DataError` if there is none, or if the RDATA isn't that of its type. Octets after the RDATA aren't read."""
        index = _calls.number(index, 64, "an index")
        return _calls.text(_calls.library.dnsm_data_name_text, self._octets, len(self._octets), byref(self._item), index)

    def data_name_octets(self, index: int = 0) -> bytes:
        """The octets of such a name, without compression pointers. Raises what `data_name` raises."""
        index = _calls.number(index, 64, "an index")
        return _calls.written(_calls.library.dnsm_data_name_octets, self._octets, len(self._octets), byref(self._item), index)

    def data_name_offset(self, index: int = 0) -> int:
        """The offset of such a name in the message. Raises what `data_name` raises."""
        index, offset = _calls.number(index, 64, "an index"), c_size_t()
        _calls.check(_calls.library.dnsm_data_name(self._octets, len(self._octets), byref(self._item), index, byref(offset)))
        return int(offset.value)

    def fields(self) -> Iterator[Field]:
        """The fields of the RDATA. Raises `DataError` if it isn't that of its type."""
        octets, index, field = self._octets, c_size_t(), _calls.DataField()
        end = self._item.data + self._item.data_len
        while _calls.check(_calls.library.dnsm_next_field(octets, len(octets), byref(self._item), byref(index), byref(field))):
            kind = FieldKind(field.kind)
            if kind in (FieldKind.NUMBER, FieldKind.TYPE):
                yield Field(kind, field.number)
            elif kind == FieldKind.NAME:
                yield Field(kind, _calls.text(_calls.library.dnsm_name_text, octets, end, field.place))
            else:
                yield Field(kind, octets[field.place : field.place + field.len])

    def edns(self) -> Edns:
        """The fields and options of an OPT record.

        Raises `MalformedMessage` if an option isn't whole, with what is before it in `edns`, and `Error` for other records.
        """
        return read_edns(self._octets, self._item)

    def options(self) -> Iterator[Option]:
        """The options of an OPT record, up to the first that isn't whole: then the iterator raises `MalformedMessage`."""
        return read_options(self._octets, self._item)

    def to_text(self) -> str:
        """The record as a line of a zone file."""
        return f"{self.name} {self.ttl} {class_text(self.class_)} {type_text(self.type)} {self.data_text()}"
