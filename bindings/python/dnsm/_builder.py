"""Messages that are written item by item."""

from ctypes import byref, c_char, c_size_t, c_uint16, string_at
from typing import Iterable, NamedTuple, Optional, Tuple

from . import _calls
from ._edns import Edns, made_edns
from ._errors import NoRoom
from ._items import Record
from ._names import Name, name_octets
from ._numbers import Class, Section, Type
from ._write import NewRecord


class Mark(NamedTuple):
    """How much of a message was written."""

    draft: bytes


class Builder:
    """A message that is written item by item, within a limit. Names are compressed.

    >>> builder = Builder(4660, Flag.QR, limit=512)
    >>> builder.put(Section.QUESTION, "example.com", Type.A)
    >>> mark = builder.mark()
    >>> try:
    ...     builder.put(Section.ANSWER, "example.com", Type.A, Class.IN, 300, bytes([192, 0, 2, 1]))
    ... except NoRoom:
    ...     builder.rewind(mark)
    ...     builder.flags |= Flag.TC
    >>> len(builder.finish())
    45

    `limit` is the most octets that the message may have, and can't be raised later. `reserved` of them are kept free for later items,
    as for an OPT record; 0, which it is at first, lets the next items have them. `flags` are the third and fourth octets of the header.
    RDATA is checked. If `unchecked` is true, that of other types than those with names of RFC 1035 is copied as it is.
    """

    __slots__ = ("_draft", "_limit", "_out")

    def __init__(self, id: int, flags: int = 0, *, limit: int = 65535) -> None:
        self._draft, self._limit = _calls.Draft(), _calls.number(limit, 32, "limit")
        self._out = (c_char * self._limit)()
        id, flags = _calls.number(id, 16, "id"), _calls.number(flags, 16, "flags")
        _calls.check(_calls.library.dnsm_begin(byref(self._draft), self._out, self._limit, id, flags))

    @classmethod
    def response(cls, query: _calls.Octets, rcode: int = 0, *, limit: int = 65535) -> "Builder":
        """The response to a query, with its question: with its ID, opcode, RD and CD, QR, and the low four bits of `rcode`.

        Raises `NotAnswerable` for a response, or if there isn't exactly one question, and `MalformedMessage` if that can't be read.
        """
        builder, query = cls(0, limit=limit), _calls.octets_of(query)
        rcode = _calls.number(rcode, 16, "rcode")
        begin = _calls.library.dnsm_begin_response
        _calls.check(begin(byref(builder._draft), builder._out, builder._limit, query, len(query), rcode))
        return builder

    @classmethod
    def respond(cls, query: _calls.Octets, rcode: int = 0, *, limit: int = 65535) -> "Tuple[Builder, int, Optional[Edns]]":
        """The response to any query, with its question if there is exactly one that can be read, the rcode of the response, and its OPT
        record, or None if the query has none.

        The rcode is FORMERR for several OPT records or without such a question, BADVERS for a version of EDNS above 0, else `rcode`. The
        `udp_size` of the OPT record is how many octets the client can receive: replace it by your own before `put_edns`. `reserved` is
        11 then, which is for an OPT record without options. `limit` is for the builder's own memory; to respond over UDP, set
        `builder.limit`. Raises `NotAnswerable` for a response, and `MalformedMessage` for less than a header.
        """
        builder, query = cls(0, limit=limit), _calls.octets_of(query)
        said, fields = c_uint16(_calls.number(rcode, 12, "rcode")), _calls.OptFields()
        respond = _calls.library.dnsm_respond
        draft, out = byref(builder._draft), builder._out
        _calls.check(respond(draft, out, builder._limit, query, len(query), byref(said), byref(fields)))
        return builder, said.value, made_edns(fields, ()) if fields.udp_size else None

    @property
    def id(self) -> int:
        """The ID. It may be set."""
        return int(self._draft.id)

    @id.setter
    def id(self, id: int) -> None:
        self._draft.id = _calls.number(id, 16, "id")

    @property
    def flags(self) -> int:
        """The third and fourth octets of the header. They may be set."""
        return int(self._draft.flags)

    @flags.setter
    def flags(self, flags: int) -> None:
        self._draft.flags = _calls.number(flags, 16, "flags")

    @property
    def limit(self) -> int:
        """The most octets that the message may have. It may be set to fewer than at first."""
        return min(int(self._draft.limit), self._limit)

    @limit.setter
    def limit(self, octets: int) -> None:
        self._draft.limit = _calls.number(octets, 32, "limit")

    @property
    def reserved(self) -> int:
        """How many octets of the limit are kept free. It may be set."""
        return int(self._draft.reserved)

    @reserved.setter
    def reserved(self, octets: int) -> None:
        self._draft.reserved = _calls.number(octets, 32, "reserved")

    @property
    def unchecked(self) -> bool:
        """Whether RDATA isn't checked where it needn't be. It may be set."""
        return bool(self._draft.unchecked)

    @unchecked.setter
    def unchecked(self, unchecked: bool) -> None:
        self._draft.unchecked = bool(unchecked)

    def __len__(self) -> int:
        """The octets so far. A message without items has 12."""
        return int(self._draft.len)

    def put(self, section: int, name: Name, type: int, class_: int = Class.IN, ttl: int = 0, data: _calls.Octets = b"") -> None:
        """Appends a question or a record. Items come in the order of their sections.

        The data is RDATA, with names in it uncompressed (`name_from_text`). A question has neither TTL nor data.

        Raises `NoRoom` if the limit leaves too few octets, without those that are reserved, and `NameTextError`, `DataError`,
        `TooLong` or another `Error` for an item that can't be written. Then the message is as before.
        """
        item = _item(section, NewRecord(name, type, data, ttl, class_))
        _calls.check(_calls.library.dnsm_put(byref(self._draft), self._out, self._limit, byref(item)))

    def put_set(self, section: int, records: Iterable[NewRecord], *, required: bool) -> bool:
        """Appends all records of a set, or leaves it out if they don't fit, and returns whether they went in.

        If there is no room for a `required` set, as one that answers the question, TC is set. Once TC is set each set is left out. Raises what
        `put` raises for records that can't be written; then the set is left out, too.
        """
        items = [_item(section, record) for record in records]
        array = (_calls.PutItem * len(items))(*items)
        put = _calls.library.dnsm_put_set
        try:
            return _calls.check(put(byref(self._draft), self._out, self._limit, array, len(items), required))
        except NoRoom:
            return False

    def put_from(self, record: Record, section: Optional[int] = None, ttl: Optional[int] = None) -> None:
        """Appends a record of another message, in its section and with its TTL unless others are given.

        Names are compressed anew. Raises what `put` raises.
        """
        item, octets = _calls.Item.from_buffer_copy(record._item), record._octets
        item.section = item.section if section is None else _calls.number(section, 8, "a section")
        item.ttl = item.ttl if ttl is None else _calls.number(ttl, 32, "ttl")
        put = _calls.library.dnsm_put_from
        _calls.check(put(byref(self._draft), self._out, self._limit, octets, len(octets), byref(item)))

    def put_edns(self, edns: Edns) -> None:
        """Appends an OPT record. It takes `edns.length()` octets."""
        self.put(Section.ADDITIONAL, b"\0", Type.OPT, edns.udp_size, edns.ttl(), edns.data())

    def mark(self) -> Mark:
        """What has been written so far, for `rewind`."""
        return Mark(bytes(self._draft))

    def rewind(self, mark: Mark) -> None:
        """Removes the items since a mark of this builder, and restores what was set before it, as `flags` and `reserved`.

        Marks that were made after it mean nothing from then on: with one of them, the octets needn't be a message.
        """
        self._draft = _calls.Draft.from_buffer_copy(mark.draft)

    def finish(self) -> bytes:
        """The octets of the message. More items may follow; then call it again."""
        length = c_size_t()
        _calls.check(_calls.library.dnsm_finish(byref(self._draft), self._out, self._limit, byref(length)))
        return string_at(self._out, length.value)


def _item(section: int, record: NewRecord) -> _calls.PutItem:
    """The item for the calls. It keeps the octets that its pointers lead to."""
    name, data = name_octets(record.name), _calls.octets_of(record.data)
    return _calls.PutItem(
        name,
        len(name),
        data,
        len(data),
        _calls.number(record.ttl, 32, "ttl"),
        _calls.number(record.type, 16, "a type"),
        _calls.number(record.class_, 16, "a class"),
        _calls.number(section, 8, "a section"),
    )
