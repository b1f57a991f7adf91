"""EDNS: the fields and options of an OPT record."""

from ctypes import byref, c_size_t
from dataclasses import dataclass
from typing import Iterable, Iterator, List, Optional, Tuple

from . import _calls
from ._errors import MalformedMessage

DO = 0x8000


@dataclass(frozen=True)
class Option:
    """An option of an OPT record. The code may be one of `OptionCode`."""

    code: int
    data: bytes = b""

    def to_wire(self) -> bytes:
        """Its code, the length of its data, and its data. Raises `TooLong` for more than 65,535 octets of data."""
        code = _calls.number(self.code, 16, "the code of an option")
        data = _calls.octets_of(self.data)
        return _calls.written(_calls.library.dnsm_option_octets, code, data, len(data))


@dataclass(frozen=True)
class Edns:
    """The OPT record of a message, read or to be written.

    `udp_size` is the most octets of a UDP payload that the sender can receive, and `dnssec_ok` asks for DNSSEC records.
    `rcode_high` has the upper eight bits of the extended rcode, and `flags` the flags other than DO.
    """

    udp_size: int = 1232
    dnssec_ok: bool = False
    options: Tuple[Option, ...] = ()
    version: int = 0
    rcode_high: int = 0
    flags: int = 0

    def option(self, code: int) -> Optional[Option]:
        """The first option with a code."""
        return next((option for option in self.options if option.code == code), None)

    def ttl(self) -> int:
        """The TTL of the record, which has most of the fields."""
        return int(_calls.library.dnsm_opt_ttl(byref(edns_fields(self))))

    def data(self) -> bytes:
        """The RDATA of the record."""
        return b"".join(option.to_wire() for option in self.options)

    def length(self) -> int:
        """The octets that the record takes."""
        # The root, the type, the class, the TTL and RDLENGTH.
        return 1 + 2 + 2 + 4 + 2 + len(self.data())


def edns_fields(edns: Edns) -> _calls.OptFields:
    """The fields of an OPT record for the calls."""
    return _calls.OptFields(
        _calls.number(edns.udp_size, 16, "udp_size"),
        _calls.number(edns.flags, 15, "flags") | (DO if edns.dnssec_ok else 0),
        _calls.number(edns.rcode_high, 8, "rcode_high"),
        _calls.number(edns.version, 8, "version"),
    )


def read_edns(octets: bytes, item: _calls.Item) -> Edns:
    """The fields and options of an OPT record. The error for an option that isn't whole has what is before it."""
    fields = _calls.OptFields()
    options: List[Option] = []
    _calls.check(_calls.library.dnsm_opt_fields(byref(item), byref(fields)))
    try:
        for option in read_options(octets, item):
            options.append(option)
    except MalformedMessage as error:
        error.edns = made_edns(fields, options)
        raise
    return made_edns(fields, options)


def made_edns(fields: _calls.OptFields, options: Iterable[Option]) -> Edns:
    """An OPT record with these fields and options."""
    return Edns(
        fields.udp_size,
        bool(fields.flags & DO),
        tuple(options),
        fields.version,
        fields.rcode_high,
        fields.flags & ~DO,
    )


def read_options(octets: bytes, item: _calls.Item) -> Iterator[Option]:
    """The options of an OPT record."""
    offset, found = c_size_t(item.data), _calls.OptOption()
    next_option = _calls.library.dnsm_next_option
    while _calls.check(next_option(octets, len(octets), byref(item), byref(offset), byref(found))):
        yield Option(found.code, octets[found.data : found.data + found.data_len])
