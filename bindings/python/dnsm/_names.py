"""Names as text and as octets."""

from ctypes import byref, c_size_t, c_uint8, c_uint32
from typing import Any, Union

from . import _calls
from ._calls import Octets
from ._errors import Status

# A name to write: text, or the octets of an uncompressed name.
Name = Union[str, Octets]


def name_from_text(text: str) -> bytes:
    """The octets of a name, as in RDATA. Raises `NameTextError` if the text is none."""
    name = _text_octets(text)
    return _calls.written(_calls.library.dnsm_name_from_text, name, len(name))


def name_to_text(octets: Octets, offset: int = 0) -> str:
    """The text of the name at an offset, with a dot after each label."""
    octets = _calls.octets_of(octets)
    offset = _calls.number(offset, 64, "an offset")
    return _calls.text(_calls.library.dnsm_name_text, octets, len(octets), offset)


def name_to_octets(octets: Octets, offset: int = 0) -> bytes:
    """The octets of the name at an offset, without compression pointers."""
    octets = _calls.octets_of(octets)
    offset = _calls.number(offset, 64, "an offset")
    return _calls.written(_calls.library.dnsm_name_octets, octets, len(octets), offset)


def name_end(octets: Octets, offset: int = 0) -> int:
    """The offset after the name at an offset. A compression pointer ends a name."""
    octets, end = _calls.octets_of(octets), c_size_t()
    offset = _calls.number(offset, 64, "an offset")
    _calls.check(_calls.library.dnsm_name_end(octets, len(octets), offset, byref(end)))
    return int(end.value)


def names_are_equal(one: Name, other: Name) -> bool:
    """Whether two names are equal, ignoring ASCII case."""
    return _compared(_calls.library.dnsm_name_equal, one, other) != 0


def name_is_below(name: Name, above: Name) -> bool:
    """Whether the first name is the second or a subdomain of it."""
    return _compared(_calls.library.dnsm_name_below, name, above) != 0


def compare_names(one: Name, other: Name) -> int:
    """-1, 0 or 1: the first name is before, equal to, or after the second as RFC 4034 section 6.1 orders names."""
    return _compared(_calls.library.dnsm_name_order, one, other) - 1


def name_key(name: Name) -> bytes:
    """Octets that compare as RFC 4034 section 6.1 orders names. The keys of subdomains begin with that of the name."""
    octets = name_octets(name)
    return _calls.written(_calls.library.dnsm_name_key, octets, len(octets), 0)


def name_hash(name: Name, seed: Octets) -> int:
    """A hash of 32 bits, which ignores ASCII case.

    If others choose the names, the seed has to be secret and random, of 16 octets: else they can choose names with the same hash.
    """
    octets, seed, found = name_octets(name), _calls.octets_of(seed), c_uint32()
    _calls.check(_calls.library.dnsm_name_hash(octets, len(octets), 0, seed, len(seed), byref(found)))
    return int(found.value)


def _compared(call: Any, one: Name, other: Name) -> int:
    first, second, found = name_octets(one), name_octets(other), c_uint8()
    _calls.check(call(first, len(first), 0, second, len(second), 0, byref(found)))
    return int(found.value)


def name_octets(name: Name) -> bytes:
    """The octets of a name to write."""
    return name_from_text(name) if isinstance(name, str) else _calls.octets_of(name)


def name_text(name: Name) -> bytes:
    """The text of a name to write, as the library takes it."""
    return _text_octets(name if isinstance(name, str) else name_to_text(_checked(_calls.octets_of(name))))


def _checked(octets: bytes) -> bytes:
    """The octets, if they are one uncompressed name and no more."""
    read = _calls.written(_calls.library.dnsm_name_octets, octets, len(octets), 0)
    _calls.check(Status.OK if read == octets else Status.BAD_TEXT)
    return octets


def _text_octets(text: str) -> bytes:
    """A text in octets. The library refuses those above 127, which no text of a name has."""
    return text.encode("utf-8", "surrogatepass")
