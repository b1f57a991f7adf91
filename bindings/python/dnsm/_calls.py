"""The calls of dnsm.h, by ctypes. Nothing else in the package knows how a call is made."""

import ctypes
import operator
import os
from ctypes import POINTER, byref, c_bool, c_char, c_char_p, c_size_t, c_uint8, c_uint16, c_uint32, c_uint64
from typing import Any, Tuple, Union

from ._errors import Status, error_of

Octets = Union[bytes, bytearray, memoryview]

_SONAME = "libdnsm.so.2"
# Enough for nearly every text and message. A call whose result is longer says how long it is, and is made again.
_CAPACITY = 1024


class Header(ctypes.Structure):
    _fields_ = [
        ("id", c_uint16),
        ("flags", c_uint16),
        ("counts", c_uint16 * 4),
        ("opcode", c_uint8),
        ("rcode", c_uint8),
    ]


class Cursor(ctypes.Structure):
    _fields_ = [
        ("place", c_size_t),
        ("left", c_uint16),
        ("section", c_uint8),
        ("status", c_uint32),
        ("owner", c_uint16),
    ]


class Item(ctypes.Structure):
    _fields_ = [
        ("place", c_size_t),
        ("data", c_size_t),
        ("ttl", c_uint32),
        ("type", c_uint16),
        ("class_", c_uint16),
        ("data_len", c_uint16),
        ("section", c_uint8),
    ]


class OptFields(ctypes.Structure):
    _fields_ = [("udp_size", c_uint16), ("flags", c_uint16), ("rcode_high", c_uint8), ("version", c_uint8)]


class OptOption(ctypes.Structure):
    _fields_ = [("data", c_size_t), ("code", c_uint16), ("data_len", c_uint16)]


class DataField(ctypes.Structure):
    _fields_ = [("place", c_size_t), ("len", c_size_t), ("number", c_uint64), ("kind", c_uint8)]


class NewItem(ctypes.Structure):
    _fields_ = [
        ("name", c_char_p),
        ("name_len", c_size_t),
        ("data", c_char_p),
        ("data_len", c_size_t),
        ("ttl", c_uint32),
        ("type", c_uint16),
        ("class_", c_uint16),
        ("section", c_uint8),
    ]


class Draft(ctypes.Structure):
    _fields_ = [
        ("len", c_size_t),
        ("limit", c_size_t),
        ("reserved", c_size_t),
        ("id", c_uint16),
        ("flags", c_uint16),
        ("counts", c_uint16 * 4),
        ("section", c_uint8),
        ("unchecked", c_uint8),
        ("hints", c_uint16 * 64),
    ]


class PutItem(ctypes.Structure):
    _fields_ = NewItem._fields_


class Saying(ctypes.Structure):
    _fields_ = [
        ("ttl", c_uint32),
        ("alias_ttl", c_uint32),
        ("rcode", c_uint16),
        ("kind", c_uint8),
        ("name_len", c_uint8),
        ("owner_len", c_uint8),
        ("target_len", c_uint8),
        ("name", c_uint8 * 255),
        ("owner", c_uint8 * 255),
        ("target", c_uint8 * 255),
    ]


class Transfer(ctypes.Structure):
    _fields_ = [
        ("known", c_uint32),
        ("version", c_uint32),
        ("last", c_uint32),
        ("status", c_uint32),
        ("id", c_uint16),
        ("class_", c_uint16),
        ("state", c_uint8),
        ("changes", c_uint8),
        ("zone_len", c_uint8),
        ("zone", c_uint8 * 255),
    ]


class Step(ctypes.Structure):
    _fields_ = [("item", Item), ("serial", c_uint32), ("kind", c_uint8)]


_OCTETS = [c_char_p, c_size_t]
_BUFFER = [POINTER(c_char), c_size_t]
_OUT = [*_BUFFER, POINTER(c_size_t)]
_CALLS = {
    "dnsm_open": [*_OCTETS, POINTER(Header), POINTER(Cursor)],
    "dnsm_next": [*_OCTETS, POINTER(Cursor), POINTER(Item)],
    "dnsm_name_text": [*_OCTETS, c_size_t, *_OUT],
    "dnsm_name_octets": [*_OCTETS, c_size_t, *_OUT],
    "dnsm_name_end": [*_OCTETS, c_size_t, POINTER(c_size_t)],
    "dnsm_data_name": [*_OCTETS, POINTER(Item), c_size_t, POINTER(c_size_t)],
    "dnsm_name_from_text": [*_OCTETS, *_OUT],
    "dnsm_name_equal": [*_OCTETS, c_size_t, *_OCTETS, c_size_t, POINTER(c_uint8)],
    "dnsm_name_below": [*_OCTETS, c_size_t, *_OCTETS, c_size_t, POINTER(c_uint8)],
    "dnsm_name_order": [*_OCTETS, c_size_t, *_OCTETS, c_size_t, POINTER(c_uint8)],
    "dnsm_name_key": [*_OCTETS, c_size_t, *_OUT],
    "dnsm_name_hash": [*_OCTETS, c_size_t, *_OCTETS, POINTER(c_uint32)],
    "dnsm_data_octets": [*_OCTETS, POINTER(Item), *_OUT],
    "dnsm_check_data": [*_OCTETS, POINTER(Item)],
    "dnsm_data_name_text": [*_OCTETS, POINTER(Item), c_size_t, *_OUT],
    "dnsm_data_name_octets": [*_OCTETS, POINTER(Item), c_size_t, *_OUT],
    "dnsm_next_field": [*_OCTETS, POINTER(Item), POINTER(c_size_t), POINTER(DataField)],
    "dnsm_data_from_text": [c_uint16, *_OCTETS, *_OUT],
    "dnsm_record_from_text": [*_OCTETS, *_OUT, POINTER(Item)],
    "dnsm_data_text": [*_OCTETS, POINTER(Item), *_OUT],
    "dnsm_type_text": [c_uint16, *_OUT],
    "dnsm_class_text": [c_uint16, *_OUT],
    "dnsm_opcode_text": [c_uint8, *_OUT],
    "dnsm_rcode_text": [c_uint16, *_OUT],
    "dnsm_option_text": [c_uint16, *_OUT],
    "dnsm_extended_error_text": [c_uint16, *_OUT],
    "dnsm_type_from_text": [*_OCTETS, POINTER(c_uint16)],
    "dnsm_class_from_text": [*_OCTETS, POINTER(c_uint16)],
    "dnsm_opcode_from_text": [*_OCTETS, POINTER(c_uint8)],
    "dnsm_rcode_from_text": [*_OCTETS, POINTER(c_uint16)],
    "dnsm_option_from_text": [*_OCTETS, POINTER(c_uint16)],
    "dnsm_extended_error_from_text": [*_OCTETS, POINTER(c_uint16)],
    "dnsm_status_text": [c_uint32, *_OUT],
    "dnsm_opt_fields": [POINTER(Item), POINTER(OptFields)],
    "dnsm_find_opt": [*_OCTETS, POINTER(OptFields), POINTER(Item), POINTER(c_uint16)],
    "dnsm_opt_ttl": [POINTER(OptFields)],
    "dnsm_next_option": [*_OCTETS, POINTER(Item), POINTER(c_size_t), POINTER(OptOption)],
    "dnsm_option_octets": [c_uint16, *_OCTETS, *_OUT],
    "dnsm_query": [c_uint16, c_bool, *_OCTETS, c_uint16, c_uint16, *_OUT],
    "dnsm_query_opt": [c_uint16, c_bool, *_OCTETS, c_uint16, c_uint16, POINTER(OptFields), *_OCTETS, *_OUT],
    "dnsm_respond_a": [*_OCTETS, c_bool, c_uint32, c_char_p, *_OUT],
    "dnsm_answers": [*_OCTETS, *_OCTETS],
    "dnsm_build": [c_uint16, c_uint16, POINTER(NewItem), c_size_t, *_OUT],
    "dnsm_begin": [POINTER(Draft), *_BUFFER, c_uint16, c_uint16],
    "dnsm_put": [POINTER(Draft), *_BUFFER, POINTER(PutItem)],
    "dnsm_put_set": [POINTER(Draft), *_BUFFER, POINTER(PutItem), c_size_t, c_bool],
    "dnsm_respond": [POINTER(Draft), *_BUFFER, *_OCTETS, POINTER(c_uint16), POINTER(OptFields)],
    "dnsm_begin_response": [POINTER(Draft), *_BUFFER, *_OCTETS, c_uint16],
    "dnsm_put_from": [POINTER(Draft), *_BUFFER, *_OCTETS, POINTER(Item)],
    "dnsm_finish": [POINTER(Draft), *_OUT],
    "dnsm_reply": [*_OCTETS, *_OCTETS, *_OCTETS, POINTER(Saying)],
    "dnsm_is_regular": [*_OCTETS, POINTER(c_uint8)],
    "dnsm_min_ttl": [*_OCTETS, POINTER(c_uint32)],
    "dnsm_records_end": [*_OCTETS, POINTER(c_size_t)],
    "dnsm_age": [*_BUFFER, c_uint32],
    "dnsm_first_message": [*_OCTETS, POINTER(c_size_t), POINTER(c_size_t)],
    "dnsm_begin_transfer": [POINTER(Transfer), c_uint16, *_OCTETS, c_uint16, c_bool, c_uint32],
    "dnsm_open_transfer": [POINTER(Transfer), *_OCTETS, POINTER(Cursor)],
    "dnsm_next_step": [POINTER(Transfer), *_OCTETS, POINTER(Cursor), POINTER(Step)],
    "dnsm_end_transfer": [POINTER(Transfer)],
    "dnsm_version": [],
}


def _load() -> ctypes.CDLL:
    """The library beside this file, or if there is none, that of the system."""
    beside = os.path.join(os.path.dirname(os.path.abspath(__file__)), _SONAME)
    library = ctypes.CDLL(beside if os.path.exists(beside) else _SONAME)
    for name, arguments in _CALLS.items():
        call = getattr(library, name)
        call.restype, call.argtypes = c_uint32, arguments
    return library


library = _load()


def library_version() -> Tuple[int, int, int]:
    """The version of the library that is loaded: major, minor and patch."""
    version = int(library.dnsm_version())
    return version // 10000, version // 100 % 100, version % 100


def status_text(status: int) -> str:
    length, out = c_size_t(), (c_char * 128)()
    library.dnsm_status_text(status, out, len(out), byref(length))
    return ctypes.string_at(out, length.value).decode("ascii")


def check(status: int) -> bool:
    """Whether there is a result. Returns False at the end of an iteration, and raises each error."""
    if status == Status.OK:
        return True
    if status == Status.END:
        return False
    raise error_of(status, status_text(status))


def written(call: Any, *arguments: Any, capacity: int = _CAPACITY) -> bytes:
    """The octets that a call writes. It is made once if the capacity suffices."""
    length = c_size_t()
    while True:
        out = (c_char * capacity)()
        status = call(*arguments, out, capacity, byref(length))
        if status != Status.NO_ROOM:
            check(status)
            return ctypes.string_at(out, length.value)
        # A text needs one octet more than its length.
        capacity = length.value + 1


def text(call: Any, *arguments: Any) -> str:
    """The text that a call writes. All texts are ASCII."""
    return written(call, *arguments).decode("ascii")


def octets_of(data: Octets) -> bytes:
    """A copy of any object with a buffer, or the object if it is of type `bytes` already."""
    return data if type(data) is bytes else memoryview(data).tobytes()


def number(value: int, bits: int, what: str) -> int:
    """The value, if it is an integer of at most this number of bits: ctypes would drop the others."""
    value = operator.index(value)
    if not 0 <= value < 1 << bits:
        raise ValueError(f"{what} has to be from 0 to {(1 << bits) - 1}, and is {value}")
    return value
