"""Reads and writes DNS messages, by proved code.

    >>> query = query("www.example.com", Type.A, id=4660)
    >>> message = Message.from_wire(query)
    >>> [str(question) for question in message.questions]
    ['www.example.com. IN A']

`Message.from_wire` reads the header only; questions and records are read as they are iterated over. `build` writes a message by one
call, and `Builder` item by item, within a limit. The README says what the text of a name is.

Errors of the library are subclasses of `Error`, but `MemoryError` if an allocation fails. A number out of range is a `ValueError`,
and an argument of another type a `TypeError`.
"""

from ._builder import Builder, Mark
from ._calls import library_version
from ._edns import Edns, Option
from ._errors import (
    DataError,
    Error,
    MalformedMessage,
    NameTextError,
    NoRoom,
    NotAnswerable,
    Status,
    TooLong,
    TransferError,
)
from ._items import Field, Question, Record
from ._message import FoundOpt, Message, Reply
from ._names import (
    compare_names,
    name_end,
    name_from_text,
    name_hash,
    name_is_below,
    name_key,
    name_to_octets,
    name_to_text,
    names_are_equal,
)
from ._numbers import (
    Class,
    ExtendedErrorCode,
    FieldKind,
    Flag,
    Opcode,
    OptionCode,
    Rcode,
    ReplyKind,
    Section,
    StepKind,
    TransferState,
    Type,
    class_from_text,
    class_text,
    extended_error_from_text,
    extended_error_text,
    opcode_from_text,
    opcode_text,
    option_from_text,
    option_text,
    rcode_from_text,
    rcode_text,
    type_from_text,
    type_text,
)
from ._transfer import Step, Transfer, first_message, missing_octets
from ._write import NewRecord, build, data_from_text, query, record_from_text, respond_a

# bindings/package writes the version of dnsm.h here.
__version__ = "0.0.0"

__all__ = [
    "Builder",
    "Class",
    "DataError",
    "Edns",
    "Error",
    "ExtendedErrorCode",
    "Field",
    "FieldKind",
    "Flag",
    "FoundOpt",
    "MalformedMessage",
    "Mark",
    "Message",
    "NameTextError",
    "NewRecord",
    "NoRoom",
    "NotAnswerable",
    "Opcode",
    "Option",
    "OptionCode",
    "Question",
    "Rcode",
    "Record",
    "Reply",
    "ReplyKind",
    "Section",
    "Status",
    "Step",
    "StepKind",
    "TooLong",
    "Transfer",
    "TransferError",
    "TransferState",
    "Type",
    "build",
    "class_from_text",
    "class_text",
    "compare_names",
    "data_from_text",
    "extended_error_from_text",
    "extended_error_text",
    "first_message",
    "library_version",
    "missing_octets",
    "name_end",
    "name_from_text",
    "name_hash",
    "name_is_below",
    "name_key",
    "name_to_octets",
    "name_to_text",
    "names_are_equal",
    "opcode_from_text",
    "opcode_text",
    "option_from_text",
    "option_text",
    "query",
    "rcode_from_text",
    "rcode_text",
    "record_from_text",
    "respond_a",
    "type_from_text",
    "type_text",
]
