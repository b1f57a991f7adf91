"""The errors, which are the statuses of dnsm.h."""

import enum
from typing import TYPE_CHECKING, Any, Dict, Optional, Tuple, Type

if TYPE_CHECKING:
    from ._edns import Edns


class Status(enum.IntEnum):
    """What a call returns."""

    OK = 0
    END = 1
    SHORT_INPUT = 2
    BAD_LABEL = 3
    BAD_POINTER = 4
    LONG_NAME = 5
    FORM = 6
    NO_ROOM = 7
    BAD_TEXT = 8
    NO_QUESTION = 9
    BAD_SECTION = 10
    NO_MEMORY = 11
    LONG_DATA = 12
    TOO_MANY = 13
    IS_RESPONSE = 14
    OTHER_OPCODE = 15
    OTHER_CLASS = 16
    OTHER_TYPE = 17
    NOT_OPT = 18
    BAD_OPTION = 19
    NO_NAME = 20
    BAD_DATA = 21
    NO_OPT = 22
    TWO_OPTS = 23
    BAD_OWNER = 24
    NO_RESPONSE = 25
    OTHER_QUERY = 26
    BAD_RCODE = 27
    TRUNCATED = 28
    WRONG_CLASS = 29
    OUTSIDE_ZONE = 30
    NO_SOA = 31
    WRONG_SOA = 32
    AFTER_END = 33
    INCOMPLETE = 34


class Error(ValueError):
    """Why a call has no result. `status` is the number of dnsm.h, and the text says it as a sentence."""

    def __init__(self, status: int, text: str) -> None:
        super().__init__(text)
        try:
            self.status: int = Status(status)
        except ValueError:
            # One of a later version of the library.
            self.status = status

    def __reduce__(self) -> Tuple[Any, ...]:
        """Makes pickle and copy pass both arguments."""
        return type(self), (int(self.status), str(self)), self.__dict__


class MalformedMessage(Error):
    """Octets that can't be read as a message, or as the part of it that was asked for.

    If that is an option, `edns` has the fields of its OPT record, and the options before it.
    """

    edns: "Optional[Edns]" = None


class NameTextError(Error):
    """A text that represents nothing, or octets that are no valid name to write."""


class DataError(Error):
    """Octets that aren't the RDATA of their record type, or RDATA without the name that was asked for."""


class NoRoom(Error):
    """A builder's limit leaves too few octets for an item."""


class TooLong(Error):
    """RDATA or an option of more than 65,535 octets, or more than 65,535 items in a section."""


class NotAnswerable(Error):
    """Octets that `respond_a` or `Builder.response` doesn't answer."""


class TransferError(Error):
    """A message that isn't the next one of a transfer, or a transfer that hasn't ended."""


_KINDS: Dict[int, Type[Error]] = {
    Status.SHORT_INPUT: MalformedMessage,
    Status.BAD_LABEL: MalformedMessage,
    Status.BAD_POINTER: MalformedMessage,
    Status.LONG_NAME: MalformedMessage,
    Status.FORM: MalformedMessage,
    Status.BAD_OPTION: MalformedMessage,
    Status.TWO_OPTS: MalformedMessage,
    Status.BAD_OWNER: MalformedMessage,
    Status.NO_ROOM: NoRoom,
    Status.BAD_TEXT: NameTextError,
    Status.BAD_DATA: DataError,
    Status.NO_NAME: DataError,
    Status.LONG_DATA: TooLong,
    Status.TOO_MANY: TooLong,
    Status.NO_QUESTION: NotAnswerable,
    Status.IS_RESPONSE: NotAnswerable,
    Status.OTHER_OPCODE: NotAnswerable,
    Status.OTHER_CLASS: NotAnswerable,
    Status.OTHER_TYPE: NotAnswerable,
    Status.NO_RESPONSE: TransferError,
    Status.OTHER_QUERY: TransferError,
    Status.BAD_RCODE: TransferError,
    Status.TRUNCATED: TransferError,
    Status.WRONG_CLASS: TransferError,
    Status.OUTSIDE_ZONE: TransferError,
    Status.NO_SOA: TransferError,
    Status.WRONG_SOA: TransferError,
    Status.AFTER_END: TransferError,
    Status.INCOMPLETE: TransferError,
}


def error_of(status: int, text: str) -> Exception:
    """The exception for a status. `text` is the sentence of dnsm_status_text."""
    if status == Status.NO_MEMORY:
        return MemoryError(text)
    return _KINDS.get(status, Error)(status, text)
