"""Messages of a stream, and transfers of zones."""

from ctypes import byref, c_size_t
from typing import Iterator, NamedTuple, Optional, Tuple

from . import _calls
from ._calls import Octets
from ._items import Record
from ._names import Name, name_octets
from ._numbers import Class, StepKind, TransferState


class Step(NamedTuple):
    """What a record of a transfer does.

    `record` is that of `BEGIN`, `REMOVE` and `ADD`, and `serial` that of `BEGIN`, `UP_TO_DATE` and `END`. Without them they are None.
    """

    kind: StepKind
    serial: Optional[int]
    record: Optional[Record]


_WITH_RECORD = (StepKind.BEGIN, StepKind.REMOVE, StepKind.ADD)
_WITH_SERIAL = (StepKind.BEGIN, StepKind.UP_TO_DATE, StepKind.END)


def _first(stream: bytes) -> Tuple[Optional[int], int]:
    """The length of the first message, if it is whole, and how many octets are missing."""
    length, missing = c_size_t(), c_size_t()
    whole = _calls.check(_calls.library.dnsm_first_message(stream, len(stream), byref(length), byref(missing)))
    return length.value if whole else None, missing.value


def first_message(stream: Octets) -> Optional[bytes]:
    """The first message of a stream, such as TCP, or None if octets of it are missing. Two octets with its length come before it.

    Raises `MalformedMessage` if the length is less than 12: close the connection then.
    """
    stream = _calls.octets_of(stream)
    length, _ = _first(stream)
    return None if length is None else stream[2 : 2 + length]


def missing_octets(stream: Octets) -> int:
    """How many octets of the first message are missing: from its length or, once that is there, from the message. Raises as
    `first_message` does."""
    return _first(_calls.octets_of(stream))[1]


class _Steps:
    """The steps of a message, up to the first error."""

    __slots__ = ("_cursor", "_ended", "_octets", "_transfer")

    def __init__(self, transfer: _calls.Transfer, octets: bytes, cursor: _calls.Cursor) -> None:
        self._transfer, self._octets, self._cursor, self._ended = transfer, octets, cursor, False

    def are_taken(self) -> bool:
        """Whether all were taken, or an error."""
        return self._ended or self._cursor.left == 0

    def __iter__(self) -> Iterator[Step]:
        return self

    def __next__(self) -> Step:
        if self._ended:
            raise StopIteration
        step, self._ended = _calls.Step(), True
        following, cursor = _calls.library.dnsm_next_step, byref(self._cursor)
        if not _calls.check(following(byref(self._transfer), self._octets, len(self._octets), cursor, byref(step))):
            raise StopIteration
        self._ended = False
        kind, item = StepKind(step.kind), _calls.Item.from_buffer_copy(step.item)
        record = Record(self._octets, item) if kind in _WITH_RECORD else None
        return Step(kind, step.serial if kind in _WITH_SERIAL else None, record)


class Transfer:
    """A transfer of a zone, of which some messages were taken (RFC 5936, RFC 1995). TSIG isn't checked.

    `id` and `zone` are those of the query. With `known`, the serial of the version that is known, it asked for changes by IXFR, else by
    AXFR for the whole zone. Raises what other calls raise if the zone is no name.
    """

    __slots__ = ("_steps", "_transfer")

    def __init__(self, id: int, zone: Name, *, class_: int = Class.IN, known: Optional[int] = None) -> None:
        zone, self._transfer = name_octets(zone), _calls.Transfer()
        self._steps: Optional[_Steps] = None
        id, class_ = _calls.number(id, 16, "an ID"), _calls.number(class_, 16, "a class")
        serial = _calls.number(known or 0, 32, "a serial")
        call = _calls.library.dnsm_begin_transfer
        _calls.check(call(byref(self._transfer), id, zone, len(zone), class_, known is not None, serial))

    def take(self, message: Octets) -> Iterator[Step]:
        """The steps of the next message.

        Take all of them: else the next `take`, `end` and `has_ended` raise a `RuntimeError`, as steps would be left out. `TransferError` and
        `MalformedMessage` say why a message or a record can't come next; each later call raises the same. What the steps before did is to
        be undone then.
        """
        self._check_taken()
        octets, cursor = _calls.octets_of(message), _calls.Cursor()
        _calls.check(_calls.library.dnsm_open_transfer(byref(self._transfer), octets, len(octets), byref(cursor)))
        steps = self._steps = _Steps(self._transfer, octets, cursor)
        return steps

    def _check_taken(self) -> None:
        if self._steps is not None and not self._steps.are_taken():
            raise RuntimeError("steps of the message before weren't taken")

    @property
    def state(self) -> TransferState:
        """What was read."""
        return TransferState(self._transfer.state)

    def has_ended(self) -> bool:
        """Whether it has ended without an error. Else it waits for a message: over UDP, ask again over TCP (RFC 1995 section 2)."""
        self._check_taken()
        return int(self._transfer.status) == 0 and self.state == TransferState.ENDED

    def end(self) -> None:
        """Says that no message follows. Raises the error that ended the transfer, or `TransferError` if it hasn't ended."""
        self._check_taken()
        _calls.check(_calls.library.dnsm_end_transfer(byref(self._transfer)))
