"""The errors of the library and of the server's client. Each is a `FiolarguError`."""

from __future__ import annotations

import enum
from typing import Dict, Optional, Tuple, Type


class Refusal(enum.IntEnum):
    """Numbers of refusals, the same in the library, the programs and the frames (docs/FORMATS.md). `TOO_MANY_LITERALS` is
    not answered any more."""

    OUT_OF_MEMORY = 1
    TOO_MANY_PATTERNS = 2
    LITERAL_TOO_LONG = 3
    EMPTY_LITERAL = 4
    NO_LITERALS = 5
    TOO_MANY_LITERALS = 6
    LIST_TOO_LARGE = 7
    BAD_PLAN_FILE = 10
    BAD_FRAME = 11
    STREAM_IN_USE = 12
    NO_SUCH_STREAM = 13
    NO_SUCH_PLAN = 14
    PLAN_QUOTA = 15
    STREAM_QUOTA = 16
    STREAM_TOO_LONG = 20
    NULL_HANDLE = 21
    SMALL_BUFFER = 22
    OUT_OF_RANGE = 23


class Cause(enum.IntEnum):
    """What is wrong with a bad frame."""

    LENGTH = 1
    KIND = 2
    STREAM = 3
    PAYLOAD = 4


class FiolarguError(Exception):
    """Whatever goes wrong in the library, or between a client and its server."""


class LibraryMissing(FiolarguError, ImportError):
    """The C library could not be loaded, or has another version. The server's client does not need it."""


class ConnectionLost(FiolarguError, ConnectionError):
    """The connection could not be made, or ended before the reply."""


class NotStarted(ConnectionLost):
    """A server of the client's own could not be started. It is not tried again."""


class TimedOut(FiolarguError, TimeoutError):
    """No byte went either way for the client's time. The connection is closed."""


class BadReply(FiolarguError):
    """The server sent bytes that do not answer the request. The connection is closed."""


class Refused(FiolarguError):
    """The library or the server refused a call, and changed nothing. But a `feed` of the library that runs out of
    memory closes its stream. `detail` is a position, counted from 0: of a literal that is empty or too long, or of the
    first wrong byte of a plan file. It is a `Cause` for a bad frame, and 0 otherwise. `stream` is the stream of the
    server's reply, and None for the library."""

    def __init__(self, code: int, detail: int = 0, stream: Optional[int] = None) -> None:
        self.code, self.detail, self.stream = code, detail, stream
        meaning = _MEANINGS.get(code, "").format(detail=detail)
        rest = f": {meaning}" if stream is None and meaning else f", detail {detail}"
        super().__init__(f"{type(self).__name__} ({code}){rest}" + ("" if stream is None else f", stream {stream}"))

    def __reduce__(self) -> Tuple[Type[Refused], Tuple[int, int, Optional[int]]]:
        return type(self), (self.code, self.detail, self.stream)


class OutOfMemory(Refused, MemoryError):
    """Memory ran out in the library."""


class TooManyPatterns(Refused):
    """More than 4,096 literals in a list."""


class LiteralTooLong(Refused):
    """A literal of more than 4,095 bytes; its place in the list is `detail`."""


class EmptyLiteral(Refused):
    """An empty literal; its place in the list is `detail`. The library passes over empty literals."""


class NoLiterals(Refused):
    """A list without literals."""


class TooManyLiterals(Refused):
    """More different literals than a plan may have. It is not answered any more: a list of 4,096 literals is planned."""


class ListTooLarge(Refused):
    """More than 1,048,576 bytes in a list."""


class BadPlanFile(Refused):
    """Bytes that are no plan file, or a plan whose certificate does not hold; the first wrong field is at `detail`."""


class BadFrame(Refused):
    """Bytes that are not a frame; the `Cause` is `detail`. The server ends the connection."""


class StreamInUse(Refused):
    """An Open of an open stream."""


class NoSuchStream(Refused):
    """The stream is not open."""


class NoSuchPlan(Refused):
    """No plan of this number was found."""


class PlanQuota(Refused):
    """The session has published 64 plans."""


class StreamQuota(Refused):
    """The session has 64 open streams."""


class StreamTooLong(Refused):
    """The place in the stream would pass 2^64 - 1."""


class NullHandle(Refused):
    """The plan or the stream is closed."""


class SmallBuffer(Refused):
    """A buffer was too small. No call of this package answers it."""


class OutOfRange(Refused, IndexError):
    """A position that is not in the text or does not fit 64 bits, or a literal that the plan does not have."""


# What the library's refusals say. The messages of the server's refusals name the stream instead.
_MEANINGS: Dict[int, str] = {
    Refusal.OUT_OF_MEMORY: "memory ran out",
    Refusal.TOO_MANY_PATTERNS: "more than 4,096 patterns",
    Refusal.LITERAL_TOO_LONG: "pattern {detail} has more than 4,095 bytes",
    Refusal.NO_LITERALS: "the list has no literals",
    Refusal.LIST_TOO_LARGE: "the list has more than 1,048,576 bytes",
    Refusal.BAD_PLAN_FILE: "no plan file, or not certified, at byte {detail}",
    Refusal.NO_SUCH_PLAN: "the plan file has no plan of this number",
    Refusal.STREAM_TOO_LONG: "the position in the stream would pass 2^64 - 1",
    Refusal.NULL_HANDLE: "the plan or stream is closed",
    Refusal.OUT_OF_RANGE: "a position or a number of a literal is out of range",
}

_CLASSES: Dict[int, Type[Refused]] = {
    Refusal.OUT_OF_MEMORY: OutOfMemory,
    Refusal.TOO_MANY_PATTERNS: TooManyPatterns,
    Refusal.LITERAL_TOO_LONG: LiteralTooLong,
    Refusal.EMPTY_LITERAL: EmptyLiteral,
    Refusal.NO_LITERALS: NoLiterals,
    Refusal.TOO_MANY_LITERALS: TooManyLiterals,
    Refusal.LIST_TOO_LARGE: ListTooLarge,
    Refusal.BAD_PLAN_FILE: BadPlanFile,
    Refusal.BAD_FRAME: BadFrame,
    Refusal.STREAM_IN_USE: StreamInUse,
    Refusal.NO_SUCH_STREAM: NoSuchStream,
    Refusal.NO_SUCH_PLAN: NoSuchPlan,
    Refusal.PLAN_QUOTA: PlanQuota,
    Refusal.STREAM_QUOTA: StreamQuota,
    Refusal.STREAM_TOO_LONG: StreamTooLong,
    Refusal.NULL_HANDLE: NullHandle,
    Refusal.SMALL_BUFFER: SmallBuffer,
    Refusal.OUT_OF_RANGE: OutOfRange,
}


def refusal(code: int, detail: int = 0, stream: Optional[int] = None) -> Refused:
    """The error of a refusal of this number."""
    return _CLASSES.get(code, Refused)(code, detail, stream)
