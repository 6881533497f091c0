"""The frames of the server: what a client sends, and what it may be sent. docs/FORMATS.md describes them byte by byte."""

from __future__ import annotations

import enum
import struct
from typing import BinaryIO, Iterable, Iterator, List, NamedTuple, Optional, Sequence, Tuple

# What a payload may have at most, the most hits of one Hits, and how much is taken from a connection at once.
PAYLOAD, HITS_IN_FRAME, TAKEN = 65536, 4096, 1 << 18
HEAD = struct.Struct(">IBI")
HIT = struct.Struct(">HQ")
NUMBER = struct.Struct(">Q")
# Bits of the flags of a Publish and of a Plan.
IGNORES_CASE, SIXTEEN_BUCKETS = 1, 2


class Request(enum.IntEnum):
    """Kinds of frames that a client sends."""

    PUBLISH = 0x01
    OPEN = 0x02
    FEED = 0x03
    CLOSE = 0x04
    SHOW_PLAN = 0x05


class Reply(enum.IntEnum):
    """Kinds of frames that the server sends."""

    PUBLISHED = 0x11
    OPENED = 0x12
    HITS = 0x13
    FED = 0x14
    CLOSED = 0x15
    PLAN = 0x16
    REFUSED = 0x17


class Hit(NamedTuple):
    """A literal, by its place in the plan's order from 0, and how many bytes of the stream there are up to its end."""

    literal: int
    end: int


class PlanShown(NamedTuple):
    """What ShowPlan reports: how many literals there are, what the plan costs, where its runs end, and how many buckets
    it may have, 8 or 16. Each run is a bucket."""

    ignore_case: bool
    literals: int
    price: int
    ends: Tuple[int, ...]
    buckets: int = 8


class Plan(NamedTuple):
    """A plan that this client published: its number, its literals in the order that hits count them by, and how many
    buckets it may have."""

    number: int
    literals: Tuple[bytes, ...]
    ignore_case: bool
    buckets: int = 8

    @property
    def longest(self) -> int:
        """How many bytes the longest literal has."""
        return len(self.literals[-1])


def texts(literals: Iterable[bytes]) -> List[bytes]:
    """The literals as bytes. TypeError where one is a text or a number, as in a list that is itself bytes."""
    return [bytes(memoryview(word)) for word in literals]


def ordered(literals: Iterable[bytes], ignore_case: bool = False) -> Tuple[bytes, ...]:
    """The literals by length and then by bytes, each once, and in lower case where case is ignored."""
    words = {word.lower() if ignore_case else bytes(word) for word in literals}
    return tuple(sorted(words, key=lambda word: (len(word), word)))


def pieces_of(file: BinaryIO, size: int = PAYLOAD) -> Iterator[bytes]:
    """The bytes of an unbuffered or buffered file, in pieces of at most this size."""
    return iter(lambda: file.read(size), b"")


def frame(kind: int, stream: int, payload: bytes = b"") -> bytes:
    """A frame. ValueError where the payload is too large for one."""
    if len(payload) > PAYLOAD:
        raise ValueError(f"a payload of {len(payload)} bytes, of which {PAYLOAD} fit a frame")
    return HEAD.pack(5 + len(payload), kind, stream) + payload


def publish_frame(literals: Sequence[bytes], ignore_case: bool = False, buckets: int = 8) -> bytes:
    """The frame of a Publish. ValueError where the list does not fit one, or where there are neither 8 nor 16 buckets."""
    if buckets not in (8, 16):
        raise ValueError(f"{buckets} buckets, where a plan may have 8 or 16")
    flags = (IGNORES_CASE if ignore_case else 0) | (SIXTEEN_BUCKETS if buckets == 16 else 0)
    size = 3 + sum(2 + len(word) for word in literals)
    if size > PAYLOAD:
        raise ValueError(f"a list of {size} bytes, of which {PAYLOAD} fit a frame")
    spelled = b"".join(len(word).to_bytes(2, "big") + word for word in literals)
    return frame(Request.PUBLISH, 0, struct.pack(">BH", flags, len(literals)) + spelled)


def cut(pieces: Iterable[bytes]) -> Iterator[bytes]:
    """The pieces, each cut into pieces that fit a frame."""
    for piece in pieces:
        for start in range(0, max(len(piece), 1), PAYLOAD):
            yield bytes(piece[start : start + PAYLOAD])


class Pieces:
    """The pieces of an iterable, each cut into pieces that fit a frame. They end where the iterable raises, and `fault` is
    its exception. So the hits of the pieces before it can be given first."""

    def __init__(self, given: Iterable[bytes]) -> None:
        self.given = given
        self.fault: Optional[Exception] = None

    def __iter__(self) -> Iterator[bytes]:
        try:
            yield from cut(self.given)
        except Exception as fault:
            self.fault = fault


def open_frame(stream: int, number: int) -> bytes:
    """The frame of an Open. ValueError where a number does not fit it."""
    if not 0 <= stream < 1 << 32:
        raise ValueError(f"stream {stream}: the number of a stream is from 0 to 2^32 - 1")
    if not 0 <= number < 1 << 64:
        raise ValueError(f"plan {number}: the number of a plan is from 0 to 2^64 - 1")
    return frame(Request.OPEN, stream, NUMBER.pack(number))


def feed_frame(stream: int, piece: bytes) -> bytes:
    return frame(Request.FEED, stream, piece)


def is_whole(kind: int, payload: bytes) -> bool:
    """Whether a reply of this kind may have this payload."""
    size = len(payload)
    if kind in (Reply.OPENED, Reply.CLOSED):
        return size == 0
    if kind in (Reply.PUBLISHED, Reply.FED):
        return size == 8
    if kind == Reply.REFUSED:
        return size == 3
    if kind == Reply.HITS:
        count = int.from_bytes(payload[:2], "big")
        return 1 <= count <= HITS_IN_FRAME and size == 2 + HIT.size * count
    known = IGNORES_CASE | SIXTEEN_BUCKETS
    return kind == Reply.PLAN and size >= 12 and not payload[0] & ~known and size == 12 + 2 * payload[11]
