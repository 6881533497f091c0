"""Hits of the library, in bulk as the records that it writes."""

from __future__ import annotations

import array
import struct
from typing import Iterator, NamedTuple, Sequence, Union, overload

_RECORD = struct.Struct("=QII")
SIZE = _RECORD.size


class Hit(NamedTuple):
    """A literal, by its number in the plan, and the bytes that it covers: from `start` up to, but not including, `end`."""

    literal: int
    start: int
    end: int


class Hits(Sequence[Hit]):
    """Hits in order of their end, and of their literal where ends are equal. Each takes 16 bytes until it is asked for:
    `ends`, `literals` and `lengths` are arrays over those bytes, and `records` is the bytes."""

    __slots__ = ("records",)

    def __init__(self, records: Union[bytes, bytearray]) -> None:
        self.records = memoryview(records).toreadonly()
        """The hits as bytes, each as u64 end, u32 literal and u32 length in the order of this machine. NumPy reads them by
        `numpy.frombuffer(hits.records, dtype=[("end", "u8"), ("literal", "u4"), ("length", "u4")])`."""

    @property
    def ends(self) -> memoryview:
        """The end of each hit."""
        return self._column("Q", 0, 2)

    @property
    def literals(self) -> memoryview:
        """The literal of each hit."""
        return self._column("I", 2, 4)

    @property
    def lengths(self) -> memoryview:
        """The length of each hit in bytes."""
        return self._column("I", 3, 4)

    def _column(self, form: str, first: int, step: int) -> memoryview:
        """One number of each hit. Python casts no empty view, so that an array stands for it."""
        return self.records.cast(form)[first::step] if self.records else memoryview(array.array(form))

    @property
    def starts(self) -> array.array[int]:
        """The start of each hit, in an array of its own."""
        return array.array("Q", (end - length for end, _, length in _RECORD.iter_unpack(self.records)))

    def __len__(self) -> int:
        return len(self.records) // SIZE

    @overload
    def __getitem__(self, index: int) -> Hit: ...

    @overload
    def __getitem__(self, index: slice) -> Sequence[Hit]: ...

    def __getitem__(self, index: Union[int, slice]) -> Union[Hit, Sequence[Hit]]:
        if isinstance(index, slice):
            return [self[place] for place in range(*index.indices(len(self)))]
        place = range(len(self))[index]
        end, literal, length = _RECORD.unpack_from(self.records, place * SIZE)
        return Hit(literal, end - length, end)

    def __iter__(self) -> Iterator[Hit]:
        for end, literal, length in _RECORD.iter_unpack(self.records):
            yield Hit(literal, end - length, end)

    def __eq__(self, other: object) -> bool:
        if isinstance(other, Hits):
            return self.records == other.records
        return isinstance(other, (list, tuple)) and len(self) == len(other) and all(a == b for a, b in zip(self, other))

    __hash__ = None  # type: ignore[assignment]

    def __repr__(self) -> str:
        shown = ", ".join(map(repr, self[:3])) + (", .." if len(self) > 3 else "")
        return f"<{len(self)} hits: {shown}>" if self else "<0 hits>"
