"""Plans and streams of the C library: literal search inside this process."""

from __future__ import annotations

import contextlib
import ctypes
import os
import threading
from typing import TYPE_CHECKING, Callable, Generator, Iterable, Iterator, List, Optional, Tuple, Type, TypeVar, Union

from .errors import Refusal, Refused, refusal
from .frames import IGNORES_CASE, SIXTEEN_BUCKETS, texts
from .hits import SIZE, Hit, Hits
from .library import NO_LITERAL, Borrowed, Handle, Info, answered, library, pieces

if TYPE_CHECKING:
    from .library import Bytes

# How many hits a call of the library may give beyond those of one end: for a text, and for a piece of a stream.
_ROOM, _FEED_ROOM = 4096, 512
_Made = TypeVar("_Made", bound="Plan")


def _flags(ignore_case: bool, buckets: int) -> int:
    """The flags of a plan. ValueError where there are neither 8 nor 16 buckets."""
    if buckets not in (8, 16):
        raise ValueError(f"{buckets} buckets, where a plan may have 8 or 16")
    return (IGNORES_CASE if ignore_case else 0) | (SIXTEEN_BUCKETS if buckets == 16 else 0)


def _position(number: int) -> int:
    """A position that fits 64 bits, as the library takes it. OutOfRange for others."""
    if not 0 <= number < 1 << 64:
        raise refusal(Refusal.OUT_OF_RANGE)
    return number


class _Room:
    """Room for hits, and for the two numbers that a search writes. It is kept, since ctypes makes numbers slowly."""

    __slots__ = ("size", "at", "records", "place", "places", "count", "counts", "_kept")

    def __init__(self, size: int) -> None:
        self.size, buffer = size, bytearray(size * SIZE)
        self._kept = ctypes.c_char.from_buffer(buffer)
        self.at, self.records = ctypes.addressof(self._kept), memoryview(buffer)
        self.place, self.count = ctypes.c_size_t(), ctypes.c_size_t()
        self.places, self.counts = ctypes.byref(self.place), ctypes.byref(self.count)

    def found(self) -> memoryview:
        """The records of the hits that the last call wrote."""
        return self.records[: SIZE * self.count.value]


class _Search:
    """A handle of a plan, for one search at a time, with room for its hits."""

    __slots__ = ("handle", "handles", "room")

    def __init__(self, handle: Handle, room: int) -> None:
        self.handle, self.handles, self.room = handle, ctypes.byref(handle), _Room(room)


class Plan:
    """A list of literals, ready to search. The literals are the patterns that are not empty, each once, ordered by length and
    then by bytes, and in lower case where the case of A to Z is ignored.

    A plan serves any number of threads, which search at the same time. `close`, the end of a `with` or the last reference
    frees it. Plans can be pickled: a plan file travels, and its certificate is checked where it arrives.

    Raises TooManyPatterns, LiteralTooLong, ListTooLarge, NoLiterals (also for an empty list), OutOfMemory, and
    LibraryMissing where the library cannot be loaded; TypeError where a pattern is no bytes, ValueError where `buckets` is
    neither 8 nor 16.
    """

    literal_of: Tuple[Optional[int], ...] = ()
    """For each pattern the number of its literal, and None for an empty pattern. Empty for a plan that was read."""

    def __init__(self, patterns: Iterable[bytes], ignore_case: bool = False, *, buckets: int = 8) -> None:
        words = texts(patterns)
        numbers = (ctypes.c_uint32 * max(len(words), 1))()
        flags, given = _flags(ignore_case, buckets), pieces(words)
        self._begin(lambda plan, fault: library().plan_new(plan, given, len(words), flags, numbers, len(words), fault))
        self.literal_of = tuple(None if number == NO_LITERAL else number for number in numbers[: len(words)])

    @classmethod
    def from_lines(cls: Type[_Made], text: Bytes, ignore_case: bool = False, *, buckets: int = 8) -> _Made:
        """A plan of the lines of a text, as of a pattern file. Raises what `Plan` raises."""
        flags = _flags(ignore_case, buckets)
        with Borrowed(text) as given:
            return cls._made(lambda plan, fault: library().plan_of_lines(plan, given.at, given.size, flags, fault))

    @classmethod
    def from_bytes(cls: Type[_Made], data: Bytes, which: int = 0) -> _Made:
        """The plan of number `which` of a plan file's bytes. All certificates of the file are checked. Raises BadPlanFile,
        with the offset of the first wrong field as `detail`; NoSuchPlan; OutOfMemory."""
        number = which if 0 <= which < 1 << 64 else (1 << 64) - 1
        with Borrowed(data) as given:
            return cls._made(lambda plan, fault: library().plan_load(plan, given.at, given.size, number, fault))

    @classmethod
    def from_file(cls: Type[_Made], path: Union[str, os.PathLike[str]], which: int = 0) -> _Made:
        """The same for a plan file, as `litplan pack` writes it. OSError where it cannot be read."""
        with open(path, "rb") as file:
            return cls.from_bytes(file.read(), which)

    @classmethod
    def _made(cls: Type[_Made], make: Callable[..., int]) -> _Made:
        """A plan whose handle a call makes."""
        plan = cls.__new__(cls)
        plan._begin(make)
        return plan

    def _begin(self, make: Callable[..., int]) -> None:
        """Makes the handle by a call, and takes what the plan has."""
        self._library, self._lock = library(), threading.Lock()
        # One call at a time uses a handle. `_shared` serves shares alone, under the lock; each search takes a handle of its
        # own, which keeps the tuning of the search, and gives it back to `_idle`. The interpreter's lock guards `_idle`.
        self._shared, self._is_open = Handle(), True
        self._idle: List[_Search] = []
        # `__del__` frees the handle from here on.
        self._literals: Optional[Tuple[bytes, ...]] = None
        fault_at, info = ctypes.c_size_t(), Info()
        answered(make(ctypes.byref(self._shared), ctypes.byref(fault_at)), fault_at.value)
        answered(self._library.plan_info(ctypes.byref(self._shared), ctypes.byref(info)))
        self.ignore_case, self.buckets = bool(info.flags & IGNORES_CASE), 16 if info.flags & SIXTEEN_BUCKETS else 8
        self.longest: int = info.longest
        """How many bytes the longest literal has."""
        self.cost: int = info.cost
        """What the plan costs: no grouping into at most that many buckets costs less."""
        self._size: int = info.literals

    def __reduce__(self) -> Tuple[Callable[[bytes], Plan], Tuple[bytes]]:
        return type(self).from_bytes, (self.to_bytes(),)

    def __len__(self) -> int:
        return self._size

    def __repr__(self) -> str:
        return f"<plan of {self._size} literals{', case ignored' if self.ignore_case else ''}>"

    def __enter__(self: _Made) -> _Made:
        return self

    def __exit__(self, *_: object) -> None:
        self.close()

    def __del__(self) -> None:
        if hasattr(self, "_literals"):
            self.close()

    def close(self) -> None:
        """Frees the plan. Streams go on; further searches raise NullHandle. A search in another thread ends first."""
        self._is_open = False
        with self._lock:
            self._library.plan_free(ctypes.byref(self._shared))
        self._free_idle()

    def _taken(self) -> _Search:
        """A handle that nobody else uses until it is given back."""
        try:
            return self._idle.pop()
        except IndexError:
            # The room comes first: nothing would free the handle if there were no memory for the room.
            search = _Search(Handle(), self._size + _ROOM)
            with self._lock:
                answered(self._library.plan_share(ctypes.byref(self._shared), search.handles))
            return search

    def _give(self, search: _Search) -> None:
        """Keeps a handle for the next search, or frees it where the plan was closed meanwhile."""
        self._idle.append(search)
        if not self._is_open:
            self._free_idle()

    def _free_idle(self) -> None:
        """Frees the handles that nobody uses. Whoever pops a handle owns it, so that two threads can do this at once."""
        with contextlib.suppress(IndexError):
            while True:
                self._library.plan_free(self._idle.pop().handles)

    @contextlib.contextmanager
    def _search(self) -> Iterator[_Search]:
        """A handle for the body of a `with`."""
        search = self._taken()
        try:
            yield search
        finally:
            self._give(search)

    @property
    def literals(self) -> Tuple[bytes, ...]:
        """The literals in the order of their numbers."""
        if self._literals is None:
            room, size = ctypes.create_string_buffer(self.longest), ctypes.c_size_t()
            found = []
            with self._search() as search:
                for number in range(self._size):
                    answered(self._library.plan_literal(search.handles, number, room, self.longest, ctypes.byref(size)))
                    found.append(room.raw[: size.value])
            self._literals = tuple(found)
        return self._literals

    def scan(self, data: Bytes) -> Iterator[Hit]:
        """The hits in the bytes, in order of their end, and of their literal where ends are equal. They are found as they
        are asked for; until the iterator is at its end or closed, the bytes cannot be resized."""
        return self._found(Borrowed(data))

    def _found(self, text: Borrowed) -> Generator[Hit, None, None]:
        for block in self._blocks(text):
            yield from Hits(bytes(block))

    def hits(self, data: Bytes) -> Hits:
        """The same hits in bulk, 16 bytes each."""
        records = bytearray()
        for block in self._blocks(Borrowed(data)):
            records += block
        return Hits(records)

    def count(self, data: Bytes) -> int:
        """How many hits there are in the bytes."""
        return sum(len(block) for block in self._blocks(Borrowed(data))) // SIZE

    def next_end(self, data: Bytes, start: int = 0) -> Optional[int]:
        """The first position after `start` at which a literal ends, or None. OutOfRange where `start` is not in the bytes."""
        start = _position(start)
        with Borrowed(data) as text, self._search() as search:
            answered(self._library.next(search.handles, text.at, text.size, start, search.room.places))
            return search.room.place.value or None

    def matches(self, data: Bytes) -> bool:
        """Whether the bytes have a hit. Stops at the first."""
        return self.next_end(data) is not None

    def _blocks(self, text: Borrowed) -> Generator[memoryview, None, None]:
        """The records of the hits, some at a time. Each block lies where the one before lay."""
        search = self._taken()
        try:
            room, scan, size = search.room, self._library.scan, text.size
            room.place.value = 0
            while True:
                answered(scan(search.handles, text.at, size, room.places, room.at, room.size, room.counts))
                yield room.found()
                if room.place.value == size:
                    return
        finally:
            self._give(search)
            text.release()

    def stream(self, base: int = 0) -> Stream:
        """A stream by this plan, which counts positions from `base`. It holds the plan itself, so the plan may be closed
        before it. Raises NullHandle, OutOfMemory, and OutOfRange where `base` does not fit 64 bits."""
        return Stream(self, base)

    def to_bytes(self) -> bytes:
        """A plan file with this plan."""
        size = ctypes.c_size_t()
        with self._search() as search:
            status = self._library.plan_save(search.handles, ctypes.create_string_buffer(1), 0, ctypes.byref(size))
            if status != Refusal.SMALL_BUFFER:
                answered(status)
            room = ctypes.create_string_buffer(size.value)
            answered(self._library.plan_save(search.handles, room, size.value, ctypes.byref(size)))
        return room.raw

    def save(self, path: Union[str, os.PathLike[str]]) -> None:
        """Writes a plan file with this plan, from which `scand` can start. OSError where it cannot be written."""
        data = self.to_bytes()
        with open(path, "wb") as file:
            file.write(data)


class Stream:
    """A stream that comes in pieces, cut anywhere: a hit that spans pieces is found. Made by `Plan.stream`; a context manager
    that closes it. Threads may share it, and take turns."""

    def __init__(self, plan: Plan, base: int = 0) -> None:
        self._begin(plan, len(plan) + 1 + _FEED_ROOM)
        with plan._search() as search:
            answered(self._library.stream_open(search.handles, ctypes.byref(self._handle), _position(base)))

    def _begin(self, plan: Plan, room: int) -> None:
        """Takes all that a stream needs besides its handle, so that `__del__` frees the handle from then on."""
        self._library, self._lock, self._handle = plan._library, threading.Lock(), Handle()
        self._room, self.plan = _Room(room), plan

    def __enter__(self) -> Stream:
        return self

    def __exit__(self, *_: object) -> None:
        self.close()

    def __del__(self) -> None:
        if hasattr(self, "plan"):
            self.close()

    def close(self) -> None:
        """Closes the stream. A further `feed` raises NullHandle."""
        with self._lock:
            self._library.stream_close(ctypes.byref(self._handle))

    def feed(self, piece: Bytes) -> Hits:
        """Takes the next bytes, and gives the hits that end in them. Raises StreamTooLong where the position would pass
        2^64 - 1, and then the stream is as before; OutOfMemory; NullHandle. After OutOfMemory, or any other exception
        in its midst, such as KeyboardInterrupt, the stream is closed, since it may have taken a part of the piece."""
        records, taken, room, handle = bytearray(), 0, self._room, ctypes.byref(self._handle)
        with Borrowed(piece) as text, self._lock:
            try:
                while True:
                    at = text.address() + taken if taken else text.at
                    answered(self._library.stream_feed(
                        handle, at, text.size - taken, room.places, room.at, room.size, room.counts
                    ))
                    records += room.found()
                    taken += room.place.value
                    if taken == text.size:
                        return Hits(records)
            except BaseException as fault:
                if not isinstance(fault, Refused) or isinstance(fault, MemoryError):
                    self._library.stream_close(handle)
                raise

    def scan(self, pieces: Iterable[Bytes]) -> Iterator[Hit]:
        """Feeds pieces as its hits are asked for, and gives these as they come."""
        for piece in pieces:
            yield from self.feed(piece)

    @property
    def place(self) -> int:
        """The position: the base, and how many bytes were fed."""
        place = ctypes.c_uint64()
        with self._lock:
            answered(self._library.stream_place(ctypes.byref(self._handle), ctypes.byref(place)))
        return place.value

    def copy(self) -> Stream:
        """A stream at the same position, after the same bytes. Each goes on alone."""
        other = Stream.__new__(Stream)
        other._begin(self.plan, self._room.size)
        with self._lock:
            answered(self._library.stream_copy(ctypes.byref(self._handle), ctypes.byref(other._handle)))
        return other

    def restart(self, base: int = 0) -> None:
        """Begins a new stream by the same plan, which counts positions from `base`."""
        with self._lock:
            answered(self._library.stream_reset(ctypes.byref(self._handle), _position(base)))


def check(data: Bytes) -> int:
    """How many plans a plan file's bytes have, each with a certificate that holds. Raises BadPlanFile, with the offset of the
    first wrong field as `detail`, and OutOfMemory."""
    count, fault_at = ctypes.c_size_t(), ctypes.c_size_t()
    with Borrowed(data) as given:
        status = library().check(given.at, given.size, ctypes.byref(count), ctypes.byref(fault_at))
    answered(status, fault_at.value)
    return count.value


def library_version() -> Tuple[int, int, int]:
    """The three numbers of the library's version. LibraryMissing where it cannot be loaded."""
    return library().version
