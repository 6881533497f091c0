"""A stream that resumes on a new connection when a connection is lost."""

from __future__ import annotations

import itertools
import time
from collections import deque
from typing import Callable, Deque, Generator, Iterable, Iterator, List, Optional, Union

from .client import Client, Stream
from .errors import BadReply, ConnectionLost, FiolarguError, NotStarted, TimedOut
from .frames import Hit, Pieces, Plan, ordered, texts

class Resumed:
    """A stream by a list of its own, which resumes when a connection is lost. `dial` gives a new client, which publishes
    the list and opens a new stream. That stream is fed the `longest - 1` bytes before the last position that was reported
    as fed, and then the bytes that were not. Hits that were given before are left out, and positions are shifted. So each
    hit of the whole stream is given once, in order.

    With a `number` nothing is published: streams are opened by that plan, which each server has from the same plan file.
    It must be the plan of this list. BadReply if it has another number of literals, or treats case otherwise.

        with Resumed(lambda: Client.connect("127.0.0.1", 7000), [b"cat"]) as stream:
            for hit in stream.scan(pieces_of(file)):
                ...

    After `tries` connections in a row that bring it no further, it raises the last fault, and again at each later call.
    Between them it waits for `pause` seconds, and twice as long each time, up to two seconds.

    After any other fault the stream goes on, and after the exception of a signal. The next call first feeds the bytes
    that were taken and not reported as fed, and gives the hits that were not given. `taken` is the position of the byte
    to pass next.
    """

    def __init__(
        self, dial: Callable[[], Client], literals: Iterable[bytes], ignore_case: bool = False, *,
        buckets: int = 8, number: Optional[int] = None, tries: int = 6, pause: float = 0.05,
    ) -> None:
        self.number, self.buckets = number, buckets
        self.dial, self.ignore_case, self.tries, self.pause = dial, ignore_case, tries, pause
        self.words = texts(literals)
        self.literals = ordered(self.words, ignore_case)
        """The literals in the order that hits count them by."""
        self.place = 0
        """How many bytes were reported as fed, in all."""
        self.losses = 0
        """How many connections were lost or could not be made."""
        self._client: Optional[Client] = None
        self._stream: Optional[Stream] = None
        self._plan: Union[Plan, int, None] = number
        self._base, self._lead = 0, b""
        # An exception of a signal may come between any two statements, so what belongs together is set by one.
        self._unfed: List[bytes] = []
        self._told = (0, 0)
        self._kept: Deque[Hit] = deque()
        self._failed, self._place_failed = 0, 0
        self._fault: Optional[FiolarguError] = None

    def __enter__(self) -> Resumed:
        return self

    def __exit__(self, *_: object) -> None:
        self.close()

    @property
    def taken(self) -> int:
        """How many bytes were taken from pieces, in all: reported as fed, or kept to be fed by the next call."""
        return self.place + sum(map(len, self._unfed))

    def close(self) -> None:
        """Ends the connection."""
        if self._client is not None:
            self._client.close()
        self._client = self._stream = None

    def feed(self, piece: bytes) -> List[Hit]:
        """Feeds a piece of any length, and gives all hits that end in it."""
        found: List[Hit] = []
        try:
            found.extend(self.scan([piece]))
            return found
        except BaseException:
            # The next call gives them.
            self._kept = deque([*found, *self._kept])
            raise

    def scan(self, pieces: Iterable[bytes], ahead: int = 4) -> Generator[Hit, None, None]:
        """As `Stream.scan`, over as many connections as it takes."""
        given = Pieces(pieces)
        source, is_over = self._noted(iter(given)), False
        try:
            while self._kept:
                hit = self._kept[0]
                del self._kept[0]
                yield hit
            if self._fault is not None:
                raise self._fault
            while not is_over:
                try:
                    yield from self._hits(self._taken_up(), source, ahead)
                    is_over = True
                except NotStarted:
                    raise
                except (ConnectionLost, TimedOut) as fault:
                    self._lose(fault)
        except GeneratorExit:
            # Closing drops the hits of the pieces that were taken. A fault drops none: the next call gives them.
            self._told = max(self._told, (self.taken, len(self.literals)))
            self._kept.clear()
            raise
        except FiolarguError:
            raise
        except BaseException:
            # A connection that the exception of a signal closed was not lost.
            if self._client is not None and not self._client.is_open:
                self._note_place()
                self.close()
            raise
        finally:
            self._note_place()
        if given.fault is not None:
            raise given.fault

    def restart(self) -> None:
        """Begins a new stream by the same list, over the same connection while that holds. Its place is 0."""
        client, stream = self._client, self._stream
        opened: Optional[Stream] = None
        if client is not None and stream is not None and self._plan is not None and client.is_open:
            # A scan that has not ended makes this raise, and goes on.
            client._expect_idle()
            self._note_place()
            # Where the calls below raise anything else, the next call goes on with the old stream, on a new connection.
            self._stream = None
            try:
                stream.close()
                opened = client.open(self._plan)
            except (ConnectionLost, TimedOut):
                pass
            except BaseException:
                client.close()
                raise
        self._stream, self._base, self._unfed, self._kept, self.place, self._lead, self._told = (
            opened, 0, [], deque(), 0, b"", (0, 0)
        )
        self._failed = self._place_failed = 0

    def _hits(self, stream: Stream, source: Iterator[bytes], ahead: int) -> Iterator[Hit]:
        """The hits of one connection that were not given yet."""
        given = Pieces(itertools.chain(list(self._unfed), source))
        hits = stream.scan(given, ahead)
        try:
            for literal, end in hits:
                hit = Hit(literal, end + self._base)
                if (hit.end, literal) > self._told:
                    self._told = hit.end, literal
                    yield hit
        except GeneratorExit:
            hits.close()
            raise
        except (ConnectionLost, TimedOut):
            # The exception of a signal may have come before, while a piece was taken, and ended the pieces.
            if given.fault is not None:
                raise given.fault
            raise
        except BaseException as fault:
            # An exception that came here ends the scan too, as if it had come there: without a wait for further hits.
            hits.throw(fault)
            raise

    def _noted(self, source: Iterator[bytes]) -> Iterator[bytes]:
        """The pieces, each kept until it is reported as fed."""
        for piece in source:
            self._note_place()
            self._unfed.append(piece)
            yield piece

    def _note_place(self) -> None:
        """Moves on to the last position reported as fed."""
        place = self.place if self._stream is None else self._base + self._stream.place
        while self._unfed and self.place + len(self._unfed[0]) <= place:
            known = self._lead + self._unfed[0]
            lead = known[max(len(known) - len(self.literals[-1]) + 1, 0) :]
            self.place, self._lead, self._unfed = self.place + len(self._unfed[0]), lead, self._unfed[1:]

    def _taken_up(self) -> Stream:
        """The stream, on a new connection where there is none, fed with the lead."""
        self._note_place()
        if self._stream is None:
            client = self.dial()
            try:
                stream = self._opened(client)
                if self._lead:
                    stream.feed(self._lead)
            except BaseException:
                client.close()
                raise
            self._client, self._stream, self._base = client, stream, self.place - len(self._lead)
        return self._stream

    def _opened(self, client: Client) -> Stream:
        """A stream by the list, on a new connection."""
        if self.number is None:
            self._plan = client.publish(self.words, self.ignore_case, buckets=self.buckets)
            return client.open(self._plan)
        stream = client.open(self.number)
        shown = stream.show_plan()
        if (shown.literals, shown.ignore_case) != (len(self.literals), self.ignore_case):
            raise BadReply(f"{client.name}: plan {self.number} is another one: {shown}")
        return stream

    def _lose(self, fault: FiolarguError) -> None:
        """Drops a lost connection, and waits. Raises the fault after too many in a row."""
        self._note_place()
        self.close()
        self.losses += 1
        self._failed = self._failed + 1 if self.place == self._place_failed else 1
        self._place_failed = self.place
        if self._failed >= self.tries:
            self._fault = fault
            raise fault
        time.sleep(min(self.pause * 2 ** (self._failed - 1), 2.0))
