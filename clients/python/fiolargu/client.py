"""A connection to `scand`, and its streams."""

from __future__ import annotations

import contextlib
import os
import selectors
import socket
import struct
import subprocess
import time
from typing import BinaryIO, Callable, Dict, Generator, Iterable, Iterator, List, Optional, Sequence, Tuple, Union

from .errors import BadFrame, BadReply, ConnectionLost, FiolarguError, NotStarted, Refusal, Refused, TimedOut, refusal
from .frames import (
    HEAD, HIT, NUMBER, SIXTEEN_BUCKETS, IGNORES_CASE, TAKEN, PAYLOAD, Hit, Pieces, Plan, PlanShown, Reply, Request, feed_frame,
    frame, is_whole, open_frame, ordered, publish_frame, texts,
)

class Link:
    """The two ways of a connection, over descriptors that do not block."""

    def __init__(self, take: Callable[[int], bytes], give: Callable[[memoryview], int], reader: int, writer: int) -> None:
        self.take, self.give, self.reader, self.writer = take, give, reader, writer
        self.selector = selectors.DefaultSelector()
        self.selector.register(reader, selectors.EVENT_READ)
        self.is_writing = False

    def wait(self, is_writing: bool, timeout: Optional[float]) -> Tuple[bool, bool]:
        """Waits until the link can be read, or written if `is_writing`, and returns which."""
        if is_writing != self.is_writing:
            self.select(is_writing)
        events = {key.fd: mask for key, mask in self.selector.select(timeout)}
        can_write = bool(events.get(self.writer, 0) & selectors.EVENT_WRITE)
        return bool(events.get(self.reader, 0) & selectors.EVENT_READ), can_write

    def select(self, is_writing: bool) -> None:
        if self.reader == self.writer:
            both = selectors.EVENT_READ | selectors.EVENT_WRITE
            self.selector.modify(self.reader, both if is_writing else selectors.EVENT_READ)
        elif is_writing:
            self.selector.register(self.writer, selectors.EVENT_WRITE)
        else:
            self.selector.unregister(self.writer)
        self.is_writing = is_writing


def _is_callers(fault: OSError) -> bool:
    """Whether a fault is the caller's, raised by a handler of a signal. Those of system calls have numbers."""
    return isinstance(fault, TimeoutError) and fault.errno is None


class Client:
    """One connection to a server. Made by `connect` or `spawn`; a context manager that closes it. An exception that
    comes in the midst of a call, such as KeyboardInterrupt, closes it too."""

    def __init__(self, link: Link, leave: Callable[[], None], timeout: Optional[float], name: str = "the server") -> None:
        self.timeout, self.name = timeout, name
        self._link, self._leave = link, leave
        self._sent, self._got, self._at = bytearray(), bytearray(), 0
        self._streams: Dict[int, Stream] = {}
        self._is_open, self._can_write, self._is_scanning = True, True, False

    @classmethod
    def connect(cls, host: str, port: int, *, timeout: Optional[float] = 30.0) -> Client:
        """A connection to a server. `timeout` bounds each wait in which no byte goes either way, in seconds. ValueError if
        `port` is not a port."""
        name = f"{host}:{port}"
        if not 0 < port < 65536:
            raise ValueError(f"{name}: a port is a number from 1 to 65535")
        began = time.monotonic()
        try:
            peer = socket.create_connection((host, port), timeout)
            peer.setsockopt(socket.IPPROTO_TCP, socket.TCP_NODELAY, 1)
            peer.setblocking(False)
        except OSError as fault:
            # The fault of a peer that does not answer has no number either, but it does not come before its time.
            if _is_callers(fault) and (timeout is None or time.monotonic() < began + timeout):
                raise
            if isinstance(fault, socket.timeout):
                raise TimedOut(f"{name} did not answer for {timeout} seconds") from fault
            raise ConnectionLost(f"{name}: {fault.strerror or fault}") from fault
        link = Link(peer.recv, peer.send, peer.fileno(), peer.fileno())
        return cls(link, peer.close, timeout, name)

    @classmethod
    def spawn(
        cls, words: Sequence[str] = ("scand", "--stdio"), *, timeout: Optional[float] = 30.0, stderr: Optional[BinaryIO] = None
    ) -> Client:
        """A server of its own, over the standard streams of a subprocess, which `close` ends. Its messages, among them the
        numbers of a plan file's plans, go to `stderr`, by default this program's own."""
        try:
            child = subprocess.Popen(words, stdin=subprocess.PIPE, stdout=subprocess.PIPE, stderr=stderr, bufsize=0)
        except OSError as fault:
            if _is_callers(fault):
                raise
            raise NotStarted(f"{words[0]}: {fault.strerror or fault}") from fault
        assert child.stdin is not None and child.stdout is not None
        reader, writer = child.stdout.fileno(), child.stdin.fileno()
        os.set_blocking(reader, False)
        os.set_blocking(writer, False)
        link = Link(lambda most: os.read(reader, most), lambda text: os.write(writer, text), reader, writer)
        return cls(link, lambda: _end(child), timeout, words[0])

    def __enter__(self) -> Client:
        return self

    def __exit__(self, *_: object) -> None:
        self.close()

    @property
    def is_open(self) -> bool:
        """Whether nobody has closed the connection, and no fault or exception has ended it."""
        return self._is_open

    def close(self) -> None:
        """Ends the connection, and with it the session: its streams are gone, and a server of its own ends."""
        if self._is_open:
            self._is_open = False
            self._link.selector.close()
            self._leave()

    def publish(self, literals: Iterable[bytes], ignore_case: bool = False, *, buckets: int = 8) -> Plan:
        """Publishes a list, and gives its plan, which may have 8 or 16 buckets. Hits are the same with both; 16 are meant
        for lists of many literals. ValueError where the list does not fit a frame."""
        words = texts(literals)
        number = NUMBER.unpack(self._ask(publish_frame(words, ignore_case, buckets), 0, Reply.PUBLISHED))[0]
        return Plan(number, ordered(words, ignore_case), ignore_case, buckets)

    def open(self, plan: Union[Plan, int], number: Optional[int] = None) -> Stream:
        """Opens a stream by a plan, or by the number of a plan that another client published or that the server began
        with. The stream gets `number`, by default the first free number. ValueError where a number does not fit a frame."""
        if number is None:
            number = next(free for free in range(len(self._streams) + 1) if free not in self._streams)
        request = open_frame(number, plan.number if isinstance(plan, Plan) else plan)
        self._expect_idle()
        with self._or_closed():
            self._ask(request, number, Reply.OPENED)
            stream = self._streams[number] = Stream(self, number, plan if isinstance(plan, Plan) else None)
        return stream

    def _ask(self, request: bytes, stream: int, kind: Reply) -> bytes:
        """The payload of the only reply to a request."""
        self._expect_idle()
        with self._or_closed():
            self._send(request)
            return self._expect(stream, (kind,))[1]

    @contextlib.contextmanager
    def _or_closed(self) -> Iterator[None]:
        """Closes the connection where the body of a `with` raises anything but a refusal, such as the exception of a
        signal: the reply that is left unread would be taken for the reply to a later request."""
        try:
            yield
        except Refused:
            raise
        except BaseException:
            self.close()
            raise

    def _send(self, request: bytes) -> None:
        """Appends a request to the bytes to send."""
        self._sent += request

    def _expect_open(self) -> None:
        """ConnectionLost where the connection is closed."""
        if not self._is_open:
            raise ConnectionLost(f"the connection to {self.name} is closed")

    def _expect_idle(self) -> None:
        """ConnectionLost where the connection is closed, and RuntimeError where a scan has not ended."""
        self._expect_open()
        if self._is_scanning:
            raise RuntimeError("a scan of this client has not ended: take its hits to the end, or close it")

    def _expect(self, stream: int, kinds: Tuple[Reply, ...]) -> Tuple[int, bytes]:
        """The kind and payload of the next reply, which is to be of that stream and one of those kinds."""
        kind, of, payload = self._reply()
        code, detail = struct.unpack(">BH", payload) if kind == Reply.REFUSED else (0, 0)
        if code == Refusal.BAD_FRAME and of == 0:
            raise self._closed(BadFrame(code, detail, of))
        if of != stream or kind not in (*kinds, Reply.REFUSED):
            raise self._bad(f"kind {kind:#x} of stream {of}")
        if kind == Reply.REFUSED:
            raise refusal(code, detail, of)
        return kind, payload

    def _reply(self) -> Tuple[int, int, bytes]:
        """The next frame: kind, stream and payload."""
        self._need(HEAD.size)
        length, kind, stream = HEAD.unpack_from(self._got, self._at)
        if not 5 <= length <= PAYLOAD + 5:
            raise self._bad(f"a length of {length}")
        self._need(4 + length)
        payload = bytes(self._got[self._at + HEAD.size : self._at + 4 + length])
        self._at += 4 + length
        if not is_whole(kind, payload):
            raise self._bad(f"kind {kind:#x} with a payload of {len(payload)} bytes")
        return kind, stream, payload

    def _need(self, size: int) -> None:
        """Waits until `size` bytes of replies are there, and sends requests meanwhile."""
        if len(self._got) - self._at < size:
            del self._got[: self._at]
            self._at = 0
        while len(self._got) - self._at < size:
            self._turn()

    def _turn(self) -> None:
        """Moves some bytes, in either way."""
        self._expect_open()
        try:
            can_read, can_write = self._link.wait(bool(self._sent) and self._can_write, self.timeout)
            if not can_read and not can_write:
                raise self._closed(TimedOut(f"{self.name}: no byte went either way for {self.timeout} seconds"))
            if can_write:
                self._write()
            if can_read:
                self._read()
        except FiolarguError:
            raise
        except BlockingIOError:
            pass
        except OSError as fault:
            if _is_callers(fault):
                raise
            raise self._closed(ConnectionLost(f"{self.name}: {fault.strerror or fault}")) from fault

    def _write(self) -> None:
        """Sends some. Where the server takes no more, its replies so far are still read."""
        try:
            with memoryview(self._sent) as view:
                taken = self._link.give(view[:TAKEN])
            del self._sent[:taken]
        except BlockingIOError:
            pass
        except OSError as fault:
            if _is_callers(fault):
                raise
            self._can_write = False

    def _read(self) -> None:
        piece = self._link.take(TAKEN)
        if not piece:
            raise self._closed(ConnectionLost(f"{self.name} ended the connection"))
        self._got += piece

    def _bad(self, what: str) -> FiolarguError:
        return self._closed(BadReply(f"{self.name} sent what is no reply to what was asked: {what}"))

    def _closed(self, fault: FiolarguError) -> FiolarguError:
        """The fault, once the connection is closed."""
        self.close()
        return fault


def _end(child: subprocess.Popen[bytes]) -> None:
    """Ends a server of one's own: by the end of its input, and by force where that does not serve."""
    for pipe in child.stdin, child.stdout:
        with contextlib.suppress(OSError):
            if pipe is not None:
                pipe.close()
    try:
        child.wait(5)
    except subprocess.TimeoutExpired:
        child.kill()
        child.wait()


class Stream:
    """An open stream. Its hits are ordered by end, and by literal where ends are equal."""

    def __init__(self, client: Client, number: int, plan: Optional[Plan]) -> None:
        self.client, self.number, self.plan = client, number, plan
        self.place = 0
        """How many bytes the server has reported as fed."""

    def __enter__(self) -> Stream:
        return self

    def __exit__(self, *_: object) -> None:
        if self.client._is_open and not self.client._is_scanning and self.client._streams.get(self.number) is self:
            with contextlib.suppress(ConnectionLost, TimedOut):
                self.close()

    def feed(self, piece: bytes) -> List[Hit]:
        """Feeds a piece of any length, and gives all hits that end in it."""
        return list(self.scan([piece]))

    def scan(self, pieces: Iterable[bytes], ahead: int = 4) -> Generator[Hit, None, None]:
        """An iterator over the hits, which feeds the pieces as it is read. Up to `ahead` Feeds are on their way at once: it
        takes that many pieces before it gives the hits of the first. With 1 it takes a piece after the reply to the piece
        before. The client serves no other call until the iterator is at its end or closed. Closing it drops the hits of
        what was fed. An exception of `pieces` is raised after the hits of the pieces before it. Any other exception,
        such as of a signal, closes the client."""
        given = pieces if isinstance(pieces, Pieces) else Pieces(pieces)
        source, awaited, most, is_over = iter(given), 0, max(ahead, 1), False
        self._expect_own()
        try:
            try:
                self.client._is_scanning = True
                while awaited or not is_over:
                    while not is_over and awaited < most:
                        piece = next(source, None)
                        is_over = piece is None
                        if piece is not None:
                            self.client._sent += feed_frame(self.number, piece)
                            awaited += 1
                    if awaited:
                        is_fed, hits = self._answer()
                        awaited -= is_fed
                        yield from hits
            except Refused:
                self._drain(awaited - 1)
                raise
            except GeneratorExit:
                self._drain(awaited)
                raise
            self.client._is_scanning = False
        except (Refused, GeneratorExit):
            raise
        except BaseException:
            # It does not wait for the replies to what was fed: they may never come, and their hits would be lost.
            self.client.close()
            raise
        if given.fault is not None:
            raise given.fault

    def _answer(self) -> Tuple[bool, Iterable[Hit]]:
        """Whether the next reply is the Fed of a Feed, and otherwise its hits."""
        kind, payload = self.client._expect(self.number, (Reply.HITS, Reply.FED))
        if kind == Reply.HITS:
            return False, map(Hit._make, HIT.iter_unpack(payload[2:]))
        self.place = NUMBER.unpack(payload)[0]
        return True, ()

    def _drain(self, awaited: int) -> None:
        """Takes the replies to this many Feeds, or the replies before the connection ends."""
        with contextlib.suppress(ConnectionLost, TimedOut, BadReply):
            while awaited and self.client._is_open:
                try:
                    awaited -= self._answer()[0]
                except Refused:
                    awaited -= 1
        self.client._is_scanning = False

    def _expect_own(self) -> None:
        """NoSuchStream where the stream was closed: another stream may have its number now. And what `_expect_idle`
        raises."""
        self.client._expect_idle()
        if self.client._streams.get(self.number) is not self:
            raise refusal(Refusal.NO_SUCH_STREAM, 0, self.number)

    def show_plan(self) -> PlanShown:
        """What the server reports of the stream's plan."""
        self._expect_own()
        payload = self.client._ask(frame(Request.SHOW_PLAN, self.number), self.number, Reply.PLAN)
        flags, literals, price, runs = struct.unpack_from(">BHQB", payload)
        ends, buckets = struct.unpack_from(f">{runs}H", payload, 12), 16 if flags & SIXTEEN_BUCKETS else 8
        return PlanShown(bool(flags & IGNORES_CASE), literals, price, ends, buckets)

    def close(self) -> None:
        """Closes the stream. Its number is free again."""
        self._expect_own()
        with self.client._or_closed():
            self.client._ask(frame(Request.CLOSE, self.number), self.number, Reply.CLOSED)
            self.client._streams.pop(self.number, None)
