#!/usr/bin/env python3
"""Scans files over a connection to a scand, and prints a line `LIT END` for each hit: the literal's number in the list
by length and bytes, and how many bytes of the file there are up to its end. With --names the line is `LIT START
"LITERAL"`. With several files a line begins with `NAME:`.

    python3 clients/python/scan_files.py --port 7000 -f LIST FILE...
    python3 clients/python/scan_files.py --stdio bin/scand --hex LIST FILE...
    python3 clients/python/scan_files.py --port 7000 --plan NUMBER FILE...

LIST has one literal a line, as bytes (-f) or in hexadecimal (--hex); empty lines count for nothing. A list that is too
long or too large for one plan is published as several plans, and their hits are joined in order. With --plan nothing is
published: files are scanned by a plan that the server has already, and a list may say what its literals are.

FILE `-` is standard input. If the list is known, a scan resumes on a new connection when a connection is lost: up to
five times in a row, with --stdio once. Status 0: hits were found; 1: none; 2: a file could not be read, standard output
could not be written, the list was refused, the server was lost for good, or anything else went wrong. Where nobody
reads standard output any more, the run ends without a message. Messages that cannot be written are dropped.
"""

import argparse
import contextlib
import errno
import io
import os
import re
import sys
import traceback
from typing import BinaryIO, Callable, Iterator, List, Optional, Protocol, Sequence, Tuple

from fiolargu.scand import PAYLOAD, Client, Hit, Refused, Resumed, ScandError, Stream, ordered, pieces_of

# What a list may have at most: literals, bytes of one, plans of a session.
LITERALS, LITERAL_BYTES, PLANS = 4096, 4095, 64
# How much is fed to several plans at a time. The hits in such a piece are held until those of all plans are there.
JOINED_PIECE = 16384


class Scanned(Protocol):
    """What scans files one after the other."""

    literals: Tuple[bytes, ...]

    def restart(self) -> None:
        """Begins a file."""

    def hits(self, file: BinaryIO) -> Iterator[Hit]:
        """The hits of the file, in order."""


class Published(Resumed):
    """One list in one plan."""

    def hits(self, file: BinaryIO) -> Iterator[Hit]:
        return self.scan(pieces_of(file))


class Loaded:
    """A plan that the server has. Its list is not known here, so it cannot resume after a lost connection."""

    literals: Tuple[bytes, ...] = ()

    def __init__(self, client: Client, number: int) -> None:
        self.client, self.number = client, number
        self.stream: Optional[Stream] = None

    def restart(self) -> None:
        if self.stream is not None:
            self.stream.close()
        self.stream = self.client.open(self.number)

    def hits(self, file: BinaryIO) -> Iterator[Hit]:
        assert self.stream is not None
        return self.stream.scan(pieces_of(file))


class Shared:
    """A connection that several streams share. It is made again where it is closed."""

    def __init__(self, dial: Callable[[], Client]) -> None:
        self.dial = dial
        self.client: Optional[Client] = None

    def __call__(self) -> Client:
        if self.client is None or not self.client.is_open:
            self.client = self.dial()
        return self.client


class Joined:
    """One list in several plans. Each holds the next literals in order, so a plan's literals count on from the last
    plan's. A connection is for as many plans as a session may publish."""

    def __init__(self, dial: Callable[[], Client], parts: Sequence[Sequence[bytes]], ignore_case: bool, tries: int) -> None:
        shared = [Shared(dial) for _ in range(0, len(parts), PLANS)]
        self.streams = [
            Resumed(shared[place // PLANS], part, ignore_case, tries=tries) for place, part in enumerate(parts)
        ]
        self.literals = tuple(word for stream in self.streams for word in stream.literals)

    def restart(self) -> None:
        for stream in self.streams:
            stream.restart()

    def hits(self, file: BinaryIO) -> Iterator[Hit]:
        for piece in pieces_of(file, JOINED_PIECE):
            found: List[Tuple[int, int]] = []
            before = 0
            for stream in self.streams:
                found += [(end, before + literal) for literal, end in stream.feed(piece)]
                before += len(stream.literals)
            yield from (Hit(literal, end) for end, literal in sorted(found))

    def close(self) -> None:
        """Ends the connections."""
        for stream in self.streams:
            stream.close()


class OutputFault(Exception):
    """Standard output cannot be written."""


class Output:
    """Standard output. Its faults are kept apart from those of files and connections."""

    def __init__(self) -> None:
        if sys.stdout is None:
            raise OutputFault(OSError(errno.EBADF, os.strerror(errno.EBADF)))
        # A name of a file that is not UTF-8 is written as it was given.
        if isinstance(sys.stdout, io.TextIOWrapper):
            sys.stdout.reconfigure(errors="surrogateescape")

    def line(self, text: str) -> None:
        try:
            sys.stdout.write(text + "\n")
        except OSError as fault:
            raise OutputFault(fault) from fault

    def flush(self) -> None:
        try:
            sys.stdout.flush()
        except OSError as fault:
            raise OutputFault(fault) from fault


def arguments() -> argparse.Namespace:
    parser = argparse.ArgumentParser(description="Scans files over a connection to a scand.")
    server = parser.add_mutually_exclusive_group(required=True)
    server.add_argument("--port", type=int, metavar="P", help="connect to this port")
    server.add_argument("--stdio", metavar="SCAND", help="start this scand, and speak with it alone")
    parser.add_argument("--host", default="127.0.0.1", metavar="H", help="connect to this host (127.0.0.1)")
    parser.add_argument("-i", "--ignore-case", action="store_true", help="ignore the case of A to Z in the list")
    shown = parser.add_mutually_exclusive_group()
    shown.add_argument("-c", "--count", action="store_true", help="print only how many hits there are")
    shown.add_argument("--names", action="store_true", help="print where a hit starts, and its literal")
    words = parser.add_mutually_exclusive_group()
    words.add_argument("-f", "--file", metavar="LIST", help="the literals, one a line")
    words.add_argument("--hex", metavar="LIST", help="the literals in hexadecimal, one a line")
    parser.add_argument("--plan", type=int, metavar="NUMBER", help="scan by this plan of the server, and publish none")
    parser.add_argument("files", nargs="+", metavar="FILE", help="what is scanned")
    given = parser.parse_args()
    given.list = given.file if given.hex is None else given.hex
    if given.list is None and (given.plan is None or given.names):
        parser.error("-f LIST or --hex LIST is needed" + (" for --names" if given.names else ", or --plan NUMBER"))
    if given.list is None and given.ignore_case:
        parser.error("-i is for a list: the server's plan says itself whether case is ignored")
    return given


def dial(given: argparse.Namespace) -> Client:
    """A new connection to the server that the words name."""
    return Client.spawn([given.stdio, "--stdio"]) if given.stdio else Client.connect(given.host, given.port)


def words_of(name: str, is_hex: bool) -> List[bytes]:
    """The literals of a list. ValueError where a line is not hexadecimal and should be."""
    with open(name, "rb") as file:
        lines = file.read().split(b"\n")
    if not is_hex:
        return [line for line in lines if line]
    for number, line in enumerate(lines, 1):
        if not re.fullmatch(rb"(?:[0-9A-Fa-f]{2})*", line):
            raise ValueError(f"{name}: line {number} is not hexadecimal")
    return [bytes.fromhex(line.decode()) for line in lines if line]


def size_of(words: Sequence[bytes]) -> int:
    """How many bytes of a payload these literals take."""
    return 3 + sum(2 + len(word) for word in words)


def parts_of(name: str, words: List[bytes], ignore_case: bool) -> List[List[bytes]]:
    """The list as it is where one plan takes it, and otherwise its literals in order, in parts that plans take.
    ValueError where a literal is too long for any plan."""
    if len(words) <= LITERALS and size_of(words) <= PAYLOAD:
        return [words]
    parts: List[List[bytes]] = [[]]
    size = size_of([])
    for word in ordered(words, ignore_case):
        if len(word) > LITERAL_BYTES:
            raise ValueError(f"{name}: a literal of {len(word)} bytes, where {LITERAL_BYTES} are the most")
        if len(parts[-1]) == LITERALS or size + 2 + len(word) > PAYLOAD:
            parts.append([])
            size = size_of([])
        parts[-1].append(word)
        size += 2 + len(word)
    return parts


def shown(literal: bytes) -> str:
    """A literal in quotes and printable ASCII, as `litplan explain` escapes it."""
    texts = (f"\\{byte:c}" if byte in b'"\\' else f"{byte:c}" if 32 <= byte < 127 else f"\\x{byte:02x}" for byte in literal)
    return '"' + "".join(texts) + '"'


def scan(given: argparse.Namespace, out: Output, scanned: Scanned, name: str) -> int:
    """Prints the hits of a file, and gives their number."""
    front, count, literals = f"{name}:" if len(given.files) > 1 else "", 0, scanned.literals
    with open(0 if name == "-" else name, "rb", closefd=name != "-") as file:
        scanned.restart()
        for count, (literal, end) in enumerate(scanned.hits(file), 1):
            if given.names:
                out.line(f"{front}{literal} {end - len(literals[literal])} {shown(literals[literal])}")
            elif not given.count:
                out.line(f"{front}{literal} {end}")
    if given.count:
        out.line(f"{front}{count}")
    return count


def scan_all(given: argparse.Namespace, out: Output, scanned: Scanned) -> int:
    """Scans each file, says which cannot be read, and gives the status."""
    found, is_read = 0, True
    for name in given.files:
        try:
            found += scan(given, out, scanned, name)
        except ScandError:
            raise
        except OSError as fault:
            say(f"{name}: {fault.strerror}")
            is_read = False
    return (0 if found else 1) if is_read else 2


def scan_by_plans(given: argparse.Namespace, out: Output) -> int:
    """Publishes the list or takes the plan that is named, scans the files, and gives the status."""
    if given.list is None:
        with dial(given) as client:
            return scan_all(given, out, Loaded(client, given.plan))
    words, tries = words_of(given.list, given.hex is not None), 2 if given.stdio else 6
    parts = [words] if given.plan is not None else parts_of(given.list, words, given.ignore_case)
    if len(parts) == 1:
        stream = Published(lambda: dial(given), parts[0], given.ignore_case, number=given.plan, tries=tries)
        with stream:
            return scan_all(given, out, stream)
    joined = Joined(lambda: dial(given), parts, given.ignore_case, tries)
    try:
        return scan_all(given, out, joined)
    finally:
        joined.close()


def say(text: str) -> None:
    """Writes a message. Where that fails, the status still tells."""
    with contextlib.suppress(OSError):
        print(f"scan_files: {text}", file=sys.stderr)


def end_messages() -> None:
    """Drops the messages that cannot be written: the end of the program would try again, and change the status."""
    try:
        sys.stderr.flush()
    except OSError:
        os.dup2(os.open(os.devnull, os.O_WRONLY), sys.stderr.fileno())


def scan_or_say(given: argparse.Namespace, out: Output) -> int:
    """Scans the files, or says why not, and gives the status."""
    try:
        return scan_by_plans(given, out)
    except Refused as fault:
        say(f"{given.list if given.plan is None else f'plan {given.plan}'}: {fault}")
    except (ScandError, ValueError) as fault:
        say(str(fault))
    except OSError as fault:
        say(f"{given.list}: {fault.strerror}")
    return 2


def run() -> int:
    """Scans the files that the words name, and gives the status."""
    given = arguments()
    try:
        out = Output()
        status = scan_or_say(given, out)
        out.flush()
        return status
    except OutputFault as fault:
        cause = fault.args[0]
        if cause.errno != errno.EPIPE:
            say(f"standard output: {cause.strerror}")
        if sys.stdout is not None:
            # What is still to be written would fail again at the end of the program.
            os.dup2(os.open(os.devnull, os.O_WRONLY), sys.stdout.fileno())
        return 2


def main() -> int:
    if sys.stderr is None:
        # `print` would write messages to standard output instead, among the hits.
        sys.stderr = open(os.devnull, "w")
    try:
        return run()
    except Exception:
        # Python would end with the status 1, which says that there are no hits.
        say(traceback.format_exc())
        return 2
    finally:
        end_messages()


if __name__ == "__main__":
    sys.exit(main())
