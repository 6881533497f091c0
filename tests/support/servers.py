"""`scand` as the tests start it, and the connections to it. SCAND in the environment names another program to test."""

import contextlib
import os
import socket
import struct
import subprocess
import time

from oracles.sessions import HITS, PUBLISHED, Session, feed, open_stream, publish, requests_of
from support.programs import program_at

SCAND = os.environ.get("SCAND", program_at("scand"))
SERVER = [SCAND, "--stdio"]
NEEDED = b"scand: --stdio or --port and --connections are needed\n"
# How long a reply or an end may take, and the status of a program that did not end.
SECONDS, NO_END = 20, "no end"
# How a connection may end that its client breaks.
BROKEN = {"read-fault", "write-fault", "truncated"}
# The literals with the most hits in a Feed: all 354 of them end at each byte of a long run of `a`.
COSTLIEST = [b"a" * length for length in range(1, 355)]


def ended(program):
    """The status, output and messages of a program that must end now."""
    try:
        shown = program.communicate(timeout=SECONDS)
        return program.returncode, *shown
    except subprocess.TimeoutExpired:
        program.kill()
        return NO_END, *program.communicate()


class Client:
    """One connection, and the model of its session over a store that all connections share."""

    def __init__(self, port, store):
        self.socket = socket.create_connection(("127.0.0.1", port), SECONDS)
        self.socket.setsockopt(socket.IPPROTO_TCP, socket.TCP_NODELAY, 1)
        self.model, self.rest, self.fault = Session(store), b"", b""

    def __enter__(self):
        return self

    def __exit__(self, *_):
        self.socket.close()

    def sends(self, text):
        with contextlib.suppress(OSError):  # the replies then show the fault
            self.socket.sendall(text)

    def hears(self, size):
        """The next bytes, this number of them, or fewer before the end, a fault or a long silence."""
        try:
            while len(self.rest) < size:
                piece = self.socket.recv(1 << 16)
                if not piece:
                    break
                self.rest += piece
        except OSError as fault:
            self.fault = repr(fault).encode()
        got, self.rest = self.rest[:size], self.rest[size:]
        return got

    def reply(self):
        """The next frame, or b"" at the end."""
        front = self.hears(4)
        return front + self.hears(int.from_bytes(front, "big"))

    def replies(self):
        """The replies to one request: some Hits, and then a reply of another kind."""
        got = [self.reply()]
        while got[-1][4:5] == bytes([HITS]):
            got.append(self.reply())
        return got

    def asks(self, request):
        """The replies to a request, and the replies of the model. The model takes the number of a plan from the server."""
        self.sends(request)
        got = self.replies()
        is_published = got[0][4:5] == bytes([PUBLISHED])
        number = int.from_bytes(got[0][9:], "big") if is_published else None
        return got, self.model.answers(*requests_of(request)[0][0], number)

    def leaves(self):
        """Ends the requests. Answers what still comes, and the fault in which that ends, if any."""
        with contextlib.suppress(OSError):
            self.socket.shutdown(socket.SHUT_WR)
        return self.hears(1 << 20) + self.fault

    def resets(self):
        self.socket.setsockopt(socket.SOL_SOCKET, socket.SO_LINGER, struct.pack("ii", 1, 0))
        self.socket.close()


def free_port():
    with socket.socket() as taken:
        taken.bind(("127.0.0.1", 0))
        return taken.getsockname()[1]


class Server:
    """The server on a free port, for a number of connections, with further words."""

    def __init__(self, connections, *further, **how):
        self.port, self.store = free_port(), {}
        words = [SCAND, "--port", str(self.port), "--connections", str(connections), *further]
        how.setdefault("stdout", subprocess.PIPE)
        self.program = subprocess.Popen(words, stderr=subprocess.PIPE, **how)

    def __enter__(self):
        return self

    def __exit__(self, *_):
        self.program.kill()
        self.program.communicate()

    def client(self):
        """A new connection. The first one waits until the server listens."""
        for _ in range(100 * SECONDS):
            with contextlib.suppress(ConnectionRefusedError):
                return Client(self.port, self.store)
            if self.program.poll() is not None:
                break
            time.sleep(0.01)
        raise ConnectionRefusedError

    def ends(self):
        """Its status, output and messages."""
        return ended(self.program)

    def figure(self, name):
        """A figure of the process, in KiB."""
        with open(f"/proc/{self.program.pid}/status") as file:
            return next(int(line.split()[1]) for line in file if line.startswith(name))


def lines(words):
    """The output of the server for connections that end with these words."""
    return b"".join(b"connection %d %s\n" % (number, word.encode()) for number, word in enumerate(words, 1))


def sends_deafly(client):
    """Makes a client ask for more hits than sockets hold. It reads none of them."""
    client.sends(publish(COSTLIEST))
    number = int.from_bytes(client.reply()[9:], "big")
    client.sends(open_stream(1, number) + feed(1, b"a" * 65536))
