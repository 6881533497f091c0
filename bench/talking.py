"""Clients of a server of frames, over its standard streams and over the loopback, for serving.py."""
import os
import socket
import subprocess
import sys
import time

from programs import HERE

sys.path.insert(0, os.path.join(HERE, "../tests"))
from oracles.sessions import HITS, feed, open_stream  # noqa: E402

MORE = bytes([HITS])
LOAD = os.path.join(HERE, "peers/bin/load")


class Stdio:
    """A server over its standard streams."""

    def __init__(self, words):
        self.child = subprocess.Popen(words, stdin=subprocess.PIPE, stdout=subprocess.PIPE, bufsize=0)
        self.rest, self.is_echo = b"", words == ["cat"]

    def __enter__(self):
        return self

    def __exit__(self, *_):
        self.child.stdin.close()
        self.child.stdout.close()
        self.child.wait()

    def send(self, text):
        while text:
            text = text[os.write(self.child.stdin.fileno(), text):]

    def receive(self):
        return os.read(self.child.stdout.fileno(), 1 << 20)

    def frame(self):
        """The next frame."""
        while len(self.rest) < 4 or len(self.rest) < 4 + int.from_bytes(self.rest[:4], "big"):
            self.rest += self.receive()
        size = 4 + int.from_bytes(self.rest[:4], "big")
        got, self.rest = self.rest[:size], self.rest[size:]
        return got

    def asks(self, request):
        """The last reply to a request, the one behind its Hits."""
        self.send(request)
        got = self.frame()
        while got[4:5] == MORE:
            got = self.frame()
        return got

    def round_trips(self, plan, pieces):
        """The seconds from each Feed of one stream to its last reply."""
        number = 0 if self.is_echo else int.from_bytes(self.asks(plan)[9:], "big")
        self.asks(open_stream(1, number))
        found = []
        for request in [feed(1, piece) for piece in pieces]:
            before = time.perf_counter()
            self.asks(request)
            found.append(time.perf_counter() - before)
        return found

    def resident(self):
        """The memory of the server, in KiB."""
        with open(f"/proc/{self.child.pid}/status") as file:
            return next(int(line.split()[1]) for line in file if line.startswith("VmRSS"))


class Connection(Stdio):
    """One connection to a server."""

    def __init__(self, port):
        self.socket, self.rest, self.is_echo = None, b"", False
        deadline = time.monotonic() + 10
        while self.socket is None:
            try:
                self.socket = socket.create_connection(("127.0.0.1", port))
            except ConnectionRefusedError:
                if time.monotonic() > deadline:
                    raise
                time.sleep(0.005)
        self.socket.setsockopt(socket.IPPROTO_TCP, socket.TCP_NODELAY, 1)

    def __exit__(self, *_):
        self.socket.close()

    def send(self, text):
        self.socket.sendall(text)

    def receive(self):
        return self.socket.recv(1 << 20)


class Port:
    """A server on a port of the loopback, for so many connections."""

    def __init__(self, path, count, *more):
        with socket.socket() as taken:
            taken.bind(("127.0.0.1", 0))
            self.port = taken.getsockname()[1]
        words = [path, "--port", str(self.port), "--connections", str(count), *more]
        self.child = subprocess.Popen(words, stdout=subprocess.DEVNULL)
        self.count, self.clients = count, []

    @staticmethod
    def is_served_by(path):
        """Whether this server has a port."""
        if os.path.basename(path) == "serve":
            return True
        done = subprocess.run([path, "--help"], capture_output=True)
        return b"--port" in done.stdout + done.stderr

    def __enter__(self):
        return self

    def __exit__(self, *_):
        for client in self.clients:
            client.socket.close()
        if self.child.returncode is None:
            self.child.wait()

    def connect(self):
        self.clients.append(Connection(self.port))
        return self.clients[-1]

    def round_trips(self, plan, pieces):
        return self.connect().round_trips(plan, pieces)

    def idle(self, count):
        """The memory of the server once so many connections more are there, in KiB."""
        for _ in range(count):
            self.connect()
        time.sleep(0.2)
        return Stdio.resident(self)

    def load(self, plan, feeds, blocks):
        """The seconds that all connections together take for a file of Feeds, so many times each, and the bytes that come."""
        words = [LOAD, str(self.port), str(self.count), plan, feeds, str(blocks)]
        seconds, came = subprocess.run(words, stdout=subprocess.PIPE, check=True).stdout.split()
        return float(seconds), int(came)

    def processor_seconds(self):
        """The processor time of the server, once it has ended."""
        _, status, usage = os.wait4(self.child.pid, 0)
        self.child.returncode = os.waitstatus_to_exitcode(status)
        return usage.ru_utime + usage.ru_stime
