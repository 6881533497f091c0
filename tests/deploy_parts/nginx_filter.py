"""deploy/nginx: a content filter in a real nginx, over bodies cut anywhere, compared with a plain search."""

import concurrent.futures
import os
import random
import re
import socket
import socketserver
import subprocess
import tempfile
import threading
import time

from oracles import sessions
from support import clibrary
from support.programs import TOP
from support.servers import SECONDS, free_port

OWN = os.path.join(TOP, "deploy", "nginx")
MODULES = "/usr/lib/nginx/modules"
WORDS = [b"cat", b"concat", b"Error 17", b"x" * 300, b"\xff\0,", b"e\xc3\xa9"]
MIB = 1 << 20
# How much more memory a worker may have after many responses than after the first of them.
GROWTH = 12 * MIB


class Upstream(socketserver.ThreadingTCPServer):
    """A server of bodies, each a list of pieces. They are sent in chunks, or with their length."""

    daemon_threads, request_queue_size = True, 256

    def __init__(self):
        super().__init__(("127.0.0.1", 0), Answer)
        self.bodies = {}
        threading.Thread(target=self.serve_forever, daemon=True).start()

    def handle_error(self, *_):
        """A connection that the filter or a client left."""


class Answer(socketserver.StreamRequestHandler):
    """One request of a connection."""

    def handle(self):
        path = self.rfile.readline().split(b" ")[1].decode()
        while self.rfile.readline() not in (b"\r\n", b""):
            pass
        self.connection.setsockopt(socket.IPPROTO_TCP, socket.TCP_NODELAY, 1)
        pieces = self.server.bodies[path]
        if path.startswith("/sized"):
            self.wfile.write(b"HTTP/1.1 200 OK\r\nContent-Length: %d\r\n\r\n" % sum(map(len, pieces)))
            for piece in pieces:
                self.wfile.write(piece)
            return
        self.wfile.write(b"HTTP/1.1 200 OK\r\nTransfer-Encoding: chunked\r\nConnection: close\r\n\r\n")
        for piece in pieces:
            if piece:
                self.wfile.write(b"%x\r\n%s\r\n" % (len(piece), piece))
        self.wfile.write(b"0\r\n\r\n")


class Filter:
    """nginx with the filter of deploy/nginx, on a free port, before an upstream."""

    def __init__(self, upstream, words=b"\n".join(WORDS) + b"\n"):
        self.folder, self.port = tempfile.TemporaryDirectory(), free_port()
        with open(os.path.join(OWN, "content_filter.conf")) as file:
            text = file.read()
        self.path("words", words)
        for written, own in (
            ("127.0.0.1:8080", f"127.0.0.1:{self.port}"), ("127.0.0.1:8000", f"127.0.0.1:{upstream.server_address[1]}"),
            ("/usr/local/share/fiolargu/deploy/nginx", OWN), ("/etc/fiolargu/words", self.path("words")),
            ("/var/log/nginx/fiolargu.log", self.path("access.log")), ("ignore_case = true", f'ignore_case = true, library = "{clibrary.LIBRARY}"'),
        ):
            assert written in text, written
            text = text.replace(written, own)
        temporary = "".join(f"{name}_temp_path {self.path(name)};\n" for name in ("client_body", "proxy", "fastcgi", "uwsgi", "scgi"))
        self.path("nginx.conf", f"""
            load_module {MODULES}/ndk_http_module.so; load_module {MODULES}/ngx_http_lua_module.so;
            {"user root;" if os.geteuid() == 0 else ""} worker_processes 1; daemon off; pid {self.path("pid")};
            error_log {self.path("error.log")} warn; events {{ worker_connections 1024; }}
            http {{ {temporary} {text} }}
        """.encode())
        words = ["nginx", "-p", self.folder.name, "-c", self.path("nginx.conf")]
        self.program = subprocess.Popen(words, stdout=subprocess.DEVNULL, stderr=subprocess.PIPE)

    def path(self, name, text=None):
        """The path of a file of nginx, which gets this text."""
        path = os.path.join(self.folder.name, name)
        if text is not None:
            with open(path, "wb") as file:
                file.write(text)
        return path

    def log(self, name):
        """What a log has."""
        with open(self.path(name), errors="replace") as file:
            return file.read()

    def __enter__(self):
        return self

    def __exit__(self, *_):
        self.program.terminate()
        self.program.communicate()
        self.folder.cleanup()

    def connect(self):
        """A connection, once nginx listens."""
        deadline = time.monotonic() + SECONDS
        while True:
            try:
                return socket.create_connection(("127.0.0.1", self.port), 60)
            except ConnectionRefusedError:
                if time.monotonic() > deadline or self.program.poll() is not None:
                    raise
                time.sleep(0.02)

    def get(self, path):
        """The body and the trailers of a response, and whether it is whole."""
        with self.connect() as peer:
            peer.sendall(b"GET %s HTTP/1.1\r\nHost: a\r\nConnection: close\r\n\r\n" % path.encode())
            text = bytearray()
            while piece := peer.recv(MIB):
                text += piece
        head, _, rest = bytes(text).partition(b"\r\n\r\n")
        if size := re.search(rb"^content-length: (\d+)\r?$", head, re.M | re.I):
            return rest, {}, len(rest) == int(size[1])
        return unchunked(rest)

    def memory(self):
        """The resident bytes of the worker."""
        with open(f"/proc/{self.program.pid}/task/{self.program.pid}/children") as file:
            worker = file.read().split()[0]
        with open(f"/proc/{worker}/status") as file:
            return int(re.search(r"VmRSS:\s+(\d+)", file.read())[1]) * 1024


def unchunked(text):
    """The body and the trailers of a text in chunks, and whether it is whole."""
    body, at = [], 0
    while True:
        end = text.find(b"\r\n", at)
        if end < 0:
            return b"".join(body), {}, False
        size = int(text[at:end], 16)
        if size == 0:
            rest = text[end + 2 :].decode()
            return b"".join(body), dict(line.split(": ", 1) for line in rest.split("\r\n") if line), rest.endswith("\r\n")
        body.append(text[end + 2 : end + 2 + size])
        at = end + 2 + size + 2


def count_of(text):
    """How many hits a plain search finds in a body."""
    return len(sessions.Plan(WORDS, True).hits(text, 0))


def cut(source, text, longest):
    """A text in pieces of random sizes."""
    pieces, at = [], 0
    while at < len(text):
        pieces.append(text[at : at + source.randrange(1, longest)])
        at += len(pieces[-1])
    return pieces


def body_of(source, size, every=0):
    """A body without hits, or with a hit about every so many bytes."""
    text = bytearray(source.choice([b"ca t con ", b"Error 1 7 ", b"x" * 299 + b" "]) * (size // 9 + 1))[:size]
    for at in range(every // 2, size - 400, every) if every else ():
        word = source.choice(WORDS)
        text[at : at + len(word)] = word
    return bytes(text)


def tagged(upstream, served):
    """Bodies cut anywhere pass unchanged, with the number of their hits and their literals."""
    source = random.Random(31)
    for number in range(40):
        text = body_of(source, source.randrange(1, 60000), source.choice([0, 500, 5000]))
        upstream.bodies["/a"] = cut(source, text, source.choice([2 + len(text) // 200, 3000, 20000]))
        body, trailers, is_whole = served.get("/tagged/a")
        yield f"body {number}", (body == text, is_whole), (True, True)
        yield f"hits of body {number}", trailers["Fiolargu-Hits"], str(count_of(text))
    upstream.bodies["/a"] = [b"con", b"CAT, \xff", b"\0,"]
    _, trailers, _ = served.get("/tagged/a")
    yield "trailers", trailers, {"Fiolargu-Hits": "3", "Fiolargu-Literals": "cat,concat,%FF%00%2C"}
    upstream.bodies["/sized"] = [b"a cat"]
    yield "a body with a length", served.get("/tagged/sized"), (b"a cat", {"Fiolargu-Hits": "1", "Fiolargu-Literals": "cat"}, True)
    upstream.bodies["/a"], upstream.bodies["/sized"] = [b"con"], [b"cat"]
    got = [served.get(f"/tagged/{name}")[1]["Fiolargu-Hits"] for name in ("a", "sized", "a", "sized")]
    yield "a literal cut between two responses", got, ["0", "1", "0", "1"]
    upstream.bodies["/a"] = [b""]
    yield "no body", served.get("/tagged/a"), (b"", {"Fiolargu-Hits": "0"}, True)
    yield "the access log", 'hits=3 literals=cat,concat,%FF%00%2C' in served.log("access.log"), True


def blocked(upstream, served):
    """A body with a hit breaks off before the literal is whole; others pass."""
    source = random.Random(32)
    for path in "/a", "/sized":
        for number in range(20):
            text = body_of(source, source.randrange(1, 60000), source.choice([0, 7000]))
            upstream.bodies[path] = cut(source, text, 9000)
            body, _, is_whole = served.get(path)
            if count_of(text):
                got = text.startswith(body), count_of(body), is_whole
                yield f"body {number} of {path}, which is blocked", got, (True, 0, False)
            else:
                yield f"body {number} of {path}, which passes", (body == text, is_whole), (True, True)
    upstream.bodies["/b"] = [b"a con", b"cat"]
    yield "a short body", served.get("/b")[2], False
    log = served.log("error.log")
    yield "is logged", "fiolargu: blocked /b: cat,concat" in log, True
    forged = "/b%0A2026/12/01%20[error]%20forged%1B[2J%FF"
    upstream.bodies[forged] = [b"a cat"]
    yield "a request with a newline", served.get(forged)[2], False
    log = served.log("error.log")
    yield "is logged in one line", f"fiolargu: blocked {forged}: cat" in log, True
    yield "lines that a request forged", [line for line in log.splitlines() if not re.match(r"\d{4}/.* \d+#\d+: ", line)], []
    yield "no other errors", [line for line in log.splitlines() if "[error]" in line and "fiolargu: blocked" not in line], []


def large(upstream, served):
    """A body of 100 MB, with hits across the borders of chunks."""
    source = random.Random(33)
    block = body_of(source, 1 << 18, 3000)
    pieces = cut(source, block * 400, 150000)
    upstream.bodies["/large"] = pieces
    text = b"".join(pieces)
    body, trailers, is_whole = served.get("/tagged/large")
    yield "a body of 100 MB", (len(body), body == text, is_whole), (100 * MIB, True, True)
    yield "its hits", trailers.get("Fiolargu-Hits"), str(count_of(text))
    before = served.memory()
    for _ in range(3):
        served.get("/tagged/large")
    growth = served.memory() - before
    yield f"memory, which grew by {growth} bytes", growth < GROWTH, True


def many(upstream, served):
    """100 requests at once, each with a stream of its own, several times; memory stays as it is."""
    source = random.Random(34)
    wants = {}
    for number in range(100):
        text = body_of(source, 200000, source.choice([0, 900, 20000]))
        upstream.bodies[f"/{number}"] = cut(source, text, 30000)
        wants[f"/{number}"] = str(count_of(text))

    def hits(path):
        body, trailers, is_whole = served.get(f"/tagged{path}")
        return path, trailers.get("Fiolargu-Hits") if is_whole and len(body) == 200000 else "cut"

    with concurrent.futures.ThreadPoolExecutor(100) as pool:
        for turn in range(6):
            yield f"100 responses at once, turn {turn}", dict(pool.map(hits, wants)), wants
            if turn == 1:
                before = served.memory()
        growth = served.memory() - before
        yield f"memory, which grew by {growth} bytes", growth < GROWTH, True


def left(upstream, served):
    """Clients that leave in the middle of a body: their streams are used again."""
    upstream.bodies["/long"] = [b"concat " * 9000] * 10

    def leave(_):
        with served.connect() as peer:
            peer.sendall(b"GET /tagged/long HTTP/1.1\r\nHost: a\r\n\r\n")
            return len(peer.recv(1000)) > 0

    with concurrent.futures.ThreadPoolExecutor(20) as pool:
        yield "clients that leave", all(pool.map(leave, range(100))), True
        before = served.memory()
        list(pool.map(leave, range(200)))
    growth = served.memory() - before
    yield f"memory, which grew by {growth} bytes", growth < GROWTH, True
    upstream.bodies["/a"] = [b"at cat"]
    yield "a response after them", served.get("/tagged/a")[1]["Fiolargu-Hits"], "1"


def refused(upstream):
    """nginx does not start with a list that is refused."""
    for words, want in (b"\n\n", "no literals"), (b"a" * 4096, "a pattern of more than 4,095 bytes"):
        with Filter(upstream, words) as served:
            message = served.program.communicate(timeout=SECONDS)[1].decode()
            yield f"a list that is refused: {message[-200:]}", (served.program.returncode, f"/words: {want}" in message), (1, True)


def filtering():
    """Each test, over one nginx."""
    if not os.path.exists(f"{MODULES}/ngx_http_lua_module.so"):
        print("left out: nginx_filter, for want of libnginx-mod-http-lua")
        return
    if not clibrary.is_there("nginx_filter"):
        return
    with Upstream() as upstream:
        with Filter(upstream) as served:
            for test in tagged, blocked, large, many, left:
                yield from test(upstream, served)
        yield from refused(upstream)


TESTS = (filtering,)
