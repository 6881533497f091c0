"""clients/c/scand.h: frames that it reads and writes, compared with a plain model, and its example with `scand`."""

import os
import socket
import struct
import subprocess
import tempfile

from cases import session_cases
from cases.canned_replies import CANNED
from oracles import sessions
from oracles.frame_lines import lines_of
from oracles.sessions import frame
from support.programs import TOP
from support.pyclient import MANY, PRONOUNS, plain_hits
from support.servers import Server


def compiled(folder, source, *flags):
    """Builds a program of clients/c, with every warning an error."""
    path = os.path.join(folder, source[:-2])
    strict = ["-std=c99", "-O1", "-Wall", "-Wextra", "-Werror", "-pedantic", "-Wconversion"]
    subprocess.run(["cc", *strict, *flags, "-o", path, os.path.join(TOP, "clients", "c", source)], check=True)
    return path


def header_texts():
    """Texts of requests and of replies: worked rows, random sessions, wrong replies, and frames of each kind and size."""
    for _, text, replies, _ in session_cases.ROWS:
        yield b"q", text
        yield b"p", replies
    for text, _ in session_cases.random_sessions(200):
        yield b"q", text
        yield b"p", b"".join(sessions.conversation(text)[0])
    for _, text, _ in CANNED:
        yield b"p", text
    for count in range(1, 4):
        yield b"q", frame(sessions.PUBLISH, 0, bytes([0, 0, count, 0, 4]) + b"cat")
        yield b"q", frame(sessions.PUBLISH, 0, bytes([0, 0, count, 0, 1]) + b"a" + bytes([0, 2]) + b"b")
    for kind in range(0x20):
        for size in 0, 1, 2, 3, 7, 8, 9, 11, 12, 14:
            for stream in 0, 1:
                yield b"q", frame(kind, stream, bytes(size))
                yield b"p", frame(kind, stream, bytes(size))


def headers():
    """Frames that the header reads and writes, and the example that talks with the server."""
    texts = list(header_texts())
    given = b"".join(side + struct.pack(">I", len(text)) + text for side, text in texts)
    want = [line for side, text in texts for line in lines_of(side, text)]
    with tempfile.TemporaryDirectory() as folder:
        program = compiled(folder, "test_frames.c", "-g", "-fsanitize=address,undefined", "-fno-sanitize-recover")
        done = subprocess.run([program], input=given, capture_output=True, timeout=60)
        got = done.stdout.decode().splitlines()
        yield "frames by the header", (done.returncode, done.stderr), (0, b"")
        differ = next((pair for pair in zip(got, want) if pair[0] != pair[1]), None)
        yield f"their {len(want)} lines", (differ, len(got)), (None, len(want))
        program = compiled(folder, "scan.c")
        text = b"ushers " * 12000
        with Server(9) as server, server.client():
            for literals, text in (PRONOUNS, text), (PRONOUNS, b""), (MANY, b"a" * 20000):
                done = subprocess.run([program, str(server.port), *literals], input=text, capture_output=True, timeout=60)
                hits = plain_hits(literals, False, text)
                want = "".join(f"{hit.literal} {hit.end}\n" for hit in hits).encode()
                yield f"a talk in C of {len(text)} bytes", (done.returncode, done.stderr, done.stdout == want), (0, b"", True)
            done = subprocess.run([program, str(server.port), "a", ""], input=b"a", capture_output=True, timeout=60)
            yield "a refusal in C", (done.returncode, done.stdout, done.stderr), (2, b"", b"scan: refused (4), detail 1\n")
        done = subprocess.run([program, str(server.port), "a"], input=b"a", capture_output=True, timeout=60)
        message = b"scan: 127.0.0.1:%d: Connection refused\n" % server.port
        yield "no server in C", (done.returncode, done.stdout, done.stderr), (2, b"", message)
        for words in ["7000"], ["0", "a"], ["port", "a"], ["65536", "a"]:
            done = subprocess.run([program, *words], capture_output=True, timeout=60)
            yield f"words {words} in C", (done.returncode, done.stderr[:27]), (2, b"scan: usage: scan PORT LITE")
        yield from strangers(program)


def strangers(program):
    """Servers that end at once, and servers of another kind: the program reports which."""
    for reply, why in (b"", b"it ended the connection"), (b"HTTP/1.1 400", b"what it sent is no reply to what was asked"):
        with socket.socket() as listener:
            listener.bind(("127.0.0.1", 0))
            listener.listen()
            port = listener.getsockname()[1]
            with subprocess.Popen([program, str(port), "a"], stdin=subprocess.DEVNULL, stderr=subprocess.PIPE) as talk:
                peer, _ = listener.accept()
                with peer:
                    peer.recv(1000)
                    peer.sendall(reply)
                message = talk.stderr.read()
            yield f"a server that sends {reply!r}, in C", (talk.returncode, message), (2, b"scan: 127.0.0.1:%d: %s\n" % (port, why))


TESTS = (headers,)
