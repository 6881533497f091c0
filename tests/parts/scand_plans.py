"""`scand --plans`: plans published from a file before anything is served, compared with the plain model of sessions."""

import os
import select
import socket
import struct
import subprocess
import tempfile

from cases.session_cases import FIRST_THREE, LETTERS, PUBLISH_CAT
from oracles import plain_plan
from oracles.plain_plan_file import file_fields, number
from oracles.sessions import PLAN, Plan, conversation, feed, frame, open_stream, publish, show_plan
from support.programs import lay_out
from support.servers import NEEDED, SCAND, SECONDS, Server, ended, free_port, lines

A = [b"a"], False
WORDS = [b"He", b"she", b"HE", b"his"], True
ANIMALS = [b"cat", b"dog", b"horse"], False
SIXTEEN = [b"%c" % letter for letter in range(97, 117)], False, 16


def file_of(*lists, version=2):
    """The plan file of some lists. A list is its patterns, whether case is ignored, and 16 where it has so many buckets."""
    plans = []
    for patterns, is_folded, *buckets in lists:
        literals = plain_plan.literals_of(patterns, is_folded)
        plans.append((literals, is_folded, plain_plan.plan_of(literals, *buckets)))
    return b"".join(file_fields(plans, version))


def store_of(*lists):
    """The store with the plans of some lists."""
    return {place: Plan(*each) for place, each in enumerate(lists)}


def plan_lines(count):
    """The messages about this number of plans."""
    return b"".join(b"scand: plan %d\n" % place for place in range(count))


def unread(name):
    return b"scand: %s: cannot be read\n" % name.encode()


def refused(name, number):
    return b"scand: %s: refused (%d)\n" % (name.encode(), number)


def served(text, files, words):
    """The status, replies and messages of the server for these bytes, in a folder with these files."""
    with tempfile.TemporaryDirectory() as folder:
        lay_out(folder, files)
        done = subprocess.run([SCAND, *words], input=text, capture_output=True, cwd=folder, timeout=SECONDS)
        return done.returncode, done.stdout, done.stderr


BANANA = open_stream(7, 0) + feed(7, b"banana")
BOTH = (
    open_stream(1, 1) + open_stream(2, 0) + feed(1, b"usHERSat") + feed(2, b"banana") + show_plan(1) + publish([b"x"])
    + open_stream(3, 2)
)
STDIO = ["--stdio", "--plans", "f"]


def outcome(text, *lists):
    """The status, replies and messages that the model gives over a store with these lists."""
    replies, ending = conversation(text, store_of(*lists))
    return int(ending != "clean"), b"".join(replies), plan_lines(len(lists))


def rows():
    """Files of plans, and sessions that open streams by their numbers."""
    hits = b"".join(b"\0\0" + end.to_bytes(8, "big") for end in (2, 4, 6))
    got = served(BANANA, {"f": file_of(A)}, STDIO)
    yield "a file of one plan", got, outcome(BANANA, A)
    yield "its hits", hits in got[1], True
    yield "a file of no plans", served(BANANA, {"f": file_of()}, STDIO), outcome(BANANA)
    yield "a first plan after a file of none", served(FIRST_THREE, {"f": file_of()}, STDIO), outcome(FIRST_THREE)
    yield "two plans", served(BOTH, {"f": file_of(A, WORDS)}, STDIO), outcome(BOTH, A, WORDS)
    yield "two plans, in another order", served(BOTH, {"f": file_of(WORDS, A)}, STDIO), outcome(BOTH, WORDS, A)
    got = served(BOTH, {"f": file_of(A, WORDS, version=1)}, STDIO)
    yield "two plans in a file of version 1", got, outcome(BOTH, A, WORDS)
    yield "one plan twice", served(BOTH, {"f": file_of(A, A)}, STDIO), outcome(BOTH, A, A)
    many = [([b"%d" % place, b"end"], place % 2 == 1) for place in range(64)]
    text = b"".join(open_stream(place, place) + feed(place, b"1, 12, 63 END") for place in range(64)) + publish([b"new"])
    yield "as many plans as a file may have", served(text, {"f": file_of(*many)}, STDIO), outcome(text, *many)
    yield "the file, ahead of the other words", served(BANANA, {"f": file_of(A)}, ["--plans=f", "--stdio"]), outcome(BANANA, A)
    yield from sixteen_rows()
    words = [*STDIO, "--port", "1", "--connections", "1"]
    yield "a port that counts for nothing", served(BANANA, {"f": file_of(A)}, words), outcome(BANANA, A)
    yield "a truncated session", served(BANANA[:-1], {"f": file_of(A)}, STDIO), outcome(BANANA[:-1], A)
    got = served(PUBLISH_CAT, {"-": file_of(ANIMALS)}, ["--stdio", "--plans", "-"])
    yield "a file called -", got, outcome(PUBLISH_CAT, ANIMALS)
    yield "no file called -", served(file_of(A), {}, ["--stdio", "--plans", "-"]), (2, b"", unread("-"))


def sixteen_rows():
    """Plans of sixteen buckets: each shows up to sixteen ends, beside plans of eight buckets."""
    letters = publish(LETTERS, True, 16)
    text = open_stream(7, 0) + feed(7, b"xatat") + show_plan(7) + letters + open_stream(8, 1) + show_plan(8) + feed(8, b"XI")
    got = served(text, {"f": file_of(SIXTEEN)}, STDIO)
    yield "a file of a plan of sixteen buckets", got, outcome(text, SIXTEEN)
    plan = frame(PLAN, 7, struct.pack(">BHQB", 2, 20, plain_plan.plan_of(SIXTEEN[0], 16)[1], 16))
    yield "its sixteen ends", plan[9:] in got[1], True
    text = b"".join(open_stream(place, place) + feed(place, b"usHERSat") + show_plan(place) for place in range(3))
    files = {"f": file_of(WORDS, SIXTEEN, A)}
    yield "plans of both kinds", served(text, files, STDIO), outcome(text, WORDS, SIXTEEN, A)


def several():
    """Several files: the numbers go on from file to file, and the first that is refused ends the run."""
    two = {"f": file_of(A), "g": file_of(WORDS)}
    got = served(BOTH, two, [*STDIO, "--plans", "g"])
    yield "two files", got, outcome(BOTH, A, WORDS)
    yield "two files, in another order", served(BOTH, two, ["--plans", "g", *STDIO]), outcome(BOTH, WORDS, A)
    yield "a file twice", served(BOTH, two, [*STDIO, "--plans=f"]), outcome(BOTH, A, A)
    empty = {**two, "h": file_of()}
    words = ["--plans", "h", *STDIO, "--plans", "h", "--plans", "g"]
    yield "files of no plans between two", served(BOTH, empty, words), outcome(BOTH, A, WORDS)
    many = {name: file_of(*[([b"%s%d" % (name.encode(), place)], False) for place in range(64)]) for name in "abc"}
    lists = [([b"%s%d" % (name.encode(), place)], False) for name in "abc" for place in range(64)]
    text = b"".join(open_stream(stream, 3 * stream) + feed(stream, b"a0 a63 b1 b40 c3 c60 c63") for stream in range(64))
    words = ["--stdio", "--plans", "a", "--plans", "b", "--plans", "c"]
    yield "three files of 64 plans", served(text, many, words), outcome(text, *lists)
    after_one = plan_lines(1)
    missing = served(BANANA, {"f": file_of(A), "g": b""}, [*STDIO, "--plans", "x", "--plans", "g"])
    yield "a second file that is not there", missing, (2, b"", after_one + unread("x"))
    wrong = served(BANANA, {**two, "x": b"LPLF"}, [*STDIO, "--plans", "x", "--plans", "g"])
    yield "a second file that is no plan file", wrong, (2, b"", after_one + refused("x", 10))
    first = served(BANANA, two, ["--stdio", "--plans", "x", "--plans", "f"])
    yield "a first file that is not there", first, (2, b"", unread("x"))


def refusals():
    """Files that are missing, cannot be read or are no plan files: nothing is served."""
    one, two = file_of(A), file_of(ANIMALS, A)
    for name, text in (
        ("an empty file", b""),
        ("another magic", b"\0" + one[1:]),
        ("another version", one[:5] + b"\3" + one[6:]),
        ("sixteen buckets in a file of version 1", file_of(SIXTEEN, version=1)),
        ("65 plans", one[:6] + number(65, 2) + one[8:] + one[8:] * 64),
        ("a second plan with another cost", two[:-72] + number(4297, 8) + two[-64:]),
        ("a plan less than announced", one[:6] + number(2, 2) + one[8:]),
        ("a byte after the last plan", two + b"\0"),
        ("frames", FIRST_THREE),
    ):
        yield name, served(FIRST_THREE, {"f": text}, STDIO), (2, b"", refused("f", 10))
    for place in range(len(one)):
        yield f"a plan file cut off at {place}", served(BANANA, {"f": one[:place]}, STDIO), (2, b"", refused("f", 10))
    yield "a file that is not there", served(BANANA, {}, STDIO), (2, b"", unread("f"))
    yield "a name without letters", served(BANANA, {}, ["--stdio", "--plans", ""]), (2, b"", unread(""))
    yield "a folder", served(BANANA, {"f": None}, STDIO), (2, b"", unread("f"))
    yield "a file in no folder", served(BANANA, {"f": b""}, ["--stdio", "--plans", "f/g"]), (2, b"", unread("f/g"))
    unreadable = "/proc/self/mem"
    yield "a file whose reading fails", served(BANANA, {}, ["--stdio", "--plans", unreadable]), (2, b"", unread(unreadable))


def orders():
    """Wrong words and missing options are reported before the file is read, and the file before the port is used."""
    good = {"f": file_of(A)}
    yield "a missing option", served(b"", {}, ["--plans", "f"]), (2, b"", NEEDED)
    yield "a missing number", served(b"", good, ["--plans", "f", "--port", "5000"]), (2, b"", NEEDED)
    for words in ["--stdio", "--plans"], [*STDIO, "--plans"], [*STDIO, "-z"], ["--stdio", "--plans", "f", "x"]:
        got = served(b"", good, words)
        yield f"scand {words}", (*got[:2], got[2][:7]), (2, b"", b"error: ")
    with socket.create_server(("127.0.0.1", 0)) as taken:
        port = taken.getsockname()[1]
        words = ["--port", str(port), "--connections", "1", "--plans", "f"]
        yield "a missing file and a port in use", served(b"", {}, words), (2, b"", unread("f"))
        message = b"scand: cannot listen on port %d\n" % port
        yield "a file and a port in use", served(b"", good, words), (2, b"", plan_lines(1) + message)


def heard(stream, size):
    """The next bytes of a stream, this number of them, or those that come in time."""
    got = b""
    while len(got) < size and select.select([stream], [], [], SECONDS)[0]:
        piece = os.read(stream.fileno(), size - len(got))
        if not piece:
            break
        got += piece
    return got


def before_serving():
    """The plans are reported before a client sends anything."""
    with tempfile.TemporaryDirectory() as folder:
        name = os.path.join(folder, "f")
        with open(name, "wb") as file:
            file.write(file_of(A, ANIMALS))
        pipes = {"stdin": subprocess.PIPE, "stdout": subprocess.PIPE, "stderr": subprocess.PIPE}
        with subprocess.Popen([SCAND, "--stdio", "--plans", name], **pipes) as program:
            yield "two lines before any frame", heard(program.stderr, len(plan_lines(2))), plan_lines(2)
            want = outcome(BANANA, A, ANIMALS)[1]
            program.stdin.write(BANANA)
            program.stdin.flush()
            yield "a session after them", heard(program.stdout, len(want)), want
            yield "its end", ended(program), (0, b"", b"")


def connections():
    """Connections share the plans of the file, and the numbers of their own plans follow."""
    with tempfile.TemporaryDirectory() as folder:
        name = os.path.join(folder, "f")
        with open(name, "wb") as file:
            file.write(file_of(A, WORDS))
        with Server(2, "--plans", name) as server:
            server.store.update(store_of(A, WORDS))
            with server.client() as first, server.client() as second:
                for request in open_stream(1, 0), open_stream(2, 1), feed(1, b"banana"), feed(2, b"usHERS"), publish([b"cat"]):
                    for place, client in enumerate((first, second)):
                        got, want = client.asks(request)
                        yield f"connection {place + 1}, {request.hex():.40}", got, want
                yield "numbers of plans", sorted(server.store), [0, 1, 2, 3]
                yield "the ends", (first.leaves(), second.leaves()), (b"", b"")
            yield "the lines about them", server.ends(), (0, lines(["clean"] * 2), plan_lines(2))
        words = ["--port", str(free_port()), "--connections", "1", "--plans", name + "x"]
        done = subprocess.run([SCAND, *words], capture_output=True, timeout=SECONDS)
        yield "a port and no file", (done.returncode, done.stdout, done.stderr), (2, b"", unread(name + "x"))


TESTS = (rows, several, refusals, orders, before_serving, connections)
