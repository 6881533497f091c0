"""`scand --port` for many connections at once, some of them hostile, compared with the plain model of sessions."""

import contextlib
import os
import re
import resource
import socket
import subprocess
import tempfile
import threading
import time

from cases.session_cases import CAT_IN_7, FEED_CONCAT, FIRST_THREE, PUBLISH_CAT, THEIR_REPLIES
from oracles import plain_plan
from oracles.plain_plan_file import file_fields
from oracles.sessions import FED, HITS, OPENED, PUBLISHED, REFUSED, close, feed, frame, open_stream, publish, refused, replies_of, show_plan
from support.servers import BROKEN, COSTLIEST, NEEDED, SCAND, SECONDS, Client, Server, ended, lines, sends_deafly

MOST = 64


def usages():
    """Words for which nothing listens, and words with which the port is not used."""
    for words, stderr in (
        (["--port", "5000"], NEEDED),
        (["--connections", "2"], NEEDED),
        (["--port", "0"], NEEDED),
        (["--port", "-1", "--connections", "1"], b"error: "),
        (["--port", "65536", "--connections", "1"], b"error: "),
        (["--port", "x", "--connections", "1"], b"error: "),
        (["--port", "5000", "--connections", "0"], b"error: "),
        (["--port", "5000", "--connections", "65"], b"error: "),
        (["--port", "5000", "--connections"], b"error: "),
    ):
        done = subprocess.run([SCAND, *words], capture_output=True, timeout=SECONDS)
        yield f"scand {words}", (done.returncode, done.stdout, done.stderr[: len(stderr)]), (2, b"", stderr)
    words = ["--stdio", "--port", "1", "--connections", "1"]
    done = subprocess.run([SCAND, *words], input=FIRST_THREE, capture_output=True, timeout=SECONDS)
    yield f"scand {words}", (done.returncode, done.stdout, done.stderr), (0, THEIR_REPLIES, b"")
    with socket.create_server(("127.0.0.1", 0)) as taken:
        port = taken.getsockname()[1]
        done = subprocess.run([SCAND, "--port", str(port), "--connections", "1"], capture_output=True, timeout=SECONDS)
        want = 2, b"", b"scand: cannot listen on port %d\n" % port
        yield "a port in use", (done.returncode, done.stdout, done.stderr), want


def lone():
    """One connection: cut, served whole, empty, and with a full device for the lines of the server."""
    for text, replies, word in (PUBLISH_CAT[:16], b"", "truncated"), (FIRST_THREE, THEIR_REPLIES, "clean"), (b"", b"", "clean"):
        with Server(1) as server, server.client() as client:
            client.sends(text)
            yield f"a connection of {len(text)} bytes", client.leaves(), replies
            yield f"the end of {word}", server.ends(), (int(word != "clean"), lines([word]), b"")
    with open("/dev/full", "wb") as full, Server(1, stdout=full) as server, server.client() as client:
        client.sends(FIRST_THREE)
        yield "a connection before a full device", client.leaves(), THEIR_REPLIES
        yield "a full device", server.ends(), (2, None, b"")


CHOOSING = [SCAND, "--port", "0", "--connections", "1"]
PIPES = {"stdout": subprocess.PIPE, "stderr": subprocess.PIPE}


def port_in(line):
    """The port in the line of the server about the port that the system chose, 0 if it is no such line."""
    found = re.fullmatch(rb"scand: port ([1-9][0-9]*)\n", line)
    return int(found[1]) if found else 0


def chosen():
    """Port 0: the system chooses a port, which the server reports before it serves; two servers get two ports."""
    with subprocess.Popen(CHOOSING, **PIPES) as one, subprocess.Popen(CHOOSING, **PIPES) as other:
        ports = [port_in(program.stderr.readline()) for program in (one, other)]
        yield f"two ports, {ports}", (0 not in ports, len(set(ports))), (True, 2)
        for program, port in zip((one, other), ports):
            with Client(port, {}) as client:
                client.sends(FIRST_THREE)
                yield "a connection to a chosen port", client.leaves(), THEIR_REPLIES
            yield "the end at a chosen port", ended(program), (0, lines(["clean"]), b"")
    with open("/dev/full", "wb") as full:
        done = subprocess.run(CHOOSING, stdout=subprocess.PIPE, stderr=full, timeout=SECONDS)
        yield "a port that cannot be reported is not served", (done.returncode, done.stdout), (2, b"")


def chosen_with_plans():
    """The line about the port follows the lines about the plans of a file."""
    with tempfile.NamedTemporaryFile() as file:
        literals = plain_plan.literals_of([b"cat"], False)
        file.write(b"".join(file_fields([(literals, False, plain_plan.plan_of(literals))], 2)))
        file.flush()
        with subprocess.Popen([*CHOOSING, "--plans", file.name], **PIPES) as program:
            yield "the plan first", program.stderr.readline(), b"scand: plan 0\n"
            port = port_in(program.stderr.readline())
            yield "and then the port", port != 0, True
            with Client(port, {}) as client:
                client.sends(open_stream(7, 0) + FEED_CONCAT)
                replies = replies_of(client.leaves())[0]
                yield "a plan of the file, at a chosen port", [reply[4] for reply in replies], [OPENED, HITS, FED]
            yield "the end with a plan", ended(program), (0, lines(["clean"]), b"")


def is_refused(address):
    """Whether a connection to this address is refused."""
    try:
        socket.create_connection(address, SECONDS).close()
    except ConnectionRefusedError:
        return True
    return False


def loopback():
    """It listens on 127.0.0.1 alone: another address of this machine is refused, between two connections that are served."""
    with Server(3) as server, server.client():
        is_alone = is_refused(("127.0.0.2", server.port))
        with server.client() as later:
            served = later.asks(PUBLISH_CAT)[0][0][4]
        yield "another address is refused while it listens", (is_alone, served), (True, PUBLISHED)


class Shared:
    """What the threads of clients share: the numbers of their plans, and their checks."""

    def __init__(self, count):
        self.barrier, self.numbers, self.found = threading.Barrier(count, timeout=SECONDS), [None] * count, []

    def run(self, clients, talk):
        """Each client talks in a thread of its own."""
        threads = [threading.Thread(target=self.guarded, args=(talk, place, client)) for place, client in enumerate(clients)]
        for thread in threads:
            thread.start()
        for thread in threads:
            thread.join()
        return self.found

    def guarded(self, talk, place, client):
        try:
            for name, got, want in talk(self, place, client):
                self.found.append((name, got, want))
        except (OSError, threading.BrokenBarrierError) as fault:
            self.barrier.abort()
            self.found.append((f"connection {place + 1}", repr(fault), "no fault"))


def own_literals(place):
    """The literals of a connection. Other connections have some of them too."""
    return [b"%02d" % place, b"a" * (place % 7 + 1), b"end%d" % (place % 3), bytes([place, 0])]


def talk(shared, place, client):
    """A session that publishes a plan, opens it and the plan of the next connection, and feeds both in turn."""
    got, want = client.asks(publish(own_literals(place), place % 2 == 1))
    yield f"Publish of connection {place + 1}", got, want
    shared.numbers[place] = int.from_bytes(got[0][9:], "big")
    shared.barrier.wait()
    other = shared.numbers[(place + 1) % len(shared.numbers)]
    text = b"".join(b"%02dEND%daaaAAA\0" % (number, number % 3) + bytes([number, 0]) for number in range(MOST)) * 3
    frames = [open_stream(1, shared.numbers[place]), open_stream(2, other), show_plan(2)]
    for start in range(0, len(text), 97 + place):
        piece = text[start : start + 97 + place]
        frames += [feed(1, piece), feed(2, piece[::-1])]
    for request in [*frames, feed(1, b"a" * 5000), feed(3, b"a"), open_stream(4, 1 << 40)]:
        got, want = client.asks(request)
        if got != want:
            yield f"a reply to connection {place + 1}", got, want
    yield f"the end of connection {place + 1}", client.leaves(), b""


def at_once():
    """Two and 64 connections at once, each with its own plan and another's."""
    for count in 2, MOST:
        with Server(count) as server, contextlib.ExitStack() as stack:
            clients = [stack.enter_context(server.client()) for _ in range(count)]
            shared = Shared(count)
            yield from shared.run(clients, talk)
            yield f"{count} numbers", len(set(shared.numbers)), count
            yield f"the end of {count} connections", server.ends(), (0, lines(["clean"] * count), b"")


def plans_of(shared, place, client):
    """A session that publishes 64 plans, the most it may."""
    shared.numbers[place] = []
    for second in range(64):
        got, want = client.asks(publish([bytes([place, second])]))
        if got != want:
            yield f"plan {second} of connection {place + 1}", got, want
        shared.numbers[place].append(int.from_bytes(got[0][9:], "big"))


def many_plans():
    """Eight connections that publish 64 plans each at once: all numbers differ, and one finds each plan by its number."""
    with Server(8) as server, contextlib.ExitStack() as stack:
        clients, shared = [stack.enter_context(server.client()) for _ in range(8)], Shared(8)
        yield from shared.run(clients, plans_of)
        numbers = [number for published in shared.numbers for number in published]
        yield "512 numbers", len(set(numbers)), 512
        every_pair = b"".join(bytes([first, second]) for first in range(8) for second in range(64))
        for number in numbers:
            for request in open_stream(1, number), feed(1, every_pair), close(1):
                got, want = clients[0].asks(request)
                if got != want:
                    yield f"plan {number}", got, want
        for client in clients:
            client.socket.close()
        yield "the end of many plans", server.ends(), (0, lines(["clean"] * 8), b"")


def refused_publishes():
    """A refused Publish stores nothing: the next number follows the last one, and no other number has a plan."""
    with Server(2) as server, server.client() as full, server.client() as other:
        for place in range(64):
            got, want = full.asks(publish([bytes([place])]))
            if got != want:
                yield f"plan {place}", got, want
        yield "a Publish past the quota", *full.asks(publish([b"more"]))
        yield "a Publish of an empty literal", *other.asks(publish([b"a", b""]))
        yield "a Publish of no literal", *other.asks(publish([]))
        got, want = other.asks(publish([b"next"]))
        yield "a Publish after them", got, want
        yield "its number", int.from_bytes(got[0][9:], "big"), 64
        yield "no later number", *other.asks(open_stream(1, 65))
        yield "the ends", (full.leaves(), other.leaves()), (b"", b"")
        yield "the end after refusals", server.ends(), (0, lines(["clean"] * 2), b"")


def reopened():
    """The number of another session has one plan, however often a stream is opened by it and closed."""
    with Server(2) as server, server.client() as owner, server.client() as stranger:
        for literal in b"cat", b"dog", b"cow":
            yield f"Publish {literal}", *owner.asks(publish([literal, b"end"]))
        for turn, number in enumerate((1, 0, 2, 1, 1, 2, 0)):
            for request in open_stream(1, number), feed(1, b"cat dog cow"), show_plan(1), close(1):
                yield f"turn {turn}, {request.hex():.40}", *stranger.asks(request)
        yield "the ends", (owner.leaves(), stranger.leaves()), (b"", b"")
        yield "the end of both", server.ends(), (0, lines(["clean"] * 2), b"")


def idle():
    """Connections that send nothing need little memory."""
    with Server(MOST) as server, contextlib.ExitStack() as stack:
        clients = [stack.enter_context(server.client()) for _ in range(MOST)]
        yield "the last of them is served", clients[-1].asks(PUBLISH_CAT)[0][0][4], PUBLISHED
        peak = server.figure("VmHWM")
        yield f"memory for idle connections, {peak} KiB", peak < 16384, True
        for client in clients:
            client.socket.close()
        yield "the end of idle connections", server.ends(), (0, lines(["clean"] * MOST), b"")


def talks_on(client, stream):
    """Whether a connection still gets the right answer, and in time."""
    before = time.monotonic()
    got, want = client.asks(feed(stream, b"concat dog" * 50))
    return got == want and time.monotonic() - before < 5


# Each row: a name, what a hostile peer sends, its replies (the kind of each but refusals), and how its connection ends.
HOSTILE = [
    ("a bad length", CAT_IN_7 + b"\xff" * 4, [PUBLISHED, OPENED, refused(0, 11, 1)], "bad"),
    ("a bad kind", CAT_IN_7 + frame(77, 3), [PUBLISHED, OPENED, refused(0, 11, 2)], "bad"),
    ("bad flags", CAT_IN_7 + publish([b"a"], flags=4), [PUBLISHED, OPENED, refused(0, 11, 4)], "bad"),
    ("a bad frame and 200 KB more", CAT_IN_7 + frame(77, 3) + bytes(200000), [PUBLISHED, OPENED, refused(0, 11, 2)], "bad"),
    ("half a frame", CAT_IN_7 + FEED_CONCAT[:-1], [PUBLISHED, OPENED], "truncated"),
    ("nothing", b"", [], "clean"),
]


def shown(replies):
    """The replies in some bytes as the rows above have them, and the rest."""
    found, rest = replies_of(replies)
    return [reply if reply[4] == REFUSED else reply[4] for reply in found], rest


def hostile():
    """Peers that send what they should not, leave, reset or never read, while another one gets its answers."""
    with Server(len(HOSTILE) + 3) as server, contextlib.ExitStack() as stack:
        good, deaf, fleeing = (stack.enter_context(server.client()) for _ in range(3))
        for request in publish([b"cat", b"dog"]), open_stream(9, 0):
            yield "a good connection", *good.asks(request)
        sends_deafly(deaf)
        fleeing.sends(CAT_IN_7[:-1])
        fleeing.resets()
        for name, text, replies, _ in HOSTILE:
            with server.client() as client:
                client.sends(text)
                yield f"replies to {name}", shown(client.leaves()), (replies, b"")
                yield f"another connection during {name}", talks_on(good, 9), True
        yield "another connection during one that never reads", talks_on(good, 9), True
        deaf.resets()
        yield "the end of the good one", good.leaves(), b""
        status, output, messages = server.ends()
        words = output.decode().split()[2::3]
        yield "its word", words[:1], ["clean"]
        yield "those of one that never read and one that reset", set(words[1:3]) <= BROKEN, True
        want = 1, lines(words[:3] + [row[3] for row in HOSTILE]), b""
        yield "the end among hostile peers", (status, output, messages), want


def crowd():
    """Connections that all ask for the most hits, and read none, need little memory each."""
    with Server(MOST) as server, contextlib.ExitStack() as stack:
        clients = [stack.enter_context(server.client()) for _ in range(MOST)]
        clients[0].sends(publish(COSTLIEST))
        number = int.from_bytes(clients[0].reply()[9:], "big")
        for client in clients:
            client.sends(open_stream(1, number))
            client.reply()
        before = server.figure("VmHWM")
        for client in clients:
            client.sends(feed(1, b"a" * 65536))
        time.sleep(1)
        grown = (server.figure("VmHWM") - before) // MOST
        yield f"memory for each, {grown} KiB", grown < 512, True
        for client in clients:
            client.resets()
        status, output, messages = server.ends()
        words = set(output.decode().split()[2::3])
        yield "the end of all", (status, len(output.splitlines()), messages, words <= BROKEN), (1, MOST, b"", True)


def late():
    """Once all connections are there, another one is refused, and they are still served."""
    with Server(1) as server, server.client() as client:
        yield "the only connection", client.asks(PUBLISH_CAT)[0][0][4], PUBLISHED
        deadline, is_refused = time.monotonic() + SECONDS, False
        while not is_refused and time.monotonic() < deadline:
            try:
                with Client(server.port, {}):
                    time.sleep(0.01)
            except ConnectionRefusedError:
                is_refused = True
            except OSError:
                pass  # taken by the system just before the end of listening
        yield "a late one is refused", is_refused, True
        yield "the only one goes on", *client.asks(open_stream(1, 0))
        client.socket.close()
        yield "its end", server.ends(), (0, lines(["clean"]), b"")


def limited(**limits):
    """The arguments that start a program with these limits."""
    return {"preexec_fn": lambda: [resource.setrlimit(getattr(resource, name), (most, most)) for name, most in limits.items()]}


def is_served(client):
    """Whether a connection gets an answer, and does not end at once."""
    return client.asks(publish([b"cat"]))[0] != [b""]


def accepted(server, count):
    """This number of connections, or those before the first that gets no answer."""
    found = []
    with contextlib.suppress(OSError):
        while len(found) < count:
            client = Client(server.port, server.store) if found else server.client()
            if not is_served(client):
                break
            found.append(client)
    return found


def descriptors():
    """Where descriptors run out, accepting ends, and accepted connections are still served."""
    with Server(MOST, **limited(RLIMIT_NOFILE=16)) as server:
        clients = accepted(server, MOST)
        yield f"some connections are accepted, {len(clients)}", 5 < len(clients) < MOST, True
        for client in clients:
            number = min(client.model.store)
            yield "an accepted one goes on", *client.asks(open_stream(1, number))
            client.socket.close()
        want = 2, lines(["clean"] * len(clients)), b"scand: accept fault\n"
        yield "the end without descriptors", server.ends(), want


def threads():
    """A connection whose thread cannot be started is not served, and the others are."""
    env = dict(os.environ, MALLOC_ARENA_MAX="1")  # otherwise the address space that a thread takes varies
    with Server(3, env=env) as server:
        clients = accepted(server, 2)
        most = (server.figure("VmPeak") + 512) * 1024
        del clients
    with Server(MOST, env=env, **limited(RLIMIT_AS=most)) as server:
        clients, allowed = [], []
        for _ in range(MOST):
            clients.append(server.client())
            allowed.append({"clean"} if is_served(clients[-1]) else {"not-served", "out-of-memory"})
        for client in clients:
            client.socket.close()
        status, output, messages = server.ends()
        words = output.decode().split()[2::3]
        yield "the end without threads", (status, output, messages), (1, lines(words), b"")
        yield "some threads are started, and some are not", {"clean", "not-served"} <= set(words), True
        yield "each connection's word", (len(words), [word for word, some in zip(words, allowed) if word not in some]), (MOST, [])


TESTS = (
    usages, chosen, chosen_with_plans, loopback, lone, at_once, many_plans, refused_publishes, reopened, idle, hostile, crowd, late,
    descriptors, threads,
)
