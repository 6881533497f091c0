"""clients/python over pipes and connections to `scand`, with lost connections, signals, servers that reply wrongly."""

import linecache
import os
import pickle
import random
import signal
import socket
import subprocess
import sys
import tempfile
import time
from unittest import mock

from cases import session_cases
from cases.canned_replies import CANNED
from oracles import plain_plan, sessions
from support.pyclient import MANY, PRONOUNS, PYTHON, Client, Hit, PlanShown, Resumed, fault_of, plain_hits, scand_client
from support.servers import SCAND, SECONDS, SERVER, Server

FOUND = [Hit(0, 4), Hit(2, 4), Hit(3, 6)]


def frames():
    """The client sends the frames of the model."""
    for literals in [], [b"cat"], [b"", b"a" * 4096], session_cases.PAIRS, [b"a"] * 4097:
        for is_folded, buckets in (False, 8), (True, 8), (False, 16), (True, 16):
            got = scand_client.publish_frame(literals, is_folded, buckets)
            yield f"a Publish of {len(literals)} by {buckets}", got, sessions.publish(literals, is_folded, buckets)
    for buckets in 0, 7, 9, 32:
        yield f"a Publish by {buckets}", fault_of(scand_client.publish_frame, [b"a"], buckets=buckets)[0], "ValueError"
    yield "an Open", scand_client.open_frame(7, 1 << 63), sessions.open_stream(7, 1 << 63)
    for stream, number in (-1, 0), (1 << 32, 0), (0, -1), (0, 1 << 64):
        yield f"an Open of {stream} by {number}", fault_of(scand_client.open_frame, stream, number)[0], "ValueError"
    yield "a full Feed", scand_client.feed_frame(0xFFFFFFFF, b"a" * 65536), sessions.feed(0xFFFFFFFF, b"a" * 65536)
    yield "a Feed too large", fault_of(scand_client.feed_frame, 0, bytes(65537))[0], "ValueError"
    yield "the greatest Publish", len(scand_client.publish_frame([b"a" * 65531])), 65545
    for literals in b"cat", "cat", ["cat"]:
        yield f"a list {literals!r}", fault_of(Resumed, None, literals)[0], "TypeError"
    for literals in [b"a" * 65532], [b""] * 32767, [b"a"] * 70000:
        yield "a Publish too large", fault_of(scand_client.publish_frame, literals)[0], "ValueError"


def talk(way, client):
    """Plans published, opened, fed and shown."""
    plan = client.publish(PRONOUNS)
    ends, price, _ = plain_plan.plan_of(plan.literals)
    yield f"{way}: the order of literals", plan.literals, (b"he", b"his", b"she", b"hers")
    with client.open(plan) as first, client.open(plan.number, 0xFFFFFFFF) as second:
        yield f"{way}: hits", (first.feed(b"ush"), first.feed(b"ers"), first.place), ([], FOUND, 6)
        yield f"{way}: hits across pieces", list(second.scan([b"u", b"sh", b"", b"ers"])), FOUND
        yield f"{way}: a plan shown", first.show_plan(), PlanShown(False, 4, price, tuple(ends), 8)
        yield f"{way}: numbers of streams", (first.number, second.number), (0, 0xFFFFFFFF)
    with client.open(client.publish([b"Cat", b"cAT", b"dog"], ignore_case=True), 0) as third:
        yield f"{way}: case ignored", third.feed(b"CAT DOG"), [Hit(0, 3), Hit(1, 7)]
        yield f"{way}: its plan", third.show_plan()[:2], (True, 2)
    yield from sixteen(way, client)
    with client.open(client.publish(MANY)) as fourth:
        count = sum(1 for _ in fourth.scan([b"a" * 100000], ahead=3))
        yield f"{way}: many hits", (count, fourth.place), (12 * 100000 - 66, 100000)
        hits = fourth.scan([b"a" * 65536] * 9)
        yield f"{way}: the first of many", next(hits), Hit(0, 100001)
        yield f"{way}: a request inside a scan", fault_of(fourth.show_plan)[0], "RuntimeError"
        hits.close()
        place = fourth.place
        yield f"{way}: a scan left", fourth.feed(b"a")[0], Hit(0, place + 1)
    client.close()
    yield f"{way}: a stream of a closed client", fault_of(fourth.feed, b"a")[0], "ConnectionLost"


def sixteen(way, client):
    """Plans of sixteen buckets."""
    ends, price, _ = plain_plan.plan_of(session_cases.LETTERS, 16)
    for is_folded in False, True:
        plan = client.publish(session_cases.LETTERS, ignore_case=is_folded, buckets=16)
        with client.open(plan) as stream:
            yield f"{way}: hits by sixteen", stream.feed(b"xaxi"), [Hit(0, 2), Hit(8, 4)]
            shown = PlanShown(is_folded, 9, price, tuple(ends), 16)
            yield f"{way}: a plan of sixteen shown", (plan.buckets, stream.show_plan()), (16, shown)


def talks():
    """The same talk over pipes and over a connection; and a client opens the plan of another one."""
    with Client.spawn(SERVER) as client:
        yield from talk("pipes", client)
    with Server(3) as server, server.client():
        with Client.connect("127.0.0.1", server.port) as client, Client.connect("127.0.0.1", server.port) as other:
            number = other.publish(PRONOUNS).number
            with client.open(number) as stream:
                yield "another client's plan", stream.feed(b"ushers"), FOUND
            yield from talk("a connection", client)


def refusals():
    """Each refusal raises the right class, and the session goes on after it."""
    with Client.spawn(SERVER) as client:
        for literals, want in (
            ([], ("NoLiterals", 0)),
            ([b"a", b""], ("EmptyLiteral", 1)),
            ([b"a", b"b", b"a" * 4096], ("LiteralTooLong", 2)),
            (session_cases.DIFFERENT, ("TooManyPatterns", 0)),
            ([b"a"] * 4097, ("TooManyPatterns", 0)),
        ):
            yield f"a Publish of {literals!r:.40}", fault_of(client.publish, literals), want
        plans = [client.publish([b"%d" % number]) for number in range(64)]
        yield "the 65th Publish", fault_of(client.publish, [b"cat"]), ("PlanQuota", 0)
        yield "an Open of no plan", fault_of(client.open, 64), ("NoSuchPlan", 0)
        streams = [client.open(plan) for plan in plans]
        yield "an Open of an open stream", fault_of(client.open, plans[0], 9), ("StreamInUse", 0)
        yield "the 65th Open", fault_of(client.open, plans[0]), ("StreamQuota", 0)
        streams[9].close()
        yield "a Feed of a closed stream", fault_of(streams[9].feed, bytes(200000)), ("NoSuchStream", 0)
        yield "another Close of it", fault_of(streams[9].close), ("NoSuchStream", 0)
        fault = pickle.loads(pickle.dumps(scand_client.EmptyLiteral(4, 7)))
        yield "a refusal that was pickled", (type(fault).__name__, fault.code, fault.detail), ("EmptyLiteral", 4, 7)
        yield "the session goes on", streams[63].feed(b"63"), [Hit(0, 2)]
        yield "a free number", client.open(plans[9]).number, 9
        client._send(bytes(4))
        yield "a bad frame", fault_of(client._expect, 0, ()), ("BadFrame", scand_client.Cause.LENGTH)
        yield "a stream after a bad frame", fault_of(streams[63].feed, b"a")[0], "ConnectionLost"


def random_talks():
    """Random lists and texts in random pieces, several Feeds ahead, compared with plain search."""
    source = random.Random(11)
    with Client.spawn(SERVER) as client:
        for number in range(60):
            literals = [session_cases.word(source, b"abABc", 4) or b"a" for _ in range(source.randrange(1, 9))]
            is_folded, text = source.random() < 0.5, session_cases.word(source, b"abABc", 3000)
            pieces = [text[at : at + 100] for at in range(0, len(text), 100)]
            plan = client.publish(literals, is_folded)
            with client.open(plan) as stream:
                got = list(stream.scan(pieces, ahead=source.randrange(1, 9)))
            yield f"the order of {literals}", plan.literals, tuple(plain_plan.literals_of(literals, is_folded))
            yield f"hits of {literals} in {text!r:.60}", got, plain_hits(literals, is_folded, text)


def over(peer, timeout=SECONDS):
    """A client over a socket."""
    peer.setblocking(False)
    return Client(scand_client.Link(peer.recv, peer.send, peer.fileno(), peer.fileno()), peer.close, timeout)


def asks_all(client):
    """A publish, an open, a feed and a plan shown."""
    with client:
        stream = client.open(client.publish([b"cat"]))
        stream.feed(b"cat")
        stream.show_plan()


def canned():
    """Servers that reply what they should not, reply nothing, or reply no whole frame."""
    for name, text, want in CANNED:
        near, far = socket.socketpair()
        with near, far:
            far.sendall(text)
            far.shutdown(socket.SHUT_WR)
            yield f"a server that sends {name}", fault_of(asks_all, over(near))[0], want
    near, far = socket.socketpair()
    with near, far:
        far.sendall(CANNED[-1][1])
        far.shutdown(socket.SHUT_RD)
        yield "a server that replies and takes nothing more", fault_of(asks_all, over(near))[0], "nothing"
    near, far = socket.socketpair()
    with near, far:
        client = over(near, 0.05)
        yield "a server that is silent", fault_of(client.publish, [b"cat"])[0], "TimedOut"
        yield "the client after it", fault_of(client.publish, [b"cat"])[0], "ConnectionLost"
    with socket.socket() as taken:
        taken.bind(("127.0.0.1", 0))
        yield "a port that nobody serves", fault_of(Client.connect, "127.0.0.1", taken.getsockname()[1])[0], "ConnectionLost"
    dialed = []
    with Resumed(lambda: dialed.append(1) or Client.spawn(["/none"]), PRONOUNS) as stream:
        got = fault_of(stream.feed, b"a")[0], len(dialed)
    yield "a program that is not there, which is not tried again", got, ("NotStarted", 1)
    with tempfile.TemporaryFile() as file:
        with Client.spawn([*SERVER, "--plans", "/none"], stderr=file) as client:
            yield "a plan file that is not there", fault_of(client.open, 0)[0], "ConnectionLost"
        file.seek(0)
        yield "the message of the server", file.read(), b"scand: /none: cannot be read\n"


def message_of(call, *words, **named):
    """The text of the exception of a call."""
    try:
        return f"nothing: {call(*words, **named)!r}"
    except Exception as fault:
        return str(fault)


def names():
    """Each fault names its server."""
    for port in 0, -1, 65536:
        yield f"port {port}", message_of(Client.connect, "127.0.0.1", port), f"127.0.0.1:{port}: a port is a number from 1 to 65535"
    with socket.socket() as listener:
        listener.bind(("127.0.0.1", 0))
        port = listener.getsockname()[1]
        name = f"127.0.0.1:{port}"
        yield "nobody listens", message_of(Client.connect, "127.0.0.1", port), f"{name}: Connection refused"
        listener.listen()
        for reply, want in (
            (b"", f"{name} ended the connection"),
            (b"HTTP/1.1 400", f"{name} sent what is no reply to what was asked: a length of {0x48545450}"),
            (None, f"{name}: no byte went either way for 0.1 seconds"),
        ):
            with Client.connect("127.0.0.1", port, timeout=0.1 if reply is None else SECONDS) as client:
                peer, _ = listener.accept()
                with peer:
                    client._send(sessions.publish(PRONOUNS))
                    client._turn()
                    peer.recv(1000)
                    if reply is not None:
                        peer.sendall(reply)
                        peer.shutdown(socket.SHUT_WR)
                    yield f"a server that sends {reply!r}", message_of(client._expect, 0, ()), want
            yield "and is closed", message_of(client.publish, PRONOUNS), f"the connection to {name} is closed"
    yield "a host that is not there", message_of(Client.connect, "none.invalid", 7000).partition(":7000: ")[0], "none.invalid"
    yield "a program that is not there", message_of(Client.spawn, ["/none"]), "/none: No such file or directory"
    with Client.spawn(["true"]) as client:
        yield "a program that ends", message_of(client.publish, PRONOUNS), "true ended the connection"


class Cut:
    """Servers over pipes. Each ends after a number of bytes of replies, or of requests; None is no limit. After the last
    of them come servers that stay."""

    def __init__(self, *limits):
        self.limits, self.clients = iter([*limits, *[(None, None)] * 100]), []

    @property
    def dialed(self):
        return len(self.clients)

    def dial(self):
        self.clients.append(self.started())
        return self.clients[-1]

    def started(self):
        """A client of the next server."""
        replies, requests = next(self.limits)
        child = subprocess.Popen(SERVER, stdin=subprocess.PIPE, stdout=subprocess.PIPE, bufsize=0)
        reader, writer = child.stdout.fileno(), child.stdin.fileno()
        os.set_blocking(reader, False)
        os.set_blocking(writer, False)
        left = {"replies": replies, "requests": requests}

        def may(way, size):
            if left[way] is None:
                return size
            if left[way] == 0:
                child.kill()
                raise ConnectionResetError("cut")
            return min(size, left[way])

        def moved(way, size):
            if left[way] is not None:
                left[way] -= size

        def take(most):
            piece = os.read(reader, may("replies", most))
            moved("replies", len(piece))
            return piece

        def give(text):
            size = os.write(writer, text[: may("requests", len(text))])
            moved("requests", size)
            return size

        def leave():
            child.kill()
            child.communicate()

        return Client(scand_client.Link(take, give, reader, writer), leave, SECONDS)


def resumed(literals, is_folded, pieces, ahead, *limits):
    """The hits of a stream over servers with these limits, its position, and how many connections were lost."""
    way = Cut(*limits)
    with Resumed(way.dial, literals, is_folded, pause=0) as stream:
        return list(stream.scan(pieces, ahead)), stream.place, stream.losses


def lost_everywhere():
    """A stream whose first connection is lost, at each byte of the replies and of the requests."""
    literals, text = [*PRONOUNS, b"e", b"rsus"], b"ushers" * 6
    pieces = [text[:1], b"", text[1:8], text[8:10], text[10:29], text[29:]]
    want = plain_hits(literals, False, text)
    requests = [sessions.publish(literals), sessions.open_stream(0, 0), *(sessions.feed(0, piece) for piece in pieces)]
    given = b"".join(requests)
    taken = b"".join(sessions.conversation(given)[0])
    for place in range(len(taken)):
        got = resumed(literals, False, pieces, place % 5 + 1, (place, None))
        yield f"lost at byte {place} of the replies", got, (want, len(text), 1)
    for place in range(len(given)):
        got = resumed(literals, False, pieces, place % 5 + 1, (None, place))
        yield f"lost at byte {place} of the requests", got, (want, len(text), 1)
    yield "lost after all", resumed(literals, False, pieces, 2, (len(taken), len(given))), (want, len(text), 0)


def lost_often():
    """Random streams that are lost several times, some of them with hits that take many frames."""
    source = random.Random(12)
    for number in range(40):
        literals = [session_cases.word(source, b"abAB", 5) or b"a" for _ in range(source.randrange(1, 9))]
        literals += [b"ab" * source.randrange(1, 60)] * (number % 3 == 0)
        is_folded = source.random() < 0.5
        text = session_cases.word(source, b"aaab", 4000) + session_cases.word(source, b"ABab", 3000)
        pieces, at = [], 0
        while at < len(text):
            pieces.append(text[at : at + source.randrange(1, 900)])
            at += len(pieces[-1])
        limits = [(source.randrange(60000), None) if source.random() < 0.5 else (None, source.randrange(6000)) for _ in range(5)]
        got = resumed(literals, is_folded, pieces, source.randrange(1, 6), *limits)
        yield f"{literals!r:.60}, lost at {limits}", got[:2], (plain_hits(literals, is_folded, text), len(text))
    long = [b"x" * 4095, b"y"]
    text = b"x" * 9000 + b"y"
    pieces = [text[at : at + 1000] for at in range(0, len(text), 1000)]
    for requests in range(4200, 13000, 400):
        got = resumed(long, False, pieces, 3, (None, requests))
        yield f"a literal of 4,095 bytes, lost at {requests}", got, (plain_hits(long, False, text), 9001, 1)


def resuming():
    """How often a stream is tried and when not again, a silent server, streams begun again, and scans cut short."""
    way = Cut(*[(20, None)] * 3)
    with Resumed(way.dial, PRONOUNS, tries=3, pause=0) as stream:
        yield "three tries fail", (fault_of(stream.feed, b"ushers")[0], stream.losses, way.dialed), ("ConnectionLost", 3, 3)
        again = fault_of(stream.feed, b"ushers")[0], stream.losses, way.dialed
        yield "and no more", again, ("ConnectionLost", 3, 3)
    way = Cut(*[(60, None)] * 7)
    with Resumed(way.dial, PRONOUNS, tries=2, pause=0) as stream:
        got = list(stream.scan([b"%d" % digit for digit in range(10)] + [b"ushers"], 1))
        want = [Hit(hit.literal, hit.end + 10) for hit in FOUND]
        yield "losses with progress between them", (got, stream.losses > 2), (want, True)
    way = Cut()
    with Resumed(way.dial, [b"a", b""]) as stream:
        yield "a list that is refused", (fault_of(stream.feed, b"a"), way.dialed), (("EmptyLiteral", 1), 1)
        yield "and its connection", way.clients[0]._is_open, False
    near, far = socket.socketpair()
    with near, far:
        dials = iter([lambda: over(near, 0.05), Cut().dial])
        with Resumed(lambda: next(dials)(), PRONOUNS, pause=0) as stream:
            yield "after a silent server", (stream.feed(b"ushers"), stream.losses), (FOUND, 1)
    way = Cut()
    with Resumed(way.dial, PRONOUNS) as stream:
        for _ in range(3):
            yield "a stream begun again", (stream.feed(b"ush"), stream.feed(b"ers"), stream.place, way.dialed), ([], FOUND, 6, 1)
            stream.restart()
    yield from by_number()
    for limits in (), [(130, None)], [(None, 150)]:
        with Resumed(Cut(*limits).dial, PRONOUNS, pause=0) as stream:
            hits = stream.scan([b"ushers"] * 9, 3)
            first = [next(hits), next(hits)]
            hits.close()
            sent = stream.taken
            rest = stream.feed(b"ushers")
            want = [hit for hit in plain_hits(PRONOUNS, False, b"ushers" * 10) if sent < hit.end <= sent + 6]
            yield f"a scan that is left, lost at {limits}", (first, rest, stream.place), (FOUND[:2], want, sent + 6)


def sends(frames):
    """A client of a server that sends these frames, whatever the requests, and ends."""
    near, far = socket.socketpair()
    with far:
        far.sendall(b"".join(frames))
    return over(near)


def replies(*pieces):
    """The frames that reply to a list published, a stream opened and these pieces fed."""
    requests = sessions.publish(PRONOUNS), sessions.open_stream(0, 0), *(sessions.feed(0, piece) for piece in pieces)
    return sessions.conversation(b"".join(requests))[0]


def dials(*servers):
    """Dials servers in turn. Each is the frames that it sends, or the fault of the dial."""
    turns = iter(servers)

    def dial():
        server = next(turns, scand_client.NotStarted("no further server"))
        if isinstance(server, Exception):
            raise server
        return sends(server)

    return dial


def all_of(hits):
    """The hits, and the name of the fault that follows them."""
    found = []
    try:
        for hit in hits:
            found.append(hit)
        return found, "nothing"
    except Exception as fault:
        return found, type(fault).__name__


SHE = [Hit(0, 10), Hit(2, 10)]


def faults():
    """After a fault that a scan raises, the next call gives the hits that were not given."""
    lost, both, wrong = replies(), replies(b"ushers", b" she"), sessions.frame(0x18, 0)
    missing, refused = scand_client.NotStarted("none"), sessions.refused(0, sessions.NO_SUCH_PLAN)
    for want, *servers in (
        ("NotStarted", lost, missing),
        ("BadReply", [*lost, wrong]),
        ("BadReply", lost, [*lost, wrong]),
        ("BadReply", lost, [wrong]),
        ("NoSuchPlan", lost, [*lost[:1], refused]),
        ("KeyError", lost, KeyError("of the dial")),
    ):
        with Resumed(dials(*servers, both), PRONOUNS, pause=0) as stream:
            got = fault_of(stream.feed, b"ushers")[0], stream.place, stream.taken
            yield f"{want} of server {len(servers)}", got, (want, 0, 6)
            yield "the hits after it", (stream.feed(b" she"), stream.place, stream.taken), (FOUND + SHE, 10, 10)
    with Resumed(dials(missing, [wrong], both), PRONOUNS) as stream:
        got = fault_of(stream.feed, b"a")[0], fault_of(stream.feed, b"b")[0], stream.taken
        yield "faults before a piece is taken", got, ("NotStarted", "BadReply", 0)
        yield "the hits after them", stream.feed(b"ushers"), FOUND
    for place in range(len(FOUND) + 1):
        part = [*lost, *sessions.hits_replies(0, FOUND[:place]), wrong]
        with Resumed(dials(part, both), PRONOUNS) as stream:
            yield f"a fault after {place} hits", all_of(stream.scan([b"ushers"])), (FOUND[:place], "BadReply")
            yield "the other hits", all_of(stream.scan([b" she"])), (FOUND[place:] + SHE, "nothing")
    after = replies(b"ushers"), [*replies(b"ers"), wrong], replies(b"ers", b" she", b"")
    with Resumed(dials(*after), PRONOUNS, pause=0) as stream:
        got = stream.feed(b"ushers"), fault_of(stream.feed, b" she")[0], stream.place, stream.taken, stream.losses
        yield "a fault on a connection that resumed", got, (FOUND, "BadReply", 6, 10, 1)
        yield "the hits after the fault", (stream.feed(b""), stream.place, stream.losses), (SHE, 10, 2)


def failing(fault, *pieces):
    """These pieces, and then a fault."""
    yield from pieces
    raise fault


def pieces_that_fail():
    """A fault of the pieces follows the hits of the pieces before it, and the stream goes on."""
    every, ends_between = replies(b"ush", b"ers", b" she"), replies(b"ush")
    for fault in OSError("read"), scand_client.ConnectionLost("elsewhere"), scand_client.NoSuchPlan(14):
        name = type(fault).__name__
        with sends(every) as client:
            stream = client.open(client.publish(PRONOUNS))
            yield f"{name} of the pieces", all_of(stream.scan(failing(fault, b"ush", b"ers"))), (FOUND, name)
            yield f"the stream after {name}", (stream.feed(b" she"), stream.place), (SHE, 10)
        for servers in [every], [ends_between, every]:
            with Resumed(dials(*servers), PRONOUNS, pause=0) as stream:
                got = all_of(stream.scan(failing(fault, b"ush", b"ers"))), stream.losses
                yield f"{name} of the pieces, over {len(servers)}", got, ((FOUND, name), len(servers) - 1)
                yield f"the stream after {name}, over {len(servers)}", (stream.feed(b" she"), stream.place), (SHE, 10)


def inside_scans():
    """Calls inside a scan that has not ended, and streams whose number was given again."""
    with sends(replies(b"ushers")) as client:
        hits = client.open(client.publish(PRONOUNS)).scan([b"ushers", b" she"], 1)
        yield "the first hit", next(hits), FOUND[0]
        client.close()
        yield "a client closed inside a scan", all_of(hits), (FOUND[1:], "ConnectionLost")
    with Resumed(dials(replies(b"ushers"), replies(b"ers", b" she")), PRONOUNS, pause=0) as stream:
        hits = stream.scan([b"ushers", b" she"], 1)
        yield "its first hit", next(hits), FOUND[0]
        yield "a stream begun again inside a scan", fault_of(stream.restart)[0], "RuntimeError"
        yield "a scan inside it", fault_of(stream.feed, b"a")[0], "RuntimeError"
        yield "the other hits", (all_of(hits), stream.place, stream.losses), ((FOUND[1:] + SHE, "nothing"), 10, 1)
    opened, closed = sessions.open_stream(0, 0), sessions.close(0)
    requests = sessions.publish(PRONOUNS), opened, closed, opened, sessions.feed(0, b"ushers")
    with sends(sessions.conversation(b"".join(requests))[0]) as client:
        plan = client.publish(PRONOUNS)
        with client.open(plan) as first:
            first.close()
            second = client.open(plan)
        yield "a stream that took the number of a closed one", (second.number, second.feed(b"ushers")), (0, FOUND)


class Ring(Exception):
    """What a handler of a signal raises."""


def rung(call, *words, fault=Ring):
    """The name of the exception of a call, in whose midst a signal raises this fault."""
    def rings(*_):
        raise fault

    before = signal.signal(signal.SIGALRM, rings)
    signal.setitimer(signal.ITIMER_REAL, 0.1)
    try:
        return fault_of(call, *words)[0]
    finally:
        signal.setitimer(signal.ITIMER_REAL, 0)
        signal.signal(signal.SIGALRM, before)


def interrupted():
    """A signal ends a call at once. No later call takes the replies that come then, and no hit is lost."""
    part, rest = b"ushers" + bytes(65530), b" she"
    for fault in Ring, TimeoutError:
        name, (near, far) = fault.__name__, socket.socketpair()
        with near, far:
            client = over(near, 5)
            far.sendall(b"".join(replies()[:1]))
            plan = client.publish(PRONOUNS)
            yield f"an open ended by {name}", rung(client.open, plan, fault=fault), name
            yield f"its client, {name}", (client.is_open, fault_of(client.open, plan)[0]), (False, "ConnectionLost")
        near, far = socket.socketpair()
        with near, far:
            far.sendall(b"".join(replies()))
            client = over(near, 5)
            stream = client.open(client.publish(PRONOUNS))
            yield f"a feed ended by {name}", (rung(stream.feed, b"ushers", fault=fault), client.is_open), (name, False)
            yield f"its stream, {name}", fault_of(stream.feed, b"ushers")[0], "ConnectionLost"
        near, far = socket.socketpair()
        with near, far:
            far.sendall(b"".join(replies()))
            client = over(near, 5)
            hits = client.open(client.publish(PRONOUNS)).scan([b"ushers"])
            far.sendall(b"".join(sessions.hits_replies(0, FOUND)))
            yield f"the first hit, {name}", next(hits), FOUND[0]
            yield f"a close ended by {name}", (rung(hits.close, fault=fault), client.is_open), (name, False)
        for piece, before, after in (
            (b"ushers", replies(), replies(b"ushers", rest)),
            (part + rest, replies(part), replies(bytes(3), rest, b"")),
        ):
            near, far = socket.socketpair()
            with near, far:
                far.sendall(b"".join(before))
                turns = iter([lambda: over(near, 5), lambda: sends(after)])
                with Resumed(lambda: next(turns)(), PRONOUNS, tries=1, pause=0) as stream:
                    size = len(piece)
                    got = rung(stream.feed, piece, fault=fault), stream.taken, stream.losses
                    yield f"a stream that resumes, {size} bytes, ended by {name}", got, (name, size, 0)
                    want = plain_hits(PRONOUNS, False, b"ushers she" if size == 6 else piece)
                    got = fault_of(stream.feed, rest if size == 6 else b""), stream.losses
                    yield f"the hits after it, {size} bytes, {name}", got, (("nothing", want), 0)
        for call in lambda: Client.connect("127.0.0.1", 7000), lambda: Resumed(dial_7000, PRONOUNS, pause=0).feed(b"a"):
            with mock.patch.object(socket, "create_connection", lambda *_: time.sleep(5)):
                yield f"a connection ended by {name}", rung(call, fault=fault), name


def dial_7000():
    return Client.connect("127.0.0.1", 7000)


class At:
    """Raises an exception at a line of the client, the first that is run or a later one, while a call runs."""

    FOLDER = os.path.join(PYTHON, "fiolargu", "")

    def __init__(self, place, call):
        self.left, self.call = place, call

    def __call__(self, frame, event, _):
        if frame.f_code.co_filename.startswith(self.FOLDER):
            # Signals are not handled between the statement before a `yield` and the `yield`.
            if event == "line" and not self.line(frame).startswith("yield"):
                self.left -= 1
                if self.left == -1:
                    raise Ring
            return self
        return None

    @staticmethod
    def line(frame):
        """The text of the line that comes next."""
        return linecache.getline(frame.f_code.co_filename, frame.f_lineno).strip()

    def is_passed(self):
        """Makes the call, and tells whether it ended before its line came."""
        before = sys.gettrace()
        sys.settrace(self)
        try:
            self.call()
        except Ring:
            pass
        finally:
            sys.settrace(before)
        return self.left >= 0


def interrupted_anywhere():
    """An exception at any line of the client: what comes after it is right, or the client is closed."""
    wrong, place, is_over = [], 0, False
    while not is_over:
        with Client.spawn(SERVER) as client:
            def talks():
                with client.open(client.publish(PRONOUNS)) as stream:
                    stream.feed(b"ushers")

            is_over, is_open = At(place, talks).is_passed(), client.is_open
            got = fault_of(lambda: client.open(client.publish(PRONOUNS)).feed(b"ushers"))
        if got != (("nothing", FOUND) if is_open else ("ConnectionLost", None)):
            wrong.append((place, is_open, got))
        place += 1
    yield f"a client, {place} lines", (wrong, place > 100), ([], True)
    wrong, place, is_over = [], 0, False
    while not is_over:
        found, text = [], b"ushers ushers"
        with Resumed(Cut().dial, PRONOUNS, tries=1) as stream:
            stream.feed(text[:2])
            is_over = At(place, lambda: found.extend(stream.feed(text[2:]))).is_passed()
            got = fault_of(lambda: [*found, *stream.feed(text[stream.taken :])])
        if got != ("nothing", plain_hits(PRONOUNS, False, text)):
            wrong.append((place, got))
        place += 1
    yield f"a stream that resumes, {place} lines", (wrong, place > 100), ([], True)


def closed_streams():
    """A closed stream is not taken for the one that has its number now."""
    opened, closed = sessions.open_stream(0, 0), sessions.close(0)
    requests = sessions.publish(PRONOUNS), opened, closed, opened, sessions.feed(0, b"ushers")
    with sends(sessions.conversation(b"".join(requests))[0]) as client:
        plan = client.publish(PRONOUNS)
        first = client.open(plan)
        first.close()
        second = client.open(plan)
        for name, call in ("feed", lambda: first.feed(b"x")), ("plan", first.show_plan), ("close", first.close):
            yield f"{name} of a closed stream", fault_of(call), ("NoSuchStream", 0)
        yield "the stream that has its number", second.feed(b"ushers"), FOUND


def by_number():
    """Streams by the number of a plan, which the client checks."""
    with Server(6) as server, server.client() as first:
        first.asks(sessions.publish(PRONOUNS))

        def dial():
            return Client.connect("127.0.0.1", server.port)

        with Resumed(dial, PRONOUNS, number=0) as stream:
            yield "a stream by a number", (stream.feed(b"ush"), stream.place), ([], 3)
            stream._client.close()
            yield "taken up by its number", (stream.feed(b"ers"), stream.losses), (FOUND, 1)
        for literals, is_folded in (PRONOUNS[:3], False), (PRONOUNS, True):
            with Resumed(dial, literals, is_folded, number=0) as stream:
                yield f"another plan than {literals}, {is_folded}", fault_of(stream.feed, b"a")[0], "BadReply"
        with Resumed(dial, PRONOUNS, number=1) as stream:
            yield "a number of no plan", fault_of(stream.feed, b"a")[0], "NoSuchPlan"


def files():
    """The example that scans files: hits, counts, and what cannot be read."""
    script = os.path.join(PYTHON, "scan_files.py")
    texts = {"first": b"ushers " * 12000, "second": b"", "third": b"USHERS he"}
    with tempfile.TemporaryDirectory() as folder, Server(9) as server, server.client():
        for name, text in {**texts, "words": b"he\nhis\n\nshe\nhers"}.items():
            with open(os.path.join(folder, name), "wb") as file:
                file.write(text)

        def run(*words, stdin=b""):
            done = subprocess.run([sys.executable, script, *words], cwd=folder, input=stdin, capture_output=True, timeout=60)
            return done.returncode, done.stdout, done.stderr

        def lines(is_folded, *names):
            front = "{}:" if len(names) > 1 else ""
            rows = ((name, hit) for name in names for hit in plain_hits(PRONOUNS, is_folded, texts[name]))
            return "".join(f"{front.format(name)}{hit.literal} {hit.end}\n" for name, hit in rows).encode()

        port = ["--port", str(server.port), "-f", "words"]
        own = ["--stdio", SCAND, "-f", "words"]
        for way in port, own:
            yield f"{way[0]}: a file", run(*way, "first"), (0, lines(False, "first"), b"")
            yield f"{way[0]}: files", run(*way, "-i", *texts), (0, lines(True, *texts), b"")
        yield "counts", run(*own, "-c", *texts), (0, b"first:36000\nsecond:0\nthird:1\n", b"")
        yield "standard input", run(*own, "-", stdin=b"ushers"), (0, b"0 4\n2 4\n3 6\n", b"")
        yield "no hit", run(*own, "second"), (1, b"", b"")
        missing = b"scan_files: none: No such file or directory\n"
        yield "a file that is missing", run(*own, "none", "third"), (2, b"third:0 9\n", missing)
        yield "a list that is missing", run("--stdio", SCAND, "-f", "none", "third"), (2, b"", missing)
        refused = b"scan_files: second: NoLiterals (5), detail 0, stream 0\n"
        yield "a list that is refused", run(*own[:3], "second", "third"), (2, b"", refused)
        yield "a list that fits no frame", run(*own[:3], "first", "third")[:2], (2, b"")
        missing = b"scan_files: /none: No such file or directory\n"
        yield "a server that is missing", run("--stdio", "/none", "-f", "words", "third"), (2, b"", missing)
        ended = b"scan_files: true ended the connection\n"
        yield "a program that is no server", run("--stdio", "true", "-f", "words", "third"), (2, b"", ended)


TESTS = (
    frames, talks, refusals, random_talks, canned, names, lost_everywhere, lost_often, resuming, faults, pieces_that_fail,
    inside_scans, interrupted, interrupted_anywhere, closed_streams, files,
)
