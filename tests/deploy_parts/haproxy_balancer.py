"""deploy/haproxy: a balancer with three servers, one of them killed under load."""

import os
import pwd
import random
import re
import subprocess
import tempfile
import threading
import time

from deploy_parts.systemd_units import UNITS, Activated, packed
from support.programs import LITPLAN, TOP
from support.pyclient import Client, ConnectionLost, Resumed, fault_of, plain_hits
from support.servers import SECONDS, free_port

# How many connections a server has room for, beyond those that the balancer gives it.
SPARE = 32
CONFIG = os.path.join(TOP, "deploy", "haproxy", "haproxy.cfg")
WORDS = [b"error", b"warn", b"cat", b"concat", b"e", b"timeout reached", b"x" * 300]
LOADED = 12


def same_file(folder):
    """The plan files of the three servers: the same for all."""
    return [packed(folder, WORDS)] * 3


def files_of_each_version(folder):
    """A plan file of version 1, made from one of version 2 with the same plan, that one, and the old one migrated."""
    new = packed(folder, WORDS)
    old, migrated = os.path.join(folder, "old.plan"), os.path.join(folder, "migrated.plan")
    with open(new, "rb") as file:
        head, version, rest = file.read(4), file.read(2), file.read()
    assert version == b"\0\2"
    with open(old, "wb") as file:
        file.write(head + b"\0\1" + rest)
    subprocess.run([LITPLAN, "migrate", old, migrated], stdout=subprocess.DEVNULL, check=True)
    return [old, new, migrated]


def own_user():
    """The number of the user that the balancer goes on as, or None where it cannot: it does not run as root, or there is none."""
    try:
        return pwd.getpwnam("haproxy").pw_uid if os.geteuid() == 0 else None
    except KeyError:
        return None


class Balancer:
    """The balancer of deploy/haproxy on free ports, before as many servers as it names, each with a plan file."""

    def __init__(self, files_in=same_file):
        self.folder = tempfile.TemporaryDirectory()
        with open(CONFIG) as file:
            text = file.read()
        if own_user() is None:
            text = re.sub(r"^ +(user|group) haproxy\n", "", text, flags=re.M)
        ports = {port: str(free_port()) for port in re.findall(r"127\.0\.0\.1:(\d+)", text)}
        self.port = int(ports["7000"])
        backends = [int(ports[port]) for port in sorted(ports) if port != "7000"]
        files = files_in(self.folder.name)
        self.servers = [Activated(port, ["--plans", file]) for port, file in zip(backends, files, strict=True)]
        path = os.path.join(self.folder.name, "haproxy.cfg")
        with open(path, "w") as file:
            file.write(re.sub(r"(127\.0\.0\.1:)(\d+)", lambda found: found[1] + ports[found[2]], text))
        self.checked = subprocess.run(["haproxy", "-c", "-f", path], capture_output=True, text=True)
        self.program = subprocess.Popen(["haproxy", "-db", "-f", path], stdout=subprocess.DEVNULL, stderr=subprocess.DEVNULL)

    def __enter__(self):
        return self

    def __exit__(self, *_):
        self.program.kill()
        self.program.wait()
        for server in self.servers:
            server.kill()
        self.folder.cleanup()

    def dial(self):
        return Client.connect("127.0.0.1", self.port, timeout=SECONDS)

    def waited(self):
        """A client that waits until the balancer listens."""
        with Resumed(self.dial, WORDS, tries=20) as stream:
            return stream.feed(b"concat")


def log_of(number):
    """Lines of a log, of about a megabyte."""
    source = random.Random(number)
    levels = [b"info", b"warn", b"error"]
    lines = [b"%d %s request took %d ms" % (place, source.choice(levels), place % 7) for place in range(25000)]
    lines[source.randrange(25000)] = b"timeout reached " + b"x" * 600
    return b"\n".join(lines)


class Load:
    """Clients that each scan a text, piece by piece. All wait in the middle until the test opens the gate."""

    def __init__(self, balancer, number):
        self.texts = [log_of(number) for number in range(LOADED)]
        self.streams = [Resumed(balancer.dial, WORDS, number=number, tries=20) for _ in range(LOADED)]
        self.found, self.gate = [None] * LOADED, threading.Event()
        self.threads = [threading.Thread(target=self.scan, args=(number,)) for number in range(LOADED)]
        for thread in self.threads:
            thread.start()

    def pieces(self, number):
        """The pieces of a text. The second half waits until the gate is open."""
        source, text, at = random.Random(number), self.texts[number], 0
        while at < len(text):
            if at > len(text) // 2:
                self.gate.wait(SECONDS)
            size = source.randrange(1, 6000)
            yield text[at : at + size]
            at += size

    def scan(self, number):
        try:
            self.found[number] = list(self.streams[number].scan(self.pieces(number)))
        except Exception as fault:
            self.found[number] = repr(fault)
        self.streams[number].close()

    def is_half_way(self):
        return all(stream.place > len(text) // 2 - 40000 for stream, text in zip(self.streams, self.texts))

    def ends(self):
        for thread in self.threads:
            thread.join()
        return self.found


def soon(holds):
    """Whether something holds in time."""
    deadline = time.monotonic() + SECONDS
    while not holds():
        if time.monotonic() > deadline:
            return False
        time.sleep(0.01)
    return True


def connected(server):
    """How many clients a server has, without the checks of the balancer."""
    with open(f"/proc/{server.program.pid}/task/{server.program.pid}/children") as file:
        return len(file.read().split())


def number_in(path, pattern):
    """The number that a pattern finds in a file, and finds once."""
    with open(path) as file:
        (number,) = re.findall(pattern, file.read(), re.M)
    return int(number)


def limits():
    """A server has room for more connections than the balancer gives it: for checks, and for those whose process still ends."""
    given = number_in(CONFIG, r"^ +default-server .* maxconn (\d+)$")
    room = number_in(os.path.join(UNITS, "scand.socket"), r"^MaxConnections=(\d+)$")
    yield f"maxconn {given}, MaxConnections={room}", given + SPARE <= room, True


def rights():
    """Started as root, the balancer goes on without its rights."""
    with open(CONFIG) as file:
        text = file.read()
    yield "user and group", re.findall(r"^ +(user|group) (.*)$", text, re.M), [("user", "haproxy"), ("group", "haproxy")]
    if own_user() is None:
        print("left out: the user of the balancer, for want of root or of the user haproxy")
        return
    with Balancer() as balancer:
        yield "through the balancer", balancer.waited(), plain_hits(WORDS, False, b"concat")
        yield "its user", os.stat(f"/proc/{balancer.program.pid}").st_uid, own_user()


def same_plans():
    """The plan of the file has the same number in each server, and a plan that a client publishes has another."""
    with Balancer() as balancer:
        for server in balancer.servers:
            with Client.connect("127.0.0.1", server.port) as client, client.open(0) as stream:
                yield "a plan of the file", stream.feed(b"concat"), plain_hits(WORDS, False, b"concat")
                yield "a published plan", client.publish([b"cat"]).number, 1


def killed():
    """One of three servers is killed under load: each hit comes once, and the clients of the other servers lose nothing.
    Once by plans that the clients publish, and once by the plan of the file."""
    yield from killed_by(None)
    yield from killed_by(0)


def each_version():
    """Servers with plan files of both versions stand side by side: each has the plan with the same number, and the same is true
    of its hits, also where one of them is killed under load."""
    with Balancer(files_of_each_version) as balancer:
        for server, buckets in zip(balancer.servers, [8, 8, 16]):
            with Client.connect("127.0.0.1", server.port) as client, client.open(0) as stream:
                yield f"the plan of a server, {buckets} buckets", stream.show_plan().buckets, buckets
                yield "its hits", stream.feed(b"concat"), plain_hits(WORDS, False, b"concat")
    yield from killed_by(0, files_of_each_version)


def killed_by(number, files_in=same_file):
    """The same by the plan of this number, or by published plans."""
    with Balancer(files_in) as balancer:
        yield "haproxy -c", (balancer.checked.returncode, balancer.checked.stderr), (0, "")
        yield "through the balancer", balancer.waited(), plain_hits(WORDS, False, b"concat")
        load = Load(balancer, number)
        yield "half the load", soon(load.is_half_way), True
        yield "each server has some", all(2 <= connected(server) <= 7 for server in balancer.servers), True
        balancer.servers[0].kill()
        load.gate.set()
        for place, found in enumerate(load.ends()):
            want = plain_hits(WORDS, False, load.texts[place])
            yield f"hits of client {place}", found if isinstance(found, str) else found == want, True
        losses = [stream.losses for stream in load.streams]
        yield f"clients that lost a connection, {losses}", 2 <= sum(map(bool, losses)) <= 7, True
        print(f"one of three servers killed: {sum(map(bool, losses))} of {LOADED} clients lost a connection, none a hit")


def untended():
    """A client that does not resume gets the hits of a prefix of its text, and then loses the connection."""
    with Balancer() as balancer:
        yield "through the balancer", balancer.waited(), plain_hits(WORDS, False, b"concat")
        text, found, fault = b"concat " * 100000, [], None
        with balancer.dial() as client, client.open(client.publish(WORDS)) as stream:
            hits = stream.scan([text[at : at + 7000] for at in range(0, len(text), 7000)])
            try:
                for hit in hits:
                    found.append(hit)
                    if len(found) == 60000:
                        for server in balancer.servers:
                            server.kill()
            except ConnectionLost as lost:
                fault = lost
            place = stream.place
        whole = plain_hits(WORDS, False, text)
        yield "a client of killed servers", type(fault), ConnectionLost
        yield f"it has some hits, {len(found)}", 60000 <= len(found) < len(whole), True
        yield "which are the first ones", found == whole[: len(found)], True
        yield "and all up to its last Fed", sum(hit.end <= place for hit in whole) <= len(found), True
        lost = Resumed(balancer.dial, WORDS, tries=3, pause=0)
        yield "no server left", (fault_of(lost.feed, b"cat")[0], lost.losses), ("ConnectionLost", 3)


TESTS = (limits, rights, same_plans, killed, each_version, untended)
