"""deploy/systemd: systemd's own checks of the units, `scand` under a supervisor, and its system calls.

The system calls of `scand` must be among those that the units allow."""

import contextlib
import os
import re
import shutil
import signal
import subprocess
import tempfile
import time

from cases import session_cases
from oracles import sessions
from support.programs import LITPLAN, TOP
from support.servers import SCAND, SECONDS, Client, free_port

UNITS = os.path.join(TOP, "deploy", "systemd")
# The greatest exposure that systemd may find in the units, in tenths.
EXPOSURE = 12


def connected(port):
    """A new connection to a server that listens, or soon does."""
    deadline = time.monotonic() + SECONDS
    while True:
        try:
            return Client(port, {})
        except ConnectionRefusedError:
            if time.monotonic() > deadline:
                raise
            time.sleep(0.02)


class Activated:
    """A supervisor that starts `scand --stdio` for each connection to a port, as scand.socket does, with these options."""

    def __init__(self, port=None, options=()):
        self.port = port or free_port()
        listen = ["systemd-socket-activate", "--accept", "--inetd", "-l", f"127.0.0.1:{self.port}"]
        self.program = subprocess.Popen(
            [*listen, SCAND, "--stdio", *options], stdin=subprocess.DEVNULL, stderr=subprocess.DEVNULL, start_new_session=True
        )
        self.client().socket.close()

    def client(self):
        """A new connection. The first one waits until the supervisor listens."""
        return connected(self.port)

    def __enter__(self):
        return self

    def __exit__(self, *_):
        self.kill()

    def kill(self):
        """Ends the supervisor and every server that it started, at once."""
        with contextlib.suppress(ProcessLookupError):
            os.killpg(self.program.pid, signal.SIGKILL)
        self.program.wait()


def copied_units(folder):
    """Copies the units, so that they start the tested `scand`. Answers the copies."""
    for name in os.listdir(UNITS):
        if name.endswith((".socket", ".service")):
            with open(os.path.join(UNITS, name)) as file:
                text = file.read()
            with open(os.path.join(folder, name), "w") as file:
                file.write(text.replace("/usr/local/bin/scand", SCAND))
    return [os.path.join(folder, name) for name in ("scand.socket", "scand@.service", "scand-port@.service")]


def unlimited():
    """However fast connections come, the socket stays: the default of 200 in two seconds would end it."""
    with open(os.path.join(UNITS, "scand.socket")) as file:
        yield "the limit of scand.socket", re.findall(r"^(TriggerLimit.*)=(.*)$", file.read(), re.M), [("TriggerLimitIntervalSec", "0")]


def instance(unit):
    """The name of an instance of a template."""
    return unit.replace("@.", "@7001.")


def units():
    """The units, by systemd's own checks."""
    with tempfile.TemporaryDirectory() as folder:
        paths = copied_units(folder)
        for path in paths[1:]:
            shutil.copy(path, instance(path))
        for path in paths:
            done = subprocess.run(["systemd-analyze", "verify", instance(path)], capture_output=True, text=True, timeout=60)
            own = [line for line in done.stderr.splitlines() if "scand" in line]
            yield f"systemd-analyze verify {os.path.basename(path)}", (done.returncode, own), (0, [])
        for path in paths[1:]:
            words = ["systemd-analyze", "security", "--offline=true", "--no-pager", f"--threshold={EXPOSURE}", instance(path)]
            done = subprocess.run(words, capture_output=True, text=True, timeout=60)
            yield f"systemd-analyze security {os.path.basename(path)}, {done.stdout[-60:]!r}", done.returncode, 0


def started():
    """Servers that a supervisor starts: for more than 64 connections in turn and at once, how they end, and one killed."""
    with Activated() as supervisor:
        for name, text, replies, _ in session_cases.WORKED + session_cases.BAD:
            with supervisor.client() as client:
                client.sends(text)
                yield f"{name}, under a supervisor", client.leaves(), replies
        with contextlib.ExitStack() as stack:
            clients = [stack.enter_context(supervisor.client()) for _ in range(80)]
            for number, client in enumerate(clients):
                yield f"connection {number} of 80", *client.asks(sessions.publish([b"cat", b"%d" % number]))
            for request in sessions.open_stream(1, 0), sessions.feed(1, b"79 concat"):
                for client in clients:
                    got, want = client.asks(request)
                    if got != want:
                        yield "a reply to one of 80", got, want
            pids = children(supervisor.program.pid)
            yield "a process for each connection", len(pids), 80
            os.kill(pids[0], signal.SIGKILL)
            ended = sum(client.leaves() == b"" for client in clients)
            yield "connections that end, one of them killed", ended, 80


def packed(folder, literals, name="words.plan"):
    """A plan file of some literals."""
    words, path = os.path.join(folder, "words"), os.path.join(folder, name)
    with open(words, "wb") as file:
        file.write(b"".join(literal + b"\n" for literal in literals))
    subprocess.run([LITPLAN, "pack", words, path], check=True)
    return path


def planned():
    """Servers with the plan of a file; after another file takes its place; and with a file that cannot be used."""
    with tempfile.TemporaryDirectory() as folder:
        path = packed(folder, [b"cat"])
        with Activated(options=["--plans", path]) as supervisor:
            for literals in [b"cat"], [b"dog", b"og"]:
                os.replace(packed(folder, literals, "new.plan"), path)
                model = sessions.Session({0: sessions.Plan(literals, False)})
                for _ in range(3):
                    with supervisor.client() as client:
                        client.model = model
                        requests = sessions.open_stream(1, 0), sessions.feed(1, b"concat dog"), sessions.publish([b"a"])
                        for request in requests:
                            yield f"by a file of {literals}", *client.asks(request)
                        model.streams.clear()
            for name, text in ("a file that is cut", b"LPLF"), ("a file that is missing", None):
                os.remove(path)
                if text:
                    with open(path, "wb") as file:
                        file.write(text)
                with supervisor.client() as client:
                    client.sends(session_cases.PUBLISH_CAT)
                    yield f"{name} gets a reply", client.leaves()[:1] == b"\0", False


def children(pid):
    """The live processes that a process started."""
    with open(f"/proc/{pid}/task/{pid}/children") as file:
        found = [int(word) for word in file.read().split()]
    return [child for child in found if is_alive(child)]


def is_alive(pid):
    """Whether a process lives."""
    with contextlib.suppress(OSError), open(f"/proc/{pid}/stat") as file:
        return file.read().rsplit(")", 1)[1].split()[0] != "Z"
    return False


def allowed_calls(unit):
    """The system calls that a unit allows, by systemd's own lists."""

    def listed(group):
        shown = subprocess.run(["systemd-analyze", "syscall-filter", "--no-pager", group], capture_output=True, text=True).stdout
        found = set()
        for word in re.findall(r"^\s+(@?[a-z0-9_-]+)", shown, re.M):
            found |= listed(word) if word.startswith("@") else {word}
        return found

    with open(os.path.join(UNITS, unit)) as file:
        filters = re.findall(r"^SystemCallFilter=(~?)(.*)$", file.read(), re.M)
    found = set()
    for without, groups in filters:
        for group in groups.split():
            found = found - listed(group) if without else found | listed(group)
    return found


def calls():
    """The units allow the system calls of a session and of a server of connections."""
    allowed = {unit: allowed_calls(unit) for unit in ("scand@.service", "scand-port@.service")}
    for unit, names in allowed.items():
        yield f"system calls that {unit} lacks", {"read", "write", "mmap", "futex", "accept4"} - names, set()
    if subprocess.run(["strace", "-o", os.devnull, "true"], stderr=subprocess.DEVNULL).returncode != 0:
        print("left out: the system calls of scand, since strace may trace nothing here")
        return
    with tempfile.TemporaryDirectory() as folder:
        trace = os.path.join(folder, "trace")
        plans = ["--plans", packed(folder, [b"dog", b"bird"])]
        many = session_cases.FIRST_THREE + sessions.publish(session_cases.PAIRS) + sessions.feed(7, b"cat" * 20000)
        words = ["strace", "-f", "-o", trace, SCAND, "--stdio", *plans]
        done = subprocess.run(words, input=many, capture_output=True, timeout=SECONDS)
        yield f"a session under strace: {done.stderr[-100:]}", done.returncode, 0
        yield "system calls of --stdio that are not allowed", traced(trace) - allowed["scand@.service"], set()
        port = free_port()
        words = ["strace", "-f", "-o", trace, SCAND, "--port", str(port), "--connections", "2", *plans]
        with subprocess.Popen(words, stdout=subprocess.DEVNULL, stderr=subprocess.DEVNULL) as program:
            for _ in range(2):
                with connected(port) as client:
                    client.sends(many)
                    yield "a connection under strace", client.leaves()[:9], session_cases.PUBLISHED_0[:9]
            program.wait(SECONDS)
        yield "system calls of --port that are not allowed", traced(trace) - allowed["scand-port@.service"], set()


def traced(path):
    """The system calls in a trace."""
    with open(path) as file:
        return set(re.findall(r"^\d+ +(?:<\.\.\. )?([a-z0-9_]+)", file.read(), re.M)) - {"exited", "killed"}


TESTS = (units, unlimited, started, planned, calls)
