"""deploy/dask on a cluster of this machine: it answers as one process does, also where workers are killed."""

import json
import os
import random
import re
import subprocess
import tempfile
import time

from deploy_parts.parallel_hosts import DYING
from support import clibrary
from support.programs import LITGREP, LITPLAN, TOP
from support.pyclient import plain_hits
from support.servers import SCAND, SECONDS

SCRIPT = os.path.join(TOP, "deploy", "dask", "scan_archive.py")
WORDS = [b"error", b"timeout", b"17 ms", b"r", b"error request took 1", b"Unreachable"]
WORKERS = 3
# The Python that Debian's packages are for.
PYTHON = "/usr/bin/python3"
# A litplan that runs once, and a litplan that changes the most significant byte of its plan file's last potential.
ONCE = """#!/bin/sh
mkdir {folder}/planned && exec {program} "$@"
"""
CHANGING = """#!/bin/sh
for out; do :; done
{program} "$@" && printf '\377' | dd of="$out" bs=1 seek=$(($(stat -c %s "$out") - 8)) conv=notrunc status=none
"""


class Cluster:
    """A scheduler and workers, each a process of its own."""

    def __init__(self, folder, by):
        self.by = by
        self.folder, self.file = folder, os.path.join(folder, "scheduler.json")
        listen = ["--host", "127.0.0.1", "--no-dashboard", "--scheduler-file", self.file]
        self.programs = [self.start("dask-scheduler", "--port", "0", *listen)]
        deadline = time.monotonic() + SECONDS
        while not os.path.exists(self.file) and time.monotonic() < deadline:
            time.sleep(0.05)
        for number in range(WORKERS):
            self.add(f"worker{number}")

    def add(self, name):
        """Starts a worker."""
        own = ["--local-directory", os.path.join(self.folder, name), "--scheduler-file", self.file]
        self.programs.append(self.start("dask-worker", "--nthreads", "1", "--no-nanny", "--no-dashboard", *own))

    def lose(self):
        """Kills a worker."""
        self.programs[-1].kill()
        self.programs.pop().wait()

    def renew(self):
        """Kills each worker, and starts another one."""
        while len(self.programs) > 1:
            self.lose()
        self.add("another")

    def start(self, *words):
        quiet = {"stdin": subprocess.DEVNULL, "stdout": subprocess.DEVNULL, "stderr": subprocess.DEVNULL}
        return subprocess.Popen(words, cwd=self.folder, **quiet)

    def address(self):
        with open(self.file) as file:
            return json.load(file)["address"]

    def __enter__(self):
        return self

    def __exit__(self, *_):
        for program in self.programs:
            program.kill()
            program.wait()

    def run(self, *words, midway=None):
        """The status and output of a search. `midway` may do something to the cluster in the middle of it."""
        own = ["--scheduler", self.address(), *self.by, "--litgrep", LITGREP, "--litplan", LITPLAN]
        pipes = {"stdout": subprocess.PIPE, "stderr": subprocess.PIPE}
        with tempfile.TemporaryFile() as out:
            pipes["stdout"] = out
            with subprocess.Popen([PYTHON, SCRIPT, *own, *words], cwd=self.folder, **pipes) as program:
                messages = b""
                while piece := os.read(program.stderr.fileno(), 1000):
                    messages += piece
                    if midway and b"5 parts" in messages:
                        midway()
                        midway = None
            out.seek(0)
            return program.returncode, out.read() if program.returncode < 2 else messages


def lay_out(folder):
    """Logs, among them an empty one and one that ends within a line, and words to search for."""
    source = random.Random(41)
    levels = [b"info", b"Error", b"error", b"debug"]
    lines = [b"%d %s request took %d ms" % (place, source.choice(levels), source.randrange(400)) for place in range(150000)]
    texts = {"log": b"\n".join(lines), "short": b"\n".join(lines[:300]) + b"\n", "empty": b"", "long": b"error " * 100000}
    texts["tiny"] = b"x\n\nerror request took 1" + b"error request took 17 ms\n"
    lists = {"words": b"\n".join(WORDS), "none": b"nowhere", "null": b"error\n\n", "nulls": b"\n\n"}
    programs = {"dying": DYING.format(folder=folder, name="litgrep", program=LITGREP)}
    programs.update(once=ONCE.format(folder=folder, program=LITPLAN), changing=CHANGING.format(program=LITPLAN))
    for name, text in {**texts, **lists, **{name: text.encode() for name, text in programs.items()}}.items():
        with open(os.path.join(folder, name), "wb") as file:
            file.write(text)
        os.chmod(os.path.join(folder, name), 0o755)
    return texts


def hit_lines(text, front=b""):
    """The lines about the hits in a text."""
    return b"".join(front + b"%d %d\n" % hit for hit in plain_hits(WORDS, False, text))


def grep(folder, *words):
    """The status and output of one litgrep."""
    done = subprocess.run([LITGREP, *words], cwd=folder, capture_output=True)
    return done.returncode, done.stdout


def searches(folder, texts, cluster):
    """Lines, counts and hits, of one file and of several, are the same as by one process."""
    several = ["long", "empty", "short", "log"]
    for flags in [], ["-i"]:
        got = cluster.run(*flags, "--part", "300000", "lines", "words", "log")
        yield f"lines {flags}", got, grep(folder, *flags, "-f", "words", "log")
    got = cluster.run("--part", "99999", "lines", "words", *several)
    yield "lines of several files", got, grep(folder, "-f", "words", *several)
    got = cluster.run("--part", "99999", "count", "words", *several)
    yield "counts of several files", got, grep(folder, "-c", "-f", "words", *several)
    for patterns in "null", "empty":
        yield f"lines by the list {patterns}", cluster.run("lines", patterns, "tiny"), grep(folder, "-f", patterns, "tiny")
    got = cluster.run("--part", "99999", "--litplan", os.path.join(folder, "once"), "hits", "words", *several)
    want = b"".join(hit_lines(texts[name], name.encode() + b":") for name in several)
    yield "hits of several files, planned once", (got[0], got[1] == want), (0, True)
    got, want = cluster.run("-i", "hits", "null", "short"), plain_hits([b"error"], True, texts["short"])
    yield "hits, case ignored", got, (0, b"".join(b"%d %d\n" % hit for hit in want))
    tiny = texts["tiny"]
    for size in 1, 7, 19, 20:
        got = cluster.run("--part", str(size), "hits", "words", "tiny")
        yield f"hits in parts of {size} bytes", got, (0, hit_lines(tiny))
    got = cluster.run("--part", "7", "lines", "words", "tiny")
    yield "lines in parts of 7 bytes", got, grep(folder, "-f", "words", "tiny")
    for what in "lines", "hits":
        yield f"no {what} found", cluster.run(what, "none", "log"), (1, b"")


# Words of a search by a library that a worker cannot load.
LIBRARY_FAULTS = [
    (["--library", "/none/lib.so", "hits", "words", "log"], rb"tcp://[0-9.:]+: the C library cannot be loaded: /none/lib.so: .*"),
    (["--library", "libc.so.6", "hits", "words", "log"], rb"tcp://[0-9.:]+: libc.so.6 is another library, .*"),
]


def refusals(folder, _, cluster):
    """What cannot be searched is reported before anything is searched."""
    for words, want in (
        (["lines", "words", "log", "missing"], rb"missing: No such file or directory"),
        (["lines", "missing", "log"], rb"missing: No such file or directory"),
        (["--scand", "/none/scand", "hits", "words", "log"], rb"tcp://[0-9.:]+: /none/scand: there is no such program"),
        (["--litgrep", "nope", "count", "words", "log"], rb"tcp://[0-9.:]+: nope: there is no such program"),
        (["--litplan", "nope", "hits", "words", "log"], rb"nope: No such file or directory"),
        (["--scand", "true", "hits", "words", "log"], rb"tcp://[0-9.:]+: true told no plan of \S+"),
        *LIBRARY_FAULTS * (cluster.by[0] == "--library"),
    ):
        status, message = cluster.run(*words)
        yield f"{words}, {message!r}", (status, bool(re.fullmatch(rb"scan_archive: %s\n" % want, message))), (2, True)
    status, message = cluster.run("--part", "0", "lines", "words", "log")
    yield f"parts of no byte, {message!r}", (status, b"--part" in message), (2, True)
    status, message = cluster.run("hits", "nulls", "log")
    yield "a list of no literals", (status, b"refused (5)" in message), (2, True)
    status, message = cluster.run("--litplan", os.path.join(folder, "changing"), "hits", "words", "log")
    refused = rb"%s/\S+/scan_archive-\w+\.plan: " % os.fsencode(folder)
    if cluster.by[0] == "--library":
        refused += rb"BadPlanFile \(10\): no plan file, or not certified, at byte \d+"
    else:
        refused = rb"scand: " + refused + rb"refused \(10\)"
    refused = rb"scan_archive: tcp://[0-9.:]+: " + refused + rb"\n"
    yield f"a plan file that was changed, {message!r}", (status, bool(re.fullmatch(refused, message))), (2, True)


def losses(folder, texts, cluster):
    """The answers are the same where a litgrep, a worker or all workers are killed in the middle."""
    got = cluster.run("--part", "200000", "--litgrep", os.path.join(folder, "dying"), "lines", "words", "log")
    yield "a litgrep that is killed", got, grep(folder, "-f", "words", "log")
    want = hit_lines(texts["log"])
    got = cluster.run("--part", "150000", "hits", "words", "log", midway=cluster.lose)
    yield "hits, a worker killed", (got[0], got[1] == want), (0, True)
    got = cluster.run("--part", "150000", "lines", "words", "log", midway=cluster.lose)
    yield "lines, another worker killed", got, grep(folder, "-f", "words", "log")
    yield "remaining workers", len(cluster.programs), 2
    got = cluster.run("--part", "150000", "hits", "words", "log", midway=cluster.renew)
    yield "hits, the last worker killed and another one started", (got[0], got[1] == want), (0, True)
    yield "the other one was started", os.path.isdir(os.path.join(folder, "another")), True


def on_a_cluster(*by):
    """Each test, on one cluster."""
    with tempfile.TemporaryDirectory() as folder:
        texts = lay_out(folder)
        with Cluster(folder, by) as cluster:
            for test in searches, refusals, losses:
                yield from test(folder, texts, cluster)


def by_scand():
    """Hits by the scand of each part."""
    yield from on_a_cluster("--scand", SCAND)


def by_library():
    """Hits by the library, in the processes of the workers."""
    if clibrary.is_there("dask_cluster, by the library"):
        yield from on_a_cluster("--library", clibrary.LIBRARY)


TESTS = (by_scand, by_library)
