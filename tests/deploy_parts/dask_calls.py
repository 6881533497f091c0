"""deploy/dask without a cluster: the calls of a worker, and how the job ends, with a stand-in for the module of Dask."""

import contextlib
import importlib
import os
import subprocess
import sys
import tempfile
import threading
import time
import types

from support.programs import LITGREP, TOP, lay_out

OWN = os.path.join(TOP, "deploy", "dask")
# The job with a stand-in for Dask, which answers this to its only part.
JOB = f"""
import sys, types

class Client:
    def __init__(self, address):
        pass
    def __enter__(self):
        return self
    def __exit__(self, *_):
        pass

sys.modules["distributed"] = types.SimpleNamespace(Client=Client)
sys.path.insert(0, {OWN!r})
import scan_archive

text = b"0 4\\n" * int(sys.argv.pop())
scan_archive.answers = lambda *_: iter([("log", True, text)])
sys.exit(scan_archive.main())
"""


class Plan:
    """A stand-in for a plan: its name is its file, and the library that was named for it."""

    @classmethod
    def from_file(cls, path):
        plan = cls()
        plan.name = path, os.environ.get("FIOLARGU_LIBRARY")
        return plan


class Worker:
    """A worker. After each time that the job looks for its plan, a thread of another job puts another one there."""

    address, local_directory = "tcp://worker", "/"

    @property
    def scan_archive_plan(self):
        found = self.__dict__.get("plan", ("none", None))
        self.plan = "other.plan", Plan.from_file("other.plan")
        return found

    @scan_archive_plan.setter
    def scan_archive_plan(self, value):
        self.plan = value


@contextlib.contextmanager
def on_a_worker(folder):
    """The script on a worker that has its files in this folder."""
    worker = Worker()
    worker.local_directory = folder
    known = {name: sys.modules.get(name) for name in ("distributed", "fiolargu", "scan_archive")}
    sys.modules["distributed"] = types.SimpleNamespace(get_worker=lambda: worker)
    sys.modules["fiolargu"] = types.SimpleNamespace(Plan=Plan, FiolarguError=OSError)
    sys.path.insert(0, OWN)
    before = dict(os.environ)
    try:
        sys.modules.pop("scan_archive", None)
        yield importlib.import_module("scan_archive")
    finally:
        sys.path.remove(OWN)
        os.environ.clear()
        os.environ.update(before)
        for name, module in known.items():
            sys.modules.pop(name, None)
            if module is not None:
                sys.modules[name] = module


def two_jobs():
    """Two jobs on one worker: each searches by its own plan, and by its own library or the worker's."""
    for own in "/own.so", None:
        with tempfile.TemporaryDirectory() as folder, on_a_worker(folder) as script:
            os.environ.pop("FIOLARGU_LIBRARY", None)
            if own:
                os.environ["FIOLARGU_LIBRARY"] = own
            for turn in range(2):
                for library in "/a.so", None, "/b.so", None:
                    path = f"{turn}{library}.plan"
                    got = script.loaded(library, path).name
                    yield f"the plan of a job with {library}, own {own}", (got[0], got[1] or None), (path, library or own)
            script.distributed.get_worker().scan_archive_plan = "kept.plan", Plan.from_file("kept.plan")
            yield "a plan that another job replaces", script.loaded(None, "kept.plan").name[0], "kept.plan"


def late():
    """A worker waits for all of a list that it is sent, and says so where that does not come."""
    with tempfile.TemporaryDirectory() as folder, on_a_worker(folder) as script:
        lay_out(folder, {"log": b"a cat\nlog\n", "words": b""})
        path, words = os.path.join(folder, "log"), os.path.join(folder, "words")

        def write():
            for piece in b"c", b"at\n":
                time.sleep(0.15)
                with open(words, "ab") as file:
                    file.write(piece)

        writer = threading.Thread(target=write)
        writer.start()
        got = script.selected(LITGREP, [], ("words", 4), path, 0, 10)
        writer.join()
        yield "lines by a list that comes late, and in pieces", got, b"a cat\n"
        script.PATIENCE = 0.2
        for name in "words", "none":
            try:
                got = script.selected(LITGREP, [], (name, 5), path, 0, 10)
            except RuntimeError as fault:
                got = str(fault)
            yield f"a list {name} that does not come whole", got, f"tcp://worker: {os.path.join(folder, name)} did not come"
        sys.modules["fiolargu"] = None
        try:
            got = script.package()
        except RuntimeError as fault:
            got = str(fault)
        yield "a package that does not come", got, "fiolargu did not come"


def shorter():
    """A worker whose file is shorter than it was says so, for lines as for hits."""
    lines = [b"line %06d\n" % number for number in range(3000)]
    whole = b"".join(lines)
    places = [(start, min(start + 10000, len(whole))) for start in range(0, len(whole), 10000)]
    with tempfile.TemporaryDirectory() as folder, on_a_worker(folder) as script:
        lay_out(folder, {"log": whole, "words": b"line\n"})
        path = os.path.join(folder, "log")

        def parts(flags):
            found = []
            for place in places:
                try:
                    found.append(script.selected(LITGREP, flags, ("words", 5), path, *place))
                except RuntimeError as fault:
                    found.append(str(fault))
            return found

        yield "lines of all parts", b"".join(parts([])), whole
        yield "their count", sum(map(int, parts(["-c"]))), len(lines)
        message = f"tcp://worker: {path} is shorter than it was"
        for size in len(whole) - 1, len(whole) - len(lines[0]), 15005, 5, 0:
            os.truncate(path, size)
            for flags in [], ["-c"]:
                for place, got in zip(places, parts(flags)):
                    if place[1] > size:
                        yield f"part {place} of {size} bytes, {flags}", got, message
        lay_out(folder, {"log": whole + b"line more\n"})
        yield "lines of a file that has grown", b"".join(parts([])), whole


def endings():
    """The status of the job, also where its output cannot be written, little of it or much."""
    # Python buffers its output, whatever PYTHONUNBUFFERED says.
    words = [sys.executable, "-E", "-c", JOB, "--scheduler", "host:1", "hits", "words", "log"]
    with open("/dev/full", "w") as full:
        for count, out, want in (
            (1, subprocess.PIPE, (0, b"0 4\n")), (0, subprocess.PIPE, (1, b"")), (1, full, (2, None)), (100000, full, (2, None)),
        ):
            done = subprocess.run([*words, str(count)], stdout=out, stderr=subprocess.PIPE, timeout=60)
            yield f"the end of a job of {count} hits: {done.stderr[-200:]}", (done.returncode, done.stdout), want
            told = b"scan_archive: " in done.stderr and b"Traceback" not in done.stderr and b"ignored" not in done.stderr
            yield f"its message for {count} hits", told, want[0] == 2
    done = subprocess.run(["sh", "-c", 'exec "$@" >&-', "sh", *words, "1"], stderr=subprocess.DEVNULL, timeout=60)
    yield "the end of a job without an output", done.returncode, 2


TESTS = (two_jobs, late, shorter, endings)
