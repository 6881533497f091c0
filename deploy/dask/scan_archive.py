#!/usr/bin/env python3
"""Searches archives by the workers of a Dask cluster, and prints what one process would.

    python3 deploy/dask/scan_archive.py --scheduler HOST:PORT lines WORDS FILE...
    python3 deploy/dask/scan_archive.py --scheduler HOST:PORT count WORDS FILE...
    python3 deploy/dask/scan_archive.py --scheduler HOST:PORT hits WORDS FILE...

`lines` prints the lines that `litgrep -f WORDS` selects, `count` how many they are, and `hits` a line `LIT END` for each
hit: the literal's number in the list by length and bytes, and how many bytes of the file there are up to its end. With
several files each line begins with `NAME:`. WORDS has one literal a line; for hits, empty lines count for nothing.

Each worker needs the files under the same names, and litgrep, the library or scand. Before it sends anything, the job checks
that each file exists here, and that each worker has its program or library. It sends one file to each worker, also to a
worker that comes later: the list for litgrep, or for hits the plan file that litplan makes of it here. A worker checks the
plan file again, and keeps the file in its folder until it ends. Workers find hits in their own process, by the C library
and the Python package `fiolargu`, which is sent too. With --scand they start a scand for each part.

Files are searched in parts. For lines and counts parts are cut at newlines. For hits they are cut anywhere: the
`longest - 1` bytes before a part are fed first, and their hits dropped. If a worker is lost, another worker searches its
part. Progress goes to standard error. Status 0: something was found; 1: nothing; 2: some part could not be searched,
the list could not be planned, or the output not be written, and the output is the first part of what it should be.
"""

import argparse
import collections
import contextlib
import functools
import importlib.machinery
import logging
import os
import shutil
import subprocess
import sys
import tempfile
import time
import zipfile

try:
    import distributed
except ImportError as fault:
    print(f"scan_archive: {fault} (Debian's package is python3-distributed)", file=sys.stderr)
    sys.exit(2)

# Where a job ends early on a busy machine, Dask lets connections go that it still waited for, and asyncio reports each.
logging.getLogger("asyncio").setLevel(logging.CRITICAL)

HERE = os.path.dirname(os.path.abspath(__file__))
# Where the package is, unless Python knows it from elsewhere.
CLIENTS = os.path.join(HERE, "..", "..", "clients", "python")
CHUNK = 1 << 20
# Seconds for which a worker waits for what it is sent, and between two looks.
PATIENCE, PAUSE = 60, 0.1


def line_start(file, at):
    """The first place, from `at` on, at which a line begins, or the end of the file."""
    if at == 0:
        return 0
    file.seek(at - 1)
    file.readline()
    return file.tell()


def named(fault):
    """What a fault says, with the file that it is about."""
    return f"{fault.filename}: {fault.strerror}" if isinstance(fault, OSError) and fault.filename else str(fault)


def located(call):
    """The call of a worker, whose faults name the worker, and need nothing of it to be read elsewhere."""
    @functools.wraps(call)
    def calls(*words):
        try:
            return call(*words)
        except Exception as fault:
            raise RuntimeError(f"{distributed.get_worker().address}: {named(fault)}") from None
    return calls


def output(words, text, statuses):
    """What a program writes for an input. RuntimeError where it ends with another status than these."""
    try:
        done = subprocess.run(words, input=text, capture_output=True)
    except OSError as fault:
        raise RuntimeError(f"{words[0]}: {fault.strerror}") from fault
    if done.returncode not in statuses:
        raise RuntimeError(f"{words[0]}: status {done.returncode}: {done.stderr.decode(errors='replace').strip()}")
    return done.stdout


def awaited(attempt, name):
    """What a worker was sent, by an attempt that answers None where it is not there yet: a worker that comes later may be
    given a part before. RuntimeError where it does not come."""
    for _ in range(int(PATIENCE / PAUSE)):
        if (found := attempt()) is not None:
            return found
        time.sleep(PAUSE)
    raise RuntimeError(f"{name} did not come")


def sent(name, size):
    """Where a worker has a file of this size that it was sent, once all of it is there."""
    path = os.path.join(distributed.get_worker().local_directory, name)
    return awaited(lambda: path if os.path.exists(path) and os.path.getsize(path) == size else None, path)


def package(name="fiolargu"):
    """A module of the package `fiolargu` that a worker was sent."""
    def attempt():
        importlib.invalidate_caches()
        with contextlib.suppress(ModuleNotFoundError):
            return importlib.import_module(name)
    return awaited(attempt, name)


@located
def selected(litgrep, flags, words, path, start, end):
    """What litgrep writes for the lines that begin in a part of a file."""
    with open(path, "rb") as file:
        last, first = line_start(file, end), line_start(file, start)
        file.seek(first)
        text = file.read(last - first)
        if len(text) < last - first or os.fstat(file.fileno()).st_size < end:
            raise RuntimeError(f"{path} is shorter than it was")
    return output([litgrep, *flags, "-f", sent(*words)], text, {0, 1})


def chunks(file, size):
    """So many bytes of a file, in pieces."""
    while size > 0:
        piece = file.read(min(size, CHUNK))
        if not piece:
            raise RuntimeError(f"{file.name} is shorter than it was")
        yield piece
        size -= len(piece)


def begun(scand, plan_file):
    """A scand that began with the plan of a file, which it checked, and the number that it told for the plan."""
    Client = package("fiolargu.scand").Client
    reader, writer = os.pipe()
    with open(reader, errors="replace") as messages:
        with open(writer, "wb") as file:
            client = Client.spawn([scand, "--stdio", "--plans", plan_file], stderr=file)
        told = messages.readline().strip()
    number = told.removeprefix("scand: plan ")
    if not number.isdecimal():
        client.close()
        raise RuntimeError(told or f"{scand} told no plan of {plan_file}")
    return client, int(number)


def name_library(library):
    """Names the library for the package: the given one, or else the worker's own, which the first call notes."""
    own = os.environ.setdefault("SCAN_ARCHIVE_LIBRARY", os.environ.get("FIOLARGU_LIBRARY", ""))
    os.environ["FIOLARGU_LIBRARY"] = library or own


def loaded(library, plan_file):
    """The plan of a file, which the library checked. A worker keeps the last plan."""
    worker = distributed.get_worker()
    # Read once: a thread of another job may put its plan here at any time.
    name, plan = getattr(worker, "scan_archive_plan", (None, None))
    if name != plan_file:
        fiolargu = package()
        name_library(library)
        try:
            plan = fiolargu.Plan.from_file(plan_file)
        except fiolargu.FiolarguError as fault:
            raise RuntimeError(f"{plan_file}: {fault}") from fault
        worker.scan_archive_plan = plan_file, plan
    return plan


@located
def library_hits(library, plan_file, longest, path, start, end):
    """A line for each hit that ends in a part of a file, by the library."""
    lead = min(longest - 1, start)
    with loaded(library, sent(*plan_file)).stream(start - lead) as stream, open(path, "rb") as file:
        file.seek(start - lead)
        stream.feed(file.read(lead))
        found = (stream.feed(piece) for piece in chunks(file, end - start))
        return b"".join(b"%d %d\n" % pair for hits in found for pair in zip(hits.literals, hits.ends))


def library_fault(library):
    """Why a worker cannot load the library, or None."""
    fiolargu = package()
    name_library(library)
    try:
        fiolargu.library_version()
    except fiolargu.LibraryMissing as fault:
        return str(fault)
    return None


@located
def hits(scand, plan_file, longest, path, start, end):
    """The same, by a scand."""
    client, plan = begun(scand, sent(*plan_file))
    with client, client.open(plan) as stream, open(path, "rb") as file:
        lead = min(longest - 1, start)
        file.seek(start - lead)
        stream.feed(file.read(lead))
        found = stream.scan(chunks(file, end - start))
        return b"".join(b"%d %d\n" % (literal, start - lead + end) for literal, end in found)


def part_size(word):
    """A size of parts, of at least a byte."""
    if int(word) < 1:
        raise ValueError
    return int(word)


def arguments():
    parser = argparse.ArgumentParser(description="Searches archives by the workers of a Dask cluster.")
    parser.add_argument("--scheduler", required=True, metavar="HOST:PORT", help="the cluster's scheduler")
    parser.add_argument("--part", type=part_size, default=64 << 20, metavar="BYTES", help="the size of a part (64 MiB)")
    parser.add_argument("--litgrep", default="litgrep", help="litgrep on each worker")
    parser.add_argument("--library", metavar="FILE", help="the C library on each worker (where its loader finds it)")
    parser.add_argument("--scand", help="scand on each worker, which finds hits in place of the library")
    parser.add_argument("--litplan", default="litplan", help="litplan on this machine, for hits")
    parser.add_argument("-i", "--ignore-case", action="store_true", help="ignore ASCII case")
    parser.add_argument("what", choices=["lines", "count", "hits"])
    parser.add_argument("words", metavar="WORDS", help="the literals, one a line")
    parser.add_argument("files", nargs="+", metavar="FILE", help="what is searched")
    return parser.parse_args()


def send(cluster, given):
    """Sends each worker what it searches by, and gives the call that searches a part."""
    flags, is_planned = ["-i"] * given.ignore_case, given.what == "hits"
    with open(given.words, "rb") as file:
        text = file.read()
    with tempfile.NamedTemporaryFile(prefix="scan_archive-", suffix=".plan" if is_planned else ".words") as file:
        if is_planned:
            output([given.litplan, "pack", *flags, "-", file.name], text, {0})
        else:
            file.write(text)
            file.flush()
        named_file = os.path.basename(file.name), os.path.getsize(file.name)
        if is_planned:
            by = (hits, given.scand) if given.scand else (library_hits, given.library)
            call = *by, named_file, max(map(len, text.split(b"\n")))
        else:
            call = selected, given.litgrep, flags + ["-c"] * (given.what == "count"), named_file
        cluster.upload_file(file.name)
    return call


def package_folder():
    """Where the package `fiolargu` is. RuntimeError where it is missing."""
    found = importlib.machinery.PathFinder.find_spec("fiolargu", [CLIENTS, *sys.path])
    if found is None or not found.submodule_search_locations:
        raise RuntimeError(f"{CLIENTS}: there is no Python package fiolargu")
    return found.submodule_search_locations[0]


def send_package(cluster):
    """Sends each worker the package `fiolargu`, as an archive that Python imports from."""
    with tempfile.TemporaryDirectory() as folder:
        archive, package = os.path.join(folder, "fiolargu.zip"), package_folder()
        with zipfile.ZipFile(archive, "w") as file:
            for name in sorted(os.listdir(package)):
                if name.endswith(".py"):
                    file.write(os.path.join(package, name), f"fiolargu/{name}")
        cluster.upload_file(archive)


def ready(cluster, given):
    """Waits for a worker, and looks whether each has what it needs. RuntimeError where one has not."""
    if not cluster.scheduler_info()["workers"]:
        print(f"scan_archive: {given.scheduler} has no worker yet", file=sys.stderr, flush=True)
        cluster.wait_for_workers(1)
    if given.what == "hits":
        send_package(cluster)
    if given.what == "hits" and not given.scand:
        for worker, fault in cluster.run(library_fault, given.library).items():
            if fault is not None:
                raise RuntimeError(f"{worker}: {fault}")
        return
    program = given.scand if given.what == "hits" else given.litgrep
    for worker, path in cluster.run(shutil.which, program).items():
        if path is None:
            raise RuntimeError(f"{worker}: {program}: there is no such program")


def parts(sizes, given):
    """The parts in their order: each with its file's name, whether it is the last of it, and where it is."""
    for name, size in sizes:
        path = os.path.abspath(name)
        for start in range(0, max(size, 1), given.part):
            end = min(start + given.part, size)
            yield name, end == size, (path, start, end)


def answers(cluster, given):
    """The answer to each part, in order, with a few parts for each worker on their way."""
    sizes = [(name, os.path.getsize(name)) for name in given.files]
    ready(cluster, given)
    call, source, running = send(cluster, given), parts(sizes, given), collections.deque()
    while True:
        most = 3 * max(len(cluster.scheduler_info()["workers"]), 1)
        while len(running) < most and (part := next(source, None)):
            name, is_last, place = part
            running.append((name, is_last, cluster.submit(*call, *place, pure=False, retries=3)))
        if not running:
            return
        name, is_last, answer = running.popleft()
        yield name, is_last, answer.result()


def shown(source):
    """The same answers, with their number told on standard error."""
    number = 0
    try:
        for number, answer in enumerate(source, 1):
            yield answer
            print(f"\r{number} parts", end="", file=sys.stderr, flush=True)
    finally:
        if number:
            print(file=sys.stderr)


def search(cluster, given):
    """Prints the answers, and tells whether anything was found."""
    found, count, out = False, 0, sys.stdout.buffer
    for name, is_last, text in shown(answers(cluster, given)):
        front = os.fsencode(name) + b":" if len(given.files) > 1 else b""
        if given.what == "count":
            count += int(text)
            found = found or count > 0
            text = b"%d\n" % count if is_last else b""
            count = 0 if is_last else count
        found = found or bool(text and given.what != "count")
        out.write(b"".join(front + line + b"\n" for line in text.split(b"\n")[:-1]) if front else text)
    out.flush()
    return found


def main():
    given = arguments()
    try:
        with distributed.Client(given.scheduler) as cluster:
            return 0 if search(cluster, given) else 1
    except Exception as fault:
        print(f"scan_archive: {named(fault)}", file=sys.stderr)
        if sys.stdout is not None:
            try:
                sys.stdout.flush()
            except OSError:
                # What is still to be written would fail again at the end of the program, whose status would be 120.
                os.dup2(os.open(os.devnull, os.O_WRONLY), sys.stdout.fileno())
        return 2


if __name__ == "__main__":
    sys.exit(main())
