"""clients/python over the C library: plans, scans and streams compared with a plain search, threads, buffers, errors."""

import array
import contextlib
import gc
import mmap
import os
import pickle
import random
import re
import subprocess
import sys
import tempfile
import threading
import time
import tracemalloc
from unittest import mock

from cases import session_cases
from support import clibrary
from support.programs import LITPLAN, TOP, version
from support.pyclient import PRONOUNS, PYTHON, fault_of, plain_hits

from fiolargu import Hit, Hits, Plan, Refusal, check, library, library_version
from fiolargu import plan as plans
from fiolargu.errors import refusal

MIB = 1 << 20
# Calls of the library that make a handle, and the place of the handle in their words.
MAKING = {"plan_new": 0, "plan_share": 1, "stream_open": 1, "stream_copy": 1}


def wanted(literals, is_folded, text, base=0):
    """The hits of a plain search."""
    sizes = [len(literal) for literal in sessions_order(literals, is_folded)]
    return [Hit(number, base + end - sizes[number], base + end) for number, end in plain_hits(literals, is_folded, text)]


def sessions_order(literals, is_folded):
    """The literals in their order."""
    words = {word.lower() if is_folded else word for word in literals if word}
    return sorted(words, key=lambda word: (len(word), word))


def worked():
    """Plans, hits and streams of worked cases."""
    with Plan([*PRONOUNS, b"", b"he"]) as plan:
        found = [Hit(0, 2, 4), Hit(2, 1, 4), Hit(3, 2, 6)]
        yield "literals", (plan.literals, len(plan), plan.longest), ((b"he", b"his", b"she", b"hers"), 4, 4)
        yield "the literal of each pattern", plan.literal_of, (0, 1, 2, 3, None, 0)
        yield "what the plan has", (plan.ignore_case, plan.buckets, plan.cost > 0), (False, 8, True)
        yield "a scan", list(plan.scan(b"ushers")), found
        yield "hits in bulk", (plan.hits(b"ushers"), plan.count(b"ushers")), (found, 3)
        yield "the first end", (plan.next_end(b"ushers"), plan.next_end(b"ushers", 4), plan.next_end(b"ushers", 6)), (4, 6, None)
        yield "matches", (plan.matches(b"ushers"), plan.matches(b"usher"), plan.matches(b"us")), (True, True, False)
        yield "no text", (list(plan.scan(b"")), plan.hits(bytearray()), plan.count(memoryview(b""))), ([], [], 0)
        with plan.stream() as stream:
            yield "a stream", (stream.feed(b"ush"), stream.feed(b""), stream.feed(b"ers"), stream.place), ([], [], found, 6)
            other = stream.copy()
            got = other.feed(b"he"), other.place, stream.feed(b"e"), stream.place
            yield "a copy of it", got, ([Hit(0, 6, 8), Hit(2, 5, 8)], 8, [], 7)
            stream.restart(10)
            yield "begun again", (stream.feed(b"he"), stream.place), ([Hit(0, 10, 12)], 12)
            yield "pieces", list(stream.scan([b"u", b"sh", b"", b"ers"])), [Hit(number, start + 12, end + 12) for number, start, end in found]
        kept = plan.stream((1 << 64) - 3)
    yield "a stream after its plan", kept.feed(b"he"), [Hit(0, (1 << 64) - 3, (1 << 64) - 1)]
    yield "its last byte", (fault_of(kept.feed, b"x"), kept.place), (("StreamTooLong", 0), (1 << 64) - 1)
    with Plan([b"Cat", b"cAT"], ignore_case=True, buckets=16) as folded:
        yield "case ignored", (folded.literals, folded.count(b"CAT cat Cat")), ((b"cat",), 3)
        yield "and sixteen buckets", (folded.ignore_case, folded.buckets), (True, 16)
    yield "versions", (".".join(map(str, library_version())), package_version()), (version(), version())


def package_version():
    """The version that pip installs."""
    with open(os.path.join(PYTHON, "pyproject.toml")) as file:
        return re.search(r'^version = "(.*)"$', file.read(), re.M)[1]


def bulk():
    """Hits as arrays: what they have, and how much memory a million of them take."""
    with Plan([b"a", b"ab"]) as plan:
        hits = plan.hits(b"ab ab")
        columns = hits.ends.tolist(), hits.literals.tolist(), hits.lengths.tolist(), hits.starts
        yield "columns", columns, ([1, 2, 4, 5], [0, 1, 0, 1], [1, 2, 1, 2], array.array("Q", [0, 0, 3, 3]))
        yield "places", (hits[0], hits[-1], hits[1:3], len(hits)), (Hit(0, 0, 1), Hit(1, 3, 5), list(hits)[1:3], 4)
        yield "a place too far", fault_of(lambda: hits[4])[0], "IndexError"
        yield "records", (hits.records.nbytes, Hits(bytes(hits.records)) == hits, hits == plan.hits(b"ab")), (64, True, False)
        none = plan.hits(b"")
        yield "columns of no hits", (none.ends.tolist(), none.literals.tolist(), list(none.starts), bool(none)), ([], [], [], False)
        text = b"a" * 1000000
        tracemalloc.start()
        hits = plan.hits(text)
        peak = tracemalloc.get_traced_memory()[1]
        tracemalloc.stop()
        yield f"a million hits in {peak} bytes", (len(hits), peak < 48 * MIB), (len(text), True)


def dense():
    """More hits than a call of the library has room for, with many that end together."""
    literals = [b"a" * size for size in range(1, 355)]
    text = b"a" * 700 + b"b" + b"a" * 1300
    want = sum(min(place, 354) for size in (700, 1300) for place in range(1, size + 1))
    with Plan(literals) as plan:
        hits = plan.hits(text)
        yield "dense hits", (len(hits), plan.count(text)), (want, want)
        yield "are those of a scan", list(plan.scan(text)) == list(hits), True
        yield "and in order", all((a.end, a.literal) < (b.end, b.literal) for a, b in zip(hits, hits[1:])), True
        with plan.stream() as stream:
            fed = [hit for at in range(0, len(text), 999) for hit in stream.feed(text[at : at + 999])]
        yield "and those of a stream", fed == list(hits), True


def random_scans():
    """Random lists and texts, in memory and in random pieces, by each kind of buffer, compared with a plain search."""
    source = random.Random(57)
    for number in range(300):
        alphabet = (b"ab", b"abABc", bytes(range(256)))[number % 3]
        literals = [session_cases.word(source, alphabet, 6) for _ in range(source.randrange(1, 30))] + [b"a"]
        is_folded, base = source.random() < 0.5, source.randrange(1 << 40)
        text = session_cases.word(source, alphabet, 4000)
        want = wanted(literals, is_folded, text)
        with Plan(literals, is_folded, buckets=source.choice((8, 16))) as plan:
            kind = source.choice((bytes, bytearray, memoryview, lambda given: array.array("B", given)))
            yield f"hits of {literals} in {text!r:.60}", list(plan.scan(kind(text))), want
            with plan.stream(base) as stream:
                got, at = [], 0
                while at < len(text):
                    size = source.randrange(300)
                    got += stream.feed(kind(text[at : at + size]))
                    at += size
            yield f"of the stream {literals}", got, wanted(literals, is_folded, text, base)
            yield f"the first end of {literals}", plan.next_end(text), want[0].end if want else None


def buffers():
    """Bytes are read where they lie, and stay there during a scan; what is not bytes is refused."""
    text = b"ushers " * 1000
    with Plan(PRONOUNS) as plan, tempfile.TemporaryFile() as file:
        file.write(text)
        file.flush()
        for access in mmap.ACCESS_READ, mmap.ACCESS_WRITE:
            with mmap.mmap(file.fileno(), 0, access=access) as mapped:
                yield f"a mapped file, {access}", plan.count(mapped), 3000
                hits = plan.scan(mapped)
                yield "its first hit", next(hits), Hit(0, 2, 4)
                yield "closed meanwhile", fault_of(mapped.close)[0], "BufferError"
                hits.close()
        changing = bytearray(text)
        hits = plan.scan(changing)
        next(hits)
        yield "resized meanwhile", fault_of(changing.append, 0)[0], "BufferError"
        yield "the rest", len(list(hits)), 2999
        changing.append(0)
        plan.scan(changing)
        changing.append(0)
        yield "a scan that nobody began", len(changing), 7002
        tracemalloc.start()
        large = memoryview(bytes(32 * MIB))
        before = tracemalloc.get_traced_memory()[0]
        tracemalloc.reset_peak()
        plan.count(large[1:])
        peak = tracemalloc.get_traced_memory()[1] - before
        tracemalloc.stop()
        yield f"no copy, but {peak} bytes", peak < MIB, True
        for data, want in ("ushers", "TypeError"), (7, "TypeError"), (None, "TypeError"), (memoryview(text)[::2], "BufferError"):
            yield f"a scan of {data!r:.20}", fault_of(plan.count, data)[0], want
            yield f"a feed of {data!r:.20}", fault_of(plan.stream().feed, data)[0], want


def errors():
    """Each error, by its class and detail."""
    for literals, want in (
        ([], ("NoLiterals", 0)),
        ([b"", b""], ("NoLiterals", 0)),
        ([b"a", b"b" * 4096], ("LiteralTooLong", 1)),
        ([b"a"] * 4097, ("TooManyPatterns", 0)),
        ([b"a" * 4095] * 257, ("ListTooLarge", 0)),
        (b"cat", ("TypeError", None)),
        ("cat", ("TypeError", None)),
        (["cat"], ("TypeError", None)),
    ):
        yield f"a plan of {literals!r:.30}", fault_of(Plan, literals), want
    yield "lines", Plan.from_lines(b"dog\n\nCat", ignore_case=True).literals, (b"cat", b"dog")
    yield "lines without literals", fault_of(Plan.from_lines, b"\n\n"), ("NoLiterals", 0)
    yield "seven buckets", fault_of(Plan, [b"a"], buckets=7)[0], "ValueError"
    plan = Plan(PRONOUNS)
    yield "a place after the text", fault_of(plan.next_end, b"abc", 4), ("OutOfRange", 0)
    yield "a negative place", fault_of(plan.next_end, b"abc", -1), ("OutOfRange", 0)
    yield "a base too large", fault_of(plan.stream, 1 << 64), ("OutOfRange", 0)
    want = "OutOfRange (23): a position or a number of a literal is out of range"
    yield "a base below 0", str(error_of(plan.stream, -1)), want
    stream = plan.stream()
    stream.close()
    plan.close()
    plan.close()
    for name, call in (
        ("count", lambda: plan.count(b"")), ("scan", lambda: list(plan.scan(b"a"))), ("stream", plan.stream), ("bytes", plan.to_bytes),
        ("feed", lambda: stream.feed(b"a")), ("place", lambda: stream.place), ("copy", stream.copy), ("restart", stream.restart),
    ):
        yield f"{name} of what is closed", fault_of(call), ("NullHandle", 0)
    fault = pickle.loads(pickle.dumps(error_of(Plan, [b"", b"b" * 5000])))
    yield "an error that was pickled", str(fault), "LiteralTooLong (3): pattern 1 has more than 4,095 bytes"


def error_of(call, *words):
    """The exception of a call."""
    try:
        return call(*words)
    except Exception as fault:
        return fault


def left_by(call, **starved):
    """The fault of a call while Python has no memory for these parts, and how many handles it made and did not free."""
    calls, made = library.library(), []

    def noting(name, place):
        make = getattr(calls, name)

        def noted(*words):
            made.append(words[place]._obj)
            return make(*words)

        return mock.patch.object(calls, name, noted)

    with contextlib.ExitStack() as patches:
        for name, place in MAKING.items():
            patches.enter_context(noting(name, place))
        for name, owner in starved.items():
            patches.enter_context(mock.patch.object(owner, name, side_effect=MemoryError))
        fault = fault_of(call)[0]
    gc.collect()
    return fault, sum(handle.at is not None for handle in made)


def starved():
    """Where Python has no memory, each handle is freed. A feed whose hits are lost closes its stream."""
    plan = Plan(PRONOUNS)
    yield "a plan", left_by(lambda: Plan(PRONOUNS), plan_info=library.library()), ("MemoryError", 0)
    yield "a search", left_by(lambda: plan.count(b"ushers"), _Room=plans), ("MemoryError", 0)
    yield "the search again", plan.count(b"ushers"), 3
    yield "a stream", left_by(plan.stream, _Room=plans), ("MemoryError", 0)
    stream = plan.stream()
    yield "its copy", left_by(stream.copy, _Room=plans), ("MemoryError", 0)
    yield "the stream", (stream.feed(b"ush"), stream.place), ([], 3)
    yield "its hits", left_by(lambda: stream.feed(b"ers"), found=plans._Room), ("MemoryError", 0)
    yield "its next feed", fault_of(stream.feed, b"ers"), ("NullHandle", 0)


def plan_files():
    """Plan files that litplan wrote, that plans write, and that are wrong; plans that are pickled."""
    with tempfile.TemporaryDirectory() as folder:
        words, path, again = (os.path.join(folder, name) for name in ("words", "words.plan", "again.plan"))
        with open(words, "wb") as file:
            file.write(b"\n".join([*PRONOUNS, b"Horse", b""]))
        for flags, is_folded, buckets in ([], False, 8), (["-i"], True, 8), (["--buckets", "16"], False, 16):
            subprocess.run([LITPLAN, "pack", *flags, words, path], check=True, stdout=subprocess.DEVNULL)
            with open(path, "rb") as file:
                packed = file.read()
            plan = Plan.from_file(path)
            want = Plan([*PRONOUNS, b"Horse"], is_folded, buckets=buckets)
            yield f"a plan file {flags}", (plan.literals, plan.ignore_case, plan.buckets), (want.literals, is_folded, buckets)
            yield f"its hits {flags}", list(plan.scan(b"ushers HORSE")), list(want.scan(b"ushers HORSE"))
            yield f"is what the plan writes {flags}", (want.to_bytes() == packed, want.cost), (True, plan.cost)
            plan.save(again)
            yield f"and writes again {flags}", Plan.from_file(again).to_bytes() == packed, True
            yield f"a pickled plan {flags}", pickle.loads(pickle.dumps(want)).literals, want.literals
            yield f"checked {flags}", check(packed), 1
            for number in -1, 1, 1 << 64:
                yield f"plan {number}", fault_of(Plan.from_bytes, packed, number), ("NoSuchPlan", 0)
            yield "cut", fault_of(Plan.from_bytes, packed[:-1])[0], "BadPlanFile"
            yield "a byte too many", fault_of(check, packed + b"x"), ("BadPlanFile", len(packed))
            wrong = bytearray(packed)
            wrong[-8] ^= 0xFF
            yield "a potential that is wrong", fault_of(Plan.from_bytes, wrong)[0], "BadPlanFile"
        yield "no plan file", fault_of(Plan.from_bytes, b"cat"), ("BadPlanFile", 0)
        yield "a file that is missing", fault_of(Plan.from_file, os.path.join(folder, "none"))[0], "FileNotFoundError"


def threads():
    """Threads that search by one plan at the same time, also while it is closed."""
    literals, text = [b"ab", b"ba", b"a" * 9, b"c"], b"aab" * 40000 + b"c"
    plan = Plan(literals)
    want, got = plan.count(text), []

    def counts():
        for _ in range(10):
            got.append((plan.count(text), len(plan.hits(text)), sum(1 for _ in plan.scan(text[:900]))))

    workers = [threading.Thread(target=counts) for _ in range(6)]
    for worker in workers:
        worker.start()
    for worker in workers:
        worker.join()
    yield "threads by one plan", (len(got), set(got)), (60, {(want, want, plan.count(text[:900]))})
    stream, ends = plan.stream(), []

    def feeds():
        for _ in range(50):
            ends.extend(stream.feed(b"c").ends)

    workers = [threading.Thread(target=feeds) for _ in range(4)]
    for worker in workers:
        worker.start()
    for worker in workers:
        worker.join()
    yield "threads by one stream", sorted(ends), list(range(1, 201))
    faults, deadline = [], time.monotonic() + 20

    def until_closed():
        got = want
        while got == want and time.monotonic() < deadline:
            got = error_of(plan.count, text)
        faults.append(type(got).__name__)

    workers = [threading.Thread(target=until_closed) for _ in range(4)]
    for worker in workers:
        worker.start()
    plan.close()
    for worker in workers:
        worker.join()
    yield "threads of a plan that is closed", (faults, plan._idle), (["NullHandle"] * 4, [])


def documented():
    """The program of docs/LIBRARY.md prints what stands there."""
    with open(os.path.join(TOP, "docs", "LIBRARY.md")) as file:
        program, want = re.search(r"^```python\n(.*?)^```\n\n```\n(.*?)^```$", file.read(), re.M | re.S).groups()
    env = {**os.environ, "PYTHONPATH": PYTHON}
    done = subprocess.run([sys.executable, "-c", program], env=env, capture_output=True, text=True, timeout=60)
    yield "the program of LIBRARY.md", (done.stdout, done.stderr), (want, "")


def missing():
    """Where there is no library, or another one, the error names it; the server's client needs none."""
    words = "import fiolargu.scand as scand, fiolargu\nprint(scand.Client.__name__)\nfiolargu.Plan([b'a'])"
    for name, want in ("/none.so", "/none.so: cannot open"), ("libc.so.6", "libc.so.6 is another library"):
        env = {**os.environ, "PYTHONPATH": PYTHON, "FIOLARGU_LIBRARY": name}
        done = subprocess.run([sys.executable, "-c", words], env=env, capture_output=True, text=True, timeout=60)
        last = done.stderr.splitlines()[-1]
        yield f"by {name}: {last}", (done.stdout, "LibraryMissing" in last, want in last), ("Client\n", True, True)
    old = subprocess.run([sys.executable, "-c", "import scand_client; print(scand_client.Client.__module__, scand_client.ScandError)"],
                         cwd=TOP, env={**os.environ, "PYTHONPATH": PYTHON}, capture_output=True, text=True, timeout=60)
    yield "the old name", old.stdout, "fiolargu.client <class 'fiolargu.errors.FiolarguError'>\n"


def loading():
    """Which versions are taken, and a file near the package that is no library."""
    for numbers, want in (1999, False), (2000, True), (3001, True), (999999, True), (1000000, False), (1002000, False):
        file = mock.MagicMock()
        file._name, file.fiolargu_version.return_value = "lib.so", numbers
        made = error_of(library.Library, file)
        yield f"version {numbers}", isinstance(made, library.Library), want
    yield "the message", str(made), "lib.so has version 1.2.0, and 0.2 is needed"
    with mock.patch.object(library, "NAME", "none.so"), mock.patch.object(library, "_near", lambda: iter([__file__])):
        fault = error_of(library._loaded, None)
        yield "a file that is no library", (type(fault).__name__, __file__ in str(fault)), ("LibraryMissing", True)


def near():
    """A library near the package is passed over where another user could have put it there."""
    with tempfile.TemporaryDirectory() as top:
        package, lib = os.path.join(top, "clients", "python", "fiolargu"), os.path.join(top, "lib")
        path = os.path.join(lib, library.NAME)
        os.makedirs(package)

        def found():
            with mock.patch.object(library, "__file__", os.path.join(package, "library.py")):
                return [name for name in library._near() if name.startswith(top)]

        yield "no library", found(), []
        os.mkdir(lib)
        open(path, "wb").close()
        for place in top, lib, path:
            os.chmod(place, 0o755)
        yield "a library of this user", found(), [path]
        for place in top, lib, path:
            for mode in 0o777, 0o1777:
                os.chmod(place, mode)
                yield f"{place[len(top):]} that all can write, {mode:o}", found(), []
            os.chmod(place, 0o775)
            yield f"{place[len(top):]} that a group can write", found(), [path]
            real = os.stat

            def stat_of(name, *words, place=place, **named):
                is_there = real(name, *words, **named)
                others = [12345 if at == 4 and name == place else value for at, value in enumerate(is_there[:10])]
                return os.stat_result(others)

            with mock.patch.object(os, "stat", stat_of):
                yield f"{place[len(top):]} of another user", found(), []


def interrupted():
    """A feed that an exception ends closes its stream, except a refusal, which took nothing."""
    for fault, want in (
        (KeyboardInterrupt(), 1), (TimeoutError("of a signal"), 1), (MemoryError(), 1),
        (refusal(Refusal.OUT_OF_MEMORY), 1), (refusal(Refusal.STREAM_TOO_LONG), 0), (refusal(Refusal.NULL_HANDLE), 0),
    ):
        stream = plans.Stream.__new__(plans.Stream)
        calls = stream._library = mock.MagicMock()
        stream._lock, stream._handle, stream._room = threading.Lock(), library.Handle(), plans._Room(1)
        calls.stream_feed.side_effect = fault
        try:
            got = stream.feed(b"ushers")
        except BaseException as raised:
            got = raised
        yield f"a feed that {fault!r} ends", (got is fault, calls.stream_close.call_count), (True, want)


def with_library(test):
    """A test that yields nothing where there is no library."""
    def tested():
        if clibrary.LIBRARY:
            yield from test()
    return tested


def there():
    """Says what is left out."""
    clibrary.is_there("python_library")
    return ()


NEEDING = worked, bulk, dense, random_scans, buffers, errors, starved, plan_files, threads, documented
TESTS = (there, missing, loading, near, interrupted, *map(with_library, NEEDING))
