"""Programs with growths of memory, reads, writes and threads refused, by the shim refuse.c: rows, and a sample.

Each run must end as if nothing were refused, or with exactly the refusal that docs/FORMATS.md names and a prefix of its
own output. `python3 tests/refused_calls.py` refuses each call in turn and prints a table."""

import concurrent.futures
import contextlib
import functools
import itertools
import os
import random
import subprocess
import tempfile
from typing import NamedTuple, Sequence

from cases import refused_runs
from cases.refused_runs import ROWS, RUNS, Ending, Run, are_prefixes
from support import sampling
from support.programs import lay_out
from support.shim import built, built_shim, taken

SECONDS, NO_END = 20, "no end"
# The number of random runs.
RANDOM = 2000
# More calls, and more bytes, than any run needs.
ALL = 10**6
FIBONACCI = (1, 2, 3, 5, 8, 13, 21, 34, 55, 89, 144, 233, 377, 610, 987, 1597, 4181, 17711, 75025, ALL)


class Sweep(NamedTuple):
    """Runs that are each refused one call of a kind: the call of the first number, then of the next, until no call is
    refused. With the suffix "-on" all later calls are refused too. With a `piece` each read and write is cut to this
    number of bytes."""

    kind: str
    numbers: Sequence = range(1, ALL)
    suffix: str = ""
    piece: int = 0

    def __str__(self):
        return self.kind + self.suffix + (f" in pieces of {self.piece}" if self.piece else "")


def sweeps_of(run):
    """All sweeps of a run. A long text is not stopped at each byte."""
    if run.growths_alone:
        yield from (Sweep("growth", suffix=suffix) for suffix in ("", "-on"))
        return
    read, shown = sum(run.sources.values()), len(written(run.answer({})))
    piece = max(7, read // 40, shown // 40)
    for suffix in "", "-on":
        yield Sweep("growth", suffix=suffix)
        yield Sweep("thread", suffix=suffix)
        for kind in "read", "write", "take", "message":
            yield Sweep(kind, suffix=suffix)
            yield Sweep(kind, suffix=suffix, piece=piece)
    yield Sweep("interrupt")
    yield Sweep("interrupt", piece=piece)
    yield Sweep("given", range(0, ALL, max(1, read // 300)))
    yield Sweep("room", range(0, ALL, max(1, shown // 300)))
    yield Sweep("short", FIBONACCI)
    yield Sweep("cut", FIBONACCI)


# The bench: each process that runs programs has a folder with the files.


@functools.lru_cache
def folder_of(process, bench):
    """The folder of a process, below the bench's, with the files."""
    folder = tempfile.mkdtemp(dir=bench)
    lay_out(folder, refused_runs.FILES)
    return folder


@contextlib.contextmanager
def given_by(text):
    """A source of bytes: a pipe, or a file where they are more than a pipe holds."""
    if len(text) > 65536:
        with tempfile.TemporaryFile() as given:
            given.write(text)
            given.seek(0)
            yield given
        return
    reader, writer = os.pipe()
    with open(reader, "rb") as given:
        with open(writer, "wb") as giver:
            giver.write(text)
        yield given


def ended(bench, words, stdin, made, settings):
    """How a run ends under these settings of the shim, and whether a call was refused."""
    folder, mark = folder_of(os.getpid(), bench), os.path.join(bench, f"mark-{os.getpid()}")
    env = dict(os.environ, LD_PRELOAD=os.path.join(bench, "refuse.so"), REFUSED_MARK=mark, **settings)
    with given_by(stdin) as given:
        try:
            done = subprocess.run(words, stdin=given, capture_output=True, cwd=folder, env=env, timeout=SECONDS)
            shown = done.returncode, done.stdout, done.stderr
        except subprocess.TimeoutExpired as late:
            shown = NO_END, late.stdout or b"", late.stderr or b""
    files = tuple(taken(os.path.join(folder, name)) for name in made)
    return Ending(*shown, files), taken(mark) is not None


def swept(bench, words, stdin, made, sweep):
    """The endings of a sweep with their numbers, and the last ending, where nothing was refused."""
    found = []
    piece = {"REFUSED_PIECE": str(sweep.piece)} if sweep.piece else {}
    for number in sweep.numbers:
        settings = {"REFUSED": f"{sweep.kind}-{number}{sweep.suffix}", **piece}
        got, was_refused = ended(bench, words, stdin, made, settings)
        if not was_refused:
            return found, got
        found.append((number, got))
    return found, ended(bench, words, stdin, made, piece)[0]


class Bench(NamedTuple):
    """A folder with the shim, and the processes that run sweeps side by side."""

    folder: str
    pool: concurrent.futures.Executor

    def words_of(self, run, sweep):
        """The words of the call that runs a sweep."""
        return self.folder, run.words, run.stdin, run.made, sweep

    def endings(self, jobs):
        """All of some jobs with their endings, in order."""
        return zip(jobs, self.pool.map(swept, *zip(*itertools.starmap(self.words_of, jobs))))

    def sampled(self, jobs):
        """The same for as many jobs as are begun in the time of a sample."""
        return sampling.sampled(self.pool, swept, ((job, self.words_of(*job)) for job in jobs))


@contextlib.contextmanager
def bench():
    """Makes a bench."""
    with tempfile.TemporaryDirectory() as folder:
        built_shim(folder)
        with concurrent.futures.ProcessPoolExecutor(os.cpu_count()) as pool:
            yield Bench(folder, pool)


# The right endings after a refusal.


def written(ending):
    """All that a run wrote except its messages."""
    return b"".join(text or b"" for text in ending.made) + ending.output


def faults_after(run, most):
    """The faults of the sources, by their names, where all reads together give this number of bytes."""
    faults = {}
    for name, size in run.sources.items():
        if most <= size:
            faults[name] = most
        most = max(most - size, 0)
    return faults


def unread_endings(run, are_later):
    """How a run may end where one read fails, or this read and all later reads."""
    found, names = set(), list(run.sources)
    for place, name in enumerate(names):
        later = dict.fromkeys(names[place + 1 :], 0) if are_later else {}
        found |= {run.answer({name: most, **later}) for most in range(run.sources[name] + 1)}
    return found


def judge_of(run, whole, sweep):
    """A function of a number and an ending: whether a run may end so where the call of this number is refused."""

    def is_unwritten(number, got):
        text = written(whole)[:number] if sweep.kind == "room" else written(got)
        return written(got) == text != written(whole) and run.is_unwritten(whole, got)

    def is_unsaid(_, got):
        return got.status == 2 and are_prefixes(got, whole) and got.messages != whole.messages

    if sweep.kind == "growth":
        # A program may ask again for memory, except where all later growths are refused. Where a thread does not start, the
        # scan goes on without it.
        is_needed = sweep.suffix and not run.has_threads
        return lambda number, got: run.is_starved(whole, got) or (got == whole and number > 1 and not is_needed)
    if sweep.kind == "read":
        allowed = unread_endings(run, sweep.suffix)
        return lambda _, got: got in allowed
    if sweep.kind == "given":
        return lambda number, got: got == run.answer(faults_after(run, number))
    if sweep.kind in ("write", "take", "room"):
        return is_unwritten
    return is_unsaid if sweep.kind == "message" else lambda _, got: got == whole


def must_refuse(run, whole, kind):
    """Whether a run has calls of this kind."""
    shows, tells, reads = bool(written(whole)), bool(whole.messages), bool(run.sources)
    of_kind = {
        "growth": True,
        "read": reads,
        "given": reads,
        "short": any(run.sources.values()),
        "write": shows,
        "take": shows,
        "room": shows,
        "cut": shows or tells,
        "message": tells,
        "interrupt": reads or shows or tells,
        "thread": run.has_threads,
    }
    return of_kind[kind]


class Seen(NamedTuple):
    """One ending of a run in which the call of a number was refused, or where the number is None no call."""

    run: Run
    sweep: Sweep
    number: int
    got: Ending
    whole: Ending
    is_right: bool


def seen(bench, runs):
    """All endings of each sweep of some runs."""
    jobs = [(run, sweep) for run in runs for sweep in sweeps_of(run)]
    for (run, sweep), (found, last) in bench.endings(jobs):
        whole = run.answer({})
        is_right = judge_of(run, whole, sweep)
        for number, got in found:
            yield Seen(run, sweep, number, got, whole, is_right(number, got))
        yield Seen(run, sweep, None, last, whole, last == whole and bool(found) == must_refuse(run, whole, sweep.kind))


def name_of(run):
    """The words of a run, and its input."""
    words = " ".join([os.path.basename(run.words[0]), *map(repr, run.words[1:])])
    return f"{words:.60} on {run.stdin!r:.20}"


def rows():
    """The rows."""
    with bench() as made:
        for run, refused, wanted in ROWS:
            got = ended(made.folder, run.words, run.stdin, run.made, {"REFUSED": refused})
            yield f"{name_of(run)}, {refused}", got, (wanted, True)


def checked(endings):
    """The checks of sweeps that each refuse some calls and then none."""
    for (run, sweep), (found, last) in endings:
        whole = run.answer({})
        yield f"{name_of(run)}, {sweep}", last, whole
        is_right = judge_of(run, whole, sweep)
        for number, got in found:
            yield f"{name_of(run)}, {sweep} {number} refused", got, got if is_right(number, got) else (whole, "or a refusal")


def drawn(source):
    """Sweeps without end, each of one call, drawn by chance."""
    while True:
        run = source.choice(RUNS)
        sweep = source.choice(list(sweeps_of(run)))
        number = sweep.numbers[sampling.place_in(source, len(sweep.numbers))]
        yield run, sweep._replace(numbers=[number])


def sample():
    """Calls drawn by chance from all sweeps."""
    with bench() as made:
        yield from checked(made.sampled(drawn(sampling.source_of("refused_calls"))))


# The mistakes of mistaken.c, and for each some sweeps that find it. Each kind of sweep finds a mistake.
MISTAKES = {
    "none": (),
    "says nothing": ("growth", "growth-on", "read", "read-on", "write", "write-on", "take", "take-on", "given", "room"),
    "ends well": ("growth", "growth-on", "read", "read-on", "write", "write-on", "take", "take-on", "given", "room"),
    "ends well where nothing is said": ("message", "message-on"),
    "writes on": ("write", "write-on", "take", "room"),
    "takes a part for all": ("cut", "room"),
    "takes a short piece for the last": ("short",),
    "takes a fault for the end": ("read", "read-on", "given"),
    "is interrupted": ("interrupt",),
    "loses a byte": ("growth", "growth-on"),
    "ends by a signal": ("growth", "growth-on"),
    "answers otherwise": ("growth", "growth-on"),
    "says it in memory": ("growth-on",),
    "needs a thread": ("thread", "thread-on"),
}


def mistakes():
    """The sweeps find each mistake, and find nothing in a program without mistakes."""
    found = {mistake: set() for mistake in MISTAKES}
    with bench() as made:
        fake = built(made.folder, "mistaken.c", "mistaken", "-fno-builtin")
        texts = b"what is copied, in four pieces.", b""
        runs = [refused_runs.copied(fake, mistake, text) for mistake in MISTAKES for text in texts]
        for one in seen(made, runs):
            if not one.is_right:
                found[one.run.words[1]].add(str(one.sweep))
    for mistake, wanted in MISTAKES.items():
        yield f"the mistake {mistake!r}", found[mistake].intersection(wanted or found[mistake]), set(wanted)


# The greatest numbers of random calls, by their kinds.
FARTHEST = {"growth": 150, "read": 9, "given": 150, "write": 9, "take": 9, "room": 300, "message": 3, "interrupt": 9, "cut": 20}


def random_refusals():
    """Random runs, each with a random call refused."""
    source = random.Random(7)
    jobs = []
    for run in itertools.islice(refused_runs.random_runs(source), RANDOM):
        kind, farthest = source.choice(list(FARTHEST.items()))
        suffix = source.choice(["", "-on"]) if kind not in ("given", "room", "interrupt", "cut") else ""
        jobs.append((run, Sweep(kind, [source.randrange(1, farthest)], suffix, source.choice([0, 0, 7, 50]))))
    with bench() as made:
        yield from checked(made.endings(jobs))


TESTS = (mistakes, rows, sample, random_refusals)
