#!/usr/bin/env python3
"""Proves and builds programs, with the crates that they stand on.

Usage: tools/build.py --cpu LEVEL [-j N] [--into DIR] PROGRAM..

A static library of crates.txt is built like a program.

Each rt command locks its crate and every crate below it until it ends. All crates stand on byte_io, so in one tree only
one crate is proved at a time. Here each is proved in a copy of it and of the crates below, which has locks of its
own; what was made is then moved back. N processors (all by default) prove crates side by side. The crates at the bottom
of a long chain decide how long that takes: they share all processors, and the others share what is idle. None gets more
than its share, since a proof on several processors reads the crates below once for each. A library keeps its statements
alone, so that the crates above do not read its proofs again. One proof of a program serves every processor level: for
another level it is only compiled and linked.

A crate is proved again where its files or its line of crates.txt changed, or those of a crate below, or HANDLES, or the
kit. A mark in out/ has the digests of what was proved. A build that a signal ends keeps what it had proved.

Prints a line for each crate that was proved, with an estimate for the rest. --verbose shows the prover's output too.
"""

import argparse
import concurrent.futures
import contextlib
import filecmp
import functools
import hashlib
import os
import re
import shutil
import signal
import subprocess
import sys
import tempfile
import threading
import time

TOP = os.path.dirname(os.path.dirname(os.path.abspath(__file__)))
PARTS = "src", "specs", "proofs"
# What the stored run of a program reads.
STORED = "args", "stdin", "stdout", "data"
# A proof gains nothing from more processors than these.
MOST_JOBS = 4
# What a crate counts that tools/seconds.txt does not list, and a program that was proved for another processor level.
SECONDS = 60
SECONDS_TO_LINK = 20
LEVELS = "x86-64-v2", "x86-64-v3"
# A crate whose chain is shorter than this part of the longest one gives way to the others.
SHORT_CHAIN = 0.85
# The estimate follows tools/seconds.txt until about this many seconds of it are done, and then the pace that was seen.
UNSURE = 120
# The commands that were started, and whether the build was told to end.
STARTED, ENDED = [], threading.Event()
NO_KIT = """To build the programs, make needs the Rattle kit's command rt on the PATH. It is not there.
You can install a package without the kit: `make dist` makes it on a machine that has the kit (README.md).
"""


def path(*parts):
    return os.path.join(TOP, *parts)


class Crate:
    """A crate of crates.txt: its line there, and the libraries of this repository that it stands on."""

    def __init__(self, line, listed, seconds):
        self.line = line
        self.name = re.match(r"\w+", line)[0]
        self.uses = [word for word in line.partition(":")[2].split() if word in listed]
        self.folder = path("crates", self.name)
        self.is_program = os.path.isfile(os.path.join(self.folder, "src", "main.rt"))
        self.is_archive = "staticlib" in line.partition(":")[0].split()
        self.parts = (*PARTS, *STORED) if self.is_program else PARTS
        # The file that the linker leaves in out/, of a crate that is no mere library.
        self.product = f"lib{self.name}.a" if self.is_archive else self.name if self.is_program else None
        self.seconds = seconds.get(self.name, SECONDS)
        # What the longest chain of crates takes that begins with this one.
        self.chain = 0

    def made(self, cpu):
        """What was linked for this processor level, of a crate that is no mere library."""
        return os.path.join(self.folder, "out", cpu, self.product)

    def mark(self, cpu):
        """The file that says what it was proved from, and linked from for this processor level."""
        return os.path.join(self.folder, "out", *((cpu,) if self.product else ()), "proved")

    def is_new(self, cpu, crates, kit):
        """Whether it was proved, and built for this processor level, from what stands in the tree now. Where there is no kit,
        the proof of any kit counts."""
        try:
            with open(self.mark(cpu), encoding="utf-8") as mark:
                kit_then, _, state_then = mark.read().partition("\n")
        except OSError:
            return False
        has_product = not self.product or os.path.isfile(self.made(cpu))
        return has_product and kit in (None, kit_then) and state_then == state(self, crates, TOP)


def files_of(crate, top):
    """The files of a crate in a tree, in order: those that its proof reads, and those of its stored run."""
    found = [os.path.join(top, "crates", crate.name, part) for part in crate.parts]
    found += [os.path.join(at, name) for part in found for at, _, names in os.walk(part) for name in names]
    return sorted(name for name in found if os.path.isfile(name))


def digest(name):
    """The digest of what a file holds."""
    with open(name, "rb") as file:
        return hashlib.sha256(file.read()).hexdigest()


@functools.lru_cache(maxsize=None)
def state_of_one(crate, top):
    """The digest of the files of a crate in a tree, with their names, and of its line in crates.txt."""
    lines = [crate.line, *(f"{digest(name)} {os.path.relpath(name, top)}" for name in files_of(crate, top))]
    return hashlib.sha256(os.fsencode("\n".join(lines))).hexdigest()


def state(crate, crates, top):
    """What a crate is proved from in a tree: a line for HANDLES, for each crate below and for the crate."""
    lines = [f"{state_of_one(crates[name], top)} {name}" for name in below(crates, [crate.name])]
    return "\n".join([f"{digest(os.path.join(top, 'HANDLES'))} HANDLES", *lines, ""])


def kit_identity():
    """What the kit says of itself, or None where there is none."""
    if not shutil.which("rt"):
        return None
    return subprocess.run(["rt", "version"], check=True, stdout=subprocess.PIPE, text=True).stdout.strip()


def lines_of(*parts):
    """The lines of a file that are no comments."""
    with open(path(*parts), encoding="utf-8") as file:
        return [line.strip() for line in file if line.strip() and not line.startswith("#")]


def all_crates():
    """The crates of crates.txt by their names."""
    seconds = {name: int(count) for name, count in map(str.split, lines_of("tools", "seconds.txt"))}
    lines = lines_of("crates.txt")
    listed = {re.match(r"\w+", line)[0] for line in lines}
    return {crate.name: crate for crate in (Crate(line, listed, seconds) for line in lines)}


def below(crates, names):
    """These crates and those below them, lowest first."""
    found = {}
    for name in names:
        found |= dict.fromkeys(below(crates, crates[name].uses)) | {name: None}
    return list(found)


def copied(crate, crates, folder):
    """Copies a crate and those below it, with their libraries, whose files rt replaces and never writes to."""
    os.mkdir(os.path.join(folder, "crates"))
    shutil.copy(path("HANDLES"), folder)
    with open(os.path.join(folder, "crates.txt"), "w", encoding="utf-8") as listed:
        for name in below(crates, [crate.name]):
            listed.write(crates[name].line + "\n")
            to = os.path.join(folder, "crates", name)
            os.mkdir(to)
            for part in crates[name].parts:
                source = os.path.join(crates[name].folder, part)
                if os.path.exists(source):
                    (shutil.copytree if os.path.isdir(source) else shutil.copy)(source, os.path.join(to, part))
            if name != crate.name:
                rlib = os.path.join("out", "rlib")
                shutil.copytree(os.path.join(crates[name].folder, rlib), os.path.join(to, rlib), copy_function=linked)
    return os.path.join(folder, "crates", crate.name)


def linked(one, other):
    """Gives a file another name, or copies it to another file system."""
    try:
        os.link(one, other)
    except OSError:
        shutil.copy2(one, other)


def commands(crate, at, options, jobs):
    """The commands that prove its copy, in order. Only `rt check` shows its progress; the build then takes what that kept."""
    if options.verbose:
        yield ["rt", "check", "--jobs", str(jobs)]
    yield built_by(crate, at, options.cpu, jobs)


def built_by(crate, at, cpu, jobs):
    """The command that builds its copy. A program is run on its stored words; those that name a file of data/ stand for it."""
    if crate.is_archive:
        return ["rt", "lib", f"--cpu={cpu}", "--jobs", str(jobs)]
    if not crate.is_program:
        return ["rt", "lib", "--statements", "--jobs", str(jobs)]
    words = []
    if os.path.isfile(os.path.join(at, "args")):
        with open(os.path.join(at, "args"), encoding="utf-8") as file:
            words = file.read().splitlines()
    stored = os.path.join(at, "data")
    if os.path.isdir(stored):
        words = [os.path.join("data", word) if word in os.listdir(stored) else word for word in words]
    return ["rt", "run", f"--cpu={cpu}", "--jobs", str(jobs), "--", *words]


def logged(crate, words, at, options, is_urgent):
    """Runs a command and answers its status. Its messages go to out/build.log, the output of a program to out/build.stdout."""
    stdin, out = os.path.join(at, "stdin"), os.path.join(at, "out")
    with open(stdin if os.path.isfile(stdin) else os.devnull, "rb") as given:
        with open(os.path.join(out, "build.stdout"), "wb") as said, open(os.path.join(out, "build.log"), "wb") as log:
            if words[1] == "run":
                streams = {"stdout": said, "stderr": subprocess.PIPE}
            else:
                streams = {"stdout": subprocess.PIPE, "stderr": subprocess.STDOUT}
            with subprocess.Popen([*([] if is_urgent else ["nice"]), *words], cwd=at, stdin=given, **streams) as run:
                STARTED.append(run)
                if ENDED.is_set():
                    run.terminate()
                for line in run.stderr or run.stdout:
                    log.write(line)
                    if options.verbose:
                        print(f"{crate.name}: {line.decode(errors='replace').rstrip()}", flush=True)
            return run.returncode


def end(number, _):
    """Ends the commands that run, so that what they kept is moved back, and then this process."""
    ENDED.set()
    for run in list(STARTED):
        run.terminate()
    sys.exit(128 + number)


def proved(crate, crates, options, jobs, is_urgent):
    """Proves a crate, giving way to others if it is not urgent, and answers what went wrong, if anything did."""
    out = os.path.join(crate.folder, "out")
    with contextlib.suppress(FileNotFoundError):
        os.remove(crate.mark(options.cpu))
    with tempfile.TemporaryDirectory(prefix=f"prove-{crate.name}-") as folder:
        at = copied(crate, crates, folder)
        # What is proved is the copy: the sources may change meanwhile.
        mark = f"{options.kit}\n{state(crate, crates, folder)}"
        kept = os.path.join(at, "out")
        if os.path.isdir(out):
            shutil.move(out, kept)
        os.makedirs(kept, exist_ok=True)
        try:
            for words in commands(crate, at, options, jobs):
                status = logged(crate, words, at, options, is_urgent)
                if status:
                    break
        finally:
            # What an earlier run kept is not lost, however this one ends.
            shutil.move(kept, out)
        if status:
            with open(os.path.join(out, "build.log"), encoding="utf-8", errors="replace") as log:
                return log.read() or f"rt ended with status {status}"
        return finished(crate, at, options.cpu, mark)


def finished(crate, at, cpu, mark):
    """Notes what a crate was proved from, unless the output of a program is wrong: then it answers why."""
    if crate.product:
        wanted, out = os.path.join(at, "stdout"), os.path.join(crate.folder, "out")
        if os.path.isfile(wanted) and not filecmp.cmp(wanted, os.path.join(out, "build.stdout"), shallow=False):
            return f"its output is not that of crates/{crate.name}/stdout"
        os.makedirs(os.path.dirname(crate.made(cpu)), exist_ok=True)
        replace(os.path.join(out, crate.product), crate.made(cpu))
    with open(crate.mark(cpu), "w", encoding="utf-8") as file:
        file.write(mark)
    return None


def replace(source, target):
    """Copies a file to the place of another, which may be a program that runs."""
    shutil.copy(source, f"{target}.part")
    os.replace(f"{target}.part", target)


def chains(crates, names):
    """Notes for each crate what the longest chain takes that begins with it."""
    for name in reversed(names):
        crate = crates[name]
        crate.chain += crate.seconds
        for low in crate.uses:
            crates[low].chain = max(crates[low].chain, crate.chain)


class Progress:
    """What the build of some crates has done, and how long the rest may take."""

    def __init__(self, crates, names, processors):
        self.crates, self.count, self.processors = crates, len(names), processors
        self.started = time.monotonic()
        self.whole = self.rest(names, {})

    def rest(self, left, running):
        """The seconds that crates take by tools/seconds.txt: their longest chain, or the sum over all processors."""
        now = time.monotonic()
        # A crate that takes longer than listed still has a tenth to go.
        gone = {name: min(now - since, 0.9 * self.crates[name].seconds) for name, since in running.items()}
        names = [*left, *gone]
        total = sum(self.crates[name].seconds - gone.get(name, 0) for name in names)
        return max([total / self.processors, *(self.crates[name].chain - gone.get(name, 0) for name in names)])

    def left(self, left, running):
        """The same for the rest now, at the pace that was seen."""
        rest = self.rest(left, running)
        return rest * (time.monotonic() - self.started + UNSURE) / (self.whole - rest + UNSURE)

    def begun(self, cpu):
        """The first line."""
        crates = f"{self.count} crate{'s' if self.count > 1 else ''}"
        return f"{crates} to prove for {cpu} with {self.processors} processors, {about(self.whole)}"

    def line(self, name, is_well, since, left, running):
        """The line about a crate."""
        number = self.count - len(left) - len(running)
        ended = "proved in" if is_well else "NOT proved, after"
        further = f", {about(self.left(left, running))} left" if is_well and number < self.count else ""
        return f"[{number}/{self.count}] {name} {ended} {spoken(time.monotonic() - since)}{further}"


def spoken(seconds):
    """A time in minutes and seconds."""
    minutes, rest = divmod(round(seconds), 60)
    return f"{minutes} min {rest} s" if minutes else f"{rest} s"


def about(seconds):
    """A time that is no more than an estimate."""
    return f"about {round(seconds / 60)} min" if seconds >= 90 else "about a minute"


def jobs_for(name, urgent, waiting, idle, processors):
    """How many processors a crate gets: an urgent one its share of all, another its share of those that are idle, or none."""
    share = processors // len(urgent) if name in urgent else idle // waiting
    return max(min(share, MOST_JOBS), 1 if name in urgent or idle > 0 else 0)


def build(crates, names, options):
    """Proves crates side by side, those with the longest chain first, until one is refused. Answers those that were proved."""
    left = sorted(names, key=lambda name: -crates[name].chain)
    done, running, is_well = set(), {}, True
    progress = Progress(crates, names, options.j)
    print(progress.begun(options.cpu), flush=True)
    with concurrent.futures.ThreadPoolExecutor(len(names)) as pool:
        while left and is_well or running:
            ready = [name for name in left if is_well and all(low in done or low not in names for low in crates[name].uses)]
            longest = max(crates[name].chain for name in [*left, *(name for name, *_ in running.values())])
            urgent = [name for name in ready if crates[name].chain >= SHORT_CHAIN * longest]
            for at, name in enumerate(ready):
                idle = options.j - sum(jobs for *_, jobs in running.values())
                jobs = jobs_for(name, urgent, len(ready) - at, idle, options.j)
                if jobs:
                    left.remove(name)
                    run = pool.submit(proved, crates[name], crates, options, jobs, name in urgent)
                    running[run] = name, time.monotonic(), jobs
            # A signal that another thread receives is handled when this one wakes up.
            for run in concurrent.futures.wait(running, 1, concurrent.futures.FIRST_COMPLETED).done:
                name, since, _ = running.pop(run)
                wrong = run.result()
                if wrong:
                    is_well = False
                else:
                    done.add(name)
                others = {other: begun for other, begun, _ in running.values()}
                print(progress.line(name, not wrong, since, left, others), flush=True)
                if wrong:
                    print(wrong, file=sys.stderr, flush=True)
    return done


def put(crate, cpu, folder):
    """Copies a program or an archive to a folder, unless the same bytes are there."""
    target = os.path.join(folder, crate.product)
    if not os.path.isfile(target) or not filecmp.cmp(crate.made(cpu), target, shallow=False):
        os.makedirs(folder, exist_ok=True)
        replace(crate.made(cpu), target)


def main():
    parser = argparse.ArgumentParser(description=__doc__.splitlines()[0])
    parser.add_argument("--cpu", required=True, help="the processor level that programs are built for")
    parser.add_argument("-j", type=int, default=len(os.sched_getaffinity(0)), help="how many processors")
    parser.add_argument("--into", default=path("bin"), metavar="DIR", help="the folder that programs are copied to (bin/)")
    parser.add_argument("--verbose", action="store_true", help="show the output of the prover as it comes")
    parser.add_argument("programs", nargs="+")
    options = parser.parse_args()
    options.j, options.kit = max(options.j, 1), kit_identity()
    for number in signal.SIGINT, signal.SIGTERM, signal.SIGHUP:
        if signal.getsignal(number) != signal.SIG_IGN:
            signal.signal(number, end)
    crates = all_crates()
    wanted, old = below(crates, options.programs), []
    for name in wanted:
        stands_on_old = any(low in old for low in crates[name].uses)
        if stands_on_old or not crates[name].is_new(options.cpu, crates, options.kit):
            old.append(name)
            if not stands_on_old and any(crates[name].is_new(level, crates, options.kit) for level in LEVELS):
                crates[name].seconds = SECONDS_TO_LINK
    chains(crates, wanted)
    if old and not options.kit:
        sys.stderr.write(NO_KIT)
        return 2
    failed = set(old) - build(crates, old, options) if old else set()
    for name in options.programs:
        if crates[name].product and name not in failed:
            put(crates[name], options.cpu, options.into)
    return 1 if failed else 0


if __name__ == "__main__":
    sys.exit(main())
