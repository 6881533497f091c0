#!/usr/bin/env python3
"""Measures litgrep beside the greps that people use, as whole processes, side by side in one run.

    python3 bench/programs.py [--size MB] [--turns N] [--only WORD] [--litgrep NAME=PATH ..] [--write]

Each row is one search. Each program runs it in turn, N times over, its output read through a pipe;
the figures are medians: processor time (user and system) and wall time of the process. The peak memory of litgrep is that of one
more run.
Output bytes and status of each run are compared with GNU grep's. A program with another answer is left out of the row, with a
message; where that is litgrep, the row is left out and the status is 1. With --write the table goes to bench/PROGRAMS.md and the
plot to bench/programs.svg. The texts are made anew by a seeded generator.
"""
import argparse
import hashlib
import os
import platform
import random
import shutil
import statistics
import sys
import tempfile
import time

from held import with_reasons
from plot import programs_plot

HERE = os.path.dirname(os.path.abspath(__file__))
MB = 1 << 20

# ---------------------------------------------------------------- texts

LEVELS = ["DEBUG", "INFO", "INFO", "INFO", "INFO", "WARN", "ERROR"]
UNITS = ["auth", "billing", "cache", "gateway", "ingest", "mailer", "planner", "search", "session", "storage"]
ACTIONS = ["request served", "connection opened", "connection closed", "retry scheduled", "lock acquired",
           "lock released", "queue drained", "token refreshed", "page evicted", "job finished"]
SYLLABLES = ["an", "ber", "cor", "den", "el", "fer", "gan", "hol", "in", "jor", "kel", "lor", "men", "nis", "or",
             "per", "quin", "ros", "sen", "tal", "ur", "ven", "wes", "yor", "zen"]
COMMON = ("the of and to a in is it you that he was for on are with as his they be at one have this from or had by "
          "not but what all were we when your can said there use an each which she do how their if will up other "
          "about out many then them these so some her would make like him into time has look two more write go see "
          "number no way could people my than first water been call who oil its now find long down day did get come "
          "made may part").split()


def log_block(seed, size):
    """About `size` bytes of log lines."""
    rng = random.Random(seed)
    lines, total = [], 0
    while total < size:
        line = "2026-11-%02d %02d:%02d:%02d.%03d %s [%s-%d] %s id=%08x user=%d ms=%d" % (
            rng.randint(1, 30), rng.randint(0, 23), rng.randint(0, 59), rng.randint(0, 59), rng.randint(0, 999),
            rng.choice(LEVELS), rng.choice(UNITS), rng.randint(1, 32), rng.choice(ACTIONS),
            rng.getrandbits(32), rng.randint(1, 99999), rng.randint(0, 4000))
        lines.append(line)
        total += len(line) + 1
    return ("\n".join(lines) + "\n").encode()


def word(rng):
    return "".join(rng.choice(SYLLABLES) for _ in range(rng.randint(2, 4)))


def english_block(seed, size):
    """About `size` bytes of lines with the word lengths and frequencies of English prose."""
    rng = random.Random(seed)
    rare = [word(rng) for _ in range(4000)]
    lines, total = [], 0
    while total < size:
        words = [rng.choice(COMMON) if rng.random() < 0.55 else rng.choice(rare) for _ in range(rng.randint(8, 14))]
        line = " ".join(words).capitalize() + rng.choice([".", ".", ",", ";"])
        lines.append(line)
        total += len(line) + 1
    return ("\n".join(lines) + "\n").encode()


def fill(path, size, block):
    """A file of about `size` bytes made of different blocks of 8 MB, repeated in turn."""
    blocks = [block(seed, min(size, 8 * MB)) for seed in range(max(1, min(4, size // (8 * MB))))]
    with open(path, "wb") as out:
        written, turn = 0, 0
        while written < size:
            out.write(blocks[turn % len(blocks)])
            written += len(blocks[turn % len(blocks)])
            turn += 1


def make_texts(folder, size):
    path = lambda name: os.path.join(folder, name)
    fill(path("log"), size, log_block)
    fill(path("english"), size, english_block)
    rng = random.Random(7)
    with open(path("random"), "wb") as out:
        for _ in range(max(1, size // MB // 4)):
            out.write(rng.randbytes(MB))
    with open(path("long"), "wb") as out:
        line = english_block(3, MB).replace(b"\n", b" ")
        for _ in range(max(1, size // MB)):
            out.write(line + b"\n")
    with open(path("endless"), "wb") as out:
        line = log_block(3, MB).replace(b"\n", b" ")
        for _ in range(max(1, size // MB // 4)):
            out.write(line)
    os.mkdir(path("small"))
    text = log_block(5, 4 * MB)
    for k in range(10000):
        with open(path("small/%05d" % k), "wb") as out:
            out.write(text[k * 400:k * 400 + 2000])
    lists(path)


def write_lines(path, lines):
    with open(path, "wb") as out:
        out.writelines(line + b"\n" for line in lines)


def rare_literal(rng, shape, bits):
    """Two made-up words and a number, written in this shape: hardly any text has them."""
    return (shape % (word(rng), word(rng), rng.getrandbits(bits))).encode()


def random_literals(rng):
    """A thousand literals of random bytes."""
    return [bytes(b for b in rng.randbytes(6) if b != 10) for _ in range(1000)]


def lists(path):
    """Pattern files: rare ones that hardly occur, frequent ones that occur in many lines."""
    rng = random.Random(11)
    for count in (10, 100, 1000):
        rare = [rare_literal(rng, "%s%s %04x", 16) for _ in range(count)]
        often = [b"id=%03x" % (7 * k % 4096) if k % 3 else b"user=%d" % (100 + k) for k in range(count)]
        write_lines(path("rare%d" % count), rare)
        write_lines(path("often%d" % count), often)
    write_lines(path("bytes1000"), random_literals(rng))
    write_lines(path("lines1000"), log_block(0, 4 * MB).split(b"\n")[:30000:30])


# ---------------------------------------------------------------- rows

class Row:
    def __init__(self, name, options, files, stdin=None):
        self.name, self.options, self.files, self.stdin = name, options, files, stdin

    def suits(self, program):
        """busybox takes minutes for a long list, since it tries each pattern in turn, and ripgrep for whole lines
        of one."""
        if program == "busybox":
            return not ("100" in self.name or "-i -f" in self.name)
        return not (program == "ripgrep" and "-x" in self.name)


def rows(folder):
    p = lambda name: os.path.join(folder, name)
    small = sorted(os.path.join(p("small"), name) for name in os.listdir(p("small")))
    found = []
    for text, rare, often in (("log", "zebraquux", "ERROR"), ("english", "zebraquux", "people")):
        found += [
            Row(text + ": one rare", ["-e", rare], [p(text)]),
            Row(text + ": one frequent", ["-e", often], [p(text)]),
            Row(text + ": -c frequent", ["-c", "-e", often], [p(text)]),
            Row(text + ": -v frequent", ["-v", "-e", often], [p(text)]),
            Row(text + ": -n frequent", ["-n", "-e", often], [p(text)]),
            Row(text + ": -i rare", ["-i", "-e", rare.upper()], [p(text)]),
            Row(text + ": -i frequent", ["-i", "-e", often.lower()], [p(text)]),
            Row(text + ": -c null pattern", ["-c", "-e", ""], [p(text)]),
        ]
        for count in (10, 100, 1000):
            found.append(Row("%s: -f %d rare" % (text, count), ["-f", p("rare%d" % count)], [p(text)]))
            found.append(Row("%s: -i -f %d rare" % (text, count), ["-i", "-f", p("rare%d" % count)], [p(text)]))
    for count in (10, 100, 1000):
        found.append(Row("log: -f %d frequent" % count, ["-f", p("often%d" % count)], [p("log")]))
    found += [
        Row("log: -x -f 1000", ["-x", "-f", p("lines1000")], [p("log")]),
        Row("log: -q late", ["-q", "-e", "zebraquux"], [p("log")]),
        Row("log: -q early", ["-q", "-e", "ERROR"], [p("log")]),
        Row("log: -l early", ["-l", "-e", "ERROR"], [p("log")]),
        Row("log: standard input", ["-e", "zebraquux"], [], stdin=p("log")),
        Row("megabyte lines: one rare", ["-e", "zebraquux"], [p("long")]),
        Row("one endless line", ["-c", "-e", "zebraquux"], [p("endless")]),
        Row("random bytes: -c -f 1000", ["-c", "-f", p("bytes1000")], [p("random")]),
        Row("10,000 small files", ["-e", "zebraquux"], small),
        Row("10,000 small files: -l frequent", ["-l", "-e", "ERROR"], small),
        Row("start-up", ["-e", "x"], [], stdin=os.devnull),
    ]
    return found


# ---------------------------------------------------------------- programs

def peers():
    """The other greps that are here, each with the words that start it. With --include-zero ripgrep prints a count of 0 too."""
    known = [
        ("GNU grep", ["grep", "-F", "-a"], "grep"),
        ("ripgrep", ["rg", "-F", "-a", "--no-config", "--no-heading", "--color=never", "--no-ignore", "--include-zero", "-j1"], "rg"),
        ("ugrep", ["ugrep", "-F", "-a", "--color=never", "-J1"], "ugrep"),
        ("busybox", ["busybox", "grep", "-F"], "busybox"),
    ]
    return [(name, words) for name, words, tool in known if shutil.which(tool)]


def litgreps(given):
    """The builds of litgrep that are measured, of words NAME=PATH: without any, the one in bin/. Tables tell them by names that
    begin with `litgrep`, whatever they are called."""
    named = [words.split("=", 1) for words in given] or [["litgrep", os.path.join(HERE, "../bin/litgrep")]]
    return [(name if name.startswith("litgrep") else "litgrep " + name, [os.path.abspath(path), "-F"]) for name, path in named]


class Run:
    def __init__(self, status, digest, size, cpu, wall):
        self.status, self.digest, self.size, self.cpu, self.wall = status, digest, size, cpu, wall
        self.memory = 0     # told by a run of its own, of litgrep alone


def run(words, stdin):
    """One process, its output read through a pipe. It is spawned without a fork of this script, whose page tables would be
    copied on its account."""
    reading, writing = os.pipe()
    actions = [(os.POSIX_SPAWN_OPEN, 0, stdin or os.devnull, os.O_RDONLY, 0), (os.POSIX_SPAWN_DUP2, writing, 1),
               (os.POSIX_SPAWN_OPEN, 2, os.devnull, os.O_WRONLY, 0)]
    before = time.monotonic()
    child = os.posix_spawnp(words[0], words, dict(os.environ, LC_ALL="C"), file_actions=actions)
    os.close(writing)
    digest, size = hashlib.blake2b(), 0
    while piece := os.read(reading, MB):
        size += len(piece)
        digest.update(piece)
    _, status, usage = os.wait4(child, 0)
    wall = time.monotonic() - before
    os.close(reading)
    return Run(os.waitstatus_to_exitcode(status), digest.hexdigest(), size, usage.ru_utime + usage.ru_stime, wall)


def peak(words, stdin):
    """The peak memory of one process in KiB. GNU time starts it, since the peak of a process counts from the one that started it,
    which would be this script."""
    with tempfile.NamedTemporaryFile("r") as told:
        run(["/usr/bin/time", "-q", "-f", "%M", "-o", told.name] + words, stdin)
        return int(told.read().split()[-1])


def command(program, row):
    name, words = program
    files = row.files
    options = list(row.options)
    if name == "ripgrep":
        if "-i" in options:     # A to Z alone, as in the C locale. Without -i the flag only refuses literals beyond ASCII.
            options.append("--no-unicode")
        if len(files) > 1 and "-l" not in options:
            options.append("-H")
        if not files:
            files = ["-"]
    return words + options + files


def measure(row, programs, turns):
    """The runs of each program, in turn, so that what the machine does meanwhile meets all alike, and the peak memory of each
    litgrep by a run of its own. A program that the row does not suit has none."""
    found = {program[0]: [] for program in programs}
    for _ in range(turns):
        for program in programs:
            if row.suits(program[0]):
                found[program[0]].append(run(command(program, row), row.stdin))
    for program in programs:
        if found[program[0]] and program[0].startswith("litgrep"):
            memory = peak(command(program, row), row.stdin)
            for done in found[program[0]]:
                done.memory = memory
    return found


def answers(runs):
    """The status and output of some runs, each different answer once."""
    return {(done.status, done.size, done.digest) for done in runs}


def compared(found):
    """The runs of the programs that answer as GNU grep in all runs, and the names of the others: they answer otherwise, crash, or
    refuse the row, as one does that takes patterns for UTF-8. If GNU grep itself fails or varies, no program is right."""
    right = answers(found["GNU grep"])
    is_known = len(right) == 1 and min(right)[0] in (0, 1)
    others = [name for name, runs in found.items() if runs and not (is_known and answers(runs) == right)]
    return {name: [] if name in others else runs for name, runs in found.items()}, others


def report(left_out):
    """Prints the rows and programs that were left out, and returns the status: 1 if litgrep is among them."""
    for row, name in left_out:
        print("other output or status than GNU grep: %s: %s" % (row, name))
    return 1 if any(name.startswith("litgrep") for _, name in left_out) else 0


def median(runs, figure):
    return statistics.median(getattr(r, figure) for r in runs)


def best_of_others(found):
    return min(median(runs, "cpu") for name, runs in found.items() if runs and not name.startswith("litgrep"))


# ---------------------------------------------------------------- output

def ahead(found, ours):
    """The best of the other greps by the processor time of ours: above 1, ours is ahead."""
    return best_of_others(found) / max(median(found[ours], "cpu"), 1e-6)


def as_table(results, names, machine):
    ours = [name for name in names if name.startswith("litgrep")]
    lines = [machine, "",
             "Processor time in milliseconds (user and system), the median of the turns; `ahead` is the best of the other greps",
             "by litgrep: above 1, litgrep is ahead. Memory is the greatest peak of litgrep in MiB.", "",
             "| search | %s | %s | memory |" % (" | ".join(names), " | ".join(name.replace("litgrep", "ahead") for name in ours)),
             "|---" * (len(names) + len(ours) + 2) + "|"]
    for row, found in results:
        times = {name: median(found[name], "cpu") * 1000 for name in names if found[name]}
        lines.append("| %s | %s | %s | %.1f |" % (
            row.name, " | ".join("%.1f" % times[name] if name in times else "" for name in names),
            " | ".join("%.2f" % ahead(found, name) for name in ours),
            max(median(found[name], "memory") for name in ours) / 1024))
    return "\n".join(lines) + "\n"


def as_plot(results, names):
    ours = [name for name in names if name.startswith("litgrep")]
    return programs_plot(ours, [(row.name, [ahead(found, name) for name in ours]) for row, found in results])


def machine(size):
    model = "unknown processor"
    for line in open("/proc/cpuinfo"):
        if line.startswith("model name"):
            model = line.split(":", 1)[1].strip()
            break
    return "%s, %d processors, Linux %s; texts of %d MB; %s." % (
        model, os.cpu_count(), platform.release().split("-")[0], size, time.strftime("%Y-%m-%d"))


def main():
    parser = argparse.ArgumentParser(description=__doc__, formatter_class=argparse.RawDescriptionHelpFormatter)
    parser.add_argument("--size", type=int, default=256, help="megabytes of log and of English text")
    parser.add_argument("--turns", type=int, default=5)
    parser.add_argument("--only", default="", help="rows whose name holds this")
    parser.add_argument("--litgrep", action="append", default=[], metavar="NAME=PATH")
    parser.add_argument("--write", action="store_true")
    options = parser.parse_args()
    programs = litgreps(options.litgrep) + peers()
    names = [name for name, _ in programs]
    results, left_out = [], []
    with tempfile.TemporaryDirectory(prefix="litgrep-bench-") as folder:
        make_texts(folder, options.size * MB)
        for row in rows(folder):
            if options.only not in row.name:
                continue
            found, others = compared(measure(row, programs, options.turns))
            left_out += [(row.name, name) for name in others]
            if all(found[name] for name in names if name.startswith("litgrep")):
                results.append((row, found))
            print("%-32s %s" % (row.name, "  ".join(
                "%s %.0f" % (name, median(found[name], "cpu") * 1000) for name in names if found[name])), flush=True)
    table = as_table(results, names, machine(options.size))
    print("\n" + table)
    if options.write:
        with open(os.path.join(HERE, "PROGRAMS.md"), "w") as out:
            out.write(with_reasons("# litgrep beside other greps\n\n" + table))
        with open(os.path.join(HERE, "programs.svg"), "w") as out:
            out.write(as_plot(results, names))
    return report(left_out)


if __name__ == "__main__":
    sys.exit(main())
