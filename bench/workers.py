#!/usr/bin/env python3
"""Measures scans by several workers, in turns, on three kinds of text.

    python3 bench/workers.py [--size MB] [--turns N] [--rare] [--first] [--write]

First the scan in memory (bin/bench_scan) by 1, 2 and 4 workers beside the scan by one, and Hyperscan in one process, in
four at once, each over a quarter of the text, and in one by four threads. Then `litplan scan --count` as a command, reading and planning included,
beside reading the text alone and beside ripgrep in four processes over the quarters. The quarters are cut at newlines,
so no literal is cut. Hits are compared. With --rare only lists that hardly occur are taken. With --first all of it runs
at real-time priority, so that it waits for no other program; that takes root, and others wait. With --write the tables are
added to bench/WORKERS.md.
"""
import argparse
import os
import statistics
import subprocess
import sys
import tempfile
import time

from programs import HERE, MB, english_block, log_block, machine, make_texts
from scanning import PEERS, make_lists

BIN = os.path.join(HERE, "../bin")
QUARTERS = 4
MEMORY_HEAD = ("| text and list | hits | one, GB/s | 2 / 1 | 4 / 1 | least to greatest | Hyperscan, one, GB/s | four processes / one "
               "| four threads / one | least to greatest | 4 workers / four threads |\n|---" + "|---" * 10 + "|")
COMMAND_HEAD = ("| text and list | 1 worker, ms | 4 / 1 | reading alone, ms | ripgrep in four processes, ms |\n"
                "|---|---|---|---|---|")


def quarters_of(path):
    """The text in four files, cut at newlines."""
    size, names = os.path.getsize(path), []
    with open(path, "rb") as text:
        ends = []
        for number in range(1, QUARTERS):
            text.seek(size * number // QUARTERS)
            text.readline()
            ends.append(text.tell())
        for number, (start, end) in enumerate(zip([0, *ends], [*ends, size])):
            names.append(f"{path}.{number}")
            text.seek(start)
            with open(names[-1], "wb") as part:
                while start < end:
                    start += part.write(text.read(min(MB, end - start)))
    return names


def clock(commands):
    """The seconds until all of these commands, begun at once, have ended, and what each printed."""
    start = time.perf_counter()
    running = [subprocess.Popen(command, stdout=subprocess.PIPE) for command in commands]
    printed = [program.communicate()[0] for program in running]
    return time.perf_counter() - start, printed


def scan_seconds(commands):
    """The longest scan of these commands, begun at once, by their own clocks, and how many hits they found together."""
    answers = [line.split() for line in clock(commands)[1]]
    return max(float(seconds) for seconds, _ in answers), sum(int(hits) for _, hits in answers)


def measured(turns, takes):
    """The seconds of each of these, taken in turns, and the different answers they gave."""
    found = {name: [] for name in takes}
    for _ in range(turns):
        for name, take in takes.items():
            found[name].append(take())
    return ({name: [seconds for seconds, _ in runs] for name, runs in found.items()},
            {answer for runs in found.values() for _, answer in runs if answer is not None})


def medians(turns, takes):
    """The median seconds of each of these, taken in turns, and the different answers they gave."""
    found, answers = measured(turns, takes)
    return {name: statistics.median(seconds) for name, seconds in found.items()}, answers


def spread(seconds, one):
    """The least and the greatest of these times of another one."""
    return f"{min(seconds) / one:.2f} to {max(seconds) / one:.2f}"


def in_memory(text, quarters, patterns, turns):
    """Seconds of the scan in memory by one call, by 2 and 4 workers, and of Hyperscan in one process, in four, and by four
    threads."""
    def ours(mode):
        return lambda: scan_seconds([[os.path.join(BIN, "bench_scan"), text, patterns, mode, "3"]])

    def theirs(files, mode="block"):
        return lambda: scan_seconds([[os.path.join(PEERS, "hyperscan"), name, patterns, mode, "3"] for name in files])

    def threads():
        return theirs([text], str(QUARTERS))()[0], None

    return measured(turns, {"all": ours("all"), 2: ours("2"), 4: ours("4"), "one": theirs([text]), "four": theirs(quarters),
                            "threads": threads})


def memory_row(shown, size, took, hits):
    """The line of a table that says what was measured in memory."""
    mid = {name: statistics.median(seconds) for name, seconds in took.items()}
    cells = [shown, " ".join(map(str, hits)), f"{size / mid['all'] / 1e9:.2f}", f"{mid[2] / mid['all']:.2f}",
             f"{mid[4] / mid['all']:.2f}", spread(took[4], mid["all"]), f"{size / mid['one'] / 1e9:.2f}",
             f"{mid['four'] / mid['one']:.2f}", f"{mid['threads'] / mid['one']:.2f}", spread(took["threads"], mid["one"]),
             f"{mid['threads'] / mid[4]:.2f}"]
    return f"| {' | '.join(cells)} |"


def as_command(text, quarters, patterns, turns):
    """Seconds of `litplan scan --count` by 1 and 4 workers, of reading alone, and of ripgrep in four processes."""
    def counted(workers):
        def take():
            seconds, printed = clock([[os.path.join(BIN, "litplan"), "scan", "--count", "--workers", str(workers), patterns, text]])
            return seconds, int(printed[0])
        return take

    def quiet(commands):
        return lambda: (clock(commands)[0], None)

    takes = {1: counted(1), 4: counted(4), "read": quiet([["dd", "if=" + text, "of=/dev/null", "bs=64k", "status=none"]])}
    if is_text(patterns):
        takes["ripgrep"] = quiet([["rg", "-a", "-c", "-F", "-f", patterns, name] for name in quarters])
    return medians(turns, takes)


def is_text(patterns):
    """Whether ripgrep takes these patterns, which are to be UTF-8."""
    with open(patterns, "rb") as file:
        try:
            file.read().decode()
        except UnicodeDecodeError:
            return False
    return True


def rows(folder, only_rare):
    samples = {"log": log_block(0, MB), "english": english_block(0, MB)}
    lists = make_lists(folder, samples)
    for name in samples:
        for kind in ("rare",) if only_rare else ("rare", name):
            for count in (1, 10, 100, 1000):
                yield f"{name}, {count} {'rare' if kind == 'rare' else 'frequent'}", lists[kind, count], name
    if not only_rare:
        yield "random bytes, 1000", lists["bytes", 1000], "random"


def main():
    parser = argparse.ArgumentParser(description=__doc__, formatter_class=argparse.RawDescriptionHelpFormatter)
    parser.add_argument("--size", type=int, default=64, help="megabytes of each text")
    parser.add_argument("--turns", type=int, default=3)
    parser.add_argument("--rare", action="store_true")
    parser.add_argument("--first", action="store_true", help="run before all other programs")
    parser.add_argument("--write", action="store_true")
    options = parser.parse_args()
    memory, command, wrong = [MEMORY_HEAD], [COMMAND_HEAD], 0
    with tempfile.TemporaryDirectory(prefix="workers-") as folder:
        make_texts(folder, options.size * MB)
        quarters = {name: quarters_of(os.path.join(folder, name)) for name in ("log", "english", "random")}
        if options.first:
            os.sched_setscheduler(0, os.SCHED_RR, os.sched_param(5))
        for shown, patterns, name in rows(folder, options.rare):
            text = os.path.join(folder, name)
            took, hits = in_memory(text, quarters[name], patterns, options.turns)
            memory.append(memory_row(shown, os.path.getsize(text), took, hits))
            print(memory[-1], flush=True)
            took, counted = as_command(text, quarters[name], patterns, options.turns)
            ripgrep = f"{took['ripgrep'] * 1000:.0f}" if "ripgrep" in took else ""
            command.append(f"| {shown} | {took[1] * 1000:.0f} | {took[4] / took[1]:.2f} | {took['read'] * 1000:.0f} | {ripgrep} |")
            print(command[-1], flush=True)
            wrong += hits != counted or len(hits) > 1
    if options.write:
        with open(os.path.join(HERE, "WORKERS.md"), "a") as out:
            how = f"{machine(options.size).rstrip('.')}{', at real-time priority' * options.first}, {options.turns} turns."
            print(f"\n## {options.size} MB\n\n{how}\n", *memory, "", *command, sep="\n", file=out)
    if wrong:
        print("rows with other numbers of hits: %d" % wrong)
    return 1 if wrong else 0


if __name__ == "__main__":
    sys.exit(main())
