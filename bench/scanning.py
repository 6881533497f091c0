#!/usr/bin/env python3
"""Measures the scanner in memory beside Hyperscan and aho-corasick, side by side in one run.

    python3 bench/scanning.py [--turns N] [--only WORD] [--ours NAME=PATH ..] [--write]

Each row is one text and one list of literals. Each program (bin/bench_scan, and those that
bench/peers/install.sh builds) is started in turn, scans the text several times over and gives the
median of its scans; the figure is the best of three starts. Hit counts are compared. With --write the
table goes to bench/SCANNING.md and the plot to bench/scanning.svg.
"""
import argparse
import os
import random
import subprocess
import sys
import tempfile

from held import with_reasons
from plot import scanning_plot
from programs import HERE, MB, english_block, fill, log_block, machine, random_literals, rare_literal, write_lines

PEERS = os.path.join(HERE, "peers/bin")


def make_lists(folder, texts):
    """Rare literals, which hardly occur, and frequent ones, cut out of the text itself."""
    rng = random.Random(17)
    found = {}
    for count in (1, 3, 10, 32, 100, 1000):
        found["rare", count] = os.path.join(folder, "rare%d" % count)
        write_lines(found["rare", count], [rare_literal(rng, "%s%s%02x", 8) for _ in range(count)])
        for name, text in texts.items():
            cut = set()
            while len(cut) < count:
                at, length = rng.randrange(len(text) - 20), rng.randint(5, 12)
                piece = text[at:at + length]
                if b"\n" not in piece:
                    cut.add(piece)
            found[name, count] = os.path.join(folder, "%s-often%d" % (name, count))
            write_lines(found[name, count], sorted(cut))
    found["bytes", 1000] = os.path.join(folder, "bytes1000")
    write_lines(found["bytes", 1000], random_literals(rng))
    return found


def rows(folder, sizes):
    samples = {"log": log_block(0, MB), "english": english_block(0, MB)}
    lists = make_lists(folder, samples)
    for size_name, size in sizes:
        for name, block in (("log", log_block), ("english", english_block)):
            path = os.path.join(folder, "%s-%s" % (name, size_name))
            fill(path, size, block)
            os.truncate(path, size)
            for kind in ("rare", name):
                for count in (1, 3, 10, 32, 100, 1000):
                    yield ("%s %s, %d %s" % (name, size_name, count, "rare" if kind == "rare" else "frequent"),
                           path, lists[kind, count], size)
        path = os.path.join(folder, "random-" + size_name)
        with open(path, "wb") as out:
            out.write(random.Random(5).randbytes(size))
        yield "random bytes %s, 1000" % size_name, path, lists["bytes", 1000], size


def programs(ours):
    found = []
    for name, path in ours:
        found += [(name + " whole", [path], "all", True), (name + " pieces", [path], "stream", True)]
    for name, tool, mode, complete in (("Hyperscan block", "hyperscan", "block", True),
                                       ("Hyperscan stream", "hyperscan", "stream", True),
                                       ("aho-corasick packed", "automaton", "packed", False),
                                       ("aho-corasick dfa", "automaton", "dfa", True)):
        path = os.path.join(PEERS, tool)
        if os.path.exists(path):
            found.append((name, [path], mode, complete))
    return found


def scan(words, text, literals, mode, turns, *more):
    """The seconds of a scan and its hits; `more` are words for bench_scan alone."""
    answer = subprocess.run([*words, text, literals, mode, str(turns), *more], capture_output=True, text=True).stdout.split()
    if len(answer) != 2:
        return None
    return float(answer[0]), int(answer[1])


def measure(tools, text, literals, turns):
    """The seconds of each program, the best of three starts, and the hits of those that find all."""
    best, hits = {}, {}
    for _ in range(3):
        for tool, words, mode, complete in tools:
            answer = scan(words, text, literals, mode, turns)
            if answer is None:
                continue
            best[tool] = min(best.get(tool, 1e9), answer[0])
            if complete:
                hits[tool] = answer[1]
    return best, hits


class Result:
    """The speeds of one row in GB/s, and how many hits there are."""

    def __init__(self, name, size, best, hits, ours):
        self.name, self.hits = name, hits
        self.speed = {tool: size / seconds / 1e9 for tool, seconds in best.items()}
        self.others = [speed for tool, speed in self.speed.items() if not tool.startswith(tuple(ours))]

    def beside_hyperscan(self, name):
        rival = self.speed.get("Hyperscan block")
        return self.speed[name + " whole"] / rival if rival else None

    def beside_best(self, name):
        return self.speed[name + " whole"] / max(self.others) if self.others else None

    def line(self, tools, ours):
        ratios = [ratio for name in ours for ratio in (self.beside_hyperscan(name), self.beside_best(name))]
        return "| %s | %d | %s | %s |" % (
            self.name, max(self.hits.values(), default=0),
            " | ".join("%.2f" % self.speed[tool[0]] if tool[0] in self.speed else "" for tool in tools),
            " | ".join("" if ratio is None else "%.2f" % ratio for ratio in ratios))


def as_table(results, tools, ours):
    heads = ["%s / %s" % (name, what) for name in ours for what in ("Hyperscan block", "best")]
    lines = [machine(64), "", "GB/s; a ratio is that of whole texts in one call.", "",
             "| text and literals | hits | %s | %s |" % (" | ".join(tool[0] for tool in tools), " | ".join(heads)),
             "|---" * (len(tools) + len(heads) + 2) + "|"]
    return "\n".join(lines + [result.line(tools, ours) for result in results]) + "\n"


def as_plot(results, ours):
    return scanning_plot(ours, [(result.name, [result.beside_hyperscan(name) for name in ours]) for result in results])


def main():
    parser = argparse.ArgumentParser(description=__doc__, formatter_class=argparse.RawDescriptionHelpFormatter)
    parser.add_argument("--turns", type=int, default=5, help="scans of 64 MB in one start")
    parser.add_argument("--only", default="")
    parser.add_argument("--ours", action="append", default=[], metavar="NAME=PATH")
    parser.add_argument("--write", action="store_true")
    options = parser.parse_args()
    given = [g.split("=", 1) for g in options.ours] or [["scanner", os.path.join(HERE, "../bin/bench_scan")]]
    ours, tools = [name for name, _ in given], programs(given)
    results = []
    with tempfile.TemporaryDirectory(prefix="scan-bench-") as folder:
        for name, text, literals, size in rows(folder, (("64 KiB", 65536), ("64 MiB", 64 * MB))):
            if options.only in name:
                best, hits = measure(tools, text, literals, options.turns if size > MB else 100 * options.turns + 1)
                results.append(Result(name, size, best, hits, ours))
                print(results[-1].line(tools, ours), flush=True)
    if options.write:
        with open(os.path.join(HERE, "SCANNING.md"), "w") as out:
            out.write(with_reasons("# The scanner in memory\n\n" + as_table(results, tools, ours)))
        with open(os.path.join(HERE, "scanning.svg"), "w") as out:
            out.write(as_plot(results, ours))
    wrong = [result for result in results if len(set(result.hits.values())) > 1]
    for result in wrong:
        print("other counts: %s: %s" % (result.name, result.hits))
    return 1 if wrong else 0


if __name__ == "__main__":
    sys.exit(main())
