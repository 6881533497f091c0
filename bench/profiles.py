#!/usr/bin/env python3
"""Measures plans for eight buckets beside plans for sixteen, in scans and as litplan makes and checks them.

    python3 bench/profiles.py [--size MB] [--turns N] [--seed S] [--only WORD] [--scanner NAME=PATH ..] [--litplan PATH] [--write]

The texts and lists are those of lists.py, with 1,000, 2,000 and 4,096 literals. A scan runs by the plan alone, tuned, and as a
tuned stream in pieces of 64 KiB. `bench_scan` scans the text three times over for each number of buckets in turn, and gives the
median; the figure is the least of the turns. Hit counts are compared. `litplan plan` and `litplan check` are timed as whole
programs. With --write the tables go to bench/PROFILES.md.
"""
import argparse
import os
import random
import statistics
import subprocess
import sys
import tempfile

from tuned import SCANS, drawn, ratio
from lists import LONG_POOL, LONG_SHORT, gathered, make_texts, pools
from programs import HERE, MB, machine, run
from scanning import scan

COUNTS = (1000, 2000, 4096)
KINDS = tuple((kind, COUNTS) for kind in ("rare", "rare, some short", "frequent"))
MODES = {"plan": "all", "tuned": "tuned", "stream": "tuned-stream"}
BUCKETS = ("8", "16")


class Result:
    """The milliseconds of one list by mode and number of buckets, and the hits that each scan counted."""

    def __init__(self, group, name):
        self.group, self.name, self.times, self.hits = group, name, {}, set()

    def add(self, key, milliseconds):
        self.times[key] = min(self.times.get(key, float("inf")), milliseconds)

    def over_eight(self, mode):
        """The time with sixteen buckets by the time with eight."""
        return self.times[mode, "16"] / self.times[mode, "8"]

    def line(self):
        cells = ["%.1f" % self.times[mode, buckets] for mode in MODES for buckets in BUCKETS]
        return "| %s | %s |" % (self.name, " | ".join(cells + [ratio(self.over_eight(mode)) for mode in MODES]))


def rows(folder, size, seed):
    """The group, the name, the text and the list of each row."""
    for text in make_texts(folder, size, seed):
        rng = random.Random(seed)
        yield from drawn(folder, text, rng, pools(text, rng, LONG_POOL, LONG_SHORT), KINDS)


def measure(result, scanner, turns, row):
    """Adds the scans of one row to its result."""
    _, name, text, literals = row
    for _ in range(turns):
        for mode, word in MODES.items():
            for buckets in BUCKETS:
                answer = scan([scanner], text, literals, word, SCANS, buckets)
                if answer is None:
                    sys.exit("%s gives nothing for %s" % (scanner, name))
                result.add((mode, buckets), 1000 * answer[0])
                result.hits.add(answer[1])


def planned(litplan, turns, row, folder):
    """A line of the least processor time of `litplan plan` and `litplan check` with each number of buckets."""
    _, name, _, literals = row
    cells = []
    for buckets in BUCKETS:
        plan = [litplan, "plan", "--buckets", buckets, literals]
        certificate = os.path.join(folder, "certificate")
        with open(certificate, "wb") as out:
            subprocess.run(plan, stdout=out, check=True)
        for words in plan, [litplan, "check", literals, certificate]:
            cells.append("%.1f" % (1000 * min(run(words, None).cpu for _ in range(turns))))
    return "| %s | %s |" % (name, " | ".join(cells))


def table(heads, lines):
    return ["| %s |" % " | ".join(heads), "|---" * len(heads) + "|"] + lines


def as_groups(results):
    """The median and the greatest ratio of each kind, by mode."""
    lines = []
    for group, like in gathered(results, "group"):
        cells = []
        for mode in MODES:
            values = [result.over_eight(mode) for result in like]
            cells += [ratio(statistics.median(values)), ratio(max(values))]
        lines.append("| %s | %d | %s |" % (group, len(like), " | ".join(cells)))
    return table(["lists", "rows"] + [head for mode in MODES for head in (mode, "greatest")], lines)


def as_rows(results):
    heads = ["text and list"] + ["%s, %s, ms" % (mode, buckets) for mode in MODES for buckets in BUCKETS] + list(MODES)
    return table(heads, [result.line() for result in results])


def report(results, plans, options):
    lines = ["# Eight buckets and sixteen", "", machine(options.size), "Seed %d, %d turns." % (options.seed, options.turns), "",
             "A ratio is the time with sixteen buckets divided by the time with eight, each the least of the turns. Below 1, sixteen",
             "are faster. A scan runs by the plan alone, tuned, or as a tuned stream in pieces of 64 KiB. A tuned scan mostly leaves",
             "the plan for an engine that does not use its buckets. So its ratios show how much the machine disturbed.", ""]
    for build, like in results.items():
        lines += ["## By kind, %s" % build, ""] + as_groups(like) + [""]
    lines += ["## Planning and checking", "", "Milliseconds of processor time of `litplan plan` and `litplan check`, from the start of the program to its end.", ""]
    lines += table(["list", "plan, 8", "check, 8", "plan, 16", "check, 16"], plans) + [""]
    for build, like in results.items():
        lines += ["## Each list, %s" % build, ""] + as_rows(like) + [""]
    return "\n".join(lines)


def main():
    parser = argparse.ArgumentParser(description=__doc__, formatter_class=argparse.RawDescriptionHelpFormatter)
    parser.add_argument("--size", type=int, default=16, metavar="MB")
    parser.add_argument("--turns", type=int, default=3)
    parser.add_argument("--seed", type=int, default=1)
    parser.add_argument("--only", default="", metavar="WORD")
    parser.add_argument("--scanner", action="append", metavar="NAME=PATH")
    parser.add_argument("--litplan", default=os.path.join(HERE, "../bin/litplan"), metavar="PATH")
    parser.add_argument("--write", action="store_true")
    options = parser.parse_args()
    scanners = [scanner.split("=", 1) for scanner in options.scanner or ["bench_scan=" + os.path.join(HERE, "../bin/bench_scan")]]
    with tempfile.TemporaryDirectory(prefix="profiles-bench-") as folder:
        chosen = [row for row in rows(folder, options.size * MB, options.seed) if options.only in row[1]]
        results = {build: [Result(*row[:2]) for row in chosen] for build, _ in scanners}
        for place, row in enumerate(chosen):
            for build, path in scanners:
                measure(results[build][place], path, options.turns, row)
                print(build, results[build][place].line(), flush=True)
        plans = [planned(options.litplan, options.turns, row, folder) for row in chosen if row[1].split()[1] == "4096"]
    print("\n".join(plans))
    if options.write:
        with open(os.path.join(HERE, "PROFILES.md"), "w") as out:
            out.write(report(results, plans, options))
    wrong = [result for like in results.values() for result in like if len(result.hits) > 1]
    for result in wrong:
        print("other counts: %s: %s" % (result.name, sorted(result.hits)))
    return 1 if wrong else 0


if __name__ == "__main__":
    sys.exit(main())
