#!/usr/bin/env python3
"""Measures scans in memory that tune themselves to their text beside scans by the plan alone and Hyperscan.

    python3 bench/tuned.py [--size MB] [--turns N] [--rounds N] [--seed S] [--only WORD] [--scanner NAME=PATH ..] [--write]

The texts and lists are those of lists.py: literals made of a text's own words or syllables, rare and frequent ones, and such
lists of which every tenth literal is short. Random bytes, with literals of random bytes, stand beside them. The text is at
hand, beside Hyperscan's block mode, and then a stream in pieces of 64 KiB, and of 1,000 bytes, beside its streaming mode: once it
counts the hits, and once it keeps them, as the scans do, all of a text or those of one piece after the other. Each program is started
in turn, scans the text three times over and gives the median; the figure is the least of the turns. --rounds goes over all
rows so often, one round after the other, so that what slows a shared machine for some minutes meets no row in each. Hit
counts are compared. --scanner, more than once, measures builds for different processors, each beside the others. With --write
the tables go to bench/TUNED.md, and a plot to bench/tuned.svg.
"""
import argparse
import os
import random
import statistics
import sys
import tempfile

from held import with_reasons
from lists import COUNTS, FEWER, LONG, LONG_POOL, LONG_SHORT, gathered, make_texts, pick, pools, span
from plot import plot_of_tuned
from programs import HERE, MB, machine, write_lines
from scanning import PEERS, scan

KINDS = (("rare", COUNTS), ("rare, some short", FEWER), ("frequent", COUNTS))
SCANS = 3
PLAN, TUNED, HYPERSCAN, KEEPING = "plan", "tuned", "Hyperscan", "keeping"
# How a text is given, with the modes of the four.
WAYS = {"at hand": ("all", "tuned", "block", "block-kept"),
        "in pieces": ("stream", "tuned-stream", "stream", "stream-kept"),
        "in small pieces": ("stream:1000", "tuned-stream:1000", "stream:1000", "stream-kept:1000")}


def group_of(name, kind, count):
    """What lists of this kind and about this length are called."""
    return "%s: %s, %s" % (name, kind, span(count))


def random_rows(folder, size, seed):
    """Literals of three to six random bytes in random bytes: a text shows nothing there but that all places are alike."""
    rng = random.Random(seed)
    text = os.path.join(folder, "random")
    with open(text, "wb") as out:
        out.write(rng.randbytes(size))
    for count in COUNTS:
        literals = set()
        while len(literals) < count:
            literals.add(rng.randbytes(rng.randint(3, 6)).replace(b"\n", b"\0"))
        path = os.path.join(folder, "random-%d" % count)
        write_lines(path, sorted(literals))
        yield group_of("random bytes", "of 3 to 6", count), "random bytes: %d of 3 to 6" % count, text, path


def rows(folder, size, seed):
    """The group, the name, the text and the list of each row."""
    yield from random_rows(folder, size, seed)
    rng = random.Random(seed)
    texts = make_texts(folder, size, seed)
    for text in texts:
        yield from drawn(folder, text, rng, pools(text, rng), KINDS)
    for text in texts:
        rng = random.Random(seed)
        yield from drawn(folder, text, rng, pools(text, rng, LONG_POOL, LONG_SHORT), [(kind, LONG) for kind, _ in KINDS])


def drawn(folder, text, rng, pool, kinds):
    """The rows of one text."""
    for kind, counts in kinds:
        for count in counts:
            path = os.path.join(folder, "%s-%s-%d" % (text.name, kind.replace(", ", "-"), count))
            write_lines(path, pick(rng, pool, kind, count))
            yield group_of(text.name, kind, count), "%s: %d %s" % (text.name, count, kind), text.path, path


def programs(scanner, way):
    """The words that start each program, and its mode, where the text is given in this way."""
    plan, tuned, counting, keeping = WAYS[way]
    found = {PLAN: ([scanner], plan), TUNED: ([scanner], tuned)}
    peer = os.path.join(PEERS, "hyperscan")
    if os.path.exists(peer):
        found[HYPERSCAN] = ([peer], counting)
        found[KEEPING] = ([peer], keeping)
    return found


class Result:
    """The milliseconds of each program in one row, and the hits that each counted."""

    def __init__(self, group, name):
        self.group, self.name, self.times, self.hits = group, name, {}, set()

    def add(self, program, answer):
        seconds, hits = answer
        self.times[program] = min(self.times.get(program, float("inf")), 1000 * seconds)
        self.hits.add(hits)

    def over_tuned(self, program):
        """The time of a program by that of the scan that tunes itself, if it was measured."""
        return self.times[program] / self.times[TUNED] if program in self.times else None

    def line(self):
        return "| %s | %d | %s |" % (self.name, max(self.hits), " | ".join(
            ["%.1f" % self.times[name] if name in self.times else "" for name in (PLAN, TUNED, HYPERSCAN, KEEPING)]
            + [ratio(self.over_tuned(name)) for name in (PLAN, HYPERSCAN, KEEPING)]))


def ratio(value):
    return "" if value is None else "%.2f" % value


def measure(result, tools, turns, row):
    """Adds the times of one row to its result."""
    _, name, text, literals = row
    for _ in range(turns):
        for program, (words, mode) in tools.items():
            answer = scan(words, text, literals, mode, SCANS)
            if answer is None:
                sys.exit("%s gives nothing for %s" % (words[0], name))
            result.add(program, answer)


def as_groups(results):
    lines = ["| lists | rows | plan / tuned | least | Hyperscan / tuned | least | keeping / tuned | least |", "|---" * 8 + "|"]
    for group, like in gathered(results, "group"):
        cells = []
        for program in (PLAN, HYPERSCAN, KEEPING):
            values = [value for value in (result.over_tuned(program) for result in like) if value is not None]
            cells += [ratio(statistics.median(values)), ratio(min(values))] if values else ["", ""]
        lines.append("| %s | %d | %s |" % (group, len(like), " | ".join(cells)))
    return lines


def as_rows(results):
    heads = ["text and list", "hits", "plan, ms", "tuned, ms", "Hyperscan, ms", "keeping, ms", "plan / tuned", "Hyperscan / tuned",
             "keeping / tuned"]
    return ["| %s |" % " | ".join(heads), "|---" * len(heads) + "|"] + [result.line() for result in results]


def report(results, options):
    turns = "Seed %d, %d turns in each of %d rounds." % (options.seed, options.turns, options.rounds)
    lines = ["# Scans that tune themselves", "", machine(options.size), turns, "",
             "A ratio is the time of another scan divided by the time of the tuned scan, each the least of the turns. Above 1, tuning",
             "pays, or the tuned scan is ahead of Hyperscan. `least` is the least ratio of a list. A text `at hand` is in",
             "memory. A text `in pieces` comes in pieces of 64 KiB. A text `in small pieces` comes in pieces of 1,000 bytes. Hyperscan",
             "counts the hits. Under `keeping` it keeps them as the scans do.", ""]
    for (build, way), like in results.items():
        lines += ["## By kind, %s, %s" % (way, build), ""] + as_groups(like) + [""]
    for (build, way), like in results.items():
        lines += ["## Each list, %s, %s" % (way, build), ""] + as_rows(like) + [""]
    return "\n".join(lines)


def main():
    parser = argparse.ArgumentParser(description=__doc__, formatter_class=argparse.RawDescriptionHelpFormatter)
    parser.add_argument("--size", type=int, default=16, metavar="MB")
    parser.add_argument("--turns", type=int, default=3)
    parser.add_argument("--rounds", type=int, default=1)
    parser.add_argument("--seed", type=int, default=1)
    parser.add_argument("--only", default="", metavar="WORD")
    parser.add_argument("--ways", nargs="+", choices=WAYS, default=list(WAYS), metavar="WAY")
    parser.add_argument("--scanner", action="append", metavar="NAME=PATH")
    parser.add_argument("--write", action="store_true")
    options = parser.parse_args()
    scanners = [scanner.split("=", 1) for scanner in options.scanner or ["bench_scan=" + os.path.join(HERE, "../bin/bench_scan")]]
    with tempfile.TemporaryDirectory(prefix="tuned-bench-") as folder:
        chosen = [row for row in rows(folder, options.size * MB, options.seed) if options.only in row[1]]
        results = {(build, way): [Result(*row[:2]) for row in chosen] for build, _ in scanners for way in options.ways}
        for _ in range(options.rounds):
            for place, row in enumerate(chosen):
                for build, path in scanners:
                    for way in options.ways:
                        found = results[build, way][place]
                        measure(found, programs(path, way), options.turns, row)
                        print(build, way, found.line(), flush=True)
    if options.write:
        with open(os.path.join(HERE, "TUNED.md"), "w") as out:
            out.write(with_reasons(report(results, options)))
        with open(os.path.join(HERE, "tuned.svg"), "w") as out:
            out.write(plot_of_tuned())
    wrong = [result for found in results.values() for result in found if len(result.hits) > 1]
    for result in wrong:
        print("other counts: %s: %s" % (result.name, sorted(result.hits)))
    return 1 if wrong else 0


if __name__ == "__main__":
    sys.exit(main())
