#!/usr/bin/env python3
"""Measures what each engine of the search gains, and each quick test before it: the programs beside builds without it.

    python3 bench/ablation.py --make [NAME ..]
    python3 bench/ablation.py [--size MB] [--turns N] [--seed S] [--only WORD] [--write]

Each file of bench/ablations/ switches one thing off, by an edit that changes no result. --make builds litgrep and bench_scan with
it, in a copy of the tree, and puts them into bench/ablations/bin/. A build proves what stands above the edit, which takes five to
fifteen minutes; NAME .. chooses some. The other call measures the builds that are there, all in turn. The texts and lists are
those of lists.py, and one to three literals. litgrep's output and the numbers of hits are compared. A figure is the time of the
program without the thing by the time of the program as it is, each the least of the turns. With --write the tables go to
bench/ABLATION.md.
"""
import argparse
import glob
import os
import random
import re
import shutil
import statistics
import subprocess
import sys
import tempfile

from tuned import drawn
from lists import FEWER, COUNTS, make_texts, pools
from programs import HERE, MB, machine, run
from scanning import scan

TOP = os.path.dirname(HERE)
EDITS = os.path.join(HERE, "ablations")
AS_IT_IS = "as it is"
FEW = (1, 2, 3)
KINDS = (("rare", FEW + COUNTS), ("rare, some short", FEWER), ("frequent", FEW + COUNTS))
# The kinds of lists in a table, with their lengths.
GROUPS = (("1 to 3 rare", "rare", 1, 3), ("5 and 10 rare", "rare", 5, 10), ("30 to 1,000 rare", "rare", 30, 1000),
          ("some short", "rare, some short", 10, 1000), ("1 to 3 frequent", "frequent", 1, 3),
          ("5 and 10 frequent", "frequent", 5, 10), ("30 to 1,000 frequent", "frequent", 30, 1000))
LITGREP, TEXT, PIECES = "litgrep", "scans of a text in memory", "scans of pieces of 1,000 bytes"
MODES = {TEXT: "tuned", PIECES: "tuned-stream:1000"}
# A plan for sixteen buckets in place of what is tuned needs no build of its own.
SIXTEEN = "tuning, but by sixteen buckets"
PLAN_MODES = {TEXT: "all", PIECES: "stream:1000"}
SCANS = 3


class Edit:
    """What is switched off, and the lines that do it."""

    def __init__(self, path):
        self.name = os.path.splitext(os.path.basename(path))[0]
        # The folder of the programs that are built with it.
        self.built = os.path.join(os.path.dirname(path), "bin", self.name)
        with open(path, encoding="utf-8") as file:
            head, *hunks = file.read().split("\nfile: ")
        self.without = head.removeprefix("without: ").strip()
        self.hunks = [re.fullmatch(r"(.*)\nold: (.*)\nnew: (.*)\n?", hunk).groups() for hunk in hunks]

    def apply(self, top):
        for name, old, new in self.hunks:
            path = os.path.join(top, "crates", name)
            with open(path, encoding="utf-8") as file:
                text = file.read()
            if text.count(old) != 1:
                sys.exit("%s: %r does not stand once in %s" % (self.name, old, name))
            with open(path, "w", encoding="utf-8") as file:
                file.write(text.replace(old, new))


def edits(folder):
    return [Edit(path) for path in sorted(glob.glob(os.path.join(folder, "*.edit")))]


def make(edit, options):
    """Builds the programs with an edit, in a copy of the tree with all that was proved."""
    with tempfile.TemporaryDirectory(prefix="ablation-") as folder:
        for name in "crates.txt", "HANDLES":
            shutil.copy2(os.path.join(TOP, name), folder)
        for name in "crates", "tools":
            shutil.copytree(os.path.join(TOP, name), os.path.join(folder, name))
        edit.apply(folder)
        words = [os.path.join(folder, "tools/build.py"), "--cpu", options.cpu, "--into", edit.built, "-j", str(options.jobs), "litgrep", "bench_scan"]
        return subprocess.run(words, check=False).returncode


# ---------------------------------------------------------------- measuring

class Result:
    """The least time of each build in one row and way, and what each answered."""

    def __init__(self, row):
        _, self.name, self.text, self.literals = row
        count, self.kind = self.name.split(": ")[1].split(" ", 1)
        self.count, self.times, self.answers = int(count), {}, set()

    def add(self, build, seconds, answer):
        self.times[build] = min(self.times.get(build, float("inf")), seconds)
        self.answers.add(answer)

    def is_in(self, group):
        _, kind, least, most = group
        return self.kind == kind and least <= self.count <= most

    def without(self, build):
        """The time without a thing by the time with it, if it was measured."""
        return self.times[build] / self.times[AS_IT_IS] if build in self.times else None


def measure(result, way, builds, turns):
    """Runs all builds in turn on one row."""
    for _ in range(turns):
        for build, folder in builds.items():
            if way == LITGREP and build == SIXTEEN:
                continue
            if way == LITGREP:
                ran = run([os.path.join(folder, "litgrep"), "-F", "-f", result.literals, result.text], None)
                result.add(build, ran.cpu, (ran.status, ran.digest))
            else:
                words = [PLAN_MODES[way], SCANS, "16"] if build == SIXTEEN else [MODES[way], SCANS]
                seconds, hits = scan([os.path.join(folder, "bench_scan")], result.text, result.literals, *words)
                result.add(build, seconds, hits)


def cell(results, build):
    """The median of some rows, and the least and the greatest."""
    values = [result.without(build) for result in results if build in result.times]
    return "%.2f (%.2f, %.2f)" % (statistics.median(values), min(values), max(values)) if values else ""


def table(results, builds):
    """A line for each build, a column for each kind of list."""
    heads = ["without"] + [group[0] for group in GROUPS]
    lines = ["| %s |" % " | ".join(heads), "|---" * len(heads) + "|"]
    for build in builds:
        if build != AS_IT_IS and any(build in result.times for result in results):
            cells = [cell([result for result in results if result.is_in(group)], build) for group in GROUPS]
            lines.append("| %s | %s |" % (build, " | ".join(cells)))
    return lines


def report(results, builds, options):
    texts = dict.fromkeys(result.name.split(":")[0] for result in results[LITGREP])
    lines = ["# What each engine gains", "", machine(options.size), "Seed %d, %d turns; built for %s." % (options.seed, options.turns, options.cpu), "",
             "A figure is the time without a thing, divided by the time of the program as it is. It is the median of the rows, with the",
             "least and the greatest in brackets. Above 1 the thing gains. Lists of one to three literals are never tuned. So their",
             "columns show how far figures swing by chance. [ALGORITHM](../docs/ALGORITHM.md) explains the engines. Texts: %s." % ", ".join(texts), ""]
    missing = [edit.without for edit in edits(options.edits) if edit.without not in builds]
    if missing:
        lines += ["Not measured: the search without %s." % ", without ".join(missing), ""]
    for way, like in results.items():
        lines += ["## %s" % (way[0].upper() + way[1:] if way != LITGREP else "`litgrep`, processor time"), ""] + table(like, builds) + [""]
    return "\n".join(lines)


def measured(options):
    """The rows of each way with the times of each build, and the builds."""
    chosen = [edit for edit in edits(options.edits) if os.path.isdir(edit.built)]
    builds = {name: os.path.join(TOP, "bin") for name in (AS_IT_IS, SIXTEEN)} | {edit.without: edit.built for edit in chosen}
    with tempfile.TemporaryDirectory(prefix="ablation-bench-", dir=options.folder) as folder:
        results = {way: [] for way in (LITGREP, *MODES)}
        for text in make_texts(folder, options.size * MB, options.seed):
            rng = random.Random(options.seed)
            for row in drawn(folder, text, rng, pools(text, rng), KINDS):
                for way, like in results.items():
                    if options.only in row[1]:
                        like.append(Result(row))
                        measure(like[-1], way, builds, options.turns)
                        print(way, row[1], " ".join("%.2f" % (like[-1].without(build) or 0) for build in builds), flush=True)
    return results, builds


def main():
    parser = argparse.ArgumentParser(description=__doc__, formatter_class=argparse.RawDescriptionHelpFormatter)
    parser.add_argument("--make", action="store_true")
    parser.add_argument("--jobs", type=int, default=os.cpu_count())
    parser.add_argument("--cpu", default="x86-64-v3")
    parser.add_argument("--size", type=int, default=16, metavar="MB")
    parser.add_argument("--turns", type=int, default=5)
    parser.add_argument("--seed", type=int, default=1)
    parser.add_argument("--only", default="", metavar="WORD")
    parser.add_argument("--edits", default=EDITS, metavar="DIR", help="other edits than those of bench/ablations/")
    parser.add_argument("--folder", metavar="DIR", help="where the texts are written")
    parser.add_argument("--write", action="store_true")
    parser.add_argument("names", nargs="*", metavar="NAME")
    options = parser.parse_args()
    if options.make:
        failed = [edit.name for edit in edits(options.edits) if (not options.names or edit.name in options.names) and make(edit, options)]
        print("not built: " + " ".join(failed) if failed else "built")
        return 1 if failed else 0
    results, builds = measured(options)
    print("\n".join(line for like in results.values() for line in table(like, builds)))
    if options.write:
        with open(os.path.join(HERE, "ABLATION.md"), "w", encoding="utf-8") as out:
            out.write(report(results, builds, options))
    wrong = [result for like in results.values() for result in like if len(result.answers) > 1]
    for result in wrong:
        print("other answers: %s" % result.name)
    return 1 if wrong else 0


if __name__ == "__main__":
    sys.exit(main())
