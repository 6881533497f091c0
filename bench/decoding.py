#!/usr/bin/env python3
"""Measures reading the largest plan files beside its parts: 64 plans of 1,024 literals of 1,024 bytes by eight buckets, the
largest of version 1, and of 4,096 literals of 256 bytes by sixteen, the largest of version 2.

    make bench && python3 bench/decoding.py [--turns N]

bin/plan_probe reads the file with a byte behind it, so that every plan is decoded and the last answer is a fault; the
same file with another magic, so that its bytes are read and nothing else; and no file. bin/bench_check tells how long
one check of as many literals takes. Prints processor times: medians of so many turns, in turn.
"""
import argparse
import os
import random
import re
import resource
import statistics
import subprocess
import sys
import tempfile
from typing import NamedTuple

from programs import HERE

sys.path.insert(0, os.path.join(HERE, "../tests"))
from oracles import plain_plan  # noqa: E402
from oracles.plain_plan_file import MAGIC, MOST_PLANS, entry_fields, number  # noqa: E402

PROBE = os.path.join(HERE, "../bin/plan_probe")
CHECK = os.path.join(HERE, "../bin/bench_check")


class Largest(NamedTuple):
    """The largest plan file of a version."""

    version: int
    literals: int
    size: int
    buckets: int


def even_certificate(literals, buckets):
    """The certificate of literals of one length. The cheapest runs of them are as even as they can be, so it needs no table of
    cuts, which takes minutes for 4,096 literals. Their number is a multiple of the buckets, and large enough for all of
    these to be worth their price."""

    def price(count, runs):
        ends = [count * run // runs for run in range(runs + 1)]
        return sum(plain_plan.cost(literals, *run) for run in zip(ends, ends[1:]))

    count = len(literals)
    rows = [[price(count - at, min(runs, count - at)) for at in range(count)] for runs in range(1, buckets + 1)]
    rows = [[min(column[:runs]) for column in zip(*rows)] for runs in range(1, buckets + 1)]
    return [count * run // buckets for run in range(1, buckets + 1)], rows[-1][0], rows


def text_of(largest):
    """The bytes of such a file. One certificate does for all plans, since the lengths are the same."""
    source = random.Random(9)
    lists = [sorted({source.randbytes(largest.size) for _ in range(largest.literals)}) for _ in range(MOST_PLANS)]
    certificate = even_certificate(lists[0], largest.buckets)
    entries = (b"".join(entry_fields(literals, False, certificate)) for literals in lists)
    return b"".join([MAGIC, number(largest.version, 2), number(MOST_PLANS, 2), *entries])


def processor_time(words, want):
    """The processor time in milliseconds of a run that writes this."""
    before = resource.getrusage(resource.RUSAGE_CHILDREN)
    got = subprocess.run(words, stdout=subprocess.PIPE, check=True).stdout.decode()
    after = resource.getrusage(resource.RUSAGE_CHILDREN)
    if got != want:
        sys.exit(f"{words} wrote {got!r:.200} and not {want!r:.200}")
    return (after.ru_utime - before.ru_utime + after.ru_stime - before.ru_stime) * 1000


def check_time(largest):
    """The processor time in milliseconds of one check."""
    printed = subprocess.run([CHECK, str(largest.literals)], stdout=subprocess.PIPE, check=True).stdout.decode()
    return int(re.search(rf" {largest.buckets} buckets.*\ncheck (\d+) ns", printed)[1]) / 1e6


def measure(largest, turns):
    """Prints the times for such a file."""
    text = text_of(largest)
    with tempfile.TemporaryDirectory() as folder:
        plans, other = os.path.join(folder, "plans"), os.path.join(folder, "other")
        with open(plans, "wb") as file:
            file.write(text + b"\0")
        with open(other, "wb") as file:
            file.write(b"\0" + text[1:])
        runs = [([PROBE, plans], f"{len(text)} Trailing\n"), ([PROBE, other], "0 Magic\n"), ([PROBE], "")]
        times = [[processor_time(*run) for run in runs] for _ in range(turns)]
    whole, read, start = map(statistics.median, zip(*times))
    checks = MOST_PLANS * check_time(largest)
    what = f"{MOST_PLANS} plans of {largest.literals} literals of {largest.size} bytes, {largest.buckets} buckets"
    print(f"version {largest.version}: {what}, {len(text)} bytes; medians of {turns} turns, ms")
    print(f"reading the bytes alone    {read - start:8.1f}")
    print(f"reading and decoding them  {whole - start:8.1f}")
    print(f"decoding alone             {whole - read:8.1f}")
    print(f"{MOST_PLANS} checks                  {checks:8.1f}")
    print(f"decoding over reading and {MOST_PLANS} checks  {(whole - read) / (read - start + checks):.2f}")


def main():
    parser = argparse.ArgumentParser(description=__doc__, formatter_class=argparse.RawDescriptionHelpFormatter)
    parser.add_argument("--turns", type=int, default=11)
    turns = parser.parse_args().turns
    for largest in Largest(1, 1024, 1024, 8), Largest(2, 4096, 256, 16):
        measure(largest, turns)


if __name__ == "__main__":
    main()
