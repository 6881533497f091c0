#!/usr/bin/env python3
"""Compares `plan_probe` with a plain reader of plan files, on many random files.

    python3 tests/plan_file_reading.py COUNT

It reads the worked files, the changed file of two plans, and COUNT random files. It prints each difference, with the file
in hexadecimal, then how often each answer came, and 'N passed, M failed'. PLAN_PROBE in the environment names another
program to test."""

import argparse
import collections
import itertools
import sys

from parts.plan_file_reading import drawn, old_files, worked


def main():
    parser = argparse.ArgumentParser(description=__doc__, formatter_class=argparse.RawDescriptionHelpFormatter)
    parser.add_argument("count", type=int, metavar="COUNT")
    count = parser.parse_args().count
    answers, outcomes = collections.Counter(), collections.Counter()
    for name, got, want in itertools.chain(worked(), old_files(), drawn(count)):
        outcomes[got == want] += 1
        if isinstance(want, str):
            answers[" ".join(word for word in want.split()[:4] if word.isalpha() and word not in ("No", "Ascii", "Eight", "Sixteen", "written"))] += 1
        if got != want:
            print(f"FAILED: {name}\n  got  {got!r:.300}\n  want {want!r:.300}")
    for word, times in answers.most_common():
        print(f"{times:8} {word}")
    print(f"{outcomes[True]} passed, {outcomes[False]} failed")
    return 1 if outcomes[False] else 0


if __name__ == "__main__":
    sys.exit(main())
