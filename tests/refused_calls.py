#!/usr/bin/env python3
"""Runs the programs in bin/ with each of their growths of memory, reads, writes and threads refused, and prints a table.

    python3 tests/refused_calls.py

A cell has the number of refused calls, and in brackets the number of runs that then ended as if nothing were refused.
The status is 1 where a run ends wrongly. `python3 tests/run.py refused_calls` draws a sample of these checks, and makes others."""

import collections
import os
import sys

from cases.refused_runs import RUNS
from parts.refused_calls import bench, name_of, seen

# The columns of the table, each with the kinds of calls that it counts.
COLUMNS = {
    "growths": ("growth",),
    "reads": ("read", "given"),
    "writes": ("write", "take", "room"),
    "messages": ("message",),
    "interrupted, cut": ("interrupt", "short", "cut"),
    "threads": ("thread",),
}


def group_of(run):
    """The program of a run, and its command."""
    command = next((word for word in run.words[1:2] if word in ("plan", "check", "pack", "explain", "migrate", "scan", "--stdio")), "")
    return f"{os.path.basename(run.words[0])} {command}".strip()


def main():
    """Prints wrong endings, and the table."""
    refused, own, wrong = collections.Counter(), collections.Counter(), 0
    with bench() as made:
        for one in seen(made, RUNS):
            if not one.is_right:
                wrong += 1
                print(f"FAILED: {name_of(one.run)}, {one.sweep} {one.number}\n  {one.got!r:.300}\n  {one.whole!r:.300}")
            if one.number is not None:
                refused[group_of(one.run), one.sweep.kind] += 1
                own[group_of(one.run), one.sweep.kind] += one.got == one.whole
    groups = collections.Counter(map(group_of, RUNS))
    print("| program | runs |", " | ".join(COLUMNS), "|")
    for group, runs in groups.items():
        cells = []
        for kinds in COLUMNS.values():
            count, same = (sum(counted[group, kind] for kind in kinds) for counted in (refused, own))
            cells.append(f"{count:,} ({same:,})" if count else "")
        print(f"| {group} | {runs} |", " | ".join(cells), "|")
    print(f"{sum(refused.values()):,} calls refused or cut, {wrong} wrong endings")
    return 1 if wrong else 0


if __name__ == "__main__":
    sys.exit(main())
