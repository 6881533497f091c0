#!/usr/bin/env python3
"""Tries every wrong body that the contracts are to refuse: the edits of crates/*/must-fail/, which the gate tries too, and
those of mutants/, which it leaves out for their time. It runs the gate's command on a copy of the tree in which all of them
stand, so what the gate has proved and tried on this machine is not done again. It prints what was not refused, then a table
and the time. The status is 0 if each edit was tried and refused. After the gate a run over all crates takes more than an hour on
four processors.

    python3 tools/mutants.py [CRATE..]"""

import collections
import glob
import os
import re
import shutil
import subprocess
import sys
import tempfile
import time

TOP = os.path.dirname(os.path.dirname(os.path.abspath(__file__)))
# What rt says of an edit: its crate, and how it ended.
SAID = re.compile(r"rt: must-fail (\w+)/\S+: (.*)")


def copied(folder, crates):
    """Copies the tree without what was built, puts all edits of these crates where rt looks for them, and returns their number."""
    count = 0
    for name in "crates.txt", "HANDLES":
        shutil.copy2(os.path.join(TOP, name), folder)
    shutil.copytree(os.path.join(TOP, "crates"), os.path.join(folder, "crates"), ignore=shutil.ignore_patterns("out", "must-fail"))
    os.mkdir(os.path.join(folder, ".git"))
    for crate in crates or sorted({*os.listdir(os.path.join(TOP, "crates")), *os.listdir(os.path.join(TOP, "mutants"))}):
        edits = [edit for place in (f"crates/{crate}/must-fail", f"mutants/{crate}") for edit in glob.glob(os.path.join(TOP, place, "*.edit"))]
        target = os.path.join(folder, "crates", crate, "must-fail")
        if edits:
            os.mkdir(target)
        for edit in edits:
            if os.path.exists(os.path.join(target, os.path.basename(edit))):
                sys.exit(f"{crate} has two edits of the name {os.path.basename(edit)}")
            shutil.copy2(edit, target)
        count += len(edits)
    return count


def main(crates):
    started, refused, others, last = time.monotonic(), collections.Counter(), 0, collections.deque(maxlen=40)
    with tempfile.TemporaryDirectory() as folder:
        edits = copied(folder, crates)
        with subprocess.Popen(["rt", "ci", *crates], cwd=folder, stdout=subprocess.PIPE, stderr=subprocess.STDOUT, text=True) as run:
            for line in run.stdout:
                found = SAID.match(line)
                if not found:
                    last.append(line)
                elif found[2].startswith("refused"):
                    refused[found[1]] += 1
                else:
                    others += 1
                    print(line, end="", flush=True)
    if run.returncode:
        print(*last, sep="", end="")
    for crate, count in sorted(refused.items()):
        print(f"| {crate} | {count} |")
    unreported = edits - sum(refused.values()) - others
    minutes = round((time.monotonic() - started) / 60)
    print(f"{sum(refused.values())} wrong bodies refused, {others} not, {unreported} not reported, in {minutes} minutes")
    return 1 if others or unreported or run.returncode else 0


if __name__ == "__main__":
    sys.exit(main(sys.argv[1:]))
