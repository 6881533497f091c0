"""The measurements: what bench/ sums up of its tables, which runs it counts, and the figures of README.md."""

import os
import re
import sys

from support.programs import TOP

sys.path.insert(0, os.path.join(TOP, "bench"))
import programs  # noqa: E402
import summary  # noqa: E402


def lines_of(*names):
    """The lines of a file of the repository."""
    with open(os.path.join(TOP, *names), encoding="utf-8") as file:
        return file.read().split("\n")


def sums():
    """bench/README.md sums up its tables as they are, and has no further rows of PROGRAMS and LISTS."""
    found, rows = summary.lines(), lines_of("bench", "README.md")
    for line in found:
        yield f"bench/README.md: {line}", line in rows, True
    is_sum = re.compile(r"\| .*\b(PROGRAMS|LISTS)(\]\(.*\))? \|").fullmatch
    yield "rows of bench/README.md", list(filter(is_sum, rows)), list(filter(is_sum, found))


def kinds():
    """A row of no kind, and one of two, is refused."""
    for name, others in ("log: 7 of a new kind", ()), ("log: 5 rare", [("two kinds", "log")]):
        try:
            summary.by_kind([[name]], summary.LISTS, others)
            refused = False
        except ValueError:
            refused = True
        yield f"the row {name} is refused", refused, True


def front():
    """The figures of README.md are those of a row of PROGRAMS."""
    heads, *rows = summary.tables("PROGRAMS.md")[""]
    measured = set()
    for row in rows:
        best = min((float(time), head) for time, head in zip(row[3:7], heads[3:7]) if time)[1]
        measured.add((row[7], row[8], best))
    shown = [tuple(re.split(r" ?\| ?", line)[2:5]) for line in lines_of("README.md") if re.search(r"\| \d+\.\d\d \|", line)]
    yield "README.md has figures", len(shown) > 5, True
    yield "figures of README.md that no row of PROGRAMS has", [row for row in shown if row not in measured], []


# The answers of a program to one search, run by run: status, digest and size of the output.
ANSWERS = {
    "GNU grep": [(0, "a", 1), (0, "a", 1)],
    "like it": [(0, "a", 1), (0, "a", 1)],
    "crashed once": [(0, "a", 1), (-11, "a", 1)],
    "refused": [(2, "", 0), (2, "", 0)],
    "another output": [(0, "b", 1), (0, "b", 1)],
    "another output once": [(0, "a", 1), (0, "b", 1)],
    "not run": [],
}


def runs():
    """A program that crashes or answers otherwise than GNU grep, in one run or in all, is left out."""
    found = {name: [programs.Run(*answer, 0, 0) for answer in answers] for name, answers in ANSWERS.items()}
    kept, others = programs.compared(found)
    yield "programs that are left out", others, ["crashed once", "refused", "another output", "another output once"]
    yield "programs that are kept", [name for name in kept if kept[name]], ["GNU grep", "like it"]
    found["GNU grep"][1].status = -11
    yield "no program is right if GNU grep crashed", any(programs.compared(found)[0].values()), False
    crashing = "crashing", ["sh", "-c", "kill -KILL $$"]
    measured = programs.measure(programs.Row("a row", [], []), [crashing], 2)
    yield "a crash is a run", [run.status for run in measured["crashing"]], [-9, -9]


TESTS = (sums, kinds, front, runs)
