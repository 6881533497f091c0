#!/usr/bin/env python3
"""Prints the rows of README.md that sum up PROGRAMS.md, LISTS.md and TUNED.md: for each kind of row the median, then the worst.

    python3 bench/summary.py [--write]

Each row of these tables has to be of one kind. With --write it puts the rows into README.md, each in the place of the row with
its label.
"""
import os
import re
import statistics
import sys

HERE = os.path.dirname(os.path.abspath(__file__))
NAME = re.compile(r"(?:\w+: )?(\d+) (rare|frequent)(, some short)?( -\w)?$")
# Kinds of rows in PROGRAMS: a label, and what their names begin with.
PROGRAMS = (("one literal or a null pattern, 64 MB", r"\w+: (one|-[cinv]) (rare|frequent|null)"),
            ("10 to 1,000 literals with rare last bytes", r"\w+: (-i )?-f \d+ rare"),
            ("10 to 1,000 frequent literals", r"\w+: -f \d+ frequent"),
            ("1,000 whole lines, `-x`", r"\w+: -x"),
            ("1,000 literals of random bytes, `-c`", "random bytes:"),
            ("one literal, late match with `-q` or standard input", r"\w+: (-q late|standard input)"),
            ("start-up, an early end, 10,000 small files", r"start-up|\w+: -[lq] early|10,000 small files"),
            ("lines of a megabyte", "megabyte lines"),
            ("one endless line, `-c`", "one endless line"))
# Kinds of lists: a label, the words in a row's name, and the least and the greatest length.
LISTS = (("5 and 10 rare literals", "rare", 5, 10), ("the same with `-i`", "rare -i", 5, 10),
         ("30 to 1,000 rare literals", "rare", 30, 1000), ("the same with `-i`", "rare -i", 30, 1000),
         ("10 rare literals, one of 2 or 3 bytes", "rare, some short", 10, 10),
         ("100 and 1,000 rare literals, a tenth of 2 or 3 bytes", "rare, some short", 100, 1000),
         ("10 to 1,000 rare literals, a tenth of 2 or 3 bytes, with `-i`", "rare, some short -i", 10, 1000),
         ("5 and 10 frequent literals", "frequent", 5, 10), ("30 to 1,000 frequent literals", "frequent", 30, 1000),
         ("10 to 1,000 frequent literals, a tenth of 2 or 3 bytes", "frequent, some short", 10, 1000),
         ("10 to 1,000 frequent literals with `-i`", "frequent -i", 10, 1000),
         ("10 to 1,000 frequent literals with `-c`", "frequent -c", 10, 1000),
         ("2,000 and 4,096 rare literals", "rare", 2000, 4096), ("the same with `-i`", "rare -i", 2000, 4096),
         ("the same, a tenth of 2 or 3 bytes", "rare, some short", 2000, 4096),
         ("2,000 and 4,096 frequent literals", "frequent", 2000, 4096))
# Other kinds of rows in LISTS: a label, and what their names begin with.
OTHERS = (("one literal", r"\w+: one (rare|frequent)"), ("one literal or three literals of one byte", r"\w+: (one byte|three bytes)"),
          ("`-x`", r"(log|english|json|source): -x"), ("texts that change every 64 KiB or 16 MiB", "changing every"),
          ("near-miss texts (`spoilt literals`)", "spoilt"), ("empty lines", "(empty|blank) lines"),
          ("source code in many files", "source files"), ("one file of source code", "one source file"))
SCANS = (("5 and 10 rare", "rare", 5, 10), ("30 to 1,000 rare", "rare", 30, 1000), ("10 rare, one short", "rare, some short", 10, 10),
         ("100 and 1,000 rare, a tenth short", "rare, some short", 100, 1000), ("2,000 and 4,096 rare", "rare", 2000, 4096),
         ("the same, a tenth short", "rare, some short", 2000, 4096), ("5 and 10 frequent", "frequent", 5, 10),
         ("30 to 1,000 frequent", "frequent", 30, 1000), ("2,000 and 4,096 frequent", "frequent", 2000, 4096))
RANDOM = (("5 to 30 of random bytes", "random bytes: (5|10|30) of"), ("100 to 1,000 of random bytes", "random bytes: (100|300|1000) of"))
TEXTS = "log", "english", "json", "source"


def tables(name):
    """The tables of a file by their headings, each a list of rows, each a list of cells."""
    found, heading = {}, ""
    with open(os.path.join(HERE, name), encoding="utf-8") as file:
        for line in file:
            if line.startswith("## "):
                heading = line[3:].strip()
            elif line.startswith("| "):
                found.setdefault(heading, []).append([cell.strip() for cell in line.strip().strip("|").split("|")])
    return found


def is_in(name, kind, least, most):
    """Whether a row of one of the four texts is of this kind."""
    found = NAME.match(name)
    return bool(found and name.split(":")[0] in TEXTS and found[2] + (found[3] or "") + (found[4] or "") == kind
                and least <= int(found[1]) <= most)


def kinds(lists, others):
    """The label of each kind, and whether a row of this name is of the kind."""
    return ([(label, lambda name, kind=kind: is_in(name, *kind)) for label, *kind in lists]
            + [(label, re.compile(words).match) for label, words in others])


def by_kind(rows, lists, others):
    """The label and the rows of each kind. Each row has to be of one kind."""
    found = kinds(lists, others)
    for name, *_ in rows:
        fitting = [label for label, fits in found if fits(name)]
        if len(fitting) != 1:
            raise ValueError("the row %s is of no kind, or of several: %s" % (name, fitting))
    return [(label, [row for row in rows if fits(row[0])]) for label, fits in found]


def figures(rows, place, worst):
    """The median of one column and the least of another; of one row its ratio alone."""
    if len(rows) == 1:
        return rows[0][place]
    return "%.2f, %.2f" % (statistics.median(float(row[place]) for row in rows), min(float(row[worst]) for row in rows))


def of_searches(name, found, places):
    """Lines of the table of litgrep: the kinds of one table, with the columns of v2 and v3, each beside that of the worst."""
    for number, (label, rows) in enumerate(found):
        source = name if number else "[%s](%s.md)" % (name, name)
        yield "| %s | %s | %s |" % (label, " | ".join(figures(rows, *place) for place in places), source)


def of_scans(found):
    """Lines of the table of scans: by the plan at v3, then each way at v2 and v3."""
    places = [("at hand, v3", 6)] + [(way + ", " + cpu, 7) for way in ("at hand", "in pieces", "in small pieces") for cpu in ("v2", "v3")]
    columns = [[figures(rows, place, place) for _, rows in by_kind(found["Each list, " + heading][1:], SCANS, RANDOM)]
               for heading, place in places]
    for (label, _), cells in zip(kinds(SCANS, RANDOM), zip(*columns)):
        yield "| %s | %s |" % (label, " | ".join(cells))


def ahead(name, rows, places):
    """The line on how many searches of a table litgrep is ahead in, at v2 and v3."""
    counts = ["%d" % sum(float(row[place]) > 1 for row in rows) for place, _ in places]
    return "| the %d of %s | %s |" % (len(rows), name, " | ".join(counts))


def lines():
    """All rows that sum up, in the order of README.md."""
    programs, lists = tables("PROGRAMS.md")[""][1:], tables("LISTS.md")["Each search"][1:]
    of_programs, of_lists = ((7, 7), (8, 8)), ((6, 7), (8, 9))
    return [ahead("PROGRAMS", programs, of_programs), ahead("LISTS", lists, of_lists),
            *of_searches("PROGRAMS", by_kind(programs, (), PROGRAMS), of_programs),
            *of_searches("LISTS", by_kind(lists, LISTS, OTHERS), of_lists),
            *of_scans(tables("TUNED.md"))]


def label(line):
    return line.split(" | ")[0]


def put(found, text):
    """The text with each row in the place of the next row with its label."""
    old = text.split("\n")
    place = 0
    for line in found:
        place = next(at for at in range(place, len(old)) if label(old[at]) == label(line))
        old[place] = line
    return "\n".join(old)


def main():
    found = lines()
    print("\n".join(found))
    if "--write" in sys.argv[1:]:
        path = os.path.join(HERE, "README.md")
        with open(path, encoding="utf-8") as file:
            text = file.read()
        with open(path, "w", encoding="utf-8") as file:
            file.write(put(found, text))


if __name__ == "__main__":
    main()
