"""What holds a row of a table in which another program is ahead, in a word or two: CHANGES.md says what was tried.

    python3 bench/held.py        says it anew in the tables PROGRAMS.md, LISTS.md, TUNED.md and SCANNING.md
"""
import os
import re

HERE = os.path.dirname(os.path.abspath(__file__))
TABLES = ("PROGRAMS.md", "LISTS.md", "TUNED.md", "SCANNING.md")
HEAD = "held by"
NAMES = ("search", "text and list", "text and literals")    # the heads of the names of rows
RATIOS = re.compile(r"ahead|/ tuned$|/ Hyperscan block$")

# The first of these that a row's name has.
HELD = tuple((re.compile(words), reason) for words, reason in (
    (r"random", "random bytes"),
    (r"^spoilt", "false ends"),
    (r"some short", "short members"),
    (r"null pattern", "a null pattern"),
    (r"^empty lines: -v", "empty lines"),
    (r"-x", "whole lines"),
    (r"small files|source file|start-up|early", "opening"),
    (r"one byte|one rare|three bytes|one absent|-q|standard input|[Mm]egabyte|endless", "reading"),
    (r"frequent|-c|-n|-v", "hits"),
    (r"iB, (32|100|1000) rare", "strides"),
    (r"\b(1|3|5|10) rare|-f 10 rare|3 rare", "few literals"),
    (r"", "ends left"),
))


def held_by(name):
    """What holds a row of this name, if another program is ahead in it."""
    return next(reason for words, reason in HELD if words.search(name))


def cells_of(line):
    return [cell.strip() for cell in line.strip().strip("|").split("|")]


def is_behind(heads, row):
    return any(cell and float(cell) < 1 for head, cell in zip(heads, row) if RATIOS.search(head) and "plan" not in head)


def with_reasons(text):
    """A text with tables, each row of which, if another program is ahead, says in a last column what holds it."""
    lines, heads = [], None
    for line in text.split("\n"):
        if not line.startswith("|"):
            heads = None
        elif heads is None:
            heads = [head for head in cells_of(line) if head != HEAD]
            line = "| %s |" % " | ".join(heads + [HEAD] if heads[0] in NAMES else heads)
        elif heads[0] in NAMES:
            row = cells_of(line)[:len(heads)]
            rule = set(row[0]) == {"-"}
            reason = "---" if rule else held_by(row[0]) if is_behind(heads, row) else ""
            line = "|---" * (len(heads) + 1) + "|" if rule else "| %s | %s |" % (" | ".join(row), reason)
        lines.append(line)
    return "\n".join(lines)


def main():
    for name in TABLES:
        path = os.path.join(HERE, name)
        with open(path) as file:
            text = with_reasons(file.read())
        with open(path, "w") as out:
            out.write(text)


if __name__ == "__main__":
    main()
