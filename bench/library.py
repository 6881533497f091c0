#!/usr/bin/env python3
"""Measures the C library beside Hyperscan's C API, on the same calls, side by side in one run.

    python3 bench/library.py [--lib DIR] [--include DIR] [--seconds S] [--turns N] [--only WORD] [--write]

Each row is a text, a list of literals, and a size from 64 bytes to 64 MB. A call searches so many bytes, as a text of its own
(block) or as a piece of one stream; both libraries count hits, and the counts are compared. bench/peers/calls.c is built for each
library against lib/libfiolargu.a and Debian's libhyperscan-dev. The programs take turns; the figure is the least time of a call.
With --write the table goes to bench/LIBRARY.md.
"""
import argparse
import os
import subprocess
import sys
import tempfile

from programs import HERE, MB, english_block, fill, log_block, machine
from scanning import make_lists

TOP = os.path.dirname(HERE)
SIZES = (64, 256, 1024, 4096, 65536, MB, 64 * MB)
COUNTS = (10, 100, 1000)


def built(folder, options):
    """Builds the program that measures for both libraries, and gives their paths."""
    source, ours, theirs = os.path.join(HERE, "peers/calls.c"), os.path.join(folder, "ours"), os.path.join(folder, "hyperscan")
    cc = ["gcc", "-O3", "-Wall"]
    archive = os.path.join(options.lib, "libfiolargu.a")
    subprocess.run([*cc, "-I", options.include, "-o", ours, source, archive], check=True)
    subprocess.run([*cc, "-DHYPERSCAN", "-o", theirs, source, "-lhs"], check=True)
    return ours, theirs


def rows(folder):
    """Each row: its name, its text, its list, how the bytes come, and how many a call takes."""
    samples = {"log": log_block(0, MB), "english": english_block(0, MB)}
    lists = make_lists(folder, samples)
    for name, block in ("log", log_block), ("english", english_block):
        path = os.path.join(folder, name)
        fill(path, 64 * MB, block)
        os.truncate(path, 64 * MB)
        for kind in "rare", name:
            for count in COUNTS:
                for way in "block", "stream":
                    for size in SIZES:
                        shown = "rare" if kind == "rare" else "frequent"
                        yield f"{name}, {count} {shown}, {way}, {size_name(size)}", path, lists[kind, count], way, size


def size_name(size):
    """A size as a table shows it."""
    return f"{size // MB} MB" if size >= MB else f"{size // 1024} KB" if size >= 1024 else f"{size} B"


def measured(programs, row, options):
    """The least nanoseconds of a call of each program, over some turns. Ends the run where their hits differ."""
    name, text, literals, way, size = row
    least, found = [float("inf")] * len(programs), set()
    for _ in range(options.turns):
        for place, program in enumerate(programs):
            words = [program, text, literals, way, str(size), str(options.seconds)]
            time, hits = subprocess.run(words, check=True, capture_output=True, text=True).stdout.split()
            least[place] = min(least[place], float(time))
            found.add(int(hits))
    if len(found) > 1:
        sys.exit(f"{name}: hits differ: {sorted(found)}")
    return least, found.pop()


def table(programs, options, folder):
    """The lines of the table, which are printed as they come."""
    lines = ["| text, literals, calls | hits | ours, ns | Hyperscan, ns | ratio |", "|---|---|---|---|---|"]
    print("\n".join(lines))
    for row in rows(folder):
        if options.only in row[0]:
            (ours, theirs), hits = measured(programs, row, options)
            lines.append(f"| {row[0]} | {hits:,} | {ours:,.0f} | {theirs:,.0f} | {theirs / ours:.2f} |")
            print(lines[-1], flush=True)
    return lines


def main():
    parser = argparse.ArgumentParser(description="Measures the C library beside Hyperscan.")
    parser.add_argument("--lib", default=os.path.join(TOP, "lib"), help="the folder of libfiolargu.a")
    parser.add_argument("--include", default=os.path.join(TOP, "include"), help="the folder of fiolargu.h")
    parser.add_argument("--seconds", type=float, default=0.2, help="how long a program measures a row")
    parser.add_argument("--turns", type=int, default=3, help="how often each program measures a row")
    parser.add_argument("--only", default="", metavar="WORD", help="only rows with this word")
    parser.add_argument("--write", action="store_true", help="write bench/LIBRARY.md")
    options = parser.parse_args()
    with tempfile.TemporaryDirectory() as folder:
        lines = table(built(folder, options), options, folder)
    if options.write:
        with open(os.path.join(HERE, "LIBRARY.md"), "w") as out:
            head = "# The C library beside Hyperscan\n\nWritten by `bench/library.py`. Nanoseconds of a call; a ratio above 1 means that"
            out.write(f"{head}\nthis library is faster. {machine(64)}\n\n" + "\n".join(lines) + "\n")


if __name__ == "__main__":
    main()
