#!/usr/bin/env python3
"""Tags the messages of rsyslog with the literals that they have, as a program of its module mmexternal.

    tag_messages.py [-i] WORDS
    tag_messages.py --plan FILE [--which NUMBER]

WORDS has one literal a line; FILE is a plan file, which `litplan pack` writes, and whose certificate is checked. Each line of
standard input is a message in JSON (`interface.input="fulljson"`), and each gets a line of JSON as its reply, which adds two
properties to the message:

    $!fiolargu!count       how many hits there are
    $!fiolargu!literals    the literals found, in the order of their first ends, with commas between them

A byte that is not UTF-8, a comma and a backslash of a literal are written as \\xHH. A message that is not JSON gets the count -1.
Status 2: the list cannot be read or planned, and rsyslog goes on without tags. Where standard output and standard error
are one pipe, as in rsyslog, messages of the program are dropped: run it by hand to see them.
"""

import contextlib
import os
import site
import stat
import sys

# mmexternal gives the program one pipe for standard output and standard error, and takes each line for a reply. An error
# means that one of them is closed.
with contextlib.suppress(OSError):
    if stat.S_ISFIFO(os.fstat(1).st_mode) and os.path.sameopenfile(1, 2):
        os.dup2(os.open(os.devnull, os.O_WRONLY), 2)

import argparse  # noqa: E402
import json  # noqa: E402
from typing import List  # noqa: E402

HERE = os.path.dirname(os.path.abspath(__file__))
PACKAGE = os.path.join(HERE, "..", "..", "clients", "python")
if os.path.isdir(os.path.join(PACKAGE, "fiolargu")):
    sys.path.insert(0, PACKAGE)
if sys.flags.no_site:
    # The folders of packages, which `python3 -S` leaves out. Their .pth files, which may write lines, are not read.
    sys.path += site.getsitepackages()

from fiolargu import FiolarguError, Plan  # noqa: E402


def shown(literal: bytes) -> str:
    """A literal in text without commas."""
    text = literal.replace(b"\\", b"\\x5c").replace(b",", b"\\x2c")
    return text.decode(errors="backslashreplace")


def reply(plan: Plan, names: List[str], line: bytes) -> bytes:
    """The reply to a line."""
    try:
        # rsyslog puts bytes that are not UTF-8 into its JSON as they are.
        message = json.loads(line.decode(errors="surrogateescape"))["msg"].encode(errors="surrogateescape")
    except (ValueError, KeyError, TypeError, AttributeError):
        return b'{"$!": {"fiolargu": {"count": -1, "literals": ""}}}\n'
    hits = plan.hits(message)
    found = [names[number] for number in dict.fromkeys(hits.literals)]
    return json.dumps({"$!": {"fiolargu": {"count": len(hits), "literals": ",".join(found)}}}).encode() + b"\n"


def planned(given: argparse.Namespace) -> Plan:
    """The plan that the words name."""
    if given.plan is not None:
        return Plan.from_file(given.plan, given.which)
    with open(given.words, "rb") as file:
        return Plan.from_lines(file.read(), given.ignore_case)


def arguments() -> argparse.Namespace:
    parser = argparse.ArgumentParser(description="Tags messages of rsyslog with the literals that they have.")
    parser.add_argument("-i", "--ignore-case", action="store_true", help="ignore the case of A to Z")
    parser.add_argument("--plan", metavar="FILE", help="search by a plan of this plan file")
    parser.add_argument("--which", type=int, default=0, metavar="NUMBER", help="the number of the plan in the file (0)")
    parser.add_argument("words", metavar="WORDS", nargs="?", help="the literals, one a line")
    given = parser.parse_args()
    if (given.plan is None) == (given.words is None):
        parser.error("WORDS or --plan FILE is needed, and not both")
    if given.plan is not None and given.ignore_case:
        parser.error("-i is for WORDS: the plan file says itself whether case is ignored")
    return given


def main() -> int:
    given = arguments()
    try:
        plan = planned(given)
    except (FiolarguError, OSError) as fault:
        print(f"tag_messages: {given.words or given.plan}: {getattr(fault, 'strerror', None) or fault}", file=sys.stderr)
        return 2
    names = [shown(literal) for literal in plan.literals]
    # Each reply goes out at once: rsyslog waits for it.
    with open(1, "wb", buffering=0, closefd=False) as out:
        for line in sys.stdin.buffer:
            out.write(reply(plan, names, line))
    return 0


if __name__ == "__main__":
    sys.exit(main())
