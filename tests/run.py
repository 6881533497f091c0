#!/usr/bin/env python3
"""Tests the programs in bin/ as their users run them.

    python3 tests/run.py            plays all parts
    python3 tests/run.py PART..     plays these parts
    python3 tests/run.py --list     lists the parts
    python3 tests/run.py --programs DIR     tests the programs in this folder instead of bin/

With --programs a part is left out if it needs further programs that are not there. A part of the C library is left out
where `make library` was not run.
Prints each check that fails, then 'N passed, M failed'. The status is 1 where a check fails, or where none was played."""

import argparse
import importlib
import os
import pkgutil
import sys

import parts
from support.playing import played

NAMES = sorted(module.name for module in pkgutil.iter_modules(parts.__path__))


def part(name):
    """The module of a part."""
    return importlib.import_module(f"parts.{name}")


def listed():
    """The parts, each with the first line of its docstring."""
    width = max(map(len, NAMES))
    return "\n".join(f"{name:{width}}  {part(name).__doc__.splitlines()[0]}" for name in NAMES)


def lacking(name):
    """The programs that a part needs in addition to the three of a release, and that are missing."""
    from support.programs import program_at

    return [program for program in getattr(part(name), "NEEDS", ()) if not os.path.exists(program_at(program))]


def run(names, may_lack):
    """Plays these parts, and counts what passed and failed."""
    passed = failed = 0
    for name in names:
        if getattr(part(name), "LACKS", None):
            print(f"left out: {name}, for want of {part(name).LACKS}")
            continue
        if may_lack and lacking(name):
            print(f"left out: {name}, for want of {', '.join(lacking(name))}")
            continue
        right, wrong = played(name, part(name).TESTS)
        passed, failed = passed + right, failed + wrong
    print(f"{passed} passed, {failed} failed")
    return 0 if passed and not failed else 1


def main():
    parser = argparse.ArgumentParser(description="Tests the programs in bin/ as their users run them.")
    parser.add_argument("parts", nargs="*", metavar="PART", help="a part to play; without any, all are played")
    parser.add_argument("--list", action="store_true", help="list the parts, and play none")
    parser.add_argument("--programs", metavar="DIR", help="the folder of the programs, instead of bin/")
    options = parser.parse_args()
    unknown = set(options.parts) - set(NAMES)
    if unknown:
        parser.error(f"no such part: {', '.join(sorted(unknown))}")
    if options.list:
        print(listed())
        return 0
    if options.programs:
        os.environ["PROGRAMS"] = options.programs
    return run(options.parts or NAMES, may_lack=options.programs)


if __name__ == "__main__":
    sys.exit(main())
