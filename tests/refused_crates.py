#!/usr/bin/env python3
"""Runs the tests of crates with growths of their memory refused, and prints a table.

    python3 tests/refused_crates.py [CRATE..]

Without CRATEs it runs the tests of all crates. It needs the programs that `rt test` leaves in the crates. A test must pass,
or report that memory ran out. A row of the table has the crate, its tests, the number of refused growths, and in brackets
how often the test passed all the same. The status is 1 where a test ends otherwise."""

import collections
import concurrent.futures
import os
import sys
import tempfile

from parts.refused_crates import crates_with_tests, program_of, swept, tests_of, wrong_of
from support.shim import built_shim


def main(crates):
    """Prints wrong endings, and a table."""
    crates = crates or crates_with_tests()
    jobs = [(crate, test, suffix) for crate in crates for test in tests_of(program_of(crate)) for suffix in ("", "-on")]
    seen, all_wrong = collections.defaultdict(collections.Counter), 0
    with tempfile.TemporaryDirectory() as folder, concurrent.futures.ProcessPoolExecutor(os.cpu_count()) as pool:
        built_shim(folder)
        _, tests, suffixes = zip(*jobs)
        for (crate, test, suffix), (found, last) in zip(jobs, pool.map(swept, [folder] * len(jobs), tests, suffixes)):
            for number, how in wrong_of(test, found, last, suffix):
                all_wrong += 1
                print(f"FAILED: {crate} {test.name}, growth{suffix} {number} refused: {how}")
            own = sum(how == "own" for _, how in found)
            seen[crate].update(tests=not suffix, growths=len(found), own=own)
    print("| crate | tests | growths |")
    for crate, counted in seen.items():
        print(f"| {crate} | {counted['tests']} | {counted['growths']:,} ({counted['own']:,}) |")
    print(f"{sum(counted['growths'] for counted in seen.values()):,} growths refused, {all_wrong} wrong endings")
    return 1 if all_wrong else 0


if __name__ == "__main__":
    sys.exit(main(sys.argv[1:]))
