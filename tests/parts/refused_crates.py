"""The tests of crates with growths of memory refused: a sample of tests/refused_crates.py, and its check of mistakes.

tests/refused_crates.py runs each test of a crate with its growths of memory refused in turn, by the shim refuse.c. A test
must pass, or report that memory ran out. No other answer may take the place of that report. The sample needs the programs
that the gate or `rt test` leaves in the crates."""

import concurrent.futures
import itertools
import os
import re
import subprocess
import tempfile
from typing import NamedTuple

from support import sampling
from support.programs import TOP
from support.shim import built, built_shim, taken

SECONDS = 60
# Each of the first growths of a test is refused. Of the later growths only some are: their numbers grow by this factor.
FIRST, FACTOR = 400, 1.3
# Long tests, which do the same thousands of times: only this number of first growths is refused. Here and below the name of
# a test follows the name of the crate.
LONG, FIRST_OF_LONG = re.compile("flow_scan::tests::choosing::.*"
                                 "|search_tests::parts::(agrees_with_a_plain_loop_from_seed_.|finds_an_end_wherever_parts_meet)"), 20
# How a test that fails shows its answer: a fault, or a value that it makes of one.
STARVED = re.compile(rb"(error|there is memory): (OutOfMemory|AllocError|AllocFailed|Kind\(OutOfMemory\))|left: (Err|Some)\(OutOfMemory\)$", re.M)
# What tests of a crate may show instead: the fault or its number 1, among values that are as they must be.
ALSO_STARVED = {
    "base_tests": rb"Some\(\(Err\(OutOfMemory\), 2, true\)\)|Some\(Err\(1\)\)",
    "serve_tests": rb"\[Some\(OutOfMemory\), None, None\]",
    "fiolargu": rb"1|\(1, 0\)",
}
# Tests of calls that answer None for want of memory, where a value is wanted. The last is a test of mistaken_tests.c.
ANSWER_NONE = re.compile(
    "flow_scan::tests::.*"
    "|base_tests::(costs|lit_lists|raw_lists)::.*"
    "|filter_tests::(automata|factors)::.*"
    "|search_tests::scanning::.*"
    "|search_tests::picking::(finding::.*|names_its_faults|numbers::.*|whole_lines::selects_.*)"
    "|serve_tests::sessions::opens_.*_published"
    "|plan_tests::plan_files::reads_nine_letters_.*"
    "|plan_tests::stores::(finds_.*_published|shows_in_one_thread_what_another_published|gives_two_threads_two_numbers)"
    "|mistaken::answers none"
)
NO_VALUE = re.compile(rb"left: None\n right: Some\(")
# Tests that do not report want of memory. Some have workers that wait for each other, where one worker does everything if
# memory for a thread is refused. One has threads that publish as much as they can.
LEFT_OUT = {
    "search_tests::parts::runs_two_workers_at_once",
    "search_tests::parts::runs_sixteen_workers_at_once",
    "plan_tests::stores::finds_what_eight_threads_published",
}
# Tests that may pass where all growths after one are refused. They do without a thread that does not start, or want to find
# nothing at their ends.
MAY_PASS = {
    "search_tests::parts::finds_the_worked_hits",
    "plan_tests::stores::finds_in_each_of_two_threads_what_the_other_published",
    "plan_tests::stores::shows_in_one_thread_what_another_published",
}


class Test(NamedTuple):
    """A test in a program of tests."""

    program: str
    name: str

    @property
    def crate(self):
        return os.path.basename(self.program).removesuffix("_tests")

    @property
    def path(self):
        return f"{self.crate}::{self.name}"


def program_of(crate):
    """The program of tests that `rt test` leaves in a crate."""
    return os.path.join(TOP, "crates", crate, "out", f"{crate}_tests")


def crates_with_tests():
    """The crates with a program of tests."""
    return [crate for crate in sorted(os.listdir(os.path.join(TOP, "crates"))) if os.path.exists(program_of(crate))]


def tests_of(program):
    """The tests of a program, except those in LEFT_OUT."""
    listed = subprocess.run([program, "--list"], capture_output=True, check=True).stdout.decode()
    names = [line.removesuffix(": test") for line in listed.splitlines() if line.endswith(": test")]
    return [test for test in (Test(program, name) for name in names) if test.path not in LEFT_OUT]


def is_reported(test, shown):
    """Whether a test that fails reports want of memory."""
    also = test.crate in ALSO_STARVED and re.search(rb"left: (%s)$" % ALSO_STARVED[test.crate], shown, re.M)
    return STARVED.search(shown) or also or (ANSWER_NONE.fullmatch(test.path) and NO_VALUE.search(shown))


def ended(folder, test, refused, seconds):
    """How a test ends where this growth is refused: "own", "starved" or its output; and whether any was refused."""
    mark = os.path.join(folder, f"mark-{os.getpid()}")
    env = dict(os.environ, LD_PRELOAD=os.path.join(folder, "refuse.so"), REFUSED=refused, REFUSED_MARK=mark)
    try:
        done = subprocess.run(test, env=env, cwd=folder, capture_output=True, timeout=seconds)
    except subprocess.TimeoutExpired:
        return "no end", taken(mark) is not None
    was_refused, shown = taken(mark) is not None, done.stdout + done.stderr
    if done.returncode == 0:
        return "own", was_refused
    # A failed assertion ends by an abort, after its message. Nothing else may end by a signal.
    is_starved = is_reported(test, shown) and (done.returncode > 0 or b"test stopped at" in shown)
    return "starved" if is_starved else f"{done.returncode}: {shown[-300:]!r}", was_refused


def swept(folder, test, suffix, seconds=SECONDS):
    """The endings of a test by the number of the growth that is refused, alone or with all later growths; and the last
    ending, where none was refused."""
    found, number = [], 1
    while True:
        if number > FIRST_OF_LONG and LONG.fullmatch(test.path):
            return found, ended(folder, test, "none", seconds)[0]
        how, was_refused = ended(folder, test, f"growth-{number}{suffix}", seconds)
        if not was_refused:
            return found, how
        found.append((number, how))
        number = number + 1 if number < FIRST else int(number * FACTOR)


def allowed_of(test, suffix):
    """How a test may end where a growth is refused. It may ask again for memory and pass, except where all later growths are
    refused."""
    return ["starved"] if suffix and test.path not in MAY_PASS else ["starved", "own"]


def wrong_of(test, found, last, suffix):
    """The growths at whose refusal a test ends wrongly."""
    wrong = [(number, how) for number, how in found if how not in allowed_of(test, suffix)]
    return wrong + [(None, last)] * (last != "own")


def job_of(folder, test, suffix, number, seconds=SECONDS):
    """A test with a growth that is refused, and the words of the call that runs it."""
    return (test, suffix, number), (folder, test, f"growth-{number}{suffix}", seconds)


def drawn(source, folder, tests):
    """Such jobs without end, drawn by chance."""
    while True:
        test, suffix = source.choice(tests), source.choice(["", "-on"])
        yield job_of(folder, test, suffix, 1 + sampling.place_in(source, FIRST_OF_LONG if LONG.fullmatch(test.path) else FIRST))


def checked(jobs, seconds):
    """Each job that is begun in this time, how it ended and how it may end. A test that has no growth of its number has to
    pass."""
    with concurrent.futures.ProcessPoolExecutor(os.cpu_count()) as pool:
        for job, (how, was_refused) in sampling.sampled(pool, ended, jobs, seconds):
            yield job, how, allowed_of(*job[:2]) if was_refused else ["own"]


def sample():
    """Growths drawn by chance from all tests of all crates."""
    tests = [test for crate in crates_with_tests() for test in tests_of(program_of(crate))]
    if not tests:
        print("refused_crates: no crate has a program of tests to sample; the gate and `make sweep` leave them")
        return
    with tempfile.TemporaryDirectory() as folder:
        built_shim(folder)
        jobs = drawn(sampling.source_of("refused_crates"), folder, tests)
        for (test, suffix, number), how, allowed in checked(jobs, sampling.SECONDS):
            yield f"{test.path}, growth{suffix} {number} refused", how, how if how in allowed else allowed


# The tests of mistaken_tests.c that end rightly. "asks again" does so where it then gets memory.
RIGHT = {"": {"reports", "compares", "answers none", "asks again"}, "-on": {"reports", "compares", "answers none"}}


def mistakes():
    """Each wrong ending is found, and no other."""
    with tempfile.TemporaryDirectory() as folder:
        built_shim(folder)
        program = built(folder, "mistaken_tests.c", "mistaken_tests", "-fno-builtin")
        for test, suffix in itertools.product(tests_of(program), RIGHT):
            found = wrong_of(test, *swept(folder, test, suffix, 1), suffix)
            wanted = [] if test.name in RIGHT[suffix] else [1]
            yield f"the mistaken test {test.name!r}, growth{suffix}", [number for number, _ in found], wanted


def sampled_mistakes():
    """A sample finds them too."""
    with tempfile.TemporaryDirectory() as folder:
        built_shim(folder)
        program = built(folder, "mistaken_tests.c", "mistaken_tests", "-fno-builtin")
        jobs = [job_of(folder, test, suffix, 1, 1) for test, suffix in itertools.product(tests_of(program), RIGHT)]
        for (test, suffix, _), how, allowed in checked(jobs, SECONDS):
            yield f"a sample of the mistaken test {test.name!r}, growth{suffix}", how in allowed, test.name in RIGHT[suffix]


TESTS = (mistakes, sampled_mistakes, sample)
