"""The example programs of docs/LIBRARY.md: their output, compared with a plain search and a plain plan."""

import itertools
import os
import random
import subprocess
import tempfile

from oracles import plain_plan
from support.programs import lay_out, program_at
from support.shim import built_shim, taken

NEEDS = "example_scan", "example_check"
SECONDS = 60


def run(name, words, stdin, folder):
    """The status and output of an example program."""
    got = subprocess.run([program_at(name), *words], input=stdin, capture_output=True, timeout=SECONDS, cwd=folder)
    return got.returncode, got.stdout


def found(patterns, text):
    """The lines about the occurrences in a text: by end, then by literal."""
    lines, lowered = {}, text.lower()
    for number, pattern in enumerate(patterns, 1):
        if pattern:
            lines.setdefault(pattern.lower(), number)
    hits = []
    for place, literal in enumerate(sorted(lines, key=lambda literal: (len(literal), literal))):
        start = lowered.find(literal)
        while start >= 0:
            hits.append((start + len(literal), place, b"%d %s %d\n" % (start, literal, lines[literal])))
            start = lowered.find(literal, start + 1)
    return b"".join(line for _, _, line in sorted(hits))


def searches():
    """Patterns and texts: a worked pair, and random pairs of few letters, some longer than one read."""
    yield [b"Affero", b"aggregate", b"", b"AFFERO General", b"he", b"she"], b"Ushers of the GNU Affero General\n"
    source = random.Random(24)
    for size in (0, 1, 63, 4096, 65536, 65537, 200000):
        text = bytes(source.choice(b"aAbc\n") for _ in range(size))
        yield [bytes(source.choice(b"aBc") for _ in range(source.randrange(5, 9))) for _ in range(40)] + [b"", b"\xff"], text


def scans():
    """example_scan finds what a plain search finds."""
    for patterns, text in searches():
        with tempfile.TemporaryDirectory() as folder:
            lay_out(folder, {"patterns": b"\n".join(patterns) + b"\n"})
            got = run("example_scan", ["patterns"], text, folder)
        yield f"example_scan of {patterns!r:.60} in {text!r:.40}", got, (0, found(patterns, text))


LONGEST = b"a" * 4095


def starved(folder, text, refused):
    """How example_scan ends that searches a text for the longest literal, and reads it by one byte less, where this growth of
    memory is refused; and whether any was."""
    mark = os.path.join(folder, "mark")
    env = dict(os.environ, LD_PRELOAD=os.path.join(folder, "refuse.so"), REFUSED=refused, REFUSED_MARK=mark, REFUSED_PIECE=str(len(LONGEST) - 1))
    got = subprocess.run([program_at("example_scan"), "patterns"], input=text, capture_output=True, timeout=SECONDS, cwd=folder, env=env)
    return (got.returncode, got.stdout, got.stderr), taken(mark) is not None


def growths_of(folder, text):
    """The number of growths of memory in a run: the greatest that can be refused."""
    least, most = 0, 1 << 20
    while least < most:
        middle = (least + most + 1) // 2
        least, most = (middle, most) if starved(folder, text, f"growth-{middle}")[1] else (least, middle - 1)
    return least


def carried():
    """A scan needs no memory but for hits: all but the last byte of the longest literal is fed where each growth is refused
    once the scan is made. With the last byte it is found."""
    with tempfile.TemporaryDirectory() as folder:
        built_shim(folder)
        lay_out(folder, {"patterns": LONGEST + b"\n"})
        made = growths_of(folder, b"")
        yield "there are growths before a scan", made > 0, True
        yield "the growths of 4,094 bytes", growths_of(folder, LONGEST[1:]), made
        found, refused = (0, found_line(), b""), f"growth-{made + 1}-on"
        yield "4,094 bytes without memory", starved(folder, LONGEST[1:], refused), ((0, b"", b""), False)
        yield "4,095 bytes with memory", starved(folder, LONGEST, "none")[0], found
        (status, output, _), was_refused = starved(folder, LONGEST, refused)
        yield "4,095 bytes without memory", (status, output, was_refused), (1, b"", True)


def found_line():
    """The line about the longest literal, where a text begins with it."""
    return b"0 %s 1\n" % LONGEST


def checks():
    """example_check accepts a right certificate, and refuses a wrong one."""
    literals = plain_plan.literals_of([b"he", b"his", b"she", b"hers"], False)
    right = plain_plan.spelled(plain_plan.plan_of(literals))
    claims = {b"ends 1 2 3 4": b"ends 4", b"cost 1678": b"cost 8392", b"\n8 1678 ": b"\n8 8392 "}
    wrong = right
    for old, new in claims.items():
        wrong = wrong.replace(old, new)
    for text, said in ((right, b"yes 1678\n"), (wrong, b"no: step 8 0 1\n")):
        with tempfile.TemporaryDirectory() as folder:
            lay_out(folder, {"words": b"he\nhis\nshe\nhers\n", "cert": text})
            got = run("example_check", ["words", "cert"], b"", folder)
        yield f"example_check of {text!r:.60}", got, (0, said)


def usages():
    """Words that are too few or too many."""
    usage = {"example_scan": b"PATTERNS", "example_check": b"PATTERNS CERTIFICATE"}
    for name, words in itertools.product(usage, ([], ["none"] * 3)):
        got = subprocess.run([program_at(name), *words], input=b"", capture_output=True, timeout=SECONDS)
        wanted = b"Error: usage: %s %s\n" % (name.encode(), usage[name])
        yield f"{name} {words}", (got.returncode, got.stdout, got.stderr), (1, b"", wanted)


TESTS = (scans, carried, checks, usages)
