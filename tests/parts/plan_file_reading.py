"""Reading plan files of both versions, right and wrong, and writing what was read: `plan_probe` compared with a plain
reader and writer. It reads as `scand --plans` does.

PLAN_PROBE in the environment names another program to test. `python3 tests/plan_file_reading.py COUNT` reads COUNT random
files."""

import itertools
import os
import random
import subprocess
import tempfile

from cases import random_cases
from cases.worked_plan_file import worked_file
from oracles import plain_plan
from oracles.plain_plan_file import LONGEST, NEWEST, answer, file_fields, line_of, number
from support.programs import TOP, lay_out, program_at

NEEDS = ("plan_probe",)
PROBE = os.environ.get("PLAN_PROBE", program_at("plan_probe"))
# Where the files of version 1 are.
OLD = os.path.join(TOP, "tests", "cases", "plan_files_v1")
# The number of files that one run of the program reads, and how long it may take.
BATCH, SECONDS = 1000, 60
# The number of random files where this is a part of the tests.
RANDOM = 2000
LETTERS = [b"ab", b"abcdeAB@Z[`z{", bytes(range(256))]


def plan_of(literals, is_folded=False, buckets=8):
    """A plan: its literals, whether case is ignored, and its certificate."""
    return literals, is_folded, plain_plan.plan_of(literals, buckets)


def file_of(plans, version=NEWEST):
    """The file of some plans."""
    return b"".join(file_fields(plans, version))


def first_literals(literals, is_folded=False, version=NEWEST):
    """The file of one plan up to the end of its literals, right or wrong."""
    return file_of([(literals, is_folded, ([], 0, []))], version)[:-9]


def altered(text, *changes):
    """A text with other bytes from some positions on."""
    for place, changed in changes:
        text = text[:place] + changed + text[place + len(changed) :]
    return text


A, LETTERS_9 = [b"a"], [bytes([letter]) for letter in b"abcdefghi"]
ANIMALS = [b"cat", b"dog", b"horse"]
ONE, SIXTEEN = file_of([plan_of(A)]), file_of([plan_of(A, buckets=16)])
ONE_READ, SIXTEEN_READ = " No Eight 1 4296 e589ea3faba183a2", " No Sixteen 1 4296 b15cbb0d3f744fa2"
ANIMALS_READ = " Ascii Eight 3 934 db4f7092da3600db"
NINE_READ, NINE_SIXTEEN_READ = " No Eight 9 46656 a5f16c76ad668bcc", " No Sixteen 9 38664 b05aa3285c2fec62"
# The first byte of each field of the file of one plan.
FIELDS = [0, 4, 6, 8, 9, 11, 13, 14, 15, *range(17, len(SIXTEEN), 8)]
# One literal more than a plan has room for, where each is as long as it may be.
LONG = [number(place, 2) * (LONGEST // 2) + b"." for place in range(257)]
# Nine ends where there are eight buckets.
NINE_ENDS = LETTERS_9, False, (list(range(1, 10)), 38664, plan_of(LETTERS_9)[2][2])


def some_literals(count, version):
    """The file of one plan with this number of literals, up to their end."""
    return first_literals([number(place, 2) for place in range(count)], version=version)


def shortened(text):
    """The file of one plan cut off anywhere, and the first field that is not whole then."""
    return [(text[:size], f"{max(place for place in FIELDS if place <= size)} Short") for size in range(len(text))]


def rows_of(version):
    """Rows that hold in each version."""
    one = file_of([plan_of(A)], version)

    def literals(texts, is_folded=False):
        return first_literals(texts, is_folded, version)

    return [
        (one, "ok 1" + ONE_READ),
        (file_of([], version), "ok 0"),
        (file_of([plan_of(A)] * 64, version), "ok 64" + ONE_READ * 64),
        (file_of([plan_of(A)] * 65, version), "6 Count"),
        (file_of([plan_of(ANIMALS, True), plan_of(LETTERS_9)], version), "ok 2" + ANIMALS_READ + NINE_READ),
        (altered(one, (0, b"\0")), "0 Magic"),
        (altered(one, (4, b"\1")), "4 Version"),
        (altered(one, (5, b"\0")), "4 Version"),
        (altered(one, (5, b"\3")), "4 Version"),
        (altered(one, (6, b"\0\x41")), "6 Count"),
        (altered(one, (6, b"\0\x40")), "89 Short"),
        (altered(one, (8, b"\4")), "8 Flags"),
        (altered(one, (8, b"\x80")), "8 Flags"),
        (altered(one, (8, b"\1"), (13, b"A")), "13 Literal"),
        (altered(one, (9, b"\0\0")), "9 Count"),
        (altered(one, (11, b"\0\0")), "11 Literal"),
        (altered(one, (11, b"\x10\0")), "11 Literal"),
        (altered(one, (11, b"\x0F\xFF")), "13 Short"),
        (altered(one, (14, b"\0")), "14 Runs"),
        (altered(one, (14, b"\x09")), "14 Runs"),
        (altered(one, (16, b"\2")), "8 NotCertified ends"),
        (altered(one, (24, b"\xC9")), "8 NotCertified total"),
        (altered(one, (32, b"\xC9")), "8 NotCertified end row 1 0"),
        (file_of([NINE_ENDS], version), "38 Runs"),
        (one + b"\0", "89 Trailing"),
        (file_of([], version) + b"\0", "8 Trailing"),
        (literals([b"b", b"a"]), "14 Order"),
        (literals([b"a", b"a"]), "14 Order"),
        (literals([b"aa", b"b"]), "15 Order"),
        # the order of the checks of a literal: its length, that it is whole, its letters, its order
        (literals([b"aa", b""]), "15 Literal"),
        (literals([b"aa", b"A"], True)[:-1], "17 Short"),
        (literals([b"b", b"A"], True), "16 Literal"),
        (literals([b"abAB"], True)[:-1], "13 Short"),
        # 1,048,576 bytes and one more
        (literals(LONG), "1048843 Literal"),
        (literals([b"a" * 256, *LONG[:256]]), "1049101 Short"),
        (literals([b"a" * 257, *LONG[:256]]), "1045005 Literal"),
        *shortened(one),
    ]


# Each row: a file, and the line about it.
ROWS = [
    *rows_of(1),
    *rows_of(2),
    (bytes.fromhex("4C504C4600010000"), "ok 0"),
    (bytes.fromhex("4C504C4600020000"), "ok 0"),
    (bytes.fromhex("4C504C460003FFFF"), "4 Version"),
    (bytes.fromhex("4C504C4600"), "4 Short"),
    (b"XXX", "0 Short"),
    # version 1 has plans of eight buckets, with up to 1,024 literals
    (altered(ONE, (5, b"\1")), "ok 1" + ONE_READ),
    (altered(ONE, (5, b"\1"), (8, b"\2")), "8 Flags"),
    (altered(SIXTEEN, (5, b"\1")), "8 Flags"),
    (file_of([plan_of(A), plan_of(A, buckets=16)], 1), "89 Flags"),
    (altered(ONE, (5, b"\1"), (9, b"\4\1")), "9 Count"),
    (some_literals(1024, 1), "4107 Short"),
    (some_literals(1025, 1), "9 Count"),
    # version 2 has plans of both profiles, with up to 4,096 literals
    (SIXTEEN, "ok 1" + SIXTEEN_READ),
    (file_of([plan_of(A), plan_of(A, buckets=16), plan_of(A)]), "ok 3" + ONE_READ + SIXTEEN_READ + ONE_READ),
    (file_of([plan_of(LETTERS_9), plan_of(LETTERS_9, buckets=16)]), "ok 2" + NINE_READ + NINE_SIXTEEN_READ),
    (altered(ONE, (8, b"\2")), "89 Short"),
    (altered(SIXTEEN, (8, b"\0")), "89 Trailing"),
    (altered(SIXTEEN, (8, b"\3")), "ok 1" + SIXTEEN_READ.replace("No", "Ascii")),
    (altered(SIXTEEN, (8, b"\3"), (13, b"A")), "13 Literal"),
    (altered(SIXTEEN, (14, b"\x11")), "14 Runs"),
    (altered(SIXTEEN, (152, b"\xC9")), "8 NotCertified total"),
    (altered(SIXTEEN, (144, b"\xC9")), "8 NotCertified end row 15 0"),
    (SIXTEEN + b"\0", "153 Trailing"),
    (some_literals(1025, 2), "4111 Short"),
    (some_literals(4096, 2), "16395 Short"),
    (some_literals(4097, 2), "9 Count"),
    *shortened(SIXTEEN),
]

# Files that the release before the second version wrote, with the lines about them and their plans.
OLD_FILES = {
    "one_literal": ("ok 1" + ONE_READ, [plan_of(A)]),
    "two_plans": ("ok 2" + ANIMALS_READ + ONE_READ, [plan_of(ANIMALS, True), plan_of(A)]),
    "nine_letters": ("ok 1" + NINE_READ, [plan_of(LETTERS_9)]),
}


def changed_files():
    """Files of two plans with each byte changed to each of eight values, and cut off at each."""
    olds, news = [plan_of(ANIMALS, True), plan_of(A)], [plan_of(ANIMALS, True), plan_of(A, buckets=16)]
    for whole in file_of(olds, 1), file_of(news, 2):
        for place, byte in enumerate(whole):
            for value in 0x00, 0x01, 0x41, 0xFF, byte + 1 & 0xFF, byte - 1 & 0xFF, byte ^ 0x20, byte ^ 0x80:
                yield altered(whole, (place, bytes([value])))
        for size in range(len(whole)):
            yield whole[:size]


def random_plan(source):
    """A plan of few literals or many, short or long."""
    letters, is_folded = source.choice(LETTERS), source.random() < 0.5
    count, longest = source.choice([1, 2, 3, 9, 10, 24]), source.choice([1, 2, 4, 9, 300])
    texts = [bytes(source.choices(letters, k=source.randint(1, longest))) for _ in range(count)]
    return plan_of(plain_plan.literals_of(texts, is_folded), is_folded, source.choice([8, 16]))


def other_rows(source, certificate):
    """A certificate with the rows of the other profile: the first eight alone, or more rows after them."""
    ends, price, rows = certificate
    return ends, price, rows[:8] if len(rows) == 16 else rows + source.choice([rows, rows[-1:] * 8])


def changed_plan(source, plan):
    """A plan with case ignored or not, another literal, two literals swapped, other numbers, or the other profile."""
    literals, is_folded, certificate = list(plan[0]), plan[1], plan[2]
    at, other = source.randrange(len(literals)), source.randrange(len(literals))
    way = source.randrange(8)
    if way == 0:
        is_folded = not is_folded
    elif way == 1:
        literals[at], literals[other] = literals[other], literals[at]
    elif way == 2:
        literals[at] = literals[other]
    elif way == 3:
        literals[at] = literals[at].swapcase()
    elif way == 4:
        literals[at] = literals[at][:-1] + bytes(source.choices(LETTERS[1], k=source.randrange(3)))
    elif way == 5:
        certificate = other_rows(source, certificate)
    else:
        certificate = random_cases.changed_numbers(source, certificate)
    return literals, is_folded, certificate


def changed_fields(source, fields):
    """The fields with one of them changed, left out, doubled, or replaced by another."""
    at, other = source.randrange(len(fields)), source.randrange(len(fields))
    field, greatest = fields[at], (1 << 8 * len(fields[at])) - 1
    value = int.from_bytes(field, "big")
    values = [0, 1, greatest, value - 1, value + 1, value * 2, value >> 1, source.randint(0, greatest)]
    changed = number(source.choice(values) & greatest, len(field))
    return fields[:at] + source.choice([[changed], [changed], [changed], [], [field, field], [fields[other]]]) + fields[at + 1 :]


def changed_text(source, text):
    """The text with some bytes changed, put in, left out or copied, or cut off."""
    at, size = source.randint(0, len(text)), source.choice([1, 1, 2, 8, 20])
    some, start = source.randbytes(size), source.randint(0, len(text))
    front, rest = text[:at], text[at:]
    return source.choice([altered(text, (at, some)), front + some + rest, front + rest[size:], front + text[start : start + size] + rest, front])


def random_files(count):
    """Random files of both versions: right files, and files with a plan, fields or bytes changed."""
    source = random.Random(8)
    plans = [random_plan(source) for _ in range(300)]
    olds = [plan for plan in plans if len(plan[2][2]) == 8]
    for _ in range(count):
        version = source.choice([1, 2, 2])
        chosen = source.choices(olds if version == 1 and source.random() < 0.9 else plans, k=source.choice([0, 1, 1, 2, 2, 3, 6]))
        way = source.randrange(8)
        if chosen and way < 3:
            at = source.randrange(len(chosen))
            chosen[at] = changed_plan(source, chosen[at])
        fields = file_fields(chosen, version)
        for _ in range(source.randint(1, 2) if 3 <= way < 5 else 0):
            fields = changed_fields(source, fields)
        text = b"".join(fields)
        for _ in range(source.randint(1, 3) if 5 <= way < 7 else 0):
            text = changed_text(source, text)
        yield text


def shown(text):
    """A file in hexadecimal, or the first bytes of a long worked file."""
    return text.hex() if len(text) < 100000 else f"{text[:40].hex()}.. of {len(text)} bytes"


def read_in(line):
    """The part of a line about a file that says what was read."""
    return line.split(" written ")[0]


def lines_about(texts):
    """The lines that the program writes about these files, in one run, and how it ends."""
    with tempfile.TemporaryDirectory() as folder:
        names = [str(place) for place in range(len(texts))]
        lay_out(folder, dict(zip(names, texts)))
        done = subprocess.run([PROBE, *names], cwd=folder, capture_output=True, timeout=SECONDS)
    return done.stdout.decode().splitlines(), (done.returncode, done.stderr)


def compared(cases):
    """Files with the right lines about them, compared with the lines of the program."""
    cases = iter(cases)
    while batch := list(itertools.islice(cases, BATCH)):
        lines, ending = lines_about([text for text, _ in batch])
        for (text, want), line in zip(batch, lines + [None] * len(batch)):
            yield f"the plan file {shown(text)}", line, want
        yield "a run of plan_probe", (len(lines), *ending), (len(batch), 0, b"")


def worked():
    """The worked files, by both readers."""
    for text, want in ROWS:
        yield f"the plain reader on {shown(text)}", read_in(answer(text)), want
    yield from compared((text, answer(text)) for text, _ in ROWS)
    yield "the file in docs/FORMATS.md", worked_file(), ONE


def old_files():
    """Files of version 1, as they were written: they are read, and the plain writer writes the same bytes."""
    texts = {}
    for name in sorted(os.listdir(OLD)):
        with open(os.path.join(OLD, name), "rb") as file:
            texts[name] = file.read()
    yield "the files of version 1", sorted(texts), sorted(OLD_FILES)
    for name, text in texts.items():
        yield f"the plain writer of {name}", file_of(OLD_FILES[name][1], 1), text
        yield f"the plain reader on {name}", read_in(answer(text)), OLD_FILES[name][0]
    yield from compared((text, answer(text)) for text in texts.values())


def long_lists():
    """Files of plans with as many literals as each version takes, and of as many such plans: they are read, and written as
    they were."""
    for count, buckets, version in (1024, 8, 1), (1024, 16, 2), (4096, 8, 2), (4096, 16, 2):
        literals = [number(place, 2) for place in range(count)]
        plan = literals, False, plain_plan.even_plan_of(literals, buckets)
        yield from compared([(file_of([plan], version), line_of([plan]))])
    text = file_of([]).replace(b"\0\0", b"\0\x40", 1) + file_of([plan])[8:] * 64
    lines, ending = lines_about([text])
    want = "ok 64" + read_in(line_of([plan]))[len("ok 1") :] * 64 + f" written {len(text)}"
    yield "64 plans of 4,096 literals", ([line.rsplit(" ", 1)[0] for line in lines], *ending), ([want], 0, b"")
    few = [number(place, 2) for place in range(16)]
    yield "the plain plan of even runs", plain_plan.even_plan_of(few), plain_plan.plan_of(few)


def drawn(count):
    """Changed and random files."""
    yield from compared((text, answer(text)) for text in itertools.chain(changed_files(), random_files(count)))


def some_drawn():
    """Changed files, and some random files."""
    yield from drawn(RANDOM)


TESTS = (worked, old_files, long_lists, some_drawn)
