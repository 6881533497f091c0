"""`litplan scan`: a table of scans, random lists and texts compared with a plain scan, and workers without memory."""

import random
import resource

from oracles import plain_plan, plain_scan
from support.programs import cut_to, litplan_in_folder

PRONOUNS = b"he\nhis\nshe\nhers\n"
FOUND = b"0 4\n2 4\n3 6\n"
REFUSED = b"litplan: refused (%d)\n"
MISSING = b"litplan: none: cannot be used\n"
MANY = b"a" * 10000
MANY_FOUND = b"".join(b"0 %d\n" % end for end in range(1, 10001))


def words_of(workers, *more):
    """The words of a scan by this number of workers, with the number in a word of its own."""
    return ["scan", "--workers", str(workers), *more]


# Each row: files by name, the words of litplan, standard input; standard output, standard error, status. Where standard
# error ends in "...", only its beginning is compared.
SCANS = [
    ({"p": PRONOUNS}, words_of(1, "p", "-"), b"ushers", FOUND, b"", 0),
    ({"p": PRONOUNS}, words_of(2, "p", "-"), b"ushers", FOUND, b"", 0),
    ({"p": PRONOUNS}, words_of(16, "p", "-"), b"ushers", FOUND, b"", 0),
    ({"p": PRONOUNS, "t": b"ushers"}, ["scan", "p", "t", "--workers=3"], b"", FOUND, b"", 0),
    ({"t": b"ushers"}, words_of(2, "-", "t"), PRONOUNS, FOUND, b"", 0),
    ({"p": PRONOUNS}, words_of(4, "--count", "p", "-"), b"ushers", b"3\n", b"", 0),
    ({"p": PRONOUNS}, words_of(4, "--count", "p", "-"), b"cat", b"0\n", b"", 0),
    ({"p": b"aa"}, words_of(16, "p", "-"), b"aaa", b"0 2\n0 3\n", b"", 0),
    ({"p": b"aa"}, words_of(16, "p", "-"), b"", b"", b"", 0),
    ({"p": b"Cat\n\nDOG\n"}, words_of(3, "-i", "p", "-"), b"cAt dog Cat", b"0 3\n1 7\n0 11\n", b"", 0),
    ({"p": b"Cat\n"}, words_of(3, "p", "-"), b"cat Cat", b"0 7\n", b"", 0),
    # a flag that is given again
    ({"p": b"Cat\n"}, words_of(3, "-i", "--count", "p", "-i", "--count", "-"), b"cat Cat", b"2\n", b"", 0),
    ({"p": b"Cat\n"}, words_of(3, "-ii", "p", "--ignore-case", "-"), b"cat Cat", b"0 3\n0 7\n", b"", 0),
    ({"p": b"a\n"}, words_of(4, "p", "-"), MANY, MANY_FOUND, b"", 0),
    ({"p": b"a\n"}, words_of(4, "--count", "p", "-"), MANY, b"10000\n", b"", 0),
    # the start and the literal of each hit, with bytes that are not printable escaped
    ({"p": PRONOUNS}, words_of(2, "--names", "p", "-"), b"ushers", b'0 2 "he"\n2 1 "she"\n3 2 "hers"\n', b"", 0),
    ({"p": PRONOUNS}, words_of(3, "-i", "--names", "p", "-"), b"USHERS", b'0 2 "he"\n2 1 "she"\n3 2 "hers"\n', b"", 0),
    ({"p": b'a"\\\1\xff\n'}, words_of(1, "p", "--names", "--names", "-"), b'xa"\\\1\xff', b'0 1 "a\\"\\\\\\x01\\xff"\n', b"", 0),
    ({"p": b"b" * 40}, words_of(1, "--names", "p", "-"), b"b" * 41, b'0 0 "%b"\n0 1 "%b"\n' % (b"b" * 40, b"b" * 40), b"", 0),
    ({"p": b"a\n"}, words_of(4, "--names", "p", "-"), MANY, b"".join(b'0 %d "a"\n' % start for start in range(10000)), b"", 0),
    ({"p": b"a\n"}, words_of(1, "--names", "p", "-"), b"b", b"", b"", 0),
    # standard input is opened twice, and is at its end the second time
    ({}, words_of(2, "-", "-"), b"a\n", b"", b"", 0),
    # the file is opened and planned before the input is opened
    ({"p": b"\n"}, words_of(1, "p", "none"), b"", b"", REFUSED % 5, 2),
    ({"p": b""}, words_of(1, "p", "-"), b"a", b"", REFUSED % 5, 2),
    ({"p": b"\n" * 4097}, words_of(1, "p", "none"), b"", b"", REFUSED % 2, 2),
    ({"p": b"".join(b"%d\n" % n for n in range(1000, 5096))}, words_of(3, "p", "-"), b"5095 5096 1000", b"4095 4\n0 14\n", b"", 0),
    ({"p": PRONOUNS}, words_of(2, "--buckets", "16", "p", "-"), b"", b"", b"error: unexpected argument '--buckets' found...", 2),
    ({}, words_of(1, "none", "other"), b"", b"", MISSING, 2),
    ({"p": b"a\n"}, words_of(1, "p", "none"), b"", b"", MISSING, 2),
    ({"p": b"a\n"}, words_of(1, "p", "/"), b"", b"", b"litplan: /: cannot be used\n", 2),
    # words that are no scan
    ({"p": b"a\n"}, words_of(0, "p", "-"), b"a", b"", b"error: invalid value '0' for '--workers <W>': 0 is not in 1..=16...", 2),
    ({"p": b"a\n"}, words_of(17, "p", "-"), b"a", b"", b"error: invalid value '17' for '--workers <W>': 17 is not in 1..=16...", 2),
    ({"p": b"a\n"}, words_of("two", "p", "-"), b"a", b"", b"error: invalid value 'two' for '--workers <W>'...", 2),
    ({"p": b"a\n"}, words_of(1, "--count", "--names", "p", "-"), b"a", b"", b"error: ...", 2),
    ({"p": b"a\n"}, ["scan", "p", "-"], b"a", b"", b"error: the following required arguments...", 2),
    ({"p": b"a\n"}, words_of(1, "p"), b"a", b"", b"error: the following required arguments...", 2),
    ({}, ["scan", "--help"], b"", b"", b"Finds a file's patterns...", 2),
]


def rows():
    """Each row; a match in a text that 1 to 16 workers divide; and a full device."""
    for files, words, stdin, stdout, stderr, status in SCANS:
        got = cut_to(litplan_in_folder(files, words, stdin), stderr)
        yield f"litplan {words!r:.60} on {stdin!r:.20}", got, (status, stdout, stderr)
    for end in 31, 32, 33, 34:
        text = b"xyz".rjust(end, b".").ljust(100, b".")
        for workers in range(1, 17):
            got = litplan_in_folder({"p": b"xyz\n"}, words_of(workers, "p", "-"), text)
            yield f"an end at {end} by {workers} workers", got, (0, b"0 %d\n" % end, b"")
    with open("/dev/full", "wb") as full:
        got = litplan_in_folder({"p": b"a\n"}, words_of(2, "p", "-"), MANY, stdout=full)
        yield "litplan scan on a full device", got, (2, None, REFUSED % 18)


def random_scans():
    """Random lists and texts, each by a random number of workers."""
    source = random.Random(6)
    for _ in range(1000):
        literals = [bytes(source.choices(b"abAB", k=source.randrange(1, 6))) for _ in range(source.randrange(1, 9))]
        text = bytes(source.choices(b"aabbABc\n", k=source.randrange(200)))
        is_folded, workers = source.random() < 0.5, source.randrange(1, 17)
        words = words_of(workers, "p", "-", *["-i"] * is_folded)
        got = litplan_in_folder({"p": b"\n".join(literals)}, words, text)
        wanted = plain_scan.plain_scan(plain_plan.literals_of(literals, is_folded), text, is_folded)
        yield f"{workers} workers for {literals!r:.100} in {text!r:.200}", got, (0, wanted, b"")


def spans():
    """Hits at and across the borders of the spans of 16 MiB that each worker scans before hits are written; and a count of
    more hits than the memory would hold."""
    span = 16 << 20
    text = bytearray(b"." * (2 * span + 1000))
    starts = [border + shift for border in (span, 2 * span) for shift in (-20, -9, -3, 4, 12)]
    for start in starts:
        text[start : start + 6] = b"needle"
    ends = b"".join(b"0 %d\n" % (start + 6) for start in starts)
    names = b"".join(b'0 %d "needle"\n' % start for start in starts)
    for workers in 1, 2, 3:
        for more, wanted in ((), ends), (("--names",), names), (("--count",), b"%d\n" % len(starts)):
            got = litplan_in_folder({"p": b"needle\n"}, words_of(workers, *more, "p", "-"), bytes(text))
            yield f"hits at the borders of spans by {workers} workers {more}", got, (0, wanted, b"")
    # All these hits at once would take a gibibyte, those of a span a quarter, and twice that as they grow.
    most = 900 << 20
    how = {"preexec_fn": lambda: resource.setrlimit(resource.RLIMIT_AS, (most, most))}
    got = litplan_in_folder({"p": b"a\n"}, words_of(1, "--count", "p", "-"), b"a" * (4 * span), **how)
    yield "a count of 64 Mi hits in 900 MiB", got, (0, b"%d\n" % (4 * span), b"")


def workers_without_memory():
    """Workers that cannot be started for want of memory: the output stays the same."""
    files = {"p": PRONOUNS, "t": b"ushers" * 1000}
    want = plain_scan.plain_scan(plain_plan.literals_of(PRONOUNS.split(), False), files["t"], False)
    for mebibytes in 16, 24, 32, 64, 128:
        most = mebibytes << 20
        how = {"preexec_fn": lambda most=most: resource.setrlimit(resource.RLIMIT_AS, (most, most))}
        got = litplan_in_folder(files, words_of(16, "p", "t"), b"", **how)
        yield f"16 workers in {mebibytes} MiB", got, (0, want, b"")


TESTS = (rows, random_scans, spans, workers_without_memory)
