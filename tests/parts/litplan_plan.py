"""`litplan plan` and `litplan check`: tables of lists and certificates, and random lists compared with a plain planner."""

import random
import tempfile

from cases import random_cases
from oracles import plain_plan, plain_plan_file
from support.programs import cut_to, lay_out, litplan, litplan_in_folder

# The certificate of three literals, and of one.
THREE = b"""litcert 1
literals 3
ends 1 2 3
cost 934
1 1559 804 232
2 1036 583 232
3 934 583 232
4 934 583 232
5 934 583 232
6 934 583 232
7 934 583 232
8 934 583 232
end
"""
# The same of sixteen buckets.
THREE_OF_SIXTEEN = THREE.replace(b"litcert 1", b"litcert 2").replace(b"end\n", b"%bend\n" % b"".join(b"%d 934 583 232\n" % r for r in range(9, 17)))
CAT = b"litcert 1\nliterals 1\nends 1\ncost 351\n%bend\n" % b"".join(b"%d 351\n" % r for r in range(1, 9))
# A list of as many bytes of patterns as it may have.
FULL = (b"a" * 4095 + b"\n") * 256 + b"a" * 256
# The longest certificate of each number of buckets.
LONGEST = {buckets: plain_plan.spelled(([65535] * buckets, plain_plan.NUMBER_MAX, [[plain_plan.NUMBER_MAX] * 4096] * buckets)) for buckets in (8, 16)}
# Patterns of two bytes, all different.
PAIRS = [b"%c%c" % (48 + number // 64, 48 + number % 64) for number in range(4096)]
LETTERS = b"".join(b"%c\n" % letter for letter in b"abcdefghi")
NINE_OF_EIGHT = b"".join(b"abcdefg%d\n" % number for number in range(1, 10))
REFUSED = b"litplan: refused (%d)\n"
# The plan file of one literal of one byte.
ONE = b"".join(plain_plan_file.file_fields([([b"a"], False, plain_plan.plan_of([b"a"], 8))]))

# Each row: files by name, the words of litplan, standard input; standard output, standard error, status. Words name files
# of the folder. Where standard error ends in "...", only its beginning is compared.
PLANS = [
    ({}, ["plan", "-"], b"horse\ncat\ndog\n", THREE, b"", 0),
    ({"words": b"dog\nhorse\ncat\n\ncat"}, ["plan", "words"], b"", THREE, b"", 0),
    ({}, ["plan", "-i", "-"], b"Cat\ncat\n", CAT, b"", 0),
    ({}, ["plan", "--ignore-case", "-"], b"Cat\ncat\n", CAT, b"", 0),
    ({}, ["plan", "-"], b"\n", b"", REFUSED % 5, 2),
    ({}, ["plan", "-"], b"", b"", REFUSED % 5, 2),
    ({}, ["plan", "--buckets", "8", "-"], b"horse\ncat\ndog\n", THREE, b"", 0),
    ({}, ["plan", "-", "--buckets=16"], b"horse\ncat\ndog\n", THREE_OF_SIXTEEN, b"", 0),
    ({}, ["plan", "-i", "--buckets", "16", "-"], b"CAT\nDog\ncat\nHORSE\n", THREE_OF_SIXTEEN, b"", 0),
    ({}, ["plan", "--buckets", "16", "-"], b"\n", b"", REFUSED % 5, 2),
    ({}, ["plan", "--buckets", "16", "-"], b"\n" * 4097, b"", REFUSED % 2, 2),
    ({}, ["plan", "-"], FULL, plain_plan.spelled(plain_plan.plan_of([b"a" * 256, b"a" * 4095])), b"", 0),
    ({}, ["plan", "-"], FULL + b"\nx", b"", REFUSED % 7, 2),
    ({}, ["plan", "-"], b"\n" * 1052672, b"", REFUSED % 2, 2),
    ({}, ["plan", "-"], b"\n" * 1052673, b"", REFUSED % 7, 2),
    ({}, ["plan", "-"], b"a" * 4096, b"", REFUSED % 3, 2),
    ({}, ["plan", "none"], b"", b"", b"litplan: none: cannot be used\n", 2),
    ({}, ["plan", "/"], b"", b"", b"litplan: /: cannot be used\n", 2),
    ({"c": THREE}, ["check", "-", "c"], b"dog\nhorse\ncat", b"optimal 934\n", b"", 0),
    ({"c": CAT}, ["check", "-i", "-", "c"], b"CAT", b"optimal 351\n", b"", 0),
    # a plan of a plan file
    ({"f": ONE}, ["check", "--plan", "f"], b"", b"optimal 4296\n", b"", 0),
    ({}, ["check", "--plan", "-", "0"], ONE, b"optimal 4296\n", b"", 0),
    ({"f": ONE}, ["check", "--plan", "f", "1"], b"", b"", b"litplan: f: no plan 1\n", 2),
    ({"f": ONE[:-1]}, ["check", "--plan", "f"], b"", b"", REFUSED % 10, 2),
    ({}, ["check", "--plan", "none"], b"", b"", b"litplan: none: cannot be used\n", 2),
    ({"f": ONE}, ["check", "--plan", "f", "0", "c"], b"", b"", b"error: ...", 2),
    ({"f": ONE}, ["check", "-i", "--plan", "f"], b"", b"", b"error: ...", 2),
    ({"f": ONE}, ["check", "--plan", "f", "-1"], b"", b"", b"error: ...", 2),
    ({"f": ONE}, ["check", "--plan", "f", "x"], b"", b"", b"litplan: no such number of a plan\n", 2),
    ({"c": CAT}, ["check", "-", "c"], b"", b"not certified: length\n", b"", 1),
    ({"c": THREE}, ["check", "-", "c"], b"a\n", b"not certified: length\n", b"", 1),
    ({"c": THREE.replace(b"3 934 583", b"3 934 584")}, ["check", "-", "c"], b"cat\ndog\nhorse", b"not certified: step 3 1 2\n", b"", 1),
    ({"c": THREE.replace(b"8 934", b"8 935")}, ["check", "-", "c"], b"cat\ndog\nhorse", b"not certified: total\n", b"", 1),
    ({"c": THREE.replace(b"1 2 3", b"1 1 3")}, ["check", "-", "c"], b"cat\ndog\nhorse", b"not certified: ends\n", b"", 1),
    ({"c": CAT.replace(b"1 351", b"1 352")}, ["check", "-", "c"], b"cat", b"not certified: end row 1 0\n", b"", 1),
    ({"c": THREE + b"x\n"}, ["check", "-", "c"], b"cat\ndog\nhorse", b"", REFUSED % 9, 2),
    ({"c": THREE[:50]}, ["check", "-", "c"], b"cat\ndog\nhorse", b"", REFUSED % 9, 2),
    ({"c": b"1" * 1000000}, ["check", "-", "c"], b"cat\ndog\nhorse", b"", REFUSED % 9, 2),
    ({"c": LONGEST[8]}, ["check", "-", "c"], b"\n".join(PAIRS), b"not certified: ends\n", b"", 1),
    ({"c": LONGEST[16]}, ["check", "-", "c"], b"\n".join(PAIRS), b"not certified: ends\n", b"", 1),
    ({"c": THREE_OF_SIXTEEN}, ["check", "-", "c"], b"cat\ndog\nhorse", b"optimal 934\n", b"", 0),
    ({"c": THREE_OF_SIXTEEN + b"x\n"}, ["check", "-", "c"], b"cat\ndog\nhorse", b"", REFUSED % 9, 2),
    ({"c": THREE_OF_SIXTEEN.replace(b"litcert 2", b"litcert 1")}, ["check", "-", "c"], b"cat\ndog\nhorse", b"", REFUSED % 9, 2),
    ({"c": THREE.replace(b"litcert 1", b"litcert 2")}, ["check", "-", "c"], b"cat\ndog\nhorse", b"", REFUSED % 9, 2),
    ({"c": THREE.replace(b"litcert 1", b"litcert 3")}, ["check", "-", "c"], b"cat\ndog\nhorse", b"", REFUSED % 9, 2),
    ({}, ["check", "-", "-"], b"cat", b"", b"litplan: -: cannot be used\n", 2),
    ({"-": CAT}, ["check", "-", "-"], b"cat", b"optimal 351\n", b"", 0),
    ({"-": CAT}, ["check", "none", "-"], b"cat", b"", b"litplan: none: cannot be used\n", 2),
    ({}, ["check", "-", "/"], b"cat", b"", b"litplan: /: cannot be used\n", 2),
    ({}, ["plan"], b"", b"", b"error: the following required arguments...", 2),
    ({}, [], b"", b"", b"...", 2),
    ({}, ["plan", "--help"], b"", b"", b"Prints the certificate...", 2),
    ({}, ["plan", "--buckets", "9", "-"], b"a", b"", b"error: invalid value '9' for '--buckets <B>'...", 2),
    ({}, ["plan", "--buckets", "", "-"], b"a", b"", b"error: ...", 2),
    ({}, ["plan", "-", "--buckets"], b"a", b"", b"error: a value is required for '--buckets <B>'...", 2),
    ({}, ["check", "--buckets", "8", "-", "c"], b"a", b"", b"error: unexpected argument '--buckets' found...", 2),
]

# Each row: patterns, the number of buckets, and the ends and the cost of the plan.
HEADS = [
    (LETTERS, 8, b"1 2 3 4 5 6 7 9", 46656),
    (LETTERS, 16, b"1 2 3 4 5 6 7 8 9", 38664),
    (NINE_OF_EIGHT, 8, b"4 9", 728),
    (NINE_OF_EIGHT, 16, b"4 9", 728),
    (b"\n".join(PAIRS[:1024]), 8, b"128 256 384 512 640 768 896 1024", 67110464),
    (b"\n".join(PAIRS), 8, b" ".join(b"%d" % (512 * r) for r in range(1, 9)), 8 * (200 + 512 * 512 * 512)),
    (b"\n".join(PAIRS), 16, b" ".join(b"%d" % (256 * r) for r in range(1, 17)), 16 * (200 + 512 * 256 * 256)),
]

# Certificates of the three literals with other numbers, and what the check says.
CHECKS = [
    (THREE.replace(b"2 1036", b"2 1037"), b"not certified: step 2 0 2\n"),
    (THREE.replace(b"2 1036", b"2 1560"), b"not certified: end row 2 0\n"),
    (THREE.replace(b"4 934 583 232", b"4 934 583 18446744073709551615"), b"not certified: end row 4 2\n"),
    (THREE.replace(b"1 1559", b"1 0"), b"optimal 934\n"),
    (THREE_OF_SIXTEEN.replace(b"16 934", b"16 935"), b"not certified: total\n"),
    (THREE_OF_SIXTEEN.replace(b"9 934", b"9 1560"), b"not certified: end row 9 0\n"),
    (THREE_OF_SIXTEEN.replace(b"12 934 583", b"12 934 584"), b"not certified: step 12 1 2\n"),
    (plain_plan.spelled(([1, 2, 3], 934, [[0] * 3] * 16)), b"not certified: total\n"),
    (plain_plan.spelled(([1, 2, 3], 934, [[0] * 3] * 8)), b"not certified: total\n"),
    (plain_plan.spelled(([1, 1, 3], 934, [[0] * 3] * 8)), b"not certified: ends\n"),
    (plain_plan.spelled(([1, 2, 4], 934, [[0] * 3] * 8)), b"not certified: ends\n"),
    (plain_plan.spelled(([2, 3, 3], 934, [[0] * 3] * 8)), b"not certified: ends\n"),
]


def rows():
    """Each row, in a folder with its files; each check; a full device; and certificates with a long tail of one byte."""
    for files, words, stdin, stdout, stderr, status in PLANS:
        got = cut_to(litplan_in_folder(files, words, stdin), stderr)
        yield f"litplan {words!r:.40} on {stdin!r:.20}", got, (status, stdout, stderr)
    for text, said in CHECKS:
        got = litplan_in_folder({"c": text}, ["check", "-", "c"], b"cat\ndog\nhorse")
        yield f"a check of {text!r:.200}", got, (int(said != b"optimal 934\n"), said, b"")
    with open("/dev/full", "wb") as full:
        got = litplan(["plan", "-"], b"cat\n", stdout=full)
        yield "litplan on a full device", got, (2, None, REFUSED % 18)
    for front in b"", b"litcert 1\nliterals ", THREE[:31], b"litcert 2\nliterals 4096\nends 1\ncost 0\n1 0", THREE, THREE_OF_SIXTEEN:
        for byte in b"1", b" ", b"x":
            files = {"c": front + byte * (1 << 21)}
            got = litplan_in_folder(files, ["check", "-", "c"], b"cat\ndog\nhorse")
            yield f"a certificate that goes on with {byte!r} after {front!r:.60}", got, (2, b"", REFUSED % 9)


def heads():
    """The ends and costs of some plans; the plain check passes the certificate of nine letters and sixteen buckets."""
    for patterns, buckets, ends, cost in HEADS:
        status, text, messages = litplan(["plan", "--buckets", str(buckets), "-"], patterns)
        lines = text.split(b"\n")
        got = status, lines[2:4], messages
        yield f"{buckets} buckets for {patterns!r:.40}", got, (0, [b"ends " + ends, b"cost %d" % cost], b"")
        got = litplan_in_folder({"c": text}, ["check", "-", "c"], patterns)
        yield f"a check of {buckets} buckets for {patterns!r:.40}", got, (0, b"optimal %d\n" % cost, b"")
    text = litplan(["plan", "--buckets", "16", "-"], LETTERS)[1]
    certificate = plain_plan.read_certificate(text)
    yield "a plain check of nine letters", plain_plan.failure(LETTERS.split(), certificate), None


def random_plans():
    """A thousand random lists, and ten long ones, with both numbers of buckets, compared with a plain planner. The plans of
    the thousand also pass a plain check. Of all plans with sixteen buckets enough use more than eight."""
    beyond_eight = 0
    for patterns, is_folded in [*random_cases.lists(1000), *random_cases.long_lists()]:
        literals, stdin, flags = plain_plan.literals_of(patterns, is_folded), b"\n".join(patterns), ["-i"] * is_folded
        cuts = plain_plan.first_cuts(literals, 16)
        for buckets in 8, 16:
            got = litplan(["plan", "-", "--buckets", str(buckets), *flags], stdin)
            wanted = plain_plan.certificate_of(cuts[:buckets])
            yield f"a plan with {buckets} buckets of {literals!r:.200}", got, (0, plain_plan.spelled(wanted), b"")
            if len(literals) < 100:
                certificate = plain_plan.read_certificate(got[1])
                yield f"a plain check of that plan of {literals!r:.200}", plain_plan.failure(literals, certificate), None
        beyond_eight += len(wanted[0]) > 8
    yield f"{beyond_eight} plans with more than eight runs, a hundred at least", beyond_eight >= 100, True


def random_checks():
    """Certificates of random lists, right and wrong, compared with a plain check."""
    source = random.Random(5)
    with tempfile.TemporaryDirectory() as folder:
        for number, (patterns, is_folded) in enumerate(random_cases.lists()):
            literals, stdin, flags = plain_plan.literals_of(patterns, is_folded), b"\n".join(patterns), ["-i"] * is_folded
            certificate = plain_plan.plan_of(literals, 16 if number % 2 else 8)
            for text in random_cases.certificates(source, certificate):
                lay_out(folder, {"c": text})
                got = litplan(["check", "-", "c"] + flags, stdin, cwd=folder)
                yield f"a check of {text!r:.300} for {literals!r:.100}", got, plain_plan.answer(literals, text)


TESTS = (rows, heads, random_plans, random_checks)
