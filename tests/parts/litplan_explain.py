"""`litplan explain`: worked tables and drawings of plans, also of plan files, and random lists compared with a plain model;
where lists, plan files and certificates are wrong."""

import os
import random
import xml.etree.ElementTree

from oracles import plain_plan, plain_plan_file, plain_view
from support.programs import TOP, litplan_in_folder

UNUSABLE = b"litplan: %s: cannot be used\n"
# The list of the worked table of docs/FORMATS.md.
WORDS = b"he\nhis\nshe\nhers\nHe\n\nhis\n"

# Three animals, one of them twice, and a null pattern; and bytes that a table or a drawing must escape.
ANIMALS, SIGNS = b"cat\ndog\n\nhorse\ndog\n", b"a<b\n\"&\\\1\n"
TABLE = rb"""bucket  literals  shortest  bytes  weight        cost    %   endings  first and last literal
     1         1         3      3     151         351   37         1  "cat" to "cat"
     2         1         3      3     151         351   37         1  "dog" to "dog"
     3         1         5      3      32         232   24         1  "horse" to "horse"
total                                             934  100
one bucket for all                               1559  166
even eighths                                      934  100
equal to an earlier line: 1
  line 5 is line 2 again
null patterns: 1
"""
DRAWING = rb"""<svg xmlns="http://www.w3.org/2000/svg" viewBox="0 0 720 370" font-family="sans-serif" font-size="13">
<style>text { fill: #24292f } rect { fill: #4f8fd0; stroke: #fff } path { stroke: #24292f }
@media (prefers-color-scheme: dark) { text { fill: #e6edf3 } rect { stroke: #0d1117 } path { stroke: #e6edf3 } }</style>
<text x="40" y="24">cost 934; one bucket for all 1559; even eighths 934</text>
<g><title>bucket 1: literals 1, shortest 3, cost 351, % of all 37  "cat" to "cat"</title>
<rect x="40" y="60" width="213" height="200"/>
<text x="43" y="55">351</text>
<text x="43" y="275">3</text>
</g>
<g><title>bucket 2: literals 1, shortest 3, cost 351, % of all 37  "dog" to "dog"</title>
<rect x="253" y="60" width="213" height="200"/>
<text x="256" y="55">351</text>
<text x="256" y="275">3</text>
</g>
<g><title>bucket 3: literals 1, shortest 5, cost 232, % of all 24  "horse" to "horse"</title>
<rect x="466" y="128" width="214" height="132"/>
<text x="469" y="123">232</text>
<text x="469" y="275">5</text>
</g>
<path d="M40 260H680"/>
<text x="40" y="300">literals by length; below a bucket the bytes of its shortest, above it its cost</text>
<text x="40" y="324">bucket 1: literals 1, shortest 3, cost 351, % of all 37</text>
<text x="40" y="342">bucket 2: literals 1, shortest 3, cost 351, % of all 37</text>
<text x="40" y="360">bucket 3: literals 1, shortest 5, cost 232, % of all 24</text>
</svg>
"""
TABLE_OF_SIGNS = rb"""bucket  literals  shortest  bytes  weight        cost    %   endings  first and last literal
     1         1         3      3     151         351   57         1  "a<b" to "a<b"
     2         1         4      3      64         264   42         1  "\"&\\\x01" to "\"&\\\x01"
total                                             615  100
one bucket for all                                804  130
even eighths                                      615  100
equal to an earlier line: 0
null patterns: 0
"""
DRAWING_OF_SIGNS = rb"""<svg xmlns="http://www.w3.org/2000/svg" viewBox="0 0 720 352" font-family="sans-serif" font-size="13">
<style>text { fill: #24292f } rect { fill: #4f8fd0; stroke: #fff } path { stroke: #24292f }
@media (prefers-color-scheme: dark) { text { fill: #e6edf3 } rect { stroke: #0d1117 } path { stroke: #e6edf3 } }</style>
<text x="40" y="24">cost 615; one bucket for all 804; even eighths 615</text>
<g><title>bucket 1: literals 1, shortest 3, cost 351, % of all 57  "a&lt;b" to "a&lt;b"</title>
<rect x="40" y="60" width="320" height="200"/>
<text x="43" y="55">351</text>
<text x="43" y="275">3</text>
</g>
<g><title>bucket 2: literals 1, shortest 4, cost 264, % of all 42  "\"&amp;\\\x01" to "\"&amp;\\\x01"</title>
<rect x="360" y="110" width="320" height="150"/>
<text x="363" y="105">264</text>
<text x="363" y="275">4</text>
</g>
<path d="M40 260H680"/>
<text x="40" y="300">literals by length; below a bucket the bytes of its shortest, above it its cost</text>
<text x="40" y="324">bucket 1: literals 1, shortest 3, cost 351, % of all 57</text>
<text x="40" y="342">bucket 2: literals 1, shortest 4, cost 264, % of all 42</text>
</svg>
"""
# Nine letters, which sixteen buckets have one by one.
LETTERS = b"".join(b"%c\n" % letter for letter in b"abcdefghi")
TABLE_OF_LETTERS = b"""bucket  literals  shortest  bytes  weight        cost    %%   endings  first and last literal
%btotal                                           38664  100
one bucket for all                             331976  858
even sixteenths                                 38664  100
equal to an earlier line: 0
null patterns: 0
""" % b"".join(
    b"%6d         1         1      1    4096        4296   11     65536  \"%c\" to \"%c\"\n" % (number, letter, letter)
    for number, letter in enumerate(b"abcdefghi", 1))
# Their caption with sixteen buckets, and with eight.
CAPTIONS = {
    16: b"cost 38664; one bucket for all 331976; even sixteenths 38664",
    8: b"cost 46656; one bucket for all 331976; even eighths 46656",
}
# Each row: patterns, options, and the text.
WORKED = [
    (ANIMALS, [], TABLE),
    (ANIMALS, ["--svg"], DRAWING),
    (SIGNS, [], TABLE_OF_SIGNS),
    (SIGNS, ["--svg"], DRAWING_OF_SIGNS),
    (ANIMALS, ["--buckets", "8"], TABLE),
    (ANIMALS, ["--buckets=8", "--svg"], DRAWING),
    (ANIMALS, ["--buckets=16"], TABLE.replace(b"even eighths   ", b"even sixteenths")),
    (ANIMALS, ["--svg", "--buckets", "16"], DRAWING.replace(b"even eighths", b"even sixteenths")),
    (LETTERS, ["--buckets", "16"], TABLE_OF_LETTERS),
]

TOO_LARGE = b"more than 1048576 bytes in all lines, or 1052672 with their newlines\n"
BAD_LINE = b"line %d: wrong, missing or after the end\n"


def plans_of(lists, version=2):
    """The plan file of some lists, each its patterns, whether case is ignored, and the number of buckets."""
    plans = []
    for patterns, is_folded, buckets in lists:
        literals = plain_plan.literals_of(patterns, is_folded)
        plans.append((literals, is_folded, plain_plan.plan_of(literals, buckets)))
    return b"".join(plain_plan_file.file_fields(plans, version))


# The patterns of three lists and their plan file, of one literal, and of two; and a certificate.
LISTS = [(ANIMALS.split(), False, 8), (WORDS.split(), True, 8), (LETTERS.split(), False, 16)]
PLANS, FILE, TWO = plans_of(LISTS), plans_of([([b"a"], False, 8)]), plans_of([([b"a", b"b"], False, 8)])
CERTIFICATE = plain_plan.spelled(plain_plan.plan_of(plain_plan.literals_of(ANIMALS.split(), False), 8))

# Each row: files, the words, standard input, and the message, which comes with status 2.
REFUSALS = [
    ({}, ["explain", "none"], b"", UNUSABLE % b"none"),
    ({"p": None}, ["explain", "p"], b"", UNUSABLE % b"p"),
    ({}, ["explain", "--plan", "none"], b"", UNUSABLE % b"none"),
    ({"f": None}, ["explain", "--plan", "f"], b"", UNUSABLE % b"f"),
    ({"f": PLANS}, ["explain", "--plan", "f", "3"], b"", b"litplan: f: no plan 3\n"),
    ({}, ["explain", "--plan", "-", "18446744073709551615"], PLANS, b"litplan: -: no plan 18446744073709551615\n"),
    ({"f": b"LPLF\0\2\0\0"}, ["explain", "--plan", "f"], b"", b"litplan: f: no plan 0\n"),
    ({}, ["explain", "--plan", "f", "18446744073709551616"], b"", b"litplan: no such number of a plan\n"),
    ({}, ["explain", "--plan", "f", "one"], b"", b"litplan: no such number of a plan\n"),
    ({}, ["explain", "--certificate", "none"], b"", UNUSABLE % b"none"),
    ({"c": None}, ["explain", "--certificate", "c"], b"", UNUSABLE % b"c"),
    ({}, ["explain", "--certificate", "-"], CERTIFICATE, UNUSABLE % b"-"),
]

# Each row: files, the words, standard input, and where the input is wrong, which comes with status 1.
FLAWS = [
    ({}, ["explain", "-"], b"", b"no line has a literal\n"),
    ({}, ["explain", "--svg", "-"], b"\n\n", b"no line has a literal\n"),
    ({}, ["explain", "--buckets", "16", "-"], b"", b"no line has a literal\n"),
    ({}, ["explain", "-"], b"a" * 4096, b"line 1: more than 4095 bytes\n"),
    ({"p": b"a\n\n" + b"b" * 4095 + b"\n" + b"c" * 4096 + b"\n" + b"d" * 5000}, ["explain", "p"], b"", b"line 4: more than 4095 bytes\n"),
    ({}, ["explain", "-"], b"\n" * 4097, b"line 4097: more than 4096 lines\n"),
    ({}, ["explain", "--buckets", "16", "-"], b"\n" * 4097, b"line 4097: more than 4096 lines\n"),
    ({}, ["explain", "-"], b"\n" * 4096 + b"a" * 4096, b"line 4097: more than 4096 lines\n"),
    ({}, ["explain", "-"], (b"a" * 4095 + b"\n") * 257, TOO_LARGE),
    ({}, ["explain", "-"], b"\n" * 1052673, TOO_LARGE),
    # a plan file, at the first byte of the field that is wrong
    ({"f": PLANS[:-1]}, ["explain", "--plan", "f"], b"", b"byte %d: the field is cut short\n" % (len(PLANS) - 8)),
    ({"f": FILE[:88]}, ["explain", "--plan", "f", "1"], b"", b"byte 81: the field is cut short\n"),
    ({}, ["explain", "--plan", "-"], b"", b"byte 0: the field is cut short\n"),
    ({}, ["explain", "--plan", "-"], b"LPLE\0\2\0\0", b"byte 0: a plan file begins with LPLF\n"),
    ({}, ["explain", "--plan", "-"], b"a\nb\n", b"byte 0: a plan file begins with LPLF\n"),
    ({}, ["explain", "--plan", "-"], FILE[:5] + b"\3" + FILE[6:], b"byte 4: the version is neither 1 nor 2\n"),
    ({}, ["explain", "--plan", "-"], FILE[:7] + b"\101" + FILE[8:], b"byte 6: the number of plans or of literals is out of range\n"),
    ({}, ["explain", "--plan", "-"], FILE[:8] + b"\4" + FILE[9:], b"byte 8: a flag is unknown in this version\n"),
    ({}, ["explain", "--plan", "-"], FILE[:10] + b"\0" + FILE[11:], b"byte 9: the number of plans or of literals is out of range\n"),
    ({}, ["explain", "--plan", "-"], FILE[:12] + b"\0" + FILE[13:], b"byte 11: the literal is empty, too long or not folded\n"),
    ({}, ["explain", "--plan", "-"], FILE[:14] + b"\0" + FILE[15:], b"byte 14: the number of runs is out of range\n"),
    ({}, ["explain", "--plan", "-"], FILE[:24] + b"\0" + FILE[25:], b"byte 8: not certified: total\n"),
    ({}, ["explain", "--plan", "-"], FILE + b"x", b"byte 89: bytes follow the last plan\n"),
    ({}, ["explain", "--plan", "-"], TWO.replace(b"\0\1b", b"\0\1a"), b"byte 14: the literal is not after the previous literal\n"),
    # a certificate, at its first wrong line
    ({"c": CERTIFICATE + b"x"}, ["explain", "--certificate", "c"], b"", BAD_LINE % 14),
    ({"c": CERTIFICATE[:-4]}, ["explain", "--certificate", "c"], b"", BAD_LINE % 13),
    ({"c": b""}, ["explain", "--certificate", "c"], b"", BAD_LINE % 1),
    ({"c": CERTIFICATE.replace(b"cost ", b"price ")}, ["explain", "--certificate", "c"], b"", BAD_LINE % 4),
]


def lists():
    """Patterns of few letters and of all bytes but newline, some of them null or equal, and whether case is ignored."""
    source = random.Random(11)
    letters = [b"abAB", b"aA0<&>\"\\ ", bytes(set(range(256)) - {10})]
    for number in range(60):
        count, longest = source.randrange(1, 12 if number < 40 else 60), source.choice([1, 3, 8, 30])
        chosen = [bytes(source.choices(source.choice(letters), k=source.randrange(longest + 1))) for _ in range(count)]
        yield [*chosen, b"z", *source.choices(chosen, k=source.randrange(14))], source.random() < 0.5
    yield [b"%d" % place for place in range(1024)], False
    # One bucket for all would cost more than a hundred times as much, which takes five digits and more in percent.
    yield [b"q", *(b"%030d" % place for place in range(600))], False


def is_xml(text):
    """Whether a text is well-formed."""
    try:
        xml.etree.ElementTree.fromstring(text.decode())
    except xml.etree.ElementTree.ParseError:
        return False
    return True


def rows():
    """The worked tables and drawings, options in other places, and refusals."""
    for patterns, words, text in WORKED:
        got = litplan_in_folder({}, ["explain", "-", *words], patterns)
        yield f"litplan explain {words} of {patterns}", got, (0, text, b"")
    patterns = WORDS.split(b"\n")[:-1]
    for words, is_folded in (["explain", "-"], False), (["explain", "-i", "-"], True), (["explain", "-", "--ignore-case", "-i"], True):
        wanted = plain_view.text_of(patterns, is_folded)
        yield f"litplan {words}", litplan_in_folder({}, words, WORDS), (0, wanted, b"")
    for words in ["explain", "--svg", "p"], ["explain", "p", "--svg", "--svg"]:
        wanted = plain_view.drawing_of(patterns, False)
        yield f"litplan {words}", litplan_in_folder({"p": WORDS}, words, b""), (0, wanted, b"")
    for files, words, stdin, message in REFUSALS:
        yield f"litplan {words} on {stdin!r:.20}", litplan_in_folder(files, words, stdin), (2, b"", message)
    for files, words, stdin, flaw in FLAWS:
        yield f"litplan {words} on {stdin!r:.20}", litplan_in_folder(files, words, stdin), (1, flaw, b"")
    for buckets, caption in CAPTIONS.items():
        drawing = litplan_in_folder({}, ["explain", "--svg", "-", "--buckets", str(buckets)], LETTERS)[1]
        bars = min(buckets, 9)
        yield f"a caption with {buckets} buckets", (caption in drawing, drawing.count(b"<rect x=")), (True, bars)
    longest = b"".join(b"%d\n" % number for number in range(1000, 5096))
    for buckets in 8, 16:
        lines = litplan_in_folder({}, ["explain", "-", "--buckets", str(buckets)], longest)[1].split(b"\n")
        rows_of_it = [line.split()[:2] for line in lines[1 : buckets + 1]]
        wanted = [[b"%d" % number, b"%d" % (4096 // buckets)] for number in range(1, buckets + 1)]
        yield f"the longest list with {buckets} buckets", rows_of_it, wanted
        for words, shown in ([], plain_view.text_of), (["--svg"], plain_view.drawing_of):
            got = litplan_in_folder({}, ["explain", "-", "--buckets", str(buckets), *words], longest)
            wanted = shown(longest.split(), False, buckets, plain_plan.even_plan_of)
            yield f"the longest list with {buckets} buckets {words}", got, (0, wanted, b"")
    got = litplan_in_folder({}, ["explain", "--buckets", "7", "-"], ANIMALS)
    yield "litplan explain with seven buckets", (got[0], got[1], got[2][:45]), (2, b"", b"error: invalid value '7' for '--buckets <B>'\n")
    got = litplan_in_folder({}, ["explain"], b"")
    yield "litplan explain without a file", (got[0], got[1], got[2][:45]), (2, b"", b"error: the following required arguments were ")


def plans():
    """Plans of plan files, by number, as a table and as a drawing; and certificates."""
    for number, (patterns, is_folded, buckets) in enumerate(LISTS):
        literals = plain_plan.literals_of(patterns, is_folded)
        for words, shown in ([], plain_view.text_of), (["--svg"], plain_view.drawing_of):
            wanted = (0, shown(literals, is_folded, buckets), b"")
            got = litplan_in_folder({"f": PLANS}, ["explain", *words, "--plan", "f", str(number)], b"")
            yield f"plan {number} {words}", got, wanted
            got = litplan_in_folder({}, ["explain", "--plan=-", *words, str(number)], PLANS)
            yield f"plan {number} {words} of standard input", got, wanted
        got = litplan_in_folder({"f": PLANS}, ["check", "--plan", "f", str(number)], b"")
        cost = plain_plan.plan_of(literals, buckets)[1]
        yield f"plan {number} checked", got, (0, b"optimal %d\n" % cost, b"")
    wanted = (0, plain_view.text_of(plain_plan.literals_of(LISTS[0][0], False), False), b"")
    yield "the first plan", litplan_in_folder({"f": PLANS}, ["explain", "--plan", "f"], b""), wanted
    old = plans_of(LISTS[:1], version=1)
    yield "a plan of version 1", litplan_in_folder({"f": old}, ["explain", "--plan", "f", "0"], b""), wanted
    yield "a certificate", litplan_in_folder({"c": CERTIFICATE}, ["explain", "--certificate", "c"], b""), (0, b"runs 3, cost 934\n", b"")
    for words in (["--plan", "f", "-i"], ["--plan", "f", "--certificate", "c"], ["--certificate", "c", "p"], ["--plan", "f", "0", "p"]):
        got = litplan_in_folder({"f": PLANS, "c": CERTIFICATE}, ["explain", *words], b"")
        yield f"litplan explain {words}", (got[0], got[1], got[2][:6]), (2, b"", b"error:")


def random_plans():
    """Random lists, as a table and as a drawing, which is well-formed."""
    for patterns, is_folded in lists():
        text, flags = b"".join(pattern + b"\n" for pattern in patterns), ["-i"] * is_folded
        got = litplan_in_folder({}, ["explain", "-", *flags], text)
        yield f"a table of {patterns!r:.200}", got, (0, plain_view.text_of(patterns, is_folded), b"")
        got = litplan_in_folder({}, ["explain", "--svg", "-", *flags], text)
        yield f"a drawing of {patterns!r:.200}", got, (0, plain_view.drawing_of(patterns, is_folded), b"")
        yield f"XML of {patterns!r:.200}", is_xml(got[1]), True
        if len(patterns) < 100:
            for words, shown in ([], plain_view.text_of), (["--svg"], plain_view.drawing_of):
                got = litplan_in_folder({}, ["explain", "-", "--buckets=16", *words, *flags], text)
                yield f"sixteen buckets {words} for {patterns!r:.200}", got, (0, shown(patterns, is_folded, 16), b"")


def picture():
    """The picture of the README is the drawing of the list in docs/plan.words."""
    with open(os.path.join(TOP, "docs", "plan.words"), "rb") as file:
        words = file.read()
    with open(os.path.join(TOP, "docs", "plan.svg"), "rb") as file:
        yield "docs/plan.svg", litplan_in_folder({}, ["explain", "-i", "--svg", "-"], words), (0, file.read(), b"")


TESTS = (rows, plans, random_plans, picture)
