"""`litplan --hex`: lists in hexadecimal by each command, lines that are wrong, limits, and random lists of all bytes
compared with plain models."""

import random

from oracles import plain_plan, plain_plan_file, plain_scan, plain_view
from support.programs import LITPLAN, cut_to, litplan_in_folder, run_in_folder

REFUSED = b"litplan: refused (%d)\n"
WRONG = b"litplan: %s: line %d is not hexadecimal\n"
# Three literals that hold a newline, a NUL and a carriage return, one of them twice, and an empty line.
ODD = [b"a\nb", b"\0\xff", b"", b"\r\n\r\n", b"\0\xff"]
# Lists with a wrong line, and its number: odd digits, letters past f, blanks, a carriage return, a sign, a prefix, a NUL.
WRONGS = [
    (b"6", 1), (b"61\n6", 2), (b"61\n626\n63", 2), (b"6g\n", 1), (b"61\n\ncat\n", 3), (b"61 62\n", 1), (b" 61\n", 1), (b"61 \n", 1),
    (b"61\r\n", 1), (b"\n\r\n", 2), (b"+1\n", 1), (b"0x61\n", 1), (b"61\n6\0\n", 2), (b"\xef\xbb\xbf61\n", 1), (b"6/\n", 1), (b"6:\n", 1),
    (b"6@\n", 1), (b"6G\n", 1), (b"6`\n", 1), (b"\n" * 4095 + b"6\n", 4096), (b"\n" * 4096 + b"6\n", 4097), (b"6\n" + b"00" * 4096, 1),
]
# As many bytes of patterns as a list may have: 256 patterns of 4,095 bytes, and one of 256.
FULL = (b"61" * 4095 + b"\n") * 256 + b"61" * 256


def hexadecimal(patterns, source=None):
    """A list of these patterns in hexadecimal, with digits of both cases."""
    text = b"".join(pattern.hex().encode() + b"\n" for pattern in patterns)
    if source is None:
        return text
    return bytes(source.choice((digit, bytes([digit]).upper()[0])) for digit in text)


def plan(patterns, is_folded=False, buckets=8):
    """The certificate of some patterns."""
    return plain_plan.spelled(plain_plan.plan_of(plain_plan.literals_of(patterns, is_folded), buckets))


def commands():
    """Each command on a list of odd bytes; the flag given twice, and with `-i`; where it cannot stand."""
    text, certificate = hexadecimal(ODD), plan(ODD)
    literals = plain_plan.literals_of(ODD, False)
    for words in ["plan", "--hex", "p"], ["plan", "p", "--hex", "--hex"]:
        yield f"litplan {words}", litplan_in_folder({"p": text}, words, b""), (0, certificate, b"")
    yield "a list without a last newline", litplan_in_folder({}, ["plan", "--hex", "-"], text[:-1]), (0, certificate, b"")
    got = litplan_in_folder({}, ["plan", "--hex", "--buckets=16", "-"], text)
    yield "sixteen buckets", got, (0, plan(ODD, buckets=16), b"")
    for digits in b"4361740a\n6341540A\n", b"6341540a":
        got = litplan_in_folder({}, ["plan", "-i", "--hex", "-"], digits)
        yield f"without case: {digits}", got, (0, plan([b"cat\n"], True), b"")
    got = litplan_in_folder({"p": text, "c": certificate}, ["check", "--hex", "p", "c"], b"")
    yield "a certificate", got, (0, b"optimal %d\n" % plain_plan.plan_of(literals, 8)[1], b"")
    got = litplan_in_folder({"p": text, "c": plan([b"cat"])}, ["check", "--hex", "p", "c"], b"")
    yield "a certificate of another list", got, (1, b"not certified: length\n", b"")
    for words, shown in ([], plain_view.text_of), (["--svg"], plain_view.drawing_of):
        got = litplan_in_folder({}, ["explain", "--hex", *words, "-"], text)
        yield f"explained {words}", got, (0, shown(ODD, False), b"")
    files = {"p": text, "q": hexadecimal([b"\n"])}
    plans = [(each, False, plain_plan.plan_of(each, 8)) for each in (literals, [b"\n"])]
    got = run_in_folder(files, ["-c", '"$0" pack --hex p q o && cat o', LITPLAN], b"", program="/bin/sh")
    yield "a plan file", got, (0, b"".join(plain_plan_file.file_fields(plans)), b"")
    want = b'1 1 "a\\x0ab"\n0 4 "\\x00\\xff"\n2 6 "\\x0d\\x0a\\x0d\\x0a"\n'
    for workers in "1", "3":
        words = ["scan", "--hex", "--names", "--workers", workers, "p", "-"]
        yield f"a scan by {workers}", litplan_in_folder({"p": text}, words, b"xa\nb\0\xff\r\n\r\n"), (0, want, b"")
    yield "digits without the flag", litplan_in_folder({}, ["plan", "-"], b"6361740a"), (0, plan([b"6361740a"]), b"")
    for words in ["check", "--hex", "--plan", "f"], ["explain", "--hex", "--plan", "f"], ["explain", "--hex", "--certificate", "c"], ["migrate", "--hex", "i", "o"]:
        got = cut_to(litplan_in_folder({}, words, b""), b"error: ...")
        yield f"litplan {words}", got, (2, b"", b"error: ...")


def wrong_lines():
    """Lists that are refused at a line, by each command. Nothing more is asked for, and nothing is made."""
    for text, line in WRONGS:
        said = 2, b"", WRONG % (b"p", line)
        for words in ["plan", "--hex", "p"], ["check", "--hex", "p", "none"], ["scan", "--hex", "--workers", "2", "p", "none"], ["pack", "--hex", "p", "none/o"]:
            yield f"{words[0]} of {text!r:.40}", litplan_in_folder({"p": text}, words, b""), said
        for words in ["explain", "--hex", "p"], ["explain", "--hex", "--svg", "p"]:
            got = litplan_in_folder({"p": text}, words, b"")
            yield f"{words} of {text!r:.40}", got, (1, b"line %d: not hexadecimal\n" % line, b"")
    yield "standard input", litplan_in_folder({}, ["plan", "--hex", "-"], b"x"), (2, b"", WRONG % (b"-", 1))
    files = {"p": b"61\n", "q": b"61\n\n6\n", "o": b"x"}
    got = run_in_folder(files, ["-c", '"$0" pack --hex p q none o; cat o', LITPLAN], b"", program="/bin/sh")
    yield "the second list of a plan file", got, (0, b"x", WRONG % (b"q", 3))


def limits():
    """The limits hold for bytes and not for digits; of a line that is too long and one that is wrong the first counts."""
    for text, wanted in (
        (b"", 5), (b"\n\n", 5), (b"61" * 4096, 3), (b"61" * 4096 + b"\n6", 3), (b"\n" * 4097, 2), (FULL + b"\n61", 7),
        (b"\n" * 2101248, 2), (b"\n" * 2101249, 7), (b"6" * 2101249, 7),
    ):
        got = litplan_in_folder({}, ["plan", "--hex", "-"], text)
        yield f"a plan of {text!r:.20}, {len(text)} bytes", got, (2, b"", REFUSED % wanted)
    for text, wanted in (
        (b"\n", b"no line has a literal\n"),
        (b"61\n" + b"61" * 4096 + b"\n6", b"line 2: more than 4095 bytes\n"),
        (b"\n" * 4097, b"line 4097: more than 4096 lines\n"),
        (FULL + b"\n61", b"more than 1048576 bytes in all lines, or 1052672 with their newlines\n"),
    ):
        got = litplan_in_folder({}, ["explain", "--hex", "-"], text)
        yield f"what is wrong in {text!r:.20}, {len(text)} bytes", got, (1, wanted, b"")
    got = litplan_in_folder({}, ["plan", "--hex", "-"], FULL + b"\n" * 3840)
    yield "the longest list", got, (0, plan([b"a" * 4095, b"a" * 256]), b"")


def random_lists():
    """Random lists of all bytes, planned, explained and scanned for in texts of the same bytes."""
    source = random.Random(13)
    for number in range(300):
        letters = source.choice([b"a\n", b"aA\n\r\0", bytes(range(256))])
        patterns = [bytes(source.choices(letters, k=source.randrange(6))) for _ in range(source.randrange(1, 12))] + [b"\n"]
        is_folded = source.random() < 0.5
        flags, text = ["--hex"] + ["-i"] * is_folded, hexadecimal(patterns, source)
        got = litplan_in_folder({}, ["plan", *flags, "-"], text)
        yield f"a plan of {patterns!r:.200}", got, (0, plan(patterns, is_folded), b"")
        got = litplan_in_folder({}, ["explain", *flags, "-"], text)
        yield f"a table of {patterns!r:.200}", got, (0, plain_view.text_of(patterns, is_folded), b"")
        searched = bytes(source.choices(letters, k=source.randrange(200)))
        got = litplan_in_folder({"p": text}, ["scan", *flags, "--workers", str(number % 16 + 1), "p", "-"], searched)
        wanted = plain_scan.plain_scan(plain_plan.literals_of(patterns, is_folded), searched, is_folded)
        yield f"a scan for {patterns!r:.100} in {searched!r:.100}", got, (0, wanted, b"")


TESTS = (commands, wrong_lines, limits, random_lists)
