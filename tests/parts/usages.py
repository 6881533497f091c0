"""The usage that `litgrep` and `litplan` print where words are wrong, and for `--help`, and advice on options of GNU grep."""

import re

from support.programs import LITGREP, LITPLAN, run


def usages():
    """The usage that follows a refusal of words names the program and its operands."""
    lists = "Usage: litgrep [-F] [-c | -l | -q] [-insvx] LIST [FILE]..."
    plan, check = "litplan plan [-i] [--hex] [--buckets B] FILE", "litplan check [-i] [--hex] FILE CERT | --plan FILE [I]"
    pack = "litplan pack [-i] [--hex] [--buckets B] FILE.. OUT"
    explain = "litplan explain [-i] [--hex] [--buckets B] [--svg] FILE | --plan FILE [I] | --certificate CERT"
    migrate, scan = "litplan migrate IN OUT", "litplan scan [-i] [--hex] [--count | --names] --workers W FILE INPUT"
    commands = "\n       ".join([plan, check, pack, explain, migrate, scan])
    for program, words, usage in (
        (LITGREP, ["-z"], lists),
        (LITGREP, ["--help"], lists),
        (LITPLAN, ["-z"], f"Usage: {commands}"),
        (LITPLAN, ["plan"], f"Usage: {plan}\n"),
        (LITPLAN, ["check", "f"], f"Usage: {check}\n"),
        (LITPLAN, ["pack", "f"], f"Usage: {pack}\n"),
        (LITPLAN, ["explain"], f"Usage: {explain}\n"),
        (LITPLAN, ["migrate", "f"], f"Usage: {migrate}\n"),
        (LITPLAN, ["scan", "f"], f"Usage: {scan}\n"),
    ):
        text = run(words, program=program)[2].decode()
        yield f"usage of {words}", text if usage not in text else usage, usage


# Options of GNU grep, each as words give it, as the answer names it, and what serves in its place.
ADVICE = (
    ("-w", "-w", "| grep -w -F -f list"), ("-o", "-o", "litplan scan"), ("-rn", "-r", "find . "), ("-R", "-R", "find . "),
    ("-E", "-E", "GNU grep"), ("-A3", "-A", "GNU grep"), ("-B", "-B", "GNU grep"), ("-nC2", "-C", "GNU grep"),
    ("-m1", "-m", "head -n 5"), ("-H", "-H", "litgrep cat f /dev/null"), ("-L", "-L", "litgrep -q cat"), ("-a", "-a", "always"),
    ("-z", "-z", "tr "), ("-y", "-y", "Use -i"), ("-b", "-b", "litplan scan"), ("-P", "-P", "GNU grep"),
    ("--color", "--color", "| grep -w -F -f list"), ("--colour=auto", "--colour", "| grep -w -F -f list"),
    ("--line-buffered", "--line-buffered", "always"), ("--include=*.log", "--include", "find . "),
    ("--no-filename", "--no-filename", "for f in *"), ("--only-matching", "--only-matching", "litplan scan"),
    ("--max-count=5", "--max-count", "head -n 5"), ("--context", "--context", "GNU grep"), ("--null-data", "--null-data", "tr "),
)


def advice():
    """The answer to an option of GNU grep names it, says that POSIX has none, and what serves; the help names them all."""
    text_of_help = run(["--help"])[2].decode()
    for word, option, served in ADVICE:
        status, shown, text = run([word, "cat"])
        text = text.decode()
        begin = f"error: unexpected argument '{option}' found\n\n  tip: POSIX grep has no '{option}'. "
        advised = text.startswith(begin) and served in text.splitlines()[2]
        yield f"advice on {word}", (status, shown, advised or text), (2, b"", True)
        usage = "\n\nUsage: litgrep [-F] [-c | -l | -q] [-insvx] LIST [FILE]...\n"
        yield f"usage behind the advice on {word}", text if usage not in text else usage, usage
        yield f"no other tip on {word}", text.count("tip:"), 1
    for word in "-a", "-w", "-o", "-r", "-E", "-A", "-B", "-C", "-m 5", "-h", "-H", "-L", "-z", "--color", "--line-buffered", "--include":
        yield f"{word} in the help", bool(re.search(rf"^  for .*(?<!\S){word}(?=,| )", text_of_help, re.M)), True
    yield "an option of no grep", run(["-Q"])[2][:41], b"error: unexpected argument '-Q' found\n\n  "
    yield "an option that is misspelled", b"tip: a similar argument exists: '--count'" in run(["--cuont"])[2], True
    yield "the letters as a pattern", run(["--", "-w"], b"a-w\n"), (0, b"a-w\n", b"")


TESTS = (usages, advice)
