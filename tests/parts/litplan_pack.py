"""`litplan pack`: plan files that it writes, of one list and of several, compared with the worked file of docs/FORMATS.md
and with a plain writer."""

import os
import resource
import signal
import tempfile

from cases import random_cases
from cases.worked_plan_file import worked_file
from oracles import plain_plan, plain_plan_file
from support.programs import lay_out, litplan

UNUSABLE = b"litplan: %s: cannot be used\n"
REFUSED = b"litplan: refused (%d)\n"
WORDS = b"horse\ncat\ndog\n"
LETTERS = b"".join(b"%c\n" % letter for letter in b"abcdefghi")
# More literals than a plan file of version 1 can hold.
MORE = b"".join(b"%d\n" % number for number in range(1025))
# As many literals as a plan can have.
MOST = [b"%c%c" % (48 + number // 64, 48 + number % 64) for number in range(4096)]


def plan_file(patterns, is_folded, buckets=8):
    """The plan file of some patterns."""
    literals = plain_plan.literals_of(patterns, is_folded)
    return b"".join(plain_plan_file.file_fields([(literals, is_folded, plain_plan.plan_of(literals, buckets))]))


def plans_file(lists, is_folded=False, buckets=8):
    """The plan file of several lists, each the text of a file of patterns."""
    plans = []
    for text in lists:
        literals = plain_plan.literals_of(text.split(), is_folded)
        plans.append((literals, is_folded, plain_plan.plan_of(literals, buckets)))
    return b"".join(plain_plan_file.file_fields(plans))


def packed(words, stdin, files, **how):
    """How a run ends in a folder with these files, and what the files of the folder hold then."""
    with tempfile.TemporaryDirectory() as folder:
        lay_out(folder, files)
        ending = litplan(words, stdin, cwd=folder, **how)
        held = {}
        for name in os.listdir(folder):
            with open(os.path.join(folder, name), "rb") as file:
                held[name] = file.read()
        return ending, held


# Each row: the files before, the words, standard input; the message, which comes with status 2, or none; and the files
# that are made or changed.
ROWS = [
    ({}, ["pack", "-", "o"], b"a\n", b"", {"o": plan_file([b"a"], False)}),
    ({"p": WORDS}, ["pack", "p", "o"], b"", b"", {"o": plan_file([b"cat", b"dog", b"horse"], False)}),
    ({}, ["pack", "-i", "-", "o"], b"Cat\n\ncat\nDOG", b"", {"o": plan_file([b"cat", b"dog"], True)}),
    ({}, ["pack", "-", "o", "--ignore-case"], b"Cat\n", b"", {"o": plan_file([b"cat"], True)}),
    ({}, ["pack", "-", "o"], b"Cat\ncat\n", b"", {"o": plan_file([b"Cat", b"cat"], False)}),
    ({}, ["pack", "--buckets", "8", "-", "o"], b"a\n", b"", {"o": plan_file([b"a"], False)}),
    ({}, ["pack", "--buckets=16", "-", "o"], b"a\n", b"", {"o": plan_file([b"a"], False, 16)}),
    ({}, ["pack", "-i", "-", "o", "--buckets", "16"], b"A\nb\nC\n", b"", {"o": plan_file([b"a", b"b", b"c"], True, 16)}),
    ({}, ["pack", "--buckets", "16", "-", "o"], LETTERS, b"", {"o": plan_file(LETTERS.split(), False, 16)}),
    ({}, ["pack", "-", "o"], MORE, b"", {"o": plan_file(MORE.split(), False)}),
    # a file that is there is emptied first; the file of the patterns is read before; `-` is a name
    ({"o": b"x" * 1000}, ["pack", "-", "o"], b"a\n", b"", {"o": plan_file([b"a"], False)}),
    ({}, ["pack", "-", "-"], b"a\n", b"", {"-": plan_file([b"a"], False)}),
    # several files: a plan of each, in order
    ({"p": WORDS, "q": b"a\n"}, ["pack", "p", "q", "o"], b"", b"", {"o": plans_file([WORDS, b"a"])}),
    ({"p": WORDS, "q": b"a\n"}, ["pack", "q", "-", "p", "q", "o"], b"b\n", b"", {"o": plans_file([b"a", b"b", WORDS, b"a"])}),
    ({"p": b"Cat\n", "q": b"A\n"}, ["pack", "-i", "--buckets=16", "p", "q", "o"], b"", b"", {"o": plans_file([b"Cat", b"A"], True, 16)}),
    ({"p": b"Cat\n", "q": b"A\n"}, ["pack", "p", "q", "o", "-i"], b"", b"", {"o": plans_file([b"Cat", b"A"], True)}),
    ({"p": b"a\n", "q": b"\n", "o": b"x"}, ["pack", "p", "q", "none", "o"], b"", REFUSED % 5, {}),
    ({"p": b"a\n", "q": b"a" * 4096}, ["pack", "p", "none", "q", "o"], b"", UNUSABLE % b"none", {}),
    # 64 files, and one more
    ({"p": b"a\n"}, ["pack", *["p"] * 64, "o"], b"", b"", {"o": plans_file([b"a"] * 64)}),
    ({"p": b"a\n", "o": b"x"}, ["pack", *["p"] * 65, "o"], b"", b"litplan: more than 64 files of patterns\n", {}),
    # a plan file that is also a file of patterns, whatever the patterns are; `-` as such a file is standard input
    ({"p": b"a\n"}, ["pack", "p", "p"], b"", UNUSABLE % b"p", {}),
    ({"p": b"a\n", "q": b"b\n"}, ["pack", "p", "q", "p"], b"", UNUSABLE % b"p", {}),
    ({"p": b"a\n", "q": b"b\n"}, ["pack", "p", "q", "q"], b"", UNUSABLE % b"q", {}),
    ({"p": b"\n"}, ["pack", "none", "p", "p"], b"", UNUSABLE % b"p", {}),
    ({"-": b"x"}, ["pack", "-", "-"], b"a\n", b"", {"-": plan_file([b"a"], False)}),
    # refused before a file is made
    ({"o": b"x"}, ["pack", "-", "o"], b"", REFUSED % 5, {}),
    ({}, ["pack", "-", "o"], b"\n\n", REFUSED % 5, {}),
    ({}, ["pack", "-", "o"], b"a" * 4096, REFUSED % 3, {}),
    ({"o": b"x"}, ["pack", "-", "o"], b"\n" * 4097, REFUSED % 2, {}),
    ({"o": b"x"}, ["pack", "none", "o"], b"", UNUSABLE % b"none", {}),
    ({"o": b"x"}, ["pack", "/", "o"], b"", UNUSABLE % b"/", {}),
    ({}, ["pack", "none", "none/o"], b"", UNUSABLE % b"none", {}),
    # files that cannot be made, or not be written
    ({}, ["pack", "-", "/"], b"a\n", UNUSABLE % b"/", {}),
    ({}, ["pack", "-", "none/o"], b"a\n", UNUSABLE % b"none/o", {}),
    ({}, ["pack", "-", ""], b"a\n", UNUSABLE % b"", {}),
    ({}, ["pack", "-", "/dev/full"], b"a\n", UNUSABLE % b"/dev/full", {}),
]


def rows():
    """The worked file, each row of the table, and words that are no command."""
    worked = worked_file()
    yield "the worked plan file", (len(worked), worked), (89, plan_file([b"a"], False))
    for files, words, stdin, message, changed in ROWS:
        got = packed(words, stdin, files)
        wanted = ((2 if message else 0, b"", message), {**files, **changed})
        yield f"litplan {words!r:.60} on {stdin!r:.20}", got, wanted
    sixteen = packed(["pack", "--buckets", "16", "-", "o"], b"a\n", {})[1]["o"]
    yield "the flags and the size of a plan of sixteen buckets", (sixteen[8], len(sixteen)), (2, 153)
    for words in ["pack"], ["pack", "p"]:
        got = packed(words, b"", {})
        yield f"litplan {words}", (got[0][0], got[0][2][:45], got[1]), (2, b"error: the following required arguments were ", {})
    got = packed(["pack", "--buckets", "9", "-", "o"], b"a\n", {})
    yield "nine buckets", (got[0][0], got[0][2][:45], got[1]), (2, b"error: invalid value '9' for '--buckets <B>'\n", {})
    yield "litplan pack --help", litplan(["pack", "--help"], b"")[2][:26], b"Writes the plans of files "


def long_packs():
    """The longest list by each number of buckets."""
    for buckets in 8, 16:
        plan = MOST, False, plain_plan.even_plan_of(MOST, buckets)
        got = packed(["pack", "--buckets", str(buckets), "-", "o"], b"\n".join(MOST), {})
        wanted = (0, b"", b""), {"o": b"".join(plain_plan_file.file_fields([plan]))}
        yield f"the file of 4,096 literals in {buckets} buckets is right", got == wanted, True


def random_packs():
    """Random lists, compared with the plain writer."""
    for number, (patterns, is_folded) in enumerate(random_cases.lists()):
        buckets = 16 if number % 2 else 8
        got = packed(["pack", "--buckets", str(buckets), "-", "o"] + ["-i"] * is_folded, b"\n".join(patterns), {})
        yield f"a plan file of {patterns!r:.200}", got, ((0, b"", b""), {"o": plan_file(patterns, is_folded, buckets)})


def cut_packs():
    """A file with room for a prefix of the plan file holds this prefix, and the rest is refused."""
    whole = plan_file([b"a"], False)
    two, room = plans_file([b"a", b"b"]), len(whole) + 20

    def short():
        signal.signal(signal.SIGXFSZ, signal.SIG_IGN)
        resource.setrlimit(resource.RLIMIT_FSIZE, (room, room))

    got = packed(["pack", "-", "q", "o"], b"a\n", {"q": b"b\n"}, preexec_fn=short)
    yield "two plans with room for one", got, ((2, b"", UNUSABLE % b"o"), {"q": b"b\n", "o": two[:room]})
    for room in range(len(whole)):

        def limited(room=room):
            signal.signal(signal.SIGXFSZ, signal.SIG_IGN)
            resource.setrlimit(resource.RLIMIT_FSIZE, (room, room))

        got = packed(["pack", "-", "o"], b"a\n", {}, preexec_fn=limited)
        yield f"a plan file with room for {room} bytes", got, ((2, b"", UNUSABLE % b"o"), {"o": whole[:room]})


TESTS = (rows, long_packs, random_packs, cut_packs)
