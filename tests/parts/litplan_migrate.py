"""`litplan migrate`: plan files of both versions, compared with a plain planner and a plain writer."""

import os
import random
import resource
import signal

from cases import random_cases
from oracles import plain_plan, plain_plan_file
from parts.litplan_pack import packed
from support.programs import TOP, litplan, litplan_in_folder

UNUSABLE = b"litplan: %s: cannot be used\n"
REFUSED = b"litplan: refused (%d)\n"
LETTERS = [b"%c" % letter for letter in b"abcdefghi"]


def file_of(lists, buckets=8, version=2):
    """The plan file of some lists. A list is its literals and whether case is ignored."""
    plans = [(literals, is_folded, plain_plan.plan_of(literals, buckets)) for literals, is_folded in lists]
    return b"".join(plain_plan_file.file_fields(plans, version))


def lines_of(lists, buckets=8):
    """The lines that tell of the lists' plans and of those of sixteen buckets."""
    costs = [[plain_plan.plan_of(literals, most)[1] for most in (buckets, 16)] for literals, _ in lists]
    return b"".join(b"plan %d %d %d\n" % (place, *both) for place, both in enumerate(costs))


def old_file(name):
    """A plan file that a release with version 1 wrote."""
    with open(os.path.join(TOP, "tests", "cases", "plan_files_v1", name), "rb") as file:
        return file.read()


NINE, SEVERAL = [(LETTERS, False)], [([b"b"], False), (LETTERS, False), ([b"a", b"he", b"she"], True), ([b"b"], False)]
OLD, NEW = file_of(NINE, version=1), file_of(NINE, 16)
# Plan files of 64 plans, the most that a file has.
FULL = [([b"%d" % number], bool(number % 2)) for number in range(64)]

# Each row: the files before, the words, standard input; standard output, the message, which comes with status 2, or none;
# and the files that are made or changed.
ROWS = [
    ({"i": OLD}, ["migrate", "i", "o"], b"", b"plan 0 46656 38664\n", b"", {"o": NEW}),
    ({"i": file_of(NINE)}, ["migrate", "i", "o"], b"", b"plan 0 46656 38664\n", b"", {"o": NEW}),
    ({"i": NEW}, ["migrate", "i", "o"], b"", b"plan 0 38664 38664\n", b"", {"o": NEW}),
    ({"i": old_file("nine_letters")}, ["migrate", "i", "o"], b"", b"plan 0 46656 38664\n", b"", {"o": NEW}),
    ({"i": old_file("one_literal")}, ["migrate", "i", "o"], b"", b"plan 0 4296 4296\n", b"", {"o": file_of([([b"a"], False)], 16)}),
    ({"i": file_of(SEVERAL, version=1)}, ["migrate", "i", "o"], b"", lines_of(SEVERAL), b"", {"o": file_of(SEVERAL, 16)}),
    ({"i": file_of(SEVERAL)}, ["migrate", "i", "o"], b"", lines_of(SEVERAL), b"", {"o": file_of(SEVERAL, 16)}),
    ({"i": file_of(SEVERAL[::-1])}, ["migrate", "i", "o"], b"", lines_of(SEVERAL[::-1]), b"", {"o": file_of(SEVERAL[::-1], 16)}),
    ({"i": file_of(FULL, version=1)}, ["migrate", "i", "o"], b"", lines_of(FULL), b"", {"o": file_of(FULL, 16)}),
    ({"i": file_of([], version=1)}, ["migrate", "i", "o"], b"", b"", b"", {"o": file_of([])}),
    # standard input; a file that is there is emptied first; one file is read whole before the other is made; `-` is a name
    ({}, ["migrate", "-", "o"], OLD, b"plan 0 46656 38664\n", b"", {"o": NEW}),
    ({"i": OLD, "o": b"x" * 5000}, ["migrate", "i", "o"], b"", b"plan 0 46656 38664\n", b"", {"o": NEW}),
    ({"i": OLD}, ["migrate", "i", "i"], b"", b"plan 0 46656 38664\n", b"", {"i": NEW}),
    ({"i": OLD}, ["migrate", "i", "-"], b"", b"plan 0 46656 38664\n", b"", {"-": NEW}),
    # refused before a file is made
    ({"i": b"", "o": b"x"}, ["migrate", "i", "o"], b"", b"", REFUSED % 10, {}),
    ({"i": OLD + b"\0", "o": b"x"}, ["migrate", "i", "o"], b"", b"", REFUSED % 10, {}),
    ({"i": OLD[:-1]}, ["migrate", "i", "o"], b"", b"", REFUSED % 10, {}),
    ({"i": OLD.replace(b"LPLF\0\1", b"LPLF\0\3")}, ["migrate", "i", "o"], b"", b"", REFUSED % 10, {}),
    ({"i": OLD.replace(b"LPLF\0\1\0\1\0", b"LPLF\0\1\0\1\2")}, ["migrate", "i", "o"], b"", b"", REFUSED % 10, {}),
    ({"i": NEW.replace(b"LPLF\0\2", b"LPLF\0\1")}, ["migrate", "i", "o"], b"", b"", REFUSED % 10, {}),
    ({"i": b"a\nb\n"}, ["migrate", "i", "o"], b"", b"", REFUSED % 10, {}),
    ({"o": b"x"}, ["migrate", "none", "o"], b"", b"", UNUSABLE % b"none", {}),
    ({"o": b"x"}, ["migrate", "/", "o"], b"", b"", UNUSABLE % b"/", {}),
    ({}, ["migrate", "none", "none/o"], b"", b"", UNUSABLE % b"none", {}),
    # files that cannot be made, or not be written
    ({"i": OLD}, ["migrate", "i", "/"], b"", b"", UNUSABLE % b"/", {}),
    ({"i": OLD}, ["migrate", "i", "none/o"], b"", b"", UNUSABLE % b"none/o", {}),
    ({"i": OLD}, ["migrate", "i", "/dev/full"], b"", b"", UNUSABLE % b"/dev/full", {}),
]


def rows():
    """Each row of the table, a full device, and words that are no command."""
    for files, words, stdin, output, message, changed in ROWS:
        got = packed(words, stdin, files)
        wanted = ((2 if message else 0, output, message), {**files, **changed})
        yield f"litplan {words} with {files!r:.60}", got, wanted
    with open("/dev/full", "wb") as full:
        got = packed(["migrate", "i", "o"], b"", {"i": OLD}, stdout=full)
        yield "litplan migrate on a full device", got, ((2, None, REFUSED % 18), {"i": OLD, "o": NEW})
    for words in ["migrate"], ["migrate", "i"]:
        got = packed(words, b"", {"i": OLD})
        yield f"litplan {words}", (got[0][0], got[0][2][:45], got[1]), (2, b"error: the following required arguments were ", {"i": OLD})
    for flag in "-i", "--buckets=16":
        got = litplan_in_folder({"i": OLD}, ["migrate", flag, "i", "o"], b"")
        yield f"litplan migrate {flag}", (got[0], got[2][:27]), (2, b"error: unexpected argument ")
    yield "litplan migrate --help", litplan(["migrate", "--help"])[2][:36], b"Plans the lists of a plan file anew,"


def random_files():
    """Random lists in files of either version, and with plans of either number of buckets; and their new files again."""
    source, lists = random.Random(12), []
    for patterns, is_folded in random_cases.lists(300):
        lists.append((plain_plan.literals_of(patterns, is_folded), is_folded))
        if source.random() < 0.4:
            continue
        buckets, version = source.choice([(8, 1), (8, 2), (16, 2)])
        before, after = file_of(lists, buckets, version), file_of(lists, 16)
        got = packed(["migrate", "i", "o"], b"", {"i": before})
        yield f"plans of {buckets} buckets, {lists!r:.200}", got, ((0, lines_of(lists, buckets), b""), {"i": before, "o": after})
        got = packed(["migrate", "i", "o"], b"", {"i": after})
        yield f"migrated plans, {lists!r:.200}", got, ((0, lines_of(lists, 16), b""), {"i": after, "o": after})
        lists = []


def cut_files():
    """Each prefix of a plan file is refused; a file with room for a prefix of the new plan file holds this prefix."""
    whole = file_of([([b"a"], False)], version=1)
    for size in range(len(whole)):
        got = packed(["migrate", "i", "o"], b"", {"i": whole[:size], "o": b"x"})
        yield f"{size} bytes of a plan file", got, ((2, b"", REFUSED % 10), {"i": whole[:size], "o": b"x"})
    made = file_of([([b"a"], False)], 16)
    for room in range(len(made)):

        def limited(room=room):
            signal.signal(signal.SIGXFSZ, signal.SIG_IGN)
            resource.setrlimit(resource.RLIMIT_FSIZE, (room, room))

        got = packed(["migrate", "i", "o"], b"", {"i": whole}, preexec_fn=limited)
        yield f"a plan file with room for {room} bytes", got, ((2, b"", UNUSABLE % b"o"), {"i": whole, "o": made[:room]})


TESTS = (rows, random_files, cut_files)
