"""Runs of the programs in which calls are refused: how each ends, also where a read fails, and how it may end where
memory runs out or a write fails."""

import functools
import os
import random
import re
from typing import Callable, NamedTuple

from cases import session_cases
from oracles import plain_grep, plain_plan, plain_plan_file, plain_view
from oracles.plain_scan import plain_scan
from oracles.sessions import Plan, conversation, feed, open_stream, publish, replies_of, requests_of
from support.programs import LITGREP, LITPLAN, program_at, version

# The message of a program for want of memory. Its status is 2.
NO_MEMORY = {
    "litgrep": b"litgrep: out of memory\n",
    "litplan": b"litplan: refused (1)\n",
    "scand": b"scand: out of memory\n",
}


class Ending(NamedTuple):
    """How a run ends: its status, output and messages, and what the files hold that it makes, None for a missing file."""

    status: int
    output: bytes
    messages: bytes = b""
    made: tuple = ()


class Run(NamedTuple):
    """A run of a program over FILES.

    `answer` gives its ending where some of its sources end in faults. It takes their names, each with the number of bytes
    before the fault. `sources` are the sources that exist, in the order of reading, with their sizes.
    `is_starved` and `is_unwritten` take the ending where nothing is refused, and another one. They answer whether the
    other one is right for want of memory, and after a write that failed.
    `made` names the files that the run makes. `growths_alone` limits a run that reads much to refusals of memory."""

    words: list
    answer: Callable
    sources: dict
    is_starved: Callable
    is_unwritten: Callable
    stdin: bytes = b""
    made: tuple = ()
    has_threads: bool = False
    growths_alone: bool = False


def is_prefix(part, whole):
    """Whether a text or file is a prefix of the whole one. None is no file."""
    return part is None or (whole is not None and whole.startswith(part))


def are_prefixes(got, whole):
    """Whether output, messages and made files are prefixes of what a whole run writes."""
    return all(map(is_prefix, (got.output, got.messages, *got.made), (whole.output, whole.messages, *whole.made)))


def stops_with(message, status=2):
    """Whether an ending has this status, prefixes of the texts and files of the run, and then this message."""

    def is_so(whole, got):
        own = got._replace(messages=got.messages.removesuffix(message))
        return got.status == status and got.messages.endswith(message) and are_prefixes(own, whole)

    return is_so


# litgrep.

FILES = {
    "p": b"dog\nCat\n",
    "f": b"a cat\nno\nDog\n\ncatalog",
    "g": b"x\nconcat\nhot dog\n",
    "w": b"horse\ncat\ndog\n",
    "e": b"\n",
    "t": b"ushers and a cat, a dog, a horse; cat",
    "long": b"a cat\n" + b"x" * 150000 + b"cat\nno\nlast cat",
    "many": b"a" * 3000,
}


def shown(name):
    """The name that `litgrep` gives an input."""
    return b"(standard input)" if name == "-" else name.encode()


def unreadable(name):
    return b"litgrep: %s: cannot be read\n" % shown(name)


class Search(NamedTuple):
    """A search of `litgrep`: flags, pattern lists, pattern files, inputs. The input `none` is missing."""

    flags: str = ""
    lists: tuple = ()
    files: tuple = ()
    inputs: tuple = ("-",)
    stdin: bytes = b""

    def text(self, name):
        return self.stdin if name == "-" else FILES.get(name)

    def words(self):
        flags = ["-" + flag for flag in self.flags]
        lists = [word for text in self.lists for word in ("-e", text)]
        files = [word for name in self.files for word in ("-f", name)]
        return [LITGREP, *flags, *lists, *files, *(self.inputs if self.inputs != ("-",) else ())]

    def answer(self, faults):
        """The ending where some files and inputs end in faults, each after a number of bytes. Of a line that is cut there
        nothing is searched."""
        ended = {name: self.text(name).rfind(b"\n", 0, most) + 1 for name, most in faults.items()}
        return self.ending(tuple(ended.items()))

    @functools.lru_cache(1000)
    def ending(self, cuts):
        """The ending by plain matching, where files and inputs are cut to these numbers of bytes."""
        cuts = dict(cuts)
        patterns = [pattern.encode() for text in self.lists for pattern in text.split("\n")]
        for name in self.files:
            if name in cuts:
                return Ending(2, b"", unreadable(name))
            patterns += plain_grep.lines_of(self.text(name))
        output, messages, is_found, is_trouble = b"", b"", False, False
        for name in self.inputs:
            text = self.text(name)
            lines = plain_grep.selected((text or b"")[: cuts.get(name)], patterns, self.flags)
            output += b"" if text is None else self.block(name, lines)
            is_found |= bool(lines)
            if text is None or (name in cuts and not (lines and set("ql") & set(self.flags))):
                messages += b"" if "s" in self.flags else unreadable(name)
                is_trouble = True
            if "q" in self.flags and is_found:
                return Ending(0, b"", messages)
        return Ending(2 if is_trouble else int(not is_found), output, messages)

    def block(self, name, lines):
        """The output for an input and its selected lines."""
        front = shown(name) + b":" if len(self.inputs) > 1 else b""
        if "q" in self.flags:
            return b""
        if "l" in self.flags:
            return shown(name) + b"\n" if lines else b""
        if "c" in self.flags:
            return front + b"%d\n" % len(lines)
        numbered = "n" in self.flags
        return b"".join(front + (b"%d:" % number if numbered else b"") + line + b"\n" for number, line in lines)

    def run(self):
        sources = {name: len(self.text(name)) for name in (*self.files, *self.inputs) if self.text(name) is not None}
        starved, unwritten = stops_with(NO_MEMORY["litgrep"]), stops_with(b"")
        return Run(self.words(), self.answer, sources, starved, unwritten, self.stdin)


MANY_WORDS = [f"word{number}" for number in range(60)] + ["dog"]
THREE_LINES = b"cat\ndog\nconcat"
SEARCHES = [
    Search("n", ("cat",), stdin=THREE_LINES),
    Search("", ("cat\ndog",), stdin=THREE_LINES),
    Search("c", ("cat",), inputs=("f", "-", "g"), stdin=THREE_LINES),
    Search("l", ("dog",), inputs=("f", "g", "-"), stdin=THREE_LINES),
    Search("q", ("cat",), inputs=("none", "g", "f")),
    Search("c", ("cat",), stdin=THREE_LINES),
    Search("l", ("cat",), stdin=THREE_LINES),
    Search("q", ("cat",), stdin=THREE_LINES),
    Search("vq", ("cat",), stdin=THREE_LINES),
    Search("vn", ("cat",), ("p",), ("f", "g")),
    Search("i", (), ("p",), ("f", "none", "g")),
    Search("xi", ("dog", "CAT"), (), ("f", "-"), THREE_LINES),
    Search("s", ("o",), (), ("none", "g")),
    Search("cv", ("",), (), ("f", "none")),
    Search("n", ("cat", "dog"), (), ("long", "g")),
    Search("n", ("cat", "dog", "bird", "horse"), (), ("long", "g")),
    Search("c", ("\n".join(MANY_WORDS),), inputs=("t",)),
]

# litplan.


def planned(words, names, output, stdin=b"", status=0, messages=b"", **more):
    """A run of `litplan` that reads these files, and its answer."""

    def answer(faults):
        for name in names:
            if name in faults:
                return Ending(2, b"", f"litplan: {name}: cannot be used\n".encode())
        return Ending(status, output, messages)

    sources = {name: len(stdin if name == "-" else FILES[name]) for name in names}
    starved, unwritten = stops_with(NO_MEMORY["litplan"]), stops_with(b"litplan: refused (18)\n")
    return Run([LITPLAN, *words], answer, sources, starved, unwritten, stdin, **more)


def packed(words, name, literals, is_folded, stdin=b"", buckets=8):
    """A run of `litplan pack`. It reads one file and makes another, which is whole only where the run succeeds, and is not
    made where memory runs out."""
    text = b"".join(plain_plan_file.file_fields([(literals, is_folded, plain_plan.plan_of(literals, buckets))]))
    like = planned(["pack", *words, name, "made"], [name], b"", stdin, made=("made",))

    def answer(faults):
        return like.answer(faults)._replace(made=(None if faults else text,))

    def is_starved(whole, got):
        return like.is_starved(whole, got) and got.made == (None,)

    return like._replace(answer=answer, is_starved=is_starved, is_unwritten=stops_with(b"litplan: made: cannot be used\n"))


def migrated(name, lists, version):
    """A run of `litplan migrate`. It reads a plan file with the plans of some lists and makes another, unless memory runs
    out. Lines follow once that is whole."""
    old = [(literals, is_folded, plain_plan.plan_of(literals)) for literals, is_folded in lists]
    new = [(literals, is_folded, plain_plan.plan_of(literals, 16)) for literals, is_folded in lists]
    FILES[name] = b"".join(plain_plan_file.file_fields(old, version))
    text = b"".join(plain_plan_file.file_fields(new))
    costs = [(before[2][1], after[2][1]) for before, after in zip(old, new)]
    lines = b"".join(b"plan %d %d %d\n" % (place, *both) for place, both in enumerate(costs))
    like = planned(["migrate", name, "made"], [name], lines, made=("made",))

    def answer(faults):
        return like.answer(faults)._replace(made=(None if faults else text,))

    def is_starved(whole, got):
        return like.is_starved(whole, got) and got.output == b"" and got.made == (None,)

    def is_unwritten(whole, got):
        is_made = got.made == whole.made
        message = b"litplan: refused (18)\n" if is_made else b"litplan: made: cannot be used\n"
        return stops_with(message)(whole, got) and (is_made or got.output == b"")

    return like._replace(answer=answer, is_starved=is_starved, is_unwritten=is_unwritten)


WORDS = plain_plan.literals_of(FILES["w"].split(), False)
FILES["c"] = plain_plan.spelled(plain_plan.plan_of(WORDS))
FILES["d"] = FILES["c"].replace(b"4 934", b"4 935")
HITS = plain_scan(WORDS, FILES["t"], False)
COUNT = b"%d\n" % HITS.count(b"\n")
A_FOUND = b"".join(b"0 %d\n" % end for end in range(1, 3001))
MANY = "\n".join(MANY_WORDS).encode()
# A text that is long enough for a scan to tune itself, and phrases that occur in it or nearly do.
PHRASES = [b"connection ", b"session ", b"the plan", b"planner of", b"sesscon", b"necessary"]
FILES["big"] = b"".join(random.Random(9).choices([b"con", b"nect", b"ion ", b"sess", b"the ", b"plan", b"ner ", b"of "], k=80000))
COUNT_BIG = b"%d\n" % sum(len(re.findall(b"(?=%s)" % re.escape(phrase), FILES["big"])) for phrase in PHRASES)
MANY_PLANNED = plain_plan.spelled(plain_plan.plan_of(plain_plan.literals_of(MANY.split(), False)))
PLANS = [
    planned(["plan", "-"], ["-"], FILES["c"], FILES["w"]),
    planned(["plan", "-i", "w"], ["w"], FILES["c"]),
    planned(["plan", "-"], ["-"], MANY_PLANNED, MANY),
    planned(["plan", "--buckets", "16", "w"], ["w"], plain_plan.spelled(plain_plan.plan_of(WORDS, 16))),
    planned(["plan", "--hex", "-"], ["-"], plain_plan.spelled(plain_plan.plan_of([b"a\nb", b"horse"])), b"610A62\n\n686f727365\n"),
    planned(["plan", "--hex", "-"], ["-"], b"", b"636174\n6", status=2, messages=b"litplan: -: line 2 is not hexadecimal\n"),
    planned(["check", "-", "c"], ["-", "c"], b"optimal 934\n", FILES["w"]),
    planned(["plan", "e"], ["e"], b"", status=2, messages=b"litplan: refused (5)\n"),
    planned(["check", "w", "d"], ["w", "d"], plain_plan.answer(WORDS, FILES["d"])[1], status=1),
    planned(["scan", "--workers", "1", "w", "-"], ["w", "-"], HITS, FILES["t"]),
    planned(["scan", "--workers", "4", "w", "-"], ["w", "-"], HITS, FILES["t"], has_threads=True),
    planned(["scan", "--workers", "4", "-", "many"], ["-", "many"], A_FOUND, b"a\n", has_threads=True),
    planned(["scan", "--count", "--workers", "1", "-", "t"], ["-", "t"], COUNT, FILES["w"]),
    planned(["scan", "--count", "--workers", "16", "-", "t"], ["-", "t"], COUNT, FILES["w"], has_threads=True),
    planned(["scan", "--count", "--workers", "1", "-", "big"], ["-", "big"], COUNT_BIG, b"\n".join(PHRASES)),
]
FILES["r"] = b"He\nshe\n\nhers\nHE\nhe\nshe\n"
REPEATED = FILES["r"].split(b"\n")[:-1]
MANY_DRAWN = plain_view.drawing_of(MANY.split(), False)
EXPLAINED = [
    planned(["explain", "r"], ["r"], plain_view.text_of(REPEATED, False)),
    planned(["explain", "-i", "-"], ["-"], plain_view.text_of(REPEATED, True), FILES["r"]),
    planned(["explain", "--svg", "-i", "r"], ["r"], plain_view.drawing_of(REPEATED, True)),
    planned(["explain", "--svg", "-"], ["-"], MANY_DRAWN, MANY),
    planned(["explain", "--buckets=16", "r"], ["r"], plain_view.text_of(REPEATED, False, 16)),
    planned(["explain", "e"], ["e"], b"no line has a literal\n", status=1),
]
PACKS = [
    packed([], "w", WORDS, False),
    packed(["-i"], "-", plain_plan.literals_of(MANY.split(), True), True, MANY),
    packed(["--buckets=16"], "w", WORDS, False, buckets=16),
]
MIGRATIONS = [
    migrated("one.plans", [([b"%c" % letter for letter in b"abcdefghi"], False)], 1),
    migrated("three.plans", [(WORDS, False), ([b"a"], True), (plain_plan.literals_of(MANY.split(), True), True)], 2),
]
FILES["bad.plans"] = FILES["one.plans"][:-1]
MIGRATIONS += [planned(["migrate", "bad.plans", "made"], ["bad.plans"], b"", status=2, messages=b"litplan: refused (10)\n")]

# scand.


def is_unserved(whole, got):
    """Whether memory ran out: before serving, with a message, or at some request, with the replies so far."""
    if got.status == 2:
        return stops_with(NO_MEMORY["scand"])(whole._replace(output=b""), got)
    return got.status == 1 and got.messages == whole.messages and are_prefixes(got, whole) and not replies_of(got.output)[1]


def served(text, store=dict):
    """A run of `scand` over standard input and output, with this store."""

    @functools.lru_cache
    def replies_to(size):
        return b"".join(conversation(text[:size], store())[0])

    def answer(faults):
        front = text[: faults.get("-", len(text))]
        _, size, ending = requests_of(front)
        is_clean = ending == "clean" and "-" not in faults
        return Ending(int(not is_clean), replies_to(size if ending in ("clean", "truncated") else len(front)))

    return Run([program_at("scand"), "--stdio"], answer, {"-": len(text)}, is_unserved, stops_with(b"", 1), text)


MIXED = (
    session_cases.FIRST_THREE + session_cases.SHOW_PLAN_7 + publish([b"He", b"she", b"HE"], True) + open_stream(1, 1)
    + feed(1, b"usHE" * 20) + publish([]) + session_cases.CLOSE_7 + session_cases.OPEN_7 + feed(7, b"cat" * 10)
    + publish(session_cases.PAIRS[:40])
)
MANY_HITS = publish([b"a", b"aa"]) + open_stream(1, 0) + feed(1, b"a" * 5000) + feed(1, b"xa")
BAD = session_cases.FIRST_THREE + b"\0\0\0\4"
# A stream with that text twice, long enough for the server to tune itself. It goes on without memory for that, and a Feed
# needs none, so a Publish at the end asks for some.
LONG = publish(PHRASES) + open_stream(1, 0) + b"".join(
    feed(1, FILES["big"][at : at + 65536]) for _ in range(2) for at in range(0, len(FILES["big"]), 65536)
) + publish([b"cat"])
SESSIONS = [served(text) for text in (session_cases.FIRST_THREE, BAD, MIXED, MANY_HITS)]
SESSIONS += [served(LONG)._replace(growths_alone=True)]


def preplanned(name, lists, text):
    """A run of `scand` with the plans of a file, which are reported before any reply."""
    plans = [Plan(*each) for each in lists]
    lines = [b"scand: plan %d\n" % place for place in range(len(plans))]
    entries = [(plan.literals, plan.is_folded, plain_plan.plan_of(plan.literals)) for plan in plans]
    FILES[name] = b"".join(plain_plan_file.file_fields(entries))
    session = served(text, lambda: dict(enumerate(plans)))

    def answer(faults):
        if name in faults:
            return Ending(2, b"", f"scand: {name}: cannot be read\n".encode())
        return session.answer(faults)._replace(messages=b"".join(lines))

    def is_starved(whole, got):
        unloaded = [b"".join(lines[:count]) + f"scand: {name}: refused (1)\n".encode() for count in range(len(lines) + 1)]
        return got in [Ending(2, b"", messages) for messages in unloaded] or is_unserved(whole, got)

    sources = {name: len(FILES[name]), **session.sources}
    return session._replace(words=[*session.words, "--plans", name], answer=answer, sources=sources, is_starved=is_starved)


ASKED = open_stream(1, 1) + open_stream(2, 0) + feed(1, b"usHERS") + feed(2, b"banana") + publish([b"cat"]) + open_stream(3, 2)
PREPLANNED = [
    preplanned("two.plans", [([b"a"], False), ([b"He", b"she", b"HE", b"hers"], True)], ASKED),
    preplanned("no.plans", [], session_cases.FIRST_THREE),
]

# Words for which a program only prints a message.


def answered(name, words, message):
    """A run that only prints a message."""
    ending = Ending(2, b"", message)
    return Run([program_at(name), *words], lambda faults: ending, {}, stops_with(NO_MEMORY[name]), stops_with(b""))


ANSWERED = [
    answered("litgrep", [], b"litgrep: no pattern given\n"),
    answered("litgrep", ["--version"], b"litgrep %s\n" % version().encode()),
    answered("litplan", ["plan", "none"], b"litplan: none: cannot be used\n"),
    answered("litplan", ["--version"], b"litplan %s\n" % version().encode()),
    answered("scand", [], b"scand: --stdio or --port and --connections are needed\n"),
    answered("scand", ["--version"], b"scand %s\n" % version().encode()),
]

RUNS = [*(search.run() for search in SEARCHES), *PLANS, *EXPLAINED, *PACKS, *MIGRATIONS, *SESSIONS, *PREPLANNED, *ANSWERED]

# Random runs.


def random_text(source, letters, most):
    """A text of some letters, `most` of them at most."""
    return bytes(source.choices(letters, k=source.randrange(most + 1)))


def random_search(source):
    """Flags, lists, pattern files and inputs."""
    flags = "".join(flag for flag in "clqinsvx" if source.random() < 0.2)
    lists = tuple(random_text(source, b"acdogt\n", 6).decode() for _ in range(source.randrange(3)))
    files = source.sample(["p", "w", "e"], source.randrange(0 if lists else 1, 3))
    inputs = source.sample(["f", "g", "t", "none", "-"], source.randrange(1, 5))
    return Search(flags, lists, tuple(files), tuple(inputs), random_text(source, b"acdogt \n", 200)).run()


def random_plan(source):
    """A plan of a random list, a table of the plan, or a scan by it."""
    patterns = random_text(source, b"abcd\n\n", 60) + b"ab"
    literals = plain_plan.literals_of(patterns.split(b"\n"), False)
    command, buckets = source.random(), source.choice([8, 16])
    flag = f"--buckets={buckets}"
    if command < 0.2:
        return planned(["explain", flag, "-"], ["-"], plain_view.text_of(patterns.split(b"\n"), False, buckets), patterns)
    if command < 0.4:
        return planned(["plan", "-", flag], ["-"], plain_plan.spelled(plain_plan.plan_of(literals, buckets)), patterns)
    name, workers = source.choice(["f", "t", "w"]), source.randrange(1, 17)
    hits = plain_scan(literals, FILES[name], False)
    return planned(["scan", f"--workers={workers}", "-", name], ["-", name], hits, patterns, has_threads=workers > 1)


def random_session(source):
    """A random session of `scand`."""
    return served(session_cases.random_session(source)[0])


def random_runs(source):
    """Runs of all programs, without end."""
    while True:
        yield source.choice([random_search, random_plan, random_session])(source)


CAT, PLAN, TABLE, SERVED = RUNS[0], PLANS[0], EXPLAINED[0], SESSIONS[0]


def starved(run):
    """The ending of a run whose first growth is refused."""
    return Ending(2, b"", NO_MEMORY[os.path.basename(run.words[0])], (None,) * len(run.made))


# Each row: a run, the refusal, and how the run ends.
ROWS = [
    *((run, f"growth-1{suffix}", starved(run)) for run in RUNS for suffix in ("", "-on")),
    (CAT, "cut-3", Ending(0, b"1:cat\n3:concat\n")),
    (CAT, "short-3", Ending(0, b"1:cat\n3:concat\n")),
    (CAT, "room-3", Ending(2, b"1:c")),
    (CAT, "given-9", Ending(2, b"1:cat\n", b"litgrep: (standard input): cannot be read\n")),
    (PLAN, "room-12", Ending(2, b"litcert 1\nli", b"litplan: refused (18)\n")),
    (PLAN, "given-13", Ending(2, b"", b"litplan: -: cannot be used\n")),
    (TABLE, "cut-3", Ending(0, plain_view.text_of(REPEATED, False))),
    (TABLE, "room-12", Ending(2, b"bucket  lite", b"litplan: refused (18)\n")),
    (TABLE, "given-22", Ending(2, b"", b"litplan: r: cannot be used\n")),
    (SERVED, "room-20", Ending(1, session_cases.THEIR_REPLIES[:20])),
    (SERVED, "given-22", Ending(1, session_cases.PUBLISHED_0)),
]


def copied(program, mistake, text):
    """A run of mistaken.c, which stops as `litplan` does, and copies its input."""

    def answer(faults):
        if "-" in faults:
            return Ending(2, text[: faults["-"]], b"litplan: -: cannot be used\n")
        return Ending(0, text) if text else Ending(2, b"", b"litplan: refused (5)\n")

    like = planned([], ["-"], text, text, has_threads=mistake == "needs a thread")
    return like._replace(words=[program, mistake], answer=answer)
