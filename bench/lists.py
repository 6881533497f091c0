#!/usr/bin/env python3
"""Measures litgrep beside other greps with the lists and texts that users have, side by side in one run.

    python3 bench/lists.py [--size MB] [--turns N] [--rounds N] [--lists N] [--seed S] [--only WORD] [--litgrep NAME=PATH ..] [--write]

The literals are made of one to three of a text's own words or syllables. --seed draws other literals and other texts,
on which no constant of the search was chosen; --lists says how many lists are drawn for each row. --rounds goes over all
rows so often, one round after the other, so that what slows a shared machine for some minutes meets no row in each. The runs
are those of programs.py, without busybox, which tries each literal in turn, and are compared with GNU grep's as there.
Prints the least processor time of each program over the turns in milliseconds, since whatever else a shared machine does
only adds to it, and how far litgrep is ahead of the best other one; with --write the tables go to bench/LISTS.md, and a plot
to bench/lists.svg.
"""
import argparse
import itertools
import json
import os
import random
import re
import statistics
import string
import sys
import sysconfig
import tempfile

from held import with_reasons
from plot import plot_of_lists
from programs import (COMMON, HERE, MB, UNITS, Row, compared, english_block, fill, litgreps, log_block, machine, measure, peers,
                      report, run, word, write_lines)

COUNTS = (5, 10, 30, 100, 300, 1000)
FEWER = (10, 100, 1000)
LONG = (2000, 4096)
POOL = 2000             # literals of each kind of a text, of which its lists are drawn
SHORT = 200             # and those of 2 and 3 bytes
LONG_POOL = 5000        # the same for long lists
LONG_SHORT = 500
RARE, FREQUENT = 2, 20  # a rare literal occurs at most, a frequent one at least so often in the sample of a megabyte
ALIKE = "addresses of one domain"
NO_SOURCE = {"test", "tests", "site-packages", "dist-packages", "__pycache__"}


# ---------------------------------------------------------------- texts

def json_block(seed, size):
    """About `size` bytes of JSON lines with nested keys."""
    rng = random.Random(seed)
    lines, total = [], 0
    while total < size:
        line = json.dumps({
            "time": "2026-11-%02dT%02d:%02d:%02dZ" % (rng.randint(1, 30), rng.randint(0, 23), rng.randint(0, 59),
                                                      rng.randint(0, 59)),
            "request": {"id": "%016x" % rng.getrandbits(64), "method": rng.choice(["GET", "GET", "POST", "PUT"]),
                        "path": "/v1/%s/%s/%d" % (rng.choice(UNITS), word(rng), rng.randint(1, 9999)),
                        "headers": {"host": word(rng) + ".example", "accept": "application/json"}},
            "user": {"id": rng.randint(1, 99999), "name": word(rng).capitalize(),
                     "address": {"city": word(rng).capitalize(), "zip": "%05d" % rng.randint(0, 99999)}},
            "result": {"status": rng.choice([200, 200, 200, 204, 404, 500]), "bytes": rng.randint(0, 99999),
                       "timings": {"queue": rng.randint(0, 99), "total": rng.randint(0, 4000)}},
            "tags": [rng.choice(COMMON) for _ in range(rng.randint(0, 5))],
        }, separators=(",", ":"))
        lines.append(line)
        total += len(line) + 1
    return ("\n".join(lines) + "\n").encode()


def blank_block(seed, size):
    """Lines of English, each with up to three empty lines behind it."""
    rng = random.Random(seed)
    return b"".join(line + b"\n" * rng.randint(1, 4) for line in english_block(seed, size).split(b"\n"))[:size]


def source_files(seed):
    """The files of Python's standard library, in an order drawn by the seed."""
    found = []
    for folder, folders, names in os.walk(sysconfig.get_path("stdlib")):
        folders[:] = [name for name in folders if name not in NO_SOURCE]
        found += [os.path.join(folder, name) for name in names if name.endswith(".py")]
    return random.Random(seed).sample(sorted(found), len(found))


def write_source(path, size, seed):
    """Source code of many files behind each other, from the first file again when all are through."""
    with open(path, "wb") as out:
        for name in itertools.cycle(source_files(seed)):
            if out.tell() >= size:
                break
            with open(name, "rb") as file:
                out.write(file.read())


def write_changing(path, size, sources, piece):
    """A text that goes on with the next of the sources after each piece."""
    with open(path, "wb") as out:
        for start in range(0, size, piece):
            with open(sources[start // piece % len(sources)], "rb") as source:
                source.seek(start)
                out.write(source.read(min(piece, size - start)))


def spoilt_block(literals, seed):
    """Makes blocks of lines of these literals, each with one byte spoilt: none occurs, and all nearly do."""
    rng = random.Random(seed)
    whole = re.compile(b"|".join(re.escape(literal.lower()) for literal in literals))
    letters, near = b"".join(literals), []
    for literal in literals * 16:
        place = rng.randrange(len(literal))
        spoilt = literal[:place] + bytes([rng.choice(letters)]) + literal[place + 1:]
        if not whole.search(spoilt.lower()):
            near.append(spoilt)

    def block(number, size):
        chosen = random.Random(seed + number).choices(near, k=size * len(near) // sum(len(spoilt) + 1 for spoilt in near))
        return b"".join(b" ".join(chosen[start:start + 8]) + b"\n" for start in range(0, len(chosen), 8))
    return block


def address(rng):
    """A mail address, at the same domain as all others."""
    return ("%s.%s%d@mail.example.com" % (word(rng), word(rng), rng.randint(1, 99))).encode()


def mail_block(seed, size):
    """About `size` bytes of lines with one address each."""
    rng = random.Random(seed)
    lines, total = [], 0
    while total < size:
        lines.append(b"%08x: from=<%s>, size=%d, nrcpt=1 (queue active)" % (rng.getrandbits(32), address(rng), rng.randint(300, 99999)))
        total += len(lines[-1]) + 1
    return b"\n".join(lines) + b"\n"


class Text:
    """A text in a file, and what literals are drawn from: a megabyte of it, from sixteen places all over the file."""

    def __init__(self, name, path):
        self.name, self.path = name, path
        size, pieces = os.path.getsize(path), []
        with open(path, "rb") as file:
            for place in range(16):
                file.seek(size * place // 16)
                pieces.append(file.read(MB // 16))
        self.sample = b"".join(pieces)
        self.folded = self.sample.lower()
        self.words = re.findall(rb"\w+", self.sample)
        self.different = sorted(set(self.words))
        self.lines = sorted({line for piece in pieces for line in piece.split(b"\n")[1:-1] if line.strip()})


def make_texts(folder, size, seed):
    """Writes the files of all texts, and gives the four that lists are drawn from."""
    path = lambda name: os.path.join(folder, name)
    seeded = lambda block: lambda number, length: block(100 * seed + number, length)
    fill(path("log"), size, seeded(log_block))
    fill(path("english"), size, seeded(english_block))
    fill(path("json"), size, seeded(json_block))
    fill(path("blank"), size, seeded(blank_block))
    write_source(path("source"), size, seed)
    texts = [Text(name, path(name)) for name in ("log", "english", "json", "source")]
    sources = [text.path for text in texts]
    write_changing(path("changing"), size, sources, MB // 16)
    write_changing(path("turning"), size, sources, min(16 * MB, size // 4))
    with open(path("empty"), "wb") as out:
        out.write(b"\n" * (size // 4))
    return texts


# ---------------------------------------------------------------- literals

def cut(rng, text, length):
    """So many bytes of a text, or all where it is shorter."""
    start = rng.randint(0, max(0, len(text) - length))
    return text[start:start + length]


def put_together(rng, text):
    """One to three words of the text, as often as they occur or each alike, and syllables of them."""
    parts = []
    for _ in range(rng.randint(1, 3)):
        part = rng.choice(text.words if rng.random() < 0.5 else text.different)
        parts.append(part if rng.random() < 0.5 else cut(rng, part, rng.randint(2, 4)))
    return b"".join(parts)


def draw(rng, wanted, make, fits):
    """So many different literals that are made so and fit."""
    found = set()
    while len(found) < wanted:
        literal = make(rng)
        if literal not in found and fits(literal):
            found.add(literal)
    return sorted(found)


def pools(text, rng, size=POOL, short=SHORT):
    """The literals of a text: rare ones of 4 to 14 bytes and of 2 and 3, and frequent ones, which are pieces of 4 to 14 bytes
    of a word or of up to three words in a row."""
    occurs = lambda literal: text.folded.count(literal.lower())
    rare = lambda least: lambda literal: len(literal) >= least and occurs(literal) <= RARE
    running = lambda rng: cut(rng, rng.choice(text.words) if rng.random() < 0.5 else text.sample, rng.randint(4, 14)).strip()
    often = lambda literal: (len(literal) >= 4 and b"\n" not in literal and len(re.findall(rb"\w+", literal)) <= 3
                             and occurs(literal) >= FREQUENT)
    return {
        "rare": draw(rng, size, lambda rng: cut(rng, put_together(rng, text), rng.randint(4, 14)), rare(4)),
        "short": draw(rng, short, lambda rng: cut(rng, put_together(rng, text), rng.randint(2, 3)), rare(2)),
        "frequent": draw(rng, size, running, often),
    }


def span(count):
    """The lengths of lists that are shown together."""
    return "5 to 29" if count < 30 else "30 to 1,000" if count <= 1000 else "2,000 and 4,096"


def pick(rng, pool, kind, count):
    """A list of this kind; of one with short literals every tenth is short, and one at least."""
    short = max(1, count // 10) if "short" in kind else 0
    chosen = rng.sample(pool["short"], short) + rng.sample(pool["frequent" if "frequent" in kind else "rare"], count - short)
    if "-i" in kind:
        chosen = [rng.choice((literal.lower(), literal.upper(), literal.title())) for literal in chosen]
    return chosen


# ---------------------------------------------------------------- rows

class Search(Row):
    """One search, which belongs to a group of like ones. With `reads` it stands beside reading its file alone."""

    def __init__(self, group, name, options, files, literals=1, reads=False):
        super().__init__(name, options, files)
        self.group, self.literals, self.reads = group, literals, reads

    def suits(self, program):
        """ripgrep takes seconds for whole lines of a thousand literals, for thousands of literals without case, and for a
        thousand literals that end alike."""
        most = 100 if "-x" in self.options or self.group == ALIKE else 1000 if "-i" in self.options else self.literals
        return not (program == "ripgrep" and self.literals > most)


class Searches:
    """Makes the rows, and the pattern files that they need."""

    def __init__(self, folder, texts, seed, draws):
        self.folder, self.texts, self.seed, self.draws, self.files = folder, texts, seed, draws, 0
        self.rng = random.Random(seed)
        self.pools = {text.name: pools(text, self.rng) for text in texts}

    def path(self, name):
        return os.path.join(self.folder, name)

    def list_row(self, group, name, options, text, literals):
        self.files += 1
        patterns = self.path("patterns%d" % self.files)
        write_lines(patterns, literals)
        return Search(group, name, options + ["-f", patterns], text if isinstance(text, list) else [text], len(literals))

    def drawn(self, name, path, pool, kind, counts):
        """Lists of one kind, some of each length."""
        options = [word for word in kind.split() if word.startswith("-")]
        for count in counts:
            group = "%s: %s, %s" % (name, kind, span(count))
            for _ in range(self.draws):
                yield self.list_row(group, "%s: %d %s" % (name, count, kind), options, path, pick(self.rng, pool, kind, count))

    def own_lists(self, text):
        pool = self.pools[text.name]
        for kind, counts in (("rare", COUNTS), ("rare -i", COUNTS), ("rare, some short", FEWER), ("rare, some short -i", FEWER),
                             ("frequent", COUNTS), ("frequent, some short", FEWER), ("frequent -i", FEWER), ("frequent -c", FEWER)):
            yield from self.drawn(text.name, text.path, pool, kind, counts)

    def one_literal(self, text):
        pool, group, path = self.pools[text.name], "%s: one literal" % text.name, [text.path]
        for _ in range(self.draws):
            rare, often = self.rng.choice(pool["rare"]), self.rng.choice(pool["frequent"])
            yield Search(group, text.name + ": one rare", ["-e", rare], path, reads=True)
            yield Search(group, text.name + ": one rare -i", ["-i", "-e", rare.upper()], path)
            yield Search(group, text.name + ": one frequent", ["-e", often], path)
            yield Search(group, text.name + ": one frequent -i", ["-i", "-e", often.lower()], path)
            for option in ("-c", "-v", "-n"):
                yield Search(group, "%s: one frequent %s" % (text.name, option), [option, "-e", often], path)

    def one_byte(self, text):
        """The commonest letter, the rarest byte that one can type, and one that hardly any text has."""
        typed = string.printable.strip().encode()
        letter = max(string.ascii_lowercase.encode(), key=text.sample.count)
        rarest = min((byte for byte in typed if byte in text.sample), key=text.sample.count)
        group, name = "%s: one byte" % text.name, text.name + ": one byte, "
        yield Search(group, name + "absent", ["-e", b"\x07"], [text.path])
        yield Search(group, name + "rare", ["-e", bytes([rarest])], [text.path])
        yield Search(group, name + "frequent -c", ["-c", "-e", bytes([letter])], [text.path])
        yield Search(group, name + "frequent -n", ["-n", "-e", bytes([letter])], [text.path])
        yield Search(group, name + "frequent -i", ["-i", "-e", bytes([letter]).upper()], [text.path])
        yield self.list_row(group, text.name + ": three bytes", [], text.path, [b"\x07", bytes([rarest]), b"~"])

    def whole_lines(self, text):
        """-x with a line of the text, a word that is no line, and lists of both."""
        pool, group, name = self.pools[text.name], text.name + ": -x", text.name + ": -x, "
        for _ in range(self.draws):
            yield Search(group, name + "one line", ["-x", "-e", self.rng.choice(text.lines)], [text.path])
            yield Search(group, name + "one frequent word", ["-x", "-e", self.rng.choice(pool["frequent"])], [text.path])
        for count in FEWER:
            yield self.list_row(group, "%s%d lines" % (name, count), ["-x"], text.path,
                                self.rng.sample(text.lines, min(count, len(text.lines))))
        yield self.list_row(group, name + "100 frequent words", ["-x"], text.path, self.rng.sample(pool["frequent"], 100))

    def empty_lines(self):
        pool, group, english = self.pools["english"], "empty lines", self.texts[1]
        rare, line = pool["rare"][0], self.rng.choice(english.lines)
        for name in ("empty", "blank"):
            path, title = [self.path(name)], "%s lines: " % name
            for what, options in (("one rare", ["-e", rare]), ("-v one rare", ["-v", "-e", rare]),
                                  ("-x one line", ["-x", "-e", line]), ("-x null pattern, -c", ["-c", "-x", "-e", ""]),
                                  ("-x -v null pattern", ["-x", "-v", "-e", ""]),
                                  ("-x -n null pattern", ["-x", "-n", "-e", ""])):
                yield Search(group, title + what, options, path)
            yield self.list_row(group, title + "100 rare", [], path, pick(self.rng, pool, "rare", 100))
            yield self.list_row(group, title + "-x, 100 lines and a null pattern", ["-x"], path,
                                [b""] + self.rng.sample(english.lines, min(99, len(english.lines))))

    def changing(self):
        """Lists of the words of all texts, on the texts that change their kind."""
        union = {kind: sorted({literal for pool in self.pools.values() for literal in pool[kind]})
                 for kind in ("rare", "short", "frequent")}
        for name, file in (("changing every 64 KiB", "changing"), ("changing every 16 MiB", "turning")):
            for kind, counts in (("rare", COUNTS), ("rare -i", FEWER), ("rare, some short", FEWER), ("frequent", FEWER)):
                yield from self.drawn(name, self.path(file), union, kind, counts)

    def spoilt(self, size):
        """Each list with a text of its own, in which its literals have one byte spoilt."""
        union = sorted({literal for pool in self.pools.values() for literal in pool["rare"]})
        for count in COUNTS:
            literals = self.rng.sample(union, count)
            path = self.path("spoilt")
            fill(path, size, spoilt_block(literals, self.seed))
            for options in ([], ["-i"]):
                yield self.list_row("spoilt literals", " ".join(["spoilt: %d" % count] + options), options, path, literals)

    def alike(self, size):
        """Addresses of one domain, in lines with others: all of them end alike, and hardly one occurs."""
        path = self.path("mail")
        fill(path, size, lambda number, length: mail_block(100 * self.seed + number, length))
        for count in FEWER + LONG[1:]:
            for options in ([], ["-i"]):
                literals = draw(self.rng, count, address, lambda literal: True)
                yield self.list_row(ALIKE, " ".join(["addresses: %d" % count] + options), options, path, literals)

    def many_files(self, size):
        """The files of the source code, each by itself, and one of middling size alone."""
        files, total = [], 0
        for name in source_files(self.seed):
            total += os.path.getsize(name)
            if total > size:
                break
            files.append(name)
        pool, group = self.pools["source"], "source, each file by itself"
        yield Search(group, "source files: one rare", ["-e", self.rng.choice(pool["rare"])], files)
        yield Search(group, "source files: -l one frequent", ["-l", "-e", self.rng.choice(pool["frequent"])], files)
        for count in FEWER:
            yield self.list_row(group, "source files: %d rare" % count, [], files, pick(self.rng, pool, "rare", count))
        alone = sorted(files, key=os.path.getsize)[len(files) // 2]
        for count in FEWER:
            yield self.list_row("one source file", "one source file: %d rare" % count, [], alone, pick(self.rng, pool, "rare", count))

    def long_lists(self, text):
        """Lists that are longer than those of `own_lists`, with literals of their own, so that the other rows stay as they were."""
        pool = pools(text, random.Random(self.seed), LONG_POOL, LONG_SHORT)
        for kind in "rare", "rare -i", "rare, some short", "frequent":
            yield from self.drawn(text.name, text.path, pool, kind, LONG)

    def rows(self, size):
        for text in self.texts:
            for rows in (self.own_lists, self.one_literal, self.one_byte, self.whole_lines):
                yield from rows(text)
        yield from self.empty_lines()
        yield from self.changing()
        yield from self.spoilt(size)
        yield from self.many_files(size)
        for text in self.texts:
            yield from self.long_lists(text)
        yield from self.alike(size)


# ---------------------------------------------------------------- output

class Result:
    """The times of one search in milliseconds, how far each litgrep is ahead, and the greatest memory of each in MiB."""

    def __init__(self, search, ours):
        self.name, self.group, self.ours = search.name, search.group, ours
        self.times, self.memory, self.reading = {}, {}, None

    def add(self, search, found, turns):
        """Adds the runs of one round."""
        for name, runs in found.items():
            if runs:
                self.times[name] = min(self.times.get(name, float("inf")), least(runs))
        for name in self.ours:
            self.memory[name] = max(self.memory.get(name, 0), max(done.memory for done in found[name]) / 1024)
        if search.reads:
            self.reading = min(self.reading or float("inf"), reading(search.files[0], turns))

    @property
    def best(self):
        return min(time for name, time in self.times.items() if name not in self.ours)

    @property
    def ahead(self):
        return {name: self.best / self.times[name] for name in self.ours}

    def line(self):
        return "%-44s %s  ahead %s" % (self.name, "  ".join("%s %.0f" % pair for pair in self.times.items()),
                                       ", ".join("%.2f" % ratio for ratio in self.ahead.values()))


def least(runs):
    """The least processor time of some runs, in milliseconds."""
    return max(min(done.cpu for done in runs) * 1000, 1e-3)


def reading(path, turns):
    """The milliseconds that reading a file takes, the least of so many turns."""
    words = ["dd", "if=" + path, "of=/dev/null", "bs=128K", "status=none"]
    return least([run(words, None) for _ in range(turns)])


def gathered(results, key):
    """The results by a name that several share, in their order."""
    found = {}
    for result in results:
        found.setdefault(getattr(result, key), []).append(result)
    return found.items()


def ratios(results, ours):
    """The median and the least of how far each litgrep is ahead."""
    return " | ".join("%.2f | %.2f" % (statistics.median(values), min(values))
                      for values in ([result.ahead[name] for result in results] for name in ours))


def heads(first, ours):
    columns = first + [head for name in ours for head in (name.replace("litgrep", "ahead"), "least")]
    return ["| %s |" % " | ".join(columns), "|---" * len(columns) + "|"]


def as_groups(results, ours):
    return heads(["searches", "rows"], ours) + [
        "| %s | %d | %s |" % (name, len(like), ratios(like, ours)) for name, like in gathered(results, "group")]


def as_rows(results, names, ours):
    lines = heads(["search"] + names, ours)
    for title, like in gathered(results, "name"):
        times = [time_of(name, like) for name in names]
        lines.append("| %s | %s | %s |" % (title, " | ".join(times), ratios(like, ours)))
    return lines


def time_of(name, results):
    """The median time of a program over the searches that it answers as GNU grep does; empty if there is none."""
    times = [result.times[name] for result in results if name in result.times]
    return "%.1f" % statistics.median(times) if times else ""


def as_reading(results, ours):
    lines = ["| search | reading | %s | best other |" % " | ".join(ours), "|---" * (len(ours) + 3) + "|"]
    for title, like in gathered([result for result in results if result.reading], "name"):
        middle = lambda figure: statistics.median(figure(result) for result in like)
        alone, best = middle(lambda result: result.reading), middle(lambda result: result.best / result.reading)
        times = ["%.2f" % middle(lambda result: result.times[name] / result.reading) for name in ours]
        lines.append("| %s | %.1f | %s | %.2f |" % (title, alone, " | ".join(times), best))
    return lines


HEAD = """# litgrep beside other greps, with lists of a text's own words

%s
Seed %d, %d lists of each kind and length, %d turns in each of %d rounds; the source code is the standard library of Python %s.
The greatest memory in MiB: %s.

`ahead` is the processor time of the best other grep divided by litgrep's, each the least of the turns, and the median over
the lists. Above 1, litgrep is ahead. `least` is the least ratio of a list."""
READING = "Reading is that of `dd` in blocks of 128 KiB, in milliseconds; the others are times of it."
EACH = "Processor time in milliseconds (user and system), the least of the turns and the median of the lists."


def as_tables(results, names, options):
    ours = [name for name in names if name.startswith("litgrep")]
    memory = ["%.1f (%s)" % (max((result.memory[name] for result in results), default=0), name) for name in ours]
    head = HEAD % (machine(options.size), options.seed, options.lists, options.turns, options.rounds, sysconfig.get_python_version(),
                   ", ".join(memory))
    lines = [head, "", "## By kind", ""] + as_groups(results, ours)
    lines += ["", "## Beside reading alone", "", READING, ""] + as_reading(results, ours)
    lines += ["", "## Each search", "", EACH, ""] + as_rows(results, names, ours)
    return "\n".join(lines) + "\n"


def options_given():
    parser = argparse.ArgumentParser(description=__doc__, formatter_class=argparse.RawDescriptionHelpFormatter)
    parser.add_argument("--size", type=int, default=64, help="megabytes of each text")
    parser.add_argument("--turns", type=int, default=3)
    parser.add_argument("--rounds", type=int, default=1)
    parser.add_argument("--lists", type=int, default=3, help="lists of each kind and length, and single literals of each kind")
    parser.add_argument("--seed", type=int, default=0)
    parser.add_argument("--only", default="", help="rows whose name holds this")
    parser.add_argument("--litgrep", action="append", default=[], metavar="NAME=PATH")
    parser.add_argument("--write", action="store_true")
    return parser.parse_args()


def main():
    options = options_given()
    ours, size = litgreps(options.litgrep), options.size * MB
    programs = ours + [peer for peer in peers() if peer[0] != "busybox"]
    results, left_out = {}, []
    with tempfile.TemporaryDirectory(prefix="lists-bench-") as folder:
        texts = make_texts(folder, size, options.seed)
        for _ in range(options.rounds):
            # Drawn anew by the same seed: the same searches in the same order.
            for place, search in enumerate(Searches(folder, texts, options.seed, options.lists).rows(size)):
                if options.only not in search.name:
                    continue
                found, others = compared(measure(search, programs, options.turns))
                left_out += [(search.name, name) for name in others]
                if all(found[name] for name, _ in ours):
                    result = results.setdefault(place, Result(search, [name for name, _ in ours]))
                    result.add(search, found, options.turns)
                    print(result.line(), flush=True)
    tables = as_tables(list(results.values()), [name for name, _ in programs], options)
    print("\n" + tables)
    if options.write:
        with open(os.path.join(HERE, "LISTS.md"), "w") as out:
            out.write(with_reasons(tables))
        with open(os.path.join(HERE, "lists.svg"), "w") as out:
            out.write(plot_of_lists())
    return report(left_out)


if __name__ == "__main__":
    sys.exit(main())
