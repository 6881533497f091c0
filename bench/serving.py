#!/usr/bin/env python3
"""Measures scand beside `cat` and beside a server of the same frames on Hyperscan's streams, in turns in one run.

    python3 bench/serving.py [--size MB] [--turns N] [--only WORD] [--tables NAME ..] [--scand NAME=PATH ..] [--first] [--write]

Over standard input and output: one stream, its Feeds from a file through `cat` and its replies to nowhere, beside
`cat` in the server's place, and bin/bench_scan where it is built, which feeds the same text in memory; round trips of
Feeds of 100 bytes, beside `cat` as an echo; and memory. Over the loopback: one connection beside 64, also of a server
that reads and answers the frames, and looks for nothing. Figures are medians; what a session costs before its first Feed
is taken off processor and wall time of one stream. Replies are compared with the peer's. With --first all of it runs at
real-time priority, so that it waits for no other program; that takes root, and others wait. With --write each table
that was measured takes its place in bench/SERVING.md. bench/peers/install.sh builds the peer.
"""
import argparse
import hashlib
import os
import random
import re
import resource
import statistics
import subprocess
import sys
import tempfile
import time

from lists import Text, pick, pools
from programs import HERE, MB, log_block, machine, rare_literal, write_lines
from talking import Port, Stdio

sys.path.insert(0, os.path.join(HERE, "../tests"))
from oracles.sessions import feed, open_stream, publish  # noqa: E402

SCAN = os.path.join(HERE, "../bin/bench_scan")
PEER = os.path.join(HERE, "peers/bin/serve")
TABLES = os.path.join(HERE, "SERVING.md")
MANY = 64


# ---------------------------------------------------------------- sessions

def own_words(folder, text, count):
    """Rare literals that are made of the text's own words or syllables, as `lists.py` makes them."""
    path, rng = os.path.join(folder, "words"), random.Random(17)
    with open(path, "wb") as out:
        out.write(text)
    return sorted(pick(rng, pools(Text("log", path), rng), "rare", count))


def literals_of(kind, count, text):
    """Rare literals, which hardly occur, or frequent ones, cut out of the text itself."""
    rng, found = random.Random(17), set()
    while len(found) < count:
        at = rng.randrange(len(text) - 20)
        piece = rare_literal(rng, "%s%s%02x", 8) if kind == "rare" else text[at:at + rng.randint(5, 12)]
        if b"\n" not in piece:
            found.add(piece)
    return sorted(found)


def write_session(path, literals, text, size, piece):
    """A file of one session: a Publish, an Open, and Feeds of so many bytes of the text in pieces."""
    front = publish(literals) + open_stream(1, 0)
    with open(path, "wb") as out:
        out.write(front)
        block = b"".join(feed(1, text[at:at + piece]) for at in range(0, len(text) - piece + 1, piece))
        for _ in range(max(1, size // len(text))):
            out.write(block)
    with open(path + ".front", "wb") as out:
        out.write(front)
    return max(1, size // len(text)) * (len(text) // piece * piece)


# ---------------------------------------------------------------- throughput

class Cost:
    """What a run took, in seconds: on the wall, of the processor, and of that in user mode."""

    def __init__(self, wall, cpu, user):
        self.wall, self.cpu, self.user = wall, cpu, user


def run(words, path, out=subprocess.DEVNULL):
    """Runs a server on a file that comes through `cat`."""
    before = time.monotonic()
    source = subprocess.Popen(["cat", path], stdout=subprocess.PIPE)
    child = subprocess.Popen(words, stdin=source.stdout, stdout=out)
    source.stdout.close()
    _, status, usage = os.wait4(child.pid, 0)
    wall = time.monotonic() - before
    child.returncode = os.waitstatus_to_exitcode(status)
    source.wait()
    if child.returncode:
        raise RuntimeError("%s ended with status %d" % (words, child.returncode))
    return Cost(wall, usage.ru_utime + usage.ru_stime, usage.ru_utime)


def replies(words, path):
    """A digest of the replies to a file."""
    with tempfile.TemporaryFile() as out:
        run(words, path, out)
        out.seek(0)
        return hashlib.file_digest(out, "blake2b").hexdigest()


def costs(servers, path, turns, alone):
    """The median cost of each server for a file, that of the front of it taken off, and the median user time of what
    is measured alone in the same turns, if anything is."""
    found, fed = {name: [] for name, _ in servers}, []
    for _ in range(turns):
        for name, words in servers:
            whole, front = run(words, path), run(words, path + ".front")
            found[name].append(Cost(whole.wall - front.wall, whole.cpu - front.cpu, whole.user - front.user))
        fed += [alone()] if alone else []
    medians = {name: Cost(*(statistics.median(getattr(cost, figure) for cost in turned) for figure in ("wall", "cpu", "user")))
               for name, turned in found.items()}
    return medians, statistics.median(fed) if fed else None


def feeding_alone(folder, literals, text, times):
    """What measures the user time of feeding a text in memory, in pieces of 64 KiB, so many times; None where the
    program for it is not built."""
    if not os.path.exists(SCAN):
        return None
    text_file, list_file = os.path.join(folder, "text"), os.path.join(folder, "list")
    with open(text_file, "wb") as out:
        out.write(text)
    write_lines(list_file, literals)

    def user(turns):
        child = subprocess.Popen([SCAN, text_file, list_file, "stream", str(turns)], stdout=subprocess.DEVNULL)
        _, status, usage = os.wait4(child.pid, 0)
        child.returncode = os.waitstatus_to_exitcode(status)
        return usage.ru_utime
    return lambda: user(times + 1) - user(1)


ROWS = [(piece, kind, count) for piece in (65536, 1000) for kind, count in
        (("rare", 1), ("rare", 10), ("rare", 100), ("rare", 1000), ("own words", 10), ("own words", 100), ("own words", 1000),
         ("frequent", 1000))]


def throughput(folder, ours, options):
    """A table of one stream, and the rows whose replies differ from the peer's."""
    servers = [("cat", ["cat"])] + [(name, [path, "--stdio"]) for name, path in ours] + peers()
    names = [name for name, _ in servers]
    lines = ["| Feeds, literals | %s | %s | %s |" % (
        " | ".join(name + ", GB/s" for name in names), " | ".join(name + ", user s/GB" for name in names[1:]),
        " | ".join("%s / feed alone" % name for name, _ in ours))]
    lines.append("|---" * (lines[0].count("|") - 1) + "|")
    text, wrong = log_block(0, 8 * MB), []
    for piece, kind, count in ROWS:
        title = "%d bytes, %d %s" % (piece, count, kind)
        if options.only not in title:
            continue
        path = os.path.join(folder, "session")
        literals = own_words(folder, text[:MB], count) if kind == "own words" else literals_of(kind, count, text[:MB])
        size = write_session(path, literals, text, options.size * MB // (8 if kind == "frequent" else 1), piece)
        alone = feeding_alone(folder, literals, text, size // len(text)) if piece == 65536 else None
        found, fed = costs(servers, path, options.turns, alone)
        digests = {replies(words, path) for name, words in servers[1:]}
        wrong += [title] * (len(digests) > 1)
        lines.append("| %s | %s | %s | %s |" % (
            title, " | ".join("%.2f" % (size / found[name].wall / 1e9) for name in names),
            " | ".join("%.3f" % (found[name].user / size * 1e9) for name in names[1:]),
            " | ".join("%.2f" % (found[name].user / fed) if fed else "" for name, _ in ours)))
        print(lines[-1], flush=True)
    return lines, wrong


def peers():
    return [("Hyperscan", [PEER, "--stdio"])] if os.path.exists(PEER) else []


# ---------------------------------------------------------------- round trips and memory

def percentiles(times):
    times = sorted(times)
    return times[len(times) // 2] * 1e6, times[len(times) * 99 // 100] * 1e6


def round_trips(ours, options):
    """A table of the times from a Feed of 100 bytes to its Fed, the client's own part included."""
    text, literals = log_block(1, MB), literals_of("rare", 100, log_block(0, MB))
    servers = [("cat, an echo", lambda: Stdio(["cat"]))]
    for name, path in [*ours, *[(name, words[0]) for name, words in peers()]]:
        servers.append((name + " --stdio", lambda path=path: Stdio([path, "--stdio"])))
        if Port.is_served_by(path):
            servers.append((name + " --port", lambda path=path: Port(path, 1)))
    times = {name: [] for name, _ in servers}
    for _ in range(options.turns):
        for name, start in servers:
            with start() as server:
                times[name] += server.round_trips(publish(literals), [text[at:at + 100] for at in range(0, 4000 * 100, 100)])
    lines = ["| round trips of 100 bytes | median, µs | 99th percentile, µs |", "|---|---|---|"]
    lines += ["| %s | %.1f | %.1f |" % (name, *percentiles(found)) for name, found in times.items()]
    print("\n".join(lines), flush=True)
    return lines


def memory(ours):
    """A table of resident memory, in KiB. The longest literal sets what a stream keeps."""
    literals, text = literals_of("rare", 999, log_block(0, MB)) + [b"x" * 4095], log_block(1, MB)[:65536]
    lines = ["| memory, KiB, with a literal of 4,095 bytes | one stream | each of 63 more | 64 idle connections | each of 63 more |", "|---|---|---|---|---|"]
    for name, path in [*ours, *[(name, words[0]) for name, words in peers()]]:
        with Stdio([path, "--stdio"]) as server:
            server.asks(publish(literals))
            found = []
            for stream in range(64):
                server.asks(open_stream(stream, 0))
                server.asks(feed(stream, text))
                found.append(server.resident())
        row = ["%d" % found[0], "%.1f" % ((found[-1] - found[0]) / 63), "", ""]
        if Port.is_served_by(path):
            with Port(path, 64) as server:
                first = server.idle(1)
                last = server.idle(63)
                row[2:] = "%d" % last, "%.1f" % ((last - first) / 63)
        lines.append("| %s | %s |" % (name, " | ".join(row)))
    print("\n".join(lines), flush=True)
    return lines


# ---------------------------------------------------------------- the loopback

def loaded(words, number, files, blocks, size):
    """GB/s over all connections, the server's processor seconds for a GB, and the bytes that came."""
    with Port(words[0], number, *words[1:]) as server:
        seconds, came = server.load(*files, blocks)
        return size / seconds / 1e9, server.processor_seconds() / size * 1e9, came


def connections(folder, ours, options):
    """A table of one connection beside 64, and the rows whose replies are not as long as the peer's."""
    text = log_block(0, MB)[:MB // 65536 * 65536]
    servers = [(name, [path]) for name, path in ours if Port.is_served_by(path)]
    servers += [(name, words[:1]) for name, words in peers()] + [("no scan", [PEER, "--unscanned"])] * bool(peers())
    lines = ["| loopback, Feeds of 64 KiB | 1, GB/s | %d, GB/s | ratio | 1, cpu s/GB | %d, cpu s/GB | ratio | least and greatest ratio |" % (MANY, MANY),
             "|---" * 8 + "|"]
    files, wrong = [os.path.join(folder, "publish"), os.path.join(folder, "feeds")], []
    with open(files[1], "wb") as out:
        out.write(b"".join(feed(1, text[at:at + 65536]) for at in range(0, len(text), 65536)))
    for kind, count, share in ("rare", 100, 4), ("rare", 1000, 4), ("frequent", 1000, 1 / 8):
        with open(files[0], "wb") as out:
            out.write(publish(literals_of(kind, count, text)))
        found = {(name, number): [] for name, _ in servers for number in (1, MANY)}
        blocks = max(1, int(options.size * share) // MANY)
        for _ in range(options.turns):
            for name, words in servers:
                for number in 1, MANY:
                    times = blocks * MANY // number
                    found[name, number].append(loaded(words, number, files, times, times * number * len(text)))
        came = {(number, came) for (name, number), runs in found.items() if name != "no scan" for _, _, came in runs}
        wrong += ["loopback, %d %s" % (count, kind)] * (len(came) > 2)
        for name, _ in servers:
            one, many = (list(zip(*found[name, number])) for number in (1, MANY))
            speeds, costs = ([statistics.median(column[figure]) for column in (one, many)] for figure in (0, 1))
            ratios = [high / low for low, high in zip(one[1], many[1])]
            lines.append("| %s, %d %s | %.2f | %.2f | %.2f | %.3f | %.3f | %.2f | %.2f, %.2f |" % (
                name, count, kind, *speeds, speeds[1] / speeds[0], *costs, costs[1] / costs[0], min(ratios), max(ratios)))
            print(lines[-1], flush=True)
    return lines, wrong


# ---------------------------------------------------------------- output

TITLES = {"stream": "One stream", "trips": "Round trips", "memory": "Memory", "loopback": "One connection and many"}


def write(found, options):
    """Puts each table in the place of the one before it. What else a part of the file says stays, behind its table."""
    with open(TABLES) as file:
        text = file.read()
    how = ", at real-time priority" * options.first
    for name, lines in found.items():
        part = "## %s\n\n%s%s\n\n%s\n" % (TITLES[name], machine(options.size).rstrip("."), how + ".", "\n".join(lines))
        text, count = re.subn(r"## %s\n\n[^\n]*\n\n(\|[^\n]*\n)*" % TITLES[name], lambda _: part, text)
        text += "" if count else "\n" + part
    with open(TABLES, "w") as out:
        out.write(text)


def options_given():
    parser = argparse.ArgumentParser(description=__doc__, formatter_class=argparse.RawDescriptionHelpFormatter)
    parser.add_argument("--size", type=int, default=1024,
                        help="megabytes of a stream, an eighth where literals are frequent; four times that over the loopback")
    parser.add_argument("--turns", type=int, default=5)
    parser.add_argument("--only", default="", help="rows of one stream whose name holds this")
    parser.add_argument("--tables", nargs="+", choices=TITLES, default=list(TITLES), help="what is measured")
    parser.add_argument("--scand", action="append", default=[], metavar="NAME=PATH")
    parser.add_argument("--first", action="store_true", help="run before all other programs")
    parser.add_argument("--write", action="store_true")
    return parser.parse_args()


def main():
    options = options_given()
    ours = [tuple(given.split("=", 1)) for given in options.scand] or [("scand", os.path.join(HERE, "../bin/scand"))]
    resource.setrlimit(resource.RLIMIT_NOFILE, (4096, 4096))
    if options.first:
        os.sched_setscheduler(0, os.SCHED_RR, os.sched_param(5))
    takes = {"stream": lambda folder: throughput(folder, ours, options), "trips": lambda _: (round_trips(ours, options), []),
             "memory": lambda _: (memory(ours), []), "loopback": lambda folder: connections(folder, ours, options)}
    found, wrong = {}, []
    for name in options.tables:
        with tempfile.TemporaryDirectory(prefix="scand-bench-") as folder:
            found[name], others = takes[name](folder)
            wrong += others
    if options.write:
        write(found, options)
    for title in wrong:
        print("other replies than the peer's: " + title)
    return 1 if wrong else 0


if __name__ == "__main__":
    sys.exit(main())
