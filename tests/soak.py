#!/usr/bin/env python3
"""Loads `scand --port` for some minutes, with 56 connections of mixed load and 8 hostile connections.

    python3 tests/soak.py MINUTES

Every reply to the 56 is compared with the reply of a plain model. Prints a report. The status is 1 where a reply is wrong
or missing, a connection ends otherwise than it should, or memory grows. SCAND in the environment names another program to
test.
"""

import argparse
import contextlib
import multiprocessing
import random
import statistics
import sys
import threading
import time

from cases.session_cases import FEED_CONCAT
from oracles.sessions import Session, close, feed, frame, open_stream, publish, requests_of, show_plan
from support.servers import BROKEN, Server, sends_deafly

GOOD, WORKERS = 56, 4
LETTERS = b"etaoinshrdlucmfwypvbgkjqxz    "
# By how much memory may grow, in KiB, once all connections are at work.
GROWTH = 4096


def words_of(source, count, shortest, longest):
    """Different words of a few letters."""
    found = set()
    while len(found) < count:
        found.add(bytes(source.choices(LETTERS[:-4], k=source.randint(shortest, longest))))
    return sorted(found)


class Episode:
    """The requests of one stream from Open to Close, and their replies."""

    def __init__(self, literals, is_folded, stream, pieces):
        self.published, self.stream = publish(literals, is_folded), stream
        session = Session({0: None})
        session.answers(*requests_of(self.published)[0][0], 0)
        requests = [open_stream(stream, 0), *(feed(stream, piece) for piece in pieces)]
        requests += [show_plan(stream)] * (len(literals) < 20) + [feed(stream + 1, b"x"), close(stream)]
        self.steps = [(request, session.answers(*requests_of(request)[0][0])) for request in requests]
        self.fed = sum(map(len, pieces))
        self.replies = sum(len(replies) for _, replies in self.steps)
        self.steps = [(request, b"".join(replies)) for request, replies in self.steps]

    def open_as(self, number):
        """The Open by this number of a plan."""
        return open_stream(self.stream, number)


def text_of(source, size):
    return bytes(source.choices(LETTERS, k=size))


def pieces_of(source, size, most):
    """A text in pieces of up to this number of bytes."""
    text, found, at = text_of(source, size), [], 0
    while at < size:
        found.append(text[at : at + source.randint(0 if found else 1, most)])
        at += len(found[-1])
    return found


def episodes_of(place):
    """The episodes of a connection: two short episodes of its own, and longer episodes that others share."""
    own, shared = random.Random(place), random.Random(1000 + place % 4)
    short = words_of(own, 3, 2, 4) + [b"%02d" % place]
    return [
        Episode(short, place % 2 == 0, 1, pieces_of(own, 2000, 100)),
        Episode(short, False, 5, [b"%02d" % place] + pieces_of(own, 20000, 1000)),
        Episode(words_of(shared, 100, 5, 9), False, 9, pieces_of(shared, 200000, 65536)),
        Episode(words_of(shared, 1000, 4, 6), True, 13, pieces_of(shared, 100000, 65536)),
        Episode([b"e" * length for length in range(1, 30)], False, 17, [b"e" * 3000, b"E" * 10, b"e" * 10]),
    ]


class Tally:
    """Counts replies, wrong and missing replies, bytes fed, and times of round trips."""

    def __init__(self):
        self.replies, self.wrong, self.fed, self.times, self.faults = 0, 0, 0, [], []

    def add(self, other):
        self.replies += other.replies
        self.wrong += other.wrong
        self.fed += other.fed
        self.times += other.times
        self.faults += other.faults


def run_episode(client, episode, number, tally):
    """Sends an episode step by step. Answers whether all replies were right."""
    for request, replies in [(episode.open_as(number), episode.steps[0][1]), *episode.steps[1:]]:
        before = time.perf_counter()
        client.sends(request)
        got = client.hears(len(replies))
        if len(request) < 200:
            tally.times.append(time.perf_counter() - before)
        if got != replies:
            tally.wrong += 1
            tally.faults.append(f"{request[:40].hex()}: got {got[:60].hex()}, want {replies[:60].hex()} {client.fault!r}")
            return False
    tally.replies += episode.replies
    tally.fed += episode.fed
    return True


class Loaded:
    """A good connection: its episodes, their plans published."""

    def __init__(self, client, place):
        self.client, self.source, self.tally = client, random.Random(place), Tally()
        self.episodes = episodes_of(place)[: 1 if place == 0 else None]
        self.numbers = [int.from_bytes(client.asks(episode.published)[0][0][9:], "big") for episode in self.episodes]

    def run(self, until):
        """Episodes in random order until the time is over."""
        while time.monotonic() < until:
            at = self.source.randrange(len(self.episodes))
            if not run_episode(self.client, self.episodes[at], self.numbers[at], self.tally):
                return
            del self.tally.times[: len(self.tally.times) - 100000]
        rest = self.client.leaves()
        self.tally.wrong += bool(rest)
        self.tally.faults += [f"at the end: {rest[:60]!r}"] * bool(rest)


def work(clients, seconds, start, results):
    """A process with some of the good connections, each in a thread. The first connection is alone in its process, and timed."""
    loaded = [Loaded(client, place) for place, client in clients]
    start.wait()
    threads = [threading.Thread(target=one.run, args=(time.monotonic() + seconds,)) for one in loaded]
    for thread in threads:
        thread.start()
    for thread in threads:
        thread.join()
    whole = Tally()
    for (place, _), one in zip(clients, loaded):
        one.tally.times = one.tally.times if place == 0 else []
        whole.add(one.tally)
    results.put(whole)


# ---------------------------------------------------------------- hostile connections

def deaf(client, until):
    """Asks for more than sockets hold, and never reads."""
    sends_deafly(client)
    time.sleep(max(until - time.monotonic(), 0))
    client.resets()


def slow(client, until):
    """Asks for as much, and reads slowly."""
    sends_deafly(client)
    while time.monotonic() < until:
        client.hears(1 << 16)
        time.sleep(0.05)
    client.resets()


def dribbling(client, until):
    """Sends a byte now and then."""
    episode = episodes_of(60)[0]
    number = int.from_bytes(client.asks(episode.published)[0][0][9:], "big")
    for request, replies in [(episode.open_as(number), episode.steps[0][1]), *episode.steps[1:]] * 1000:
        for byte in request:
            if time.monotonic() > until:
                client.leaves()
                return
            client.sends(bytes([byte]))
            time.sleep(0.003)
        if client.hears(len(replies)) != replies:
            raise AssertionError("a wrong reply to a client that sends slowly")


def bad(text):
    """Waits for half of the time, and sends a bad frame."""

    def run(client, until):
        time.sleep(max(until - time.monotonic(), 0) / 2)
        client.sends(text)
        got = client.leaves()
        if got[4:5] != b"\x17" or got[9:10] != b"\x0b" or len(got) != 12 + len(client.fault):
            raise AssertionError(f"replies to a bad frame: {got!r:.80}")

    return run


def resetting(client, until):
    """Waits for half of the time, begins a frame, and resets."""
    time.sleep(max(until - time.monotonic(), 0) / 2)
    client.sends(FEED_CONCAT[:-1])
    client.resets()


def stuck(client, until):
    """Sends half a frame, and nothing more."""
    client.sends(FEED_CONCAT[:-1])
    time.sleep(max(until - time.monotonic(), 0))
    client.leaves()


# How each hostile connection behaves, and how it may end.
HOSTILE = [
    (deaf, BROKEN),
    (slow, BROKEN),
    (dribbling, {"clean", "truncated"}),
    (bad(b"\xff" * 4), {"bad"}),
    (bad(frame(77, 3) + bytes(200000)), {"bad"}),
    (bad(publish([b"a"], flags=4)), {"bad"}),
    (resetting, BROKEN),
    (stuck, {"truncated"}),
]


def guarded(behave, client, until, faults):
    try:
        behave(client, until)
    except Exception as fault:  # a defect of the server or of this script: the report shows it
        faults.append(f"{behave.__name__}: {fault!r}")
        client.socket.close()


# ---------------------------------------------------------------- the whole

def watched(server, until):
    """Resident memory early and late, in KiB, and the greatest."""
    total = until - time.monotonic()
    time.sleep(min(total / 4, 60))
    early = server.figure("VmRSS")
    late = []
    while time.monotonic() < until - total / 20:
        time.sleep(total / 100)
        late.append(server.figure("VmRSS"))
    return early, int(statistics.median(late[-5:])), server.figure("VmHWM")


def started_workers(clients, seconds, start, results):
    """The processes of the good connections: the first connection alone, the others in groups."""
    placed = list(enumerate(clients))
    groups = [placed[:1]] + [placed[1 + worker :: WORKERS] for worker in range(WORKERS)]
    workers = [multiprocessing.Process(target=work, args=(group, seconds, start, results)) for group in groups]
    for worker in workers:
        worker.start()
    for client in clients:
        client.socket.close()
    return workers


def soak(seconds):
    """Runs all connections. Answers the tally, the memory, and the ending of the server."""
    start, results, faults, tally = multiprocessing.Barrier(WORKERS + 2), multiprocessing.Queue(), [], Tally()
    with Server(GOOD + len(HOSTILE)) as server, contextlib.ExitStack() as stack:
        workers = started_workers([stack.enter_context(server.client()) for _ in range(GOOD)], seconds, start, results)
        start.wait()
        until, threads = time.monotonic() + seconds, []
        for behave, _ in HOSTILE:  # these connect once no other process can hold them open
            client = stack.enter_context(server.client())
            threads.append(threading.Thread(target=guarded, args=(behave, client, until, faults)))
            threads[-1].start()
        memory = watched(server, until)
        for _ in workers:
            tally.add(results.get())
        for member in workers + threads:
            member.join()
        tally.faults += faults
        return tally, memory, server.ends()


def is_ended_well(output, tally):
    """Whether each connection ended as it should. Wrong endings go into the tally."""
    words = output.decode().split()[2::3]
    wanted = [{"clean"}] * GOOD + [allowed for _, allowed in HOSTILE]
    numbered = enumerate(zip(words, wanted), 1)
    wrong = [f"connection {number} {word}" for number, (word, allowed) in numbered if word not in allowed]
    tally.faults += wrong + ["lines missing"] * (len(words) != len(wanted))
    return not wrong and len(words) == len(wanted)


def main():
    parser = argparse.ArgumentParser(description=__doc__, formatter_class=argparse.RawDescriptionHelpFormatter)
    parser.add_argument("minutes", type=float)
    minutes = parser.parse_args().minutes
    tally, (early, late, peak), (status, output, messages) = soak(60 * minutes)
    is_right = is_ended_well(output, tally) and tally.wrong == 0 and not tally.faults and (status, messages) == (1, b"")
    is_flat = late < early + GROWTH
    times = sorted(tally.times) or [0]
    print(f"{minutes:g} minutes, {GOOD} connections of mixed load, {len(HOSTILE)} hostile ones")
    print(f"replies: {tally.replies}, of which wrong or missing: {tally.wrong}")
    print(f"fed: {tally.fed / 1e9:.2f} GB, {tally.fed / 60 / minutes / 1e6:.0f} MB/s; {tally.replies / 60 / minutes:.0f} replies/s")
    median, slow_one = (times[len(times) * part // 100] * 1e6 for part in (50, 99))
    print(f"round trips of up to 100 bytes: median {median:.0f} µs, 99th percentile {slow_one:.0f} µs")
    print(f"resident memory: {early} KiB early, {late} KiB late, {peak} KiB at most")
    for fault in tally.faults[:20]:
        print(f"FAULT: {fault}")
    print("passed" if is_right and is_flat else "FAILED")
    return 0 if is_right and is_flat else 1


if __name__ == "__main__":
    sys.exit(main())
