"""Samples of long sweeps: drawn by a seed, and played for a time."""

import collections
import os
import random
import time

# How long jobs of one sample are begun.
SECONDS = 20
# The number of jobs that are begun before the answer to the first of them is taken.
AHEAD = 4 * os.cpu_count()


def source_of(part):
    """The random numbers of a part's sample. Their seed is SEED in the environment, or any. It is printed, so that the same
    sample can be drawn again; how much of it is played depends on the machine."""
    seed = int(os.environ.get("SEED") or random.SystemRandom().randrange(10**6))
    print(f"{part}: SEED={seed} draws this sample again", flush=True)
    return random.Random(seed)


def place_in(source, count):
    """A place among this number of calls. The first ones are drawn most often, since few runs have hundreds."""
    return int(2 ** source.uniform(0, 9) - 1) % count


def sampled(pool, call, jobs, seconds=SECONDS):
    """Each job that is begun in this time, with what the call answers for its words, in their order."""
    until, begun = time.monotonic() + seconds, collections.deque()
    for job, words in jobs:
        begun.append((job, pool.submit(call, *words)))
        if len(begun) == AHEAD:
            job, answer = begun.popleft()
            yield job, answer.result()
        if time.monotonic() > until:
            break
    for job, answer in begun:
        yield job, answer.result()
