"""`scand --port` whose growths of memory and threads are refused in turn, by the shim refuse.c.

Clients come one after the other. Each must get a prefix of the replies to its session. For the next one, the store must be
as if an unanswered request had not been sent, or had been answered. The lines of the server report how each client's
connection ended."""

import os
import tempfile

from cases.session_cases import FEED_CONCAT, FIRST_THREE, OPEN_7, PUBLISH_CAT, PUBLISHED_0, THEIR_REPLIES
from oracles.sessions import NO_SUCH_PLAN, NO_SUCH_STREAM, refused, replies_of
from support.servers import Server, lines
from support.shim import built_shim, taken

NO_MEMORY = 2, b"", b"scand: out of memory\n"
# The requests of the second client, and the replies with the plan of the first client and without it.
SECOND, WITH_PLAN = OPEN_7 + FEED_CONCAT, THEIR_REPLIES[len(PUBLISHED_0) :]
WITHOUT_PLAN = refused(7, NO_SUCH_PLAN) + refused(7, NO_SUCH_STREAM)
# How connections end where only memory is refused.
ENDED = {"clean", "out-of-memory", "not-served"}


def served(folder, refused_call, texts):
    """A run with this call refused. A client comes once the one before has left. Answers the replies to each client, how
    the server ended, and whether a call was refused."""
    mark, replies = os.path.join(folder, "mark"), []
    env = dict(os.environ, LD_PRELOAD=os.path.join(folder, "refuse.so"), REFUSED=refused_call, REFUSED_MARK=mark)
    with Server(len(texts), env=env) as server:
        for text in texts:
            try:
                client = server.client()
            except ConnectionRefusedError:
                break
            with client:
                client.sends(text)
                replies.append(client.leaves().removesuffix(client.fault))
        return replies, server.ends(), taken(mark) is not None


def is_prefix(replies, whole):
    """Whether these are the first of some replies, none of them cut."""
    return whole.startswith(replies) and not replies_of(replies)[1]


def words_of(output):
    """The words in the lines about connections."""
    return output.decode().split()[2::3]


def is_right(replies, ending, is_alone):
    """Whether two clients may get these replies where one growth is refused, alone or with all later growths."""
    if not replies:
        return ending == NO_MEMORY
    first, second = replies
    answers = [WITH_PLAN] if first else [WITH_PLAN, WITHOUT_PLAN]
    are_whole = [first == PUBLISHED_0, second in answers]
    are_prefixes = is_prefix(first, PUBLISHED_0) and any(is_prefix(second, answer) for answer in answers)
    words = words_of(ending[1])
    are_named = [(word == "clean") == is_whole for word, is_whole in zip(words, are_whole)]
    is_reported = ending == (int(not all(are_whole)), lines(words), b"") and len(words) == 2 and all(are_named)
    missing = are_whole.count(False) + (ending == NO_MEMORY)
    return are_prefixes and (is_reported or ending == NO_MEMORY) and set(words) <= ENDED and (missing < 2 or not is_alone)


def ends(status, *words):
    """An ending with the lines of connections."""
    return status, lines(words), b""


# Replies to two clients, each with an ending of the server that is wrong for them.
WRONG = [
    ([b"", b""], NO_MEMORY),
    ([], (2, b"", b"")),
    ([PUBLISHED_0, WITHOUT_PLAN], ends(0, "clean", "clean")),
    ([PUBLISHED_0, WITH_PLAN], ends(1, "clean", "clean")),
    ([PUBLISHED_0, WITH_PLAN[:-1]], ends(1, "clean", "out-of-memory")),
    ([PUBLISHED_0[:-1], WITH_PLAN], ends(1, "out-of-memory", "clean")),
    ([PUBLISHED_0, WITH_PLAN[9:]], ends(1, "clean", "out-of-memory")),
    ([b"", WITHOUT_PLAN], ends(0, "clean", "clean")),
    ([b"", WITHOUT_PLAN], ends(1, "read-fault", "clean")),
    ([b"", WITHOUT_PLAN], ends(1, "out-of-memory")),
    ([b"", WITHOUT_PLAN], ends(0, "out-of-memory", "clean")),
    ([b"", b""], ends(1, "out-of-memory", "out-of-memory")),
]


def mistakes():
    """Wrong endings are found."""
    for replies, ending in WRONG:
        yield f"the mistake of replying {replies} before {ending}", is_right(replies, ending, True), False


def growths():
    """Each growth refused, for two clients. The second one opens a stream by the plan of the first."""
    with tempfile.TemporaryDirectory() as folder:
        built_shim(folder)
        for suffix in "", "-on":
            number, was_refused, given_up = 0, True, 0
            while was_refused:
                number += 1
                replies, ending, was_refused = served(folder, f"growth-{number}{suffix}", [PUBLISH_CAT, SECOND])
                is_whole = (replies, ending[0]) == ([PUBLISHED_0, WITH_PLAN], 0)
                given_up += replies == [b"", WITHOUT_PLAN] and words_of(ending[1])[:1] == ["out-of-memory"]
                name = f"scand --port, growth{suffix} {number} refused"
                yield name, is_right(replies, ending, not suffix) and (was_refused or is_whole) or (replies, ending), True
            yield f"scand --port, growths{suffix} for a Publish that is given up, {given_up}", given_up > 5, not suffix


def threads():
    """Each thread refused, for three clients: its connection is not served, and the others are."""
    with tempfile.TemporaryDirectory() as folder:
        built_shim(folder)
        for number in 1, 2, 3:
            for suffix in "", "-on":
                replies, ending, _ = served(folder, f"thread-{number}{suffix}", [FIRST_THREE] * 3)
                are_served = [at < number or (at > number and not suffix) for at in (1, 2, 3)]
                words = ["clean" if is_served else "not-served" for is_served in are_served]
                are_silent = [reply == b"" for reply in replies]
                name = f"scand --port, thread{suffix} {number} refused"
                yield name, (are_silent, ending), ([not is_served for is_served in are_served], (1, lines(words), b""))


TESTS = (mistakes, growths, threads)
