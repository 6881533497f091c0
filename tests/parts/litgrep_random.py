"""`litgrep` on random searches, compared with plain matching."""

import os
import socket
import tempfile

from cases import random_cases
from oracles import plain_grep
from support.programs import lay_out, run


def in_pieces(words, text, size, **how):
    """Runs `litgrep` on a text that it reads in pieces of this size."""
    near, far = socket.socketpair(socket.AF_UNIX, socket.SOCK_SEQPACKET)
    with near, far:
        for start in range(0, len(text), size):
            near.send(text[start : start + size])
        near.shutdown(socket.SHUT_WR)
        return run(words, far, **how)


def searches(cases):
    """Compares each search with plain matching: a run over its texts, and a run over the first text in pieces."""
    for number, (patterns, flags, texts) in enumerate(cases):
        named = {b"%d" % place: text for place, text in enumerate(texts)}
        words = ["-f", "p", *("-" + flag for flag in flags)]
        with tempfile.TemporaryDirectory() as folder:
            lay_out(folder, {"p": b"".join(pattern + b"\n" for pattern in patterns)})
            lay_out(folder.encode(), named)
            size = max(random_cases.SIZES[number % len(random_cases.SIZES)], len(texts[0]) // 100)
            got = run(words + sorted(named), cwd=folder)
            part = in_pieces(words, texts[0], size, cwd=folder)
        name = f"litgrep {words} of {patterns!r:.60}"
        yield f"{name} on {texts!r:.100}", got, plain_grep.answer(dict(sorted(named.items())), patterns, flags)
        yield f"{name} on {texts[0]!r:.100}, {size} at a time", part, plain_grep.answer({b"": texts[0]}, patterns, flags)


def random_greps():
    """Random searches, and a match in lines of each length, compared with plain matching."""
    yield from searches(random_cases.small_searches())
    yield from searches(random_cases.long_searches())
    yield from searches(random_cases.whole_lines())
    yield from searches(random_cases.near_miss_searches())
    lines = list(random_cases.long_lines())
    named = {b"%03d" % place: text for place, (text, _) in enumerate(lines)}
    with tempfile.TemporaryDirectory() as folder:
        lay_out(folder.encode(), named)
        yield "lines of each length", run(["-n", "a", *named], cwd=folder), plain_grep.answer(named, [b"a"], "n")
    for patterns, flags, text, size in random_cases.open_lines():
        words = [word for pattern in patterns for word in ("-e", os.fsdecode(pattern))] + ["-" + flag for flag in flags]
        size = max(size, len(text) // 100)
        yield f"{words} on {text!r}, {size} at a time", in_pieces(words, text, size), plain_grep.answer({b"": text}, patterns, flags)
    for text, size in lines:
        got = in_pieces(["-n", "a"], text, size)
        yield f"a line in {text!r:.300}, {size} at a time", got, plain_grep.answer({b"": text}, [b"a"], "n")


TESTS = (random_greps,)
