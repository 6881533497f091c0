"""Sessions for `scand`: worked rows, each with its replies, and random sessions, the same in each run."""

import random

from oracles.sessions import (
    BAD_FRAME, CLOSED, EMPTY_LITERAL, HITS_IN_FRAME, LITERAL_TOO_LONG, NO_LITERALS, NO_SUCH_PLAN, NO_SUCH_STREAM,
    OPEN, OPENED, PLAN, PLAN_QUOTA, PUBLISH, SHOW_PLAN, STREAM_IN_USE, STREAM_QUOTA, TOO_MANY_PATTERNS,
    close, fed, feed, frame, hits_replies, open_stream, publish, published, refused, show_plan,
)

PUBLISH_CAT = bytes.fromhex("0000000D 01 00000000 00 0001 0003 636174")
PUBLISHED_0 = bytes.fromhex("0000000D 11 00000000 0000000000000000")
OPEN_7 = bytes.fromhex("0000000D 02 00000007 0000000000000000")
OPENED_7 = bytes.fromhex("00000005 12 00000007")
FEED_CONCAT = bytes.fromhex("0000000B 03 00000007 636F6E636174")
HIT_AND_FED_6 = bytes.fromhex("00000011 13 00000007 0001 0000 0000000000000006 0000000D 14 00000007 0000000000000006")
SHOW_PLAN_7 = bytes.fromhex("00000005 05 00000007")
PLAN_OF_CAT = bytes.fromhex("00000013 16 00000007 00 0001 000000000000015F 01 0001")
CLOSE_7, CLOSED_7 = bytes.fromhex("00000005 04 00000007"), bytes.fromhex("00000005 15 00000007")
SIXTEEN_CAT = bytes.fromhex("0000000D 01 00000000 02 0001 0003 636174")
SIXTEEN_OF_CAT = bytes.fromhex("00000013 16 00000007 02 0001 000000000000015F 01 0001")
FIRST_THREE, THEIR_REPLIES = PUBLISH_CAT + OPEN_7 + FEED_CONCAT, PUBLISHED_0 + OPENED_7 + HIT_AND_FED_6
CAT_IN_7, ITS_REPLIES = PUBLISH_CAT + OPEN_7, PUBLISHED_0 + OPENED_7


def hits(stream, *pairs):
    """The Hits of a few hits, each a literal and an end."""
    return b"".join(hits_replies(stream, list(pairs)))


def bad(cause):
    return refused(0, BAD_FRAME, cause)


def opened(stream):
    return frame(OPENED, stream)


def closed(stream):
    return frame(CLOSED, stream)


# Each row: a name, the requests, the replies, and how the session ends.
WORKED = [
    ("nothing", b"", b"", "clean"),
    ("the first three frames", FIRST_THREE, THEIR_REPLIES, "clean"),
    ("16 bytes of a frame", PUBLISH_CAT[:16], b"", "truncated"),
    ("a length of 4", bytes.fromhex("00000004"), bytes.fromhex("00000008 17 00000000 0B 0001"), "bad"),
    ("a plan shown", CAT_IN_7 + SHOW_PLAN_7, ITS_REPLIES + PLAN_OF_CAT, "clean"),
    ("no literal", bytes.fromhex("00000008 01 00000000 00 0000"), bytes.fromhex("00000008 17 00000000 05 0000"), "clean"),
    ("a Publish of stream 1", PUBLISH_CAT.replace(b"\1\0\0\0\0", b"\1\0\0\0\1"),
     bytes.fromhex("00000008 17 00000000 0B 0003"), "bad"),
    ("sixteen buckets", SIXTEEN_CAT, PUBLISHED_0, "clean"),
    ("a plan of sixteen buckets shown", SIXTEEN_CAT + OPEN_7 + SHOW_PLAN_7, ITS_REPLIES + SIXTEEN_OF_CAT, "clean"),
    ("flags 04", publish([b"cat"], flags=4), bytes.fromhex("00000008 17 00000000 0B 0004"), "bad"),
    ("Close and Open again", FIRST_THREE + CLOSE_7 + OPEN_7 + feed(7, b""),
     THEIR_REPLIES + CLOSED_7 + OPENED_7 + bytes.fromhex("0000000D 14 00000007 0000000000000000"), "clean"),
    ("a literal across two pieces", CAT_IN_7 + feed(7, b"conc") + feed(7, b"at"), ITS_REPLIES + fed(7, 4) + hits(7, (0, 6)) + fed(7, 6), "clean"),
    ("an empty piece", FIRST_THREE + feed(7, b""), THEIR_REPLIES + fed(7, 6), "clean"),
    ("an empty literal after another", publish([b"a", b""]), refused(0, EMPTY_LITERAL, 1), "clean"),
    ("a stream that is not open", feed(7, b"cat") + close(7) + show_plan(7) + CLOSE_7, refused(7, NO_SUCH_STREAM) * 4, "clean"),
    ("an open stream opened by any number", CAT_IN_7 + OPEN_7 + open_stream(7, 5),
     ITS_REPLIES + refused(7, STREAM_IN_USE) * 2, "clean"),
    ("number 5 of a new store", open_stream(7, 5), refused(7, NO_SUCH_PLAN), "clean"),
    ("number 1 of a store of one", PUBLISH_CAT + open_stream(7, 1) + open_stream(7, (1 << 64) - 1),
     PUBLISHED_0 + refused(7, NO_SUCH_PLAN) * 2, "clean"),
]

# Bad frames: each cause, and its precedence over others.
BAD = [
    ("a length of 0", bytes(4), bad(1), "bad"),
    ("a length of 65,542", (65542).to_bytes(4, "big"), bad(1), "bad"),
    ("the greatest length", b"\xff" * 4 + PUBLISH_CAT, bad(1), "bad"),
    ("kind 0", frame(0, 0), bad(2), "bad"),
    ("kind 6 of stream 1", frame(6, 1, b"x"), bad(2), "bad"),
    ("a reply's kind", FIRST_THREE + PUBLISHED_0, THEIR_REPLIES + bad(2), "bad"),
    ("kind 6 that is not whole", frame(6, 1, b"x")[:-1], b"", "truncated"),
    ("a Publish of stream 1 with flags 04", publish([b"cat"], stream=1, flags=4), bad(3), "bad"),
    ("flags 07", publish([b"cat"], flags=7), bad(4), "bad"),
    ("flags 80", publish([b"cat"], flags=128), bad(4), "bad"),
    ("a Publish of two bytes", frame(PUBLISH, 0, b"\0\0"), bad(4), "bad"),
    ("a literal too few", frame(PUBLISH, 0, b"\0\0\2\0\1a"), bad(4), "bad"),
    ("a literal that is cut", frame(PUBLISH, 0, b"\0\0\1\0\4cat"), bad(4), "bad"),
    ("half a length of a literal", frame(PUBLISH, 0, b"\0\0\1\0"), bad(4), "bad"),
    ("a byte after the literals", frame(PUBLISH, 0, b"\0\0\1\0\3catx"), bad(4), "bad"),
    ("a byte after no literal", frame(PUBLISH, 0, b"\0\0\0x"), bad(4), "bad"),
    ("an Open of seven bytes", frame(OPEN, 7, bytes(7)), bad(4), "bad"),
    ("an Open of nine bytes", frame(OPEN, 7, bytes(9)), bad(4), "bad"),
    ("a Close with a payload", CAT_IN_7 + frame(4, 7, b"x"), ITS_REPLIES + bad(4), "bad"),
    ("a ShowPlan with a payload", frame(SHOW_PLAN, 7, b"x"), bad(4), "bad"),
    ("frames after a bad one", CAT_IN_7 + frame(9, 0) + FEED_CONCAT, ITS_REPLIES + bad(2), "bad"),
    ("300 frames and a bad one in one piece", CAT_IN_7 + feed(7, b"cat") * 300 + frame(9, 0),
     ITS_REPLIES + b"".join(hits(7, (0, end)) + fed(7, end) for end in range(3, 903, 3)) + bad(2), "bad"),
    ("a bad one after refusals", CLOSE_7 + frame(9, 0), refused(7, NO_SUCH_STREAM) + bad(2), "bad"),
]

DIFFERENT = [b"%c%c" % (33 + number // 64, 33 + number % 64) for number in range(4097)]
PAIRS = [bytes([number // 32 + 1, number % 32]) for number in range(1024)]
# A letter in two cases and 1,023 literals without letters: a run of the letter and 17 others, and seven runs of 143 or 144.
FOLDED_PAIRS = [b"A", b"a"] + [bytes([128 | number >> 7, 128 | number & 127]) for number in range(1023)]
FOLDED_PAIRS_SHOWN = bytes.fromhex("01 0400 00000000047DCA40 08 0012 00A1 0130 01C0 0250 02E0 0370 0400")
LETTERS = [b"%c" % letter for letter in b"abcdefghi"]
LETTERS_BY_EIGHT = bytes.fromhex("00 0009 000000000000B640 08 0001 0002 0003 0004 0005 0006 0007 0009")
LETTERS_BY_SIXTEEN = bytes.fromhex("02 0009 0000000000009708 09 0001 0002 0003 0004 0005 0006 0007 0008 0009")
PAIRS_SHOWN = bytes.fromhex("00 0400 0000000004000640 08 0080 0100 0180 0200 0280 0300 0380 0400")
SMALL = [publish([b"%d" % number]) for number in range(64)]
NUMBERS = b"".join(published(number) for number in range(64))
FULL_PAYLOAD = publish([b"%d" % number + b"x" * 4094 for number in range(9)] + [b"y" * 4095] * 6 + [b"z" * 4076])
MANY_A = b"a" * HITS_IN_FRAME
ALL_OPEN = b"".join(open_stream(number, 0) for number in range(64))
ALL_OPENED = b"".join(opened(number) for number in range(64))


def rising(first, last):
    """Hits of the first literal, at each end from `first` to `last`."""
    return [(0, end) for end in range(first, last + 1)]


# The limits.
LIMITS = [
    ("1,025 literals", publish(PAIRS + [b"abc"]) + OPEN_7 + feed(7, b"\x20\x1fabc"),
     ITS_REPLIES + hits(7, (1023, 2), (1024, 5)) + fed(7, 5), "clean"),
    ("1,025 literals of which two fold together shown", publish(FOLDED_PAIRS, True) + OPEN_7 + SHOW_PLAN_7,
     ITS_REPLIES + frame(PLAN, 7, FOLDED_PAIRS_SHOWN), "clean"),
    ("4,096 literals", publish(DIFFERENT[:4096]) + OPEN_7 + feed(7, b"!!``"),
     ITS_REPLIES + hits(7, (0, 2), (63, 3), (4095, 4)) + fed(7, 4), "clean"),
    ("4,096 literals by sixteen buckets", publish(DIFFERENT[:4096], False, 16) + OPEN_7 + feed(7, b"!!``"),
     ITS_REPLIES + hits(7, (0, 2), (63, 3), (4095, 4)) + fed(7, 4), "clean"),
    ("4,097 literals", publish(DIFFERENT), refused(0, TOO_MANY_PATTERNS), "clean"),
    ("no plan of 4,097 literals", publish(DIFFERENT, False, 16) + OPEN_7 + SHOW_PLAN_7,
     refused(0, TOO_MANY_PATTERNS) + refused(7, NO_SUCH_PLAN) + refused(7, NO_SUCH_STREAM), "clean"),
    ("nine literals shown", publish(LETTERS) + OPEN_7 + SHOW_PLAN_7, ITS_REPLIES + frame(PLAN, 7, LETTERS_BY_EIGHT), "clean"),
    ("nine literals by sixteen buckets shown", publish(LETTERS, False, 16) + OPEN_7 + SHOW_PLAN_7,
     ITS_REPLIES + frame(PLAN, 7, LETTERS_BY_SIXTEEN), "clean"),
    ("1,024 literals shown", publish(PAIRS) + open_stream(1, 0) + show_plan(1),
     PUBLISHED_0 + opened(1) + frame(PLAN, 1, PAIRS_SHOWN), "clean"),
    ("the last of 1,024 literals", publish(PAIRS) + open_stream(1, 0) + feed(1, b"\x20\x1f"),
     PUBLISHED_0 + opened(1) + hits(1, (1023, 2)) + fed(1, 2), "clean"),
    ("4,096 equal literals", publish([b"a"] * 4096), PUBLISHED_0, "clean"),
    ("4,097 equal literals", publish([b"a"] * 4097), refused(0, TOO_MANY_PATTERNS), "clean"),
    ("4,097 empty literals", publish([b""] * 4097), refused(0, TOO_MANY_PATTERNS), "clean"),
    ("4,096 empty literals", publish([b""] * 4096), refused(0, EMPTY_LITERAL), "clean"),
    ("a literal of 4,096 bytes", publish([b"a" * 4096]), refused(0, LITERAL_TOO_LONG), "clean"),
    ("a literal of 4,095 bytes", publish([b"a" * 4095]) + open_stream(1, 0) + feed(1, b"a" * 4096),
     PUBLISHED_0 + opened(1) + hits(1, (0, 4095), (0, 4096)) + fed(1, 4096), "clean"),
    ("an empty literal before a long one", publish([b"a", b"", b"a" * 4096]), refused(0, EMPTY_LITERAL, 1), "clean"),
    ("an empty literal after a long one", publish([b"a", b"b", b"a" * 4096, b""]), refused(0, LITERAL_TOO_LONG, 2), "clean"),
    ("an empty literal after 1,025", publish([*DIFFERENT[:1025], b""]), refused(0, EMPTY_LITERAL, 1025), "clean"),
    ("a full payload of literals", FULL_PAYLOAD, PUBLISHED_0, "clean"),
    ("4,096 hits", publish([b"a"]) + open_stream(7, 0) + feed(7, MANY_A),
     ITS_REPLIES + hits(7, *rising(1, 4096)) + fed(7, 4096), "clean"),
    ("4,097 hits", publish([b"a"]) + open_stream(7, 0) + feed(7, MANY_A + b"a"),
     ITS_REPLIES + hits(7, *rising(1, 4096)) + hits(7, (0, 4097)) + fed(7, 4097), "clean"),
    ("a full Feed, and one more", publish([b"ab"]) + open_stream(7, 0) + feed(7, b"b" + b"a" * 65535) + feed(7, b"b"),
     ITS_REPLIES + fed(7, 65536) + hits(7, (0, 65537)) + fed(7, 65537), "clean"),
    ("the 65th Publish", b"".join(SMALL) + PUBLISH_CAT + publish([]) + publish([b""]),
     NUMBERS + refused(0, PLAN_QUOTA) * 3, "clean"),
    ("64 Publishes after refused ones", publish([]) + publish([b""]) + b"".join(SMALL) + PUBLISH_CAT,
     refused(0, NO_LITERALS) + refused(0, EMPTY_LITERAL) + NUMBERS + refused(0, PLAN_QUOTA), "clean"),
    ("no plan behind refused Publishes", publish([]) + open_stream(7, 0) + b"".join(SMALL) + PUBLISH_CAT + open_stream(7, 64),
     refused(0, NO_LITERALS) + refused(7, NO_SUCH_PLAN) + NUMBERS + refused(0, PLAN_QUOTA) + refused(7, NO_SUCH_PLAN), "clean"),
    ("the 65th Open", PUBLISH_CAT + b"".join(open_stream(number, 0) for number in range(65)),
     PUBLISHED_0 + ALL_OPENED + refused(64, STREAM_QUOTA), "clean"),
    ("which refusal of an Open comes first", PUBLISH_CAT + ALL_OPEN + open_stream(70, 5) + open_stream(63, 5),
     PUBLISHED_0 + ALL_OPENED + refused(70, STREAM_QUOTA) + refused(63, STREAM_IN_USE), "clean"),
    ("room after a Close", PUBLISH_CAT + ALL_OPEN + close(9) + open_stream(80, 5) + open_stream(80, 0) + open_stream(9, 0),
     PUBLISHED_0 + ALL_OPENED + closed(9) + refused(80, NO_SUCH_PLAN) + opened(80) + refused(9, STREAM_QUOTA), "clean"),
]

# Where a literal ends in a text of dots: before, at and after the end of a vector of 32 or 64 bytes.
EDGES = [31, 32, 33, 34, 63, 64, 65, 66, 100]


def dotted(end):
    """A hundred bytes: a literal that ends at `end`, and dots."""
    return (b"." * (end - 3) + b"xyz").ljust(100, b".")


# Streams fed piece by piece.
LAST = 0xFFFFFFFF
FOUR = publish([b"he", b"his", b"she", b"hers"]) + open_stream(1, 0)
TWO = publish([b"cat"]) + publish([b"dog"]) + open_stream(1, 0) + open_stream(2, 1)
STREAMED = [
    ("words across pieces", FOUR + feed(1, b"us") + feed(1, b"h") + feed(1, b"ers"),
     PUBLISHED_0 + opened(1) + fed(1, 2) + fed(1, 3) + hits(1, (0, 4), (2, 4), (3, 6)) + fed(1, 6), "clean"),
    ("two plans in turn", TWO + feed(1, b"ca") + feed(2, b"do") + feed(1, b"tdog") + feed(2, b"gcat"),
     NUMBERS[:34] + opened(1) + opened(2) + fed(1, 2) + fed(2, 2)
     + hits(1, (0, 3)) + fed(1, 6) + hits(2, (0, 3)) + fed(2, 6), "clean"),
    ("a plan shared by two streams",
     PUBLISH_CAT + open_stream(1, 0) + open_stream(2, 0) + feed(1, b"ca") + feed(2, b"t") + feed(1, b"t"),
     PUBLISHED_0 + opened(1) + opened(2) + fed(1, 2) + fed(2, 1) + hits(1, (0, 3)) + fed(1, 3), "clean"),
    ("a plan of the same literals", PUBLISH_CAT * 2 + open_stream(1, 1) + feed(1, b"cat"),
     NUMBERS[:34] + opened(1) + hits(1, (0, 3)) + fed(1, 3), "clean"),
    ("case ignored", publish([b"Cat", b"cAT"], True) + open_stream(7, 0) + feed(7, b"cat CAT") + show_plan(7),
     ITS_REPLIES + hits(7, (0, 3), (0, 7)) + fed(7, 7) + PLAN_OF_CAT.replace(b"\7\0\0\1", b"\7\1\0\1"), "clean"),
    ("case ignored by sixteen buckets", publish([b"Cat", b"cAT"], True, 16) + open_stream(7, 0) + feed(7, b"cat CAT") + show_plan(7),
     ITS_REPLIES + hits(7, (0, 3), (0, 7)) + fed(7, 7) + PLAN_OF_CAT.replace(b"\7\0\0\1", b"\7\3\0\1"), "clean"),
    ("one list by eight and by sixteen buckets in turn", publish(LETTERS) + publish(LETTERS, False, 16)
     + open_stream(1, 0) + open_stream(2, 1) + feed(1, b"xi") + feed(2, b"hx") + feed(2, b"i"),
     NUMBERS[:34] + opened(1) + opened(2) + hits(1, (8, 2)) + fed(1, 2) + hits(2, (7, 1)) + fed(2, 2) + hits(2, (8, 3)) + fed(2, 3),
     "clean"),
    ("the greatest stream", PUBLISH_CAT + open_stream(LAST, 0) + feed(LAST, b"cat") + close(0) + close(LAST),
     PUBLISHED_0 + opened(LAST) + hits(LAST, (0, 3)) + fed(LAST, 3) + refused(0, NO_SUCH_STREAM) + closed(LAST), "clean"),
    ("a literal and a longer one that is not whole", publish([b"ab", b"abc"]) + OPEN_7 + feed(7, b"ab"), ITS_REPLIES + hits(7, (0, 2)) + fed(7, 2), "clean"),
    ("a false positive of the filter", publish([b"abcdefgh", b"abcdefxy"]) + OPEN_7 + feed(7, b"abcdefgy"), ITS_REPLIES + fed(7, 8), "clean"),
    ("ends at the edges of vectors", publish([b"xyz"]) + b"".join(open_stream(end, 0) + feed(end, dotted(end)) for end in EDGES),
     PUBLISHED_0 + b"".join(opened(end) + hits(end, (0, end)) + fed(end, 100) for end in EDGES), "clean"),
    ("overlaps", publish([b"aa"]) + open_stream(7, 0) + feed(7, b"aaaa"),
     ITS_REPLIES + hits(7, (0, 2), (0, 3), (0, 4)) + fed(7, 4), "clean"),
    ("nothing left of a closed stream", PUBLISH_CAT + open_stream(7, 0) + feed(7, b"ca") + CLOSE_7 + OPEN_7 + feed(7, b"t"),
     ITS_REPLIES + fed(7, 2) + CLOSED_7 + OPENED_7 + fed(7, 1), "clean"),
    ("a Feed that is cut", CAT_IN_7 + FEED_CONCAT[:-1], ITS_REPLIES, "truncated"),
]

ROWS = WORKED + BAD + LIMITS + STREAMED


def word(source, letters, most):
    """A word of some letters, `most` of them at most."""
    return bytes(source.choices(letters, k=source.randrange(most + 1)))


def random_publish(source, fewest=0):
    """A Publish of a few words, rarely an empty one among them, or of prefixes of one long word."""
    buckets = source.choice([8, 8, 16])
    if source.random() < 0.1:
        return publish([b"a" * length for length in range(1, source.randrange(2, 30))], source.random() < 0.5, buckets)
    literals = [word(source, b"abABc", source.choice([1, 3, 6])) for _ in range(source.randrange(fewest, 10))]
    return publish([literal or source.choice([b"a", b"b"] * 80 + [b""]) for literal in literals], source.random() < 0.4, buckets)


def random_piece(source):
    """A piece of a stream: mostly short, rarely with thousands of hits."""
    if source.random() < 0.02:
        return b"a" * source.randrange(500, 2000)
    return word(source, b"aaabbABc", source.choice([0, 2, 10, 60]))


def random_bad(source):
    """A frame that is bad, or may be."""
    return source.choice([
        bytes([0, 0, 0, source.randrange(5)]),
        (65542).to_bytes(4, "big"),
        frame(source.choice([0, 6, 0x11, 255]), source.randrange(3), word(source, b"ab", 9)),
        publish([b"a"], stream=1),
        publish([b"a"], flags=source.randrange(256)),
        frame(source.randrange(1, 6), 0, source.randbytes(source.randrange(12))),
    ])


def random_request(source, plans):
    """A request of a session that has published about this number of plans."""
    stream, turn = source.choice([1] * 6 + [2] * 3 + [0, LAST]), source.random()
    if turn < 0.15:
        return random_publish(source)
    if turn < 0.35:
        return open_stream(stream, source.randrange(plans + 1))
    if turn < 0.88:
        return feed(stream, random_piece(source))
    return close(stream) if turn < 0.92 else show_plan(stream)


def random_session(source):
    """The bytes of a session, and the sizes of the pieces in which they arrive."""
    frames = [random_publish(source, 1), open_stream(1, 0)] if source.random() < 0.95 else []
    for _ in range(source.randrange(14)):
        frames.append(random_request(source, sum(text[4] == PUBLISH for text in frames)))
    if source.random() < 0.15:
        frames.insert(source.randrange(len(frames) + 1), random_bad(source))
    text = b"".join(frames)
    if source.random() < 0.1:
        text = text[: source.randrange(len(text) + 1)]
    most = max(source.choice([1, 3, 20, 1000]), len(text) // 50 + 1)
    return text, [source.randrange(1, most + 1) for _ in range(150)]


def random_sessions(count):
    source = random.Random(6)
    return (random_session(source) for _ in range(count))
