"""A client of `scand`: publishes lists of literals, feeds byte streams in pieces cut anywhere, and gives their hits.

    from fiolargu.scand import Client

    with Client.connect("127.0.0.1", 7000) as client:
        plan = client.publish([b"cat", b"dog"])
        with client.open(plan) as stream:
            for hit in stream.feed(b"concat"):
                print(plan.literals[hit.literal], hit.end)      # b'cat' 6

`Client.spawn()` starts a `scand --stdio` of its own. `Stream.scan` takes an iterable of pieces, and keeps several Feeds
on their way. `Resumed` is a stream that resumes on a new connection when a connection is lost: each hit is given once,
with its position in the whole stream.

Each fault is a `FiolarguError`, under its old name `ScandError` too: `Refused` and its classes, one for each number of
refusal, `ConnectionLost`, `NotStarted`, `TimedOut` and `BadReply`; all but refusals name the server. A client belongs to
one thread. No C library is needed.
"""

from .client import Client, Link, Stream
from .errors import (
    BadFrame, BadReply, Cause, ConnectionLost, EmptyLiteral, FiolarguError, LiteralTooLong, NoLiterals, NoSuchPlan, NoSuchStream,
    NotStarted, PlanQuota, Refusal, Refused, StreamInUse, StreamQuota, StreamTooLong, TimedOut, TooManyLiterals, TooManyPatterns,
)
from .frames import PAYLOAD, Hit, Plan, PlanShown, feed_frame, open_frame, ordered, pieces_of, publish_frame
from .resumed import Resumed

ScandError = FiolarguError

__all__ = [
    "PAYLOAD", "BadFrame", "BadReply", "Cause", "Client", "ConnectionLost", "EmptyLiteral", "FiolarguError", "Hit", "Link",
    "LiteralTooLong", "NoLiterals", "NoSuchPlan", "NoSuchStream", "NotStarted", "Plan", "PlanQuota", "PlanShown", "Refusal",
    "Refused", "Resumed", "ScandError", "Stream", "StreamInUse", "StreamQuota", "StreamTooLong", "TimedOut", "TooManyLiterals",
    "TooManyPatterns", "feed_frame", "open_frame", "ordered", "pieces_of", "publish_frame",
]
