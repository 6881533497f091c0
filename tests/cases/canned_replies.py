"""What a server sends, whatever the requests, and what a client must make of it."""

from oracles import sessions
from oracles.sessions import CLOSED, HITS, OPENED, PLAN, PUBLISHED, REFUSED, frame

PUBLISHED_5, OPENED_0 = sessions.published(5), frame(OPENED, 0)
HIT = bytes([0, 1]) + bytes(10)
# Each row: a name, what the server sends, and the fault that clients/python raises where it publishes a plan, opens a
# stream, feeds it and asks for its plan.
CANNED = [
    ("nothing", b"", "ConnectionLost"),
    ("half a head", PUBLISHED_5[:3], "ConnectionLost"),
    ("half a frame", PUBLISHED_5[:-1], "ConnectionLost"),
    ("a length of 4", bytes([0, 0, 0, 4]) + bytes(9), "BadReply"),
    ("a length of 65,542", (65542).to_bytes(4, "big") + bytes(9), "BadReply"),
    ("kind 18", frame(0x18, 0), "BadReply"),
    ("a request's kind", frame(1, 0, bytes(8)), "BadReply"),
    ("a Published of stream 1", frame(PUBLISHED, 1, bytes(8)), "BadReply"),
    ("a Published of seven bytes", frame(PUBLISHED, 0, bytes(7)), "BadReply"),
    ("an Opened for a Publish", OPENED_0, "BadReply"),
    ("a Refused of two bytes", frame(REFUSED, 0, bytes(2)), "BadReply"),
    ("a Refused of stream 9", sessions.refused(9, 15), "BadReply"),
    ("a refusal that has no class", sessions.refused(0, 99), "Refused"),
    ("an Opened with a payload", PUBLISHED_5 + frame(OPENED, 0, b"x"), "BadReply"),
    ("an Opened of stream 1", PUBLISHED_5 + frame(OPENED, 1), "BadReply"),
    ("the end after an Opened", PUBLISHED_5 + OPENED_0, "ConnectionLost"),
    ("Hits of no hit", PUBLISHED_5 + OPENED_0 + frame(HITS, 0, bytes(2)), "BadReply"),
    ("Hits of 4,097 hits", PUBLISHED_5 + OPENED_0 + frame(HITS, 0, b"\x10\x01" + bytes(40970)), "BadReply"),
    ("Hits of a hit too few", PUBLISHED_5 + OPENED_0 + frame(HITS, 0, b"\0\2" + bytes(10)), "BadReply"),
    ("Hits with half a hit", PUBLISHED_5 + OPENED_0 + frame(HITS, 0, HIT + bytes(5)), "BadReply"),
    ("a Fed of stream 1", PUBLISHED_5 + OPENED_0 + sessions.fed(1, 3), "BadReply"),
    ("a Closed for a Feed", PUBLISHED_5 + OPENED_0 + frame(CLOSED, 0), "BadReply"),
    ("a place that would pass", PUBLISHED_5 + OPENED_0 + sessions.refused(0, 20), "StreamTooLong"),
    ("a Plan of flags 4", PUBLISHED_5 + OPENED_0 + sessions.fed(0, 3) + frame(PLAN, 0, b"\4" + bytes(11)), "BadReply"),
    ("a Plan of an end too few", PUBLISHED_5 + OPENED_0 + sessions.fed(0, 3) + frame(PLAN, 0, bytes(11) + b"\1"), "BadReply"),
    ("a Plan", PUBLISHED_5 + OPENED_0 + sessions.fed(0, 3) + frame(PLAN, 0, bytes(11) + b"\1\0\1"), "nothing"),
    ("a Plan of both flags", PUBLISHED_5 + OPENED_0 + sessions.fed(0, 3) + frame(PLAN, 0, b"\3" + bytes(10) + b"\1\0\1"), "nothing"),
]
