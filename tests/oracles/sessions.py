"""A plain model of `scand`: frames, and the replies of a session, as docs/FORMATS.md describes them.

A stream keeps every byte that it was fed, and is searched for each literal in turn. Nothing here is fast, and nothing
comes from the program."""

import functools
import struct

from oracles import plain_plan

PUBLISH, OPEN, FEED, CLOSE, SHOW_PLAN = range(1, 6)
PUBLISHED, OPENED, HITS, FED, CLOSED, PLAN, REFUSED = range(0x11, 0x18)

# Codes of a Refused, and the cause of a bad frame. Code 6 is not answered any more.
TOO_MANY_PATTERNS, LITERAL_TOO_LONG, EMPTY_LITERAL, NO_LITERALS, BAD_FRAME = 2, 3, 4, 5, 11
STREAM_IN_USE, NO_SUCH_STREAM, NO_SUCH_PLAN, PLAN_QUOTA, STREAM_QUOTA = 12, 13, 14, 15, 16
LENGTH, KIND, STREAM, PAYLOAD = range(1, 5)

LITERAL_BYTES, LITERALS, PLANS, STREAMS, HITS_IN_FRAME = 4095, 4096, 64, 64, 4096

# Bits of the flags of a Publish and of a Plan. The other bits are 0.
IGNORES_CASE, SIXTEEN_BUCKETS = 1, 2


def frame(kind, stream, payload=b""):
    """A frame of either side."""
    return struct.pack(">IBI", 5 + len(payload), kind, stream) + payload


def flags_of(is_folded, buckets):
    return IGNORES_CASE * is_folded | SIXTEEN_BUCKETS * (buckets == 16)


def publish(literals, is_folded=False, buckets=8, *, stream=0, flags=None):
    """A Publish. A stream other than 0, or unknown flags, make it a bad frame."""
    front = struct.pack(">BH", flags_of(is_folded, buckets) if flags is None else flags, len(literals))
    return frame(PUBLISH, stream, front + b"".join(struct.pack(">H", len(literal)) + literal for literal in literals))


def open_stream(stream, number):
    return frame(OPEN, stream, struct.pack(">Q", number))


def feed(stream, piece):
    return frame(FEED, stream, piece)


def close(stream):
    return frame(CLOSE, stream)


def show_plan(stream):
    return frame(SHOW_PLAN, stream)


def published(number):
    return frame(PUBLISHED, 0, struct.pack(">Q", number))


def fed(stream, place):
    return frame(FED, stream, struct.pack(">Q", place))


def refused(stream, code, detail=0):
    return frame(REFUSED, stream, struct.pack(">BH", code, detail))


def hits_replies(stream, hits):
    """The Hits frames for these hits: all but the last are full."""
    blocks = [hits[start : start + HITS_IN_FRAME] for start in range(0, len(hits), HITS_IN_FRAME)]
    spelled = [struct.pack(">H", len(block)) + b"".join(struct.pack(">HQ", *hit) for hit in block) for block in blocks]
    return [frame(HITS, stream, payload) for payload in spelled]


def literals_of(payload):
    """The literals in the payload of a Publish, or None where this is no such payload."""
    if len(payload) < 3 or payload[0] & ~(IGNORES_CASE | SIXTEEN_BUCKETS):
        return None
    found, at = [], 3
    for _ in range(int.from_bytes(payload[1:3], "big")):
        after = at + 2 + int.from_bytes(payload[at : at + 2], "big")
        if after > len(payload) or at + 2 > len(payload):
            return None
        found.append(payload[at + 2 : after])
        at = after
    return found if at == len(payload) else None


def is_payload(kind, payload):
    """Whether a request of this kind may have this payload."""
    if kind == PUBLISH:
        return literals_of(payload) is not None
    return kind == FEED or len(payload) == (8 if kind == OPEN else 0)


def cause_of(kind, stream, payload):
    """The fault of a frame whose length is right, or 0."""
    if not PUBLISH <= kind <= SHOW_PLAN:
        return KIND
    if kind == PUBLISH and stream != 0:
        return STREAM
    return 0 if is_payload(kind, payload) else PAYLOAD


def requests_of(text):
    """The frames of a text up to its end or its first bad frame, how many bytes they have, and what follows: "clean",
    "truncated", or the cause of a bad frame."""
    found, at = [], 0
    while at < len(text):
        if at + 4 > len(text):
            return found, at, "truncated"
        length = int.from_bytes(text[at : at + 4], "big")
        if not 5 <= length <= 65541:
            return found, at, LENGTH
        if at + 4 + length > len(text):
            return found, at, "truncated"
        kind, stream = struct.unpack_from(">BI", text, at + 4)
        payload = text[at + 9 : at + 4 + length]
        if cause_of(kind, stream, payload):
            return found, at, cause_of(kind, stream, payload)
        found.append((kind, stream, payload))
        at += 4 + length
    return found, at, "clean"


@functools.lru_cache
def shown(literals, is_folded, buckets):
    """The payload of a Plan."""
    ends, price, _ = plain_plan.plan_of(literals, buckets)
    return struct.pack(f">BHQB{len(ends)}H", flags_of(is_folded, buckets), len(literals), price, len(ends), *ends)


class Plan:
    """Literals in their order, whether ASCII case is ignored, and how many buckets there may be."""

    def __init__(self, literals, is_folded, buckets=8):
        self.literals = tuple(plain_plan.literals_of(literals, is_folded))
        self.is_folded, self.buckets = is_folded, buckets

    def hits(self, text, place):
        """The hits that end after a position: by their ends, then by literal."""
        text, found = text.lower() if self.is_folded else text, []
        for number, literal in enumerate(self.literals):
            at = text.find(literal, max(place + 1 - len(literal), 0))
            while at >= 0:
                found.append((at + len(literal), number))
                at = text.find(literal, at + 1)
        return [(number, end) for end, number in sorted(found)]


def refusal_of(literals):
    """The refusal of the literals of a Publish: a code and its detail, or None."""
    if not literals:
        return NO_LITERALS, 0
    if len(literals) > LITERALS:
        return TOO_MANY_PATTERNS, 0
    for place, literal in enumerate(literals):
        if not literal:
            return EMPTY_LITERAL, place
        if len(literal) > LITERAL_BYTES:
            return LITERAL_TOO_LONG, place
    return None


class Session:
    """A session over a store of plans by their numbers. Sessions may share a store."""

    def __init__(self, store):
        self.store, self.plans_published, self.streams = store, 0, {}

    def answers(self, kind, stream, payload, number=None):
        """The replies to one request. A Publish gets this number, or the next one."""
        if kind == PUBLISH:
            return [self.on_publish(payload, len(self.store) if number is None else number)]
        if kind == OPEN:
            return [self.on_open(stream, int.from_bytes(payload, "big"))]
        if stream not in self.streams:
            return [refused(stream, NO_SUCH_STREAM)]
        if kind == FEED:
            return self.on_feed(stream, payload)
        if kind == SHOW_PLAN:
            plan = self.streams[stream][0]
            return [frame(PLAN, stream, shown(plan.literals, plan.is_folded, plan.buckets))]
        del self.streams[stream]
        return [frame(CLOSED, stream)]

    def on_publish(self, payload, number):
        literals, flags = literals_of(payload), payload[0]
        if self.plans_published == PLANS:
            return refused(0, PLAN_QUOTA)
        refusal = refusal_of(literals)
        if refusal:
            return refused(0, *refusal)
        self.plans_published += 1
        self.store[number] = Plan(literals, bool(flags & IGNORES_CASE), 16 if flags & SIXTEEN_BUCKETS else 8)
        return published(number)

    def on_open(self, stream, number):
        if stream in self.streams:
            return refused(stream, STREAM_IN_USE)
        if len(self.streams) == STREAMS:
            return refused(stream, STREAM_QUOTA)
        if number not in self.store:
            return refused(stream, NO_SUCH_PLAN)
        self.streams[stream] = self.store[number], b""
        return frame(OPENED, stream)

    def on_feed(self, stream, piece):
        plan, before = self.streams[stream]
        text = before + piece
        self.streams[stream] = plan, text
        return [*hits_replies(stream, plan.hits(text, len(before))), fed(stream, len(text))]


def conversation(text, store=None):
    """The replies to the bytes of one session, in order, and how it ends: "clean", "truncated" or "bad". Without a store
    the session has a new one."""
    requests, _, ending = requests_of(text)
    session = Session({} if store is None else store)
    replies = [reply for request in requests for reply in session.answers(*request)]
    if ending in ("clean", "truncated"):
        return replies, ending
    return [*replies, refused(0, BAD_FRAME, ending)], "bad"


def replies_of(text):
    """The whole frames at the start of some bytes, and the rest."""
    found = []
    while len(text) >= 4 and len(text) >= 4 + int.from_bytes(text[:4], "big"):
        size = 4 + int.from_bytes(text[:4], "big")
        found.append(text[:size])
        text = text[size:]
    return found, text
