"""A plain model of clients/c/test_frames.c: the lines that it writes about frames of requests and of replies."""

import struct

from oracles import sessions
from oracles.sessions import CLOSED, FED, HITS, OPENED, PLAN, PUBLISHED, REFUSED


def request_line(kind, stream, payload):
    """The line about a request."""
    shown = int.from_bytes(payload, "big") if kind == sessions.OPEN else payload.hex()
    return f"{kind} {stream} {shown}"


def reply_line(reply):
    """The line about a reply, or None where this is no reply."""
    kind, stream, payload = reply[4], int.from_bytes(reply[5:9], "big"), reply[9:]
    front, size = f"{kind} {stream}", len(payload)
    if kind in (OPENED, CLOSED) and not size:
        return front
    if kind == FED and size == 8 or kind == PUBLISHED and size == 8 and not stream:
        return f"{front} {int.from_bytes(payload, 'big')}"
    if kind == HITS and size >= 12 and size == 2 + 10 * int.from_bytes(payload[:2], "big") <= 40962:
        return " ".join([front, *(f"{literal}:{end}" for literal, end in struct.iter_unpack(">HQ", payload[2:]))])
    if kind == PLAN and size >= 12 and payload[0] <= 3 and size == 12 + 2 * payload[11]:
        flags, *numbers = struct.unpack_from(f">BHQx{payload[11]}H", payload)
        return " ".join(map(str, [front, flags & 1, 16 if flags & 2 else 8, *numbers]))
    return f"{front} {payload[0]} {int.from_bytes(payload[1:], 'big')}" if kind == REFUSED and size == 3 else None


def lines_of(side, text):
    """The lines about a text of requests (side `q`) or of replies."""
    if side == b"q":
        found, _, ending = sessions.requests_of(text)
        return [*(request_line(*request) for request in found), f"bad {ending}" if isinstance(ending, int) else ending]
    found, rest = sessions.replies_of(text)
    shown = [reply_line(reply) if 9 <= len(reply) <= 65545 else None for reply in found]
    if None in shown:
        place = shown.index(None)
        return [*shown[:place], "bad 4" if 9 <= len(found[place]) <= 65545 else "bad 1"]
    is_wrong = len(rest) >= 4 and not 5 <= int.from_bytes(rest[:4], "big") <= 65541
    return [*shown, "bad 1" if is_wrong else "truncated" if rest else "clean"]
