"""tools/scand.lua in tshark, on written captures and a live one.

The written captures have worked sessions, random sessions and wrong replies, cut into segments anywhere. The live one is
of the loopback."""

import os
import random
import struct
import subprocess
import tempfile
import time
import xml.etree.ElementTree

from cases import session_cases
from cases.canned_replies import CANNED
from oracles import sessions
from oracles.frame_lines import reply_line
from support.programs import TOP
from support.servers import SECONDS, Server

DISSECTOR = os.path.join(TOP, "tools", "scand.lua")
PORT = 7000
BYTES = ("scand.literal", "scand.piece")


def segment(is_request, client, place, answered, text):
    """A packet with part of a conversation, after a number of bytes of its side and of the other side."""
    ports = (client, PORT) if is_request else (PORT, client)
    tcp = struct.pack(">HHIIBBHHH", *ports, 1 + place & 0xFFFFFFFF, 1 + answered & 0xFFFFFFFF, 5 << 4, 0x18, 65535, 0, 0)
    hosts = bytes([127, 0, 0, 1, 127, 0, 0, 1])
    return struct.pack(">BBHHHBBH", 0x45, 0, 40 + len(text), 0, 0x4000, 64, 6, 0) + hosts + tcp + text


def write_capture(path, conversations, source):
    """A capture of conversations, each given by its requests and replies, in segments of random sizes."""
    with open(path, "wb") as file:
        file.write(struct.pack("<IHHiIII", 0xA1B2C3D4, 2, 4, 0, 0, 1 << 18, 101))
        for number, sides in enumerate(conversations):
            done = [0, 0]
            while done[0] < len(sides[0]) or done[1] < len(sides[1]):
                side = source.randrange(2)
                size = source.choice([1, 3, 9, 20, 1400, 60000])
                part = sides[side][done[side] : done[side] + size]
                if part:
                    packet = segment(side == 0, 20000 + number, done[side], done[1 - side], part)
                    file.write(struct.pack("<IIII", 1, 0, len(packet), len(packet)) + packet)
                    done[side] += len(part)


def dissected(capture, port):
    """The frames that tshark shows of a capture, by the client's port and the side. A frame is the values of its fields."""
    words = ["tshark", "-r", capture, "-X", f"lua_script:{DISSECTOR}", "-d", f"tcp.port=={port},scand", "-T", "pdml"]
    done = subprocess.run([*words, "-Y", "scand"], capture_output=True, timeout=300, env=dict(os.environ, HOME="/nonexistent"))
    if done.returncode != 0 or b"Lua" in done.stderr:
        return {"fault": done.stderr.decode()}
    shown = {}
    for packet in xml.etree.ElementTree.fromstring(done.stdout):
        ports = {field.get("name"): int(field.get("show")) for field in packet.iter("field") if field.get("name") in PORTS}
        side = 0 if ports["tcp.dstport"] == port else 1
        client = ports["tcp.srcport" if side == 0 else "tcp.dstport"]
        for proto in packet.findall("proto"):
            if proto.get("name") == "scand":
                shown.setdefault((client, side), []).append([value_of(field) for field in proto.iter("field") if is_compared(field)])
    return shown


PORTS = ("tcp.srcport", "tcp.dstport")


def is_compared(field):
    return field.get("name", "").startswith("scand.") and field.get("name") not in ("scand.length", "scand.refused")


def value_of(field):
    if field.get("name") in BYTES:
        return field.get("value")
    return "bad" if field.get("name") == "scand.bad" else int(field.get("show"), 0)


def fields_of(frame):
    """The values to show of a frame: kind, stream, and then its fields in order."""
    kind, (stream,), payload = frame[4], struct.unpack(">I", frame[5:9]), frame[9:]
    if kind == sessions.PUBLISH:
        literals = sessions.literals_of(payload)
        shown = [[len(literal), literal.hex()] if literal else [0] for literal in literals]
        return [kind, stream, payload[0], len(literals), *sum(shown, [])]
    if kind == sessions.FEED:
        return [kind, stream, *([payload.hex()] if payload else [])]
    if kind == sessions.HITS:
        return [kind, stream, len(payload) // 10, *sum(struct.iter_unpack(">HQ", payload[2:]), ())]
    if kind == sessions.PLAN:
        return [kind, stream, *struct.unpack(f">BHQB{payload[11]}H", payload)]
    if kind == sessions.REFUSED:
        return [kind, stream, *struct.unpack(">BH", payload)]
    return [kind, stream, *struct.unpack(f">{len(payload) // 8}Q", payload)]


def replies_shown(text):
    """The frames to show of replies, up to the first that is no reply, which is "bad"."""
    found, rest = sessions.replies_of(text)
    rows = []
    for reply in found + ([rest] if len(rest) >= 4 and int.from_bytes(rest[:4], "big") > 65541 else []):
        if not 9 <= 4 + int.from_bytes(reply[:4], "big") <= 65545:
            return [*rows, ["bad"]]
        if reply_line(reply) is None:
            return [*rows, [reply[4], int.from_bytes(reply[5:9], "big"), "bad"]]
        rows.append(fields_of(reply))
    return rows


def side_shown(text, is_request):
    """The frames to show of one side, up to the first bad one."""
    if not is_request:
        return replies_shown(text)
    found, at, ending = sessions.requests_of(text)
    rows = [fields_of(sessions.frame(*request)) for request in found]
    if ending == sessions.LENGTH:
        return [*rows, ["bad"]]
    return [*rows, *([[*struct.unpack_from(">BI", text, at + 4), "bad"]] if isinstance(ending, int) else [])]


def up_to_bad(rows):
    """The frames up to the first bad one. Of a bad frame only its kind, its stream and "bad" remain."""
    place = next((place for place, row in enumerate(rows) if row[-1] == "bad"), len(rows))
    return rows[:place] + [[*row[:-1][:2], "bad"] for row in rows[place : place + 1]]


def written():
    """Written captures of worked rows, random sessions and wrong replies."""
    source = random.Random(21)
    cases = [(name, text, replies) for name, text, replies, _ in session_cases.ROWS]
    for number, (text, _) in enumerate(session_cases.random_sessions(200)):
        cases.append((f"random session {number}", text, b"".join(sessions.conversation(text)[0])))
    cases += [(f"a server that sends {name}", b"", replies) for name, replies, _ in CANNED]
    with tempfile.TemporaryDirectory() as folder:
        path = os.path.join(folder, "capture")
        for start in range(0, len(cases), 50):
            part = cases[start : start + 50]
            write_capture(path, [case[1:] for case in part], source)
            shown = dissected(path, PORT)
            yield "a capture dissected", shown.get("fault"), None
            for number, (name, *sides) in enumerate(part):
                for side, text in enumerate(sides):
                    got = up_to_bad(shown.get((20000 + number, side), []))
                    yield f"{name}, {'replies' if side else 'requests'} dissected", got, side_shown(text, side == 0)


def live():
    """A capture of the loopback, of a talk with the server."""
    with tempfile.TemporaryDirectory() as folder, Server(5) as server:
        path = os.path.join(folder, "capture")
        words = ["tshark", "-i", "lo", "-f", f"tcp port {server.port}", "-w", path, "-q"]
        with subprocess.Popen(words, stderr=subprocess.PIPE, text=True) as capturing:
            is_at_work = any("Capturing on" in line for line in capturing.stderr)
            if not is_at_work:
                print("left out: a live capture, which this machine does not allow")
                return
            for _ in range(5):  # the first may come before the capture begins
                time.sleep(0.5)
                with server.client() as client:
                    text = session_cases.FIRST_THREE + session_cases.SHOW_PLAN_7 + session_cases.CLOSE_7
                    client.sends(text)
                    replies, own = client.leaves(), client.socket.getsockname()[1]
                if is_captured(path, server.port, own):
                    break
            capturing.terminate()
            capturing.communicate()
        shown = dissected(path, server.port)
        yield "requests captured", shown.get((own, 0)), side_shown(text, True)
        yield "replies captured", shown.get((own, 1)), side_shown(replies, False)


def is_captured(path, port, client):
    """Whether the last reply to this client is soon in a capture."""
    deadline = time.monotonic() + SECONDS / 4
    while time.monotonic() < deadline:
        if dissected(path, port).get((client, 1), [])[-1:] == [[sessions.CLOSED, 7]]:
            return True
        time.sleep(0.2)
    return False


TESTS = (written, live)
