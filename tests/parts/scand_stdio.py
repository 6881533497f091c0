"""`scand --stdio` over pipes and sockets, with faults of both, compared with the plain model of sessions."""

import bisect
import concurrent.futures
import functools
import itertools
import os
import random
import resource
import select
import socket
import subprocess
import tempfile

from cases import session_cases
from cases.session_cases import CAT_IN_7, CLOSE_7, FEED_CONCAT, FIRST_THREE, OPEN_7, PUBLISH_CAT, SHOW_PLAN_7, THEIR_REPLIES
from oracles.sessions import HITS, close, conversation, fed, feed, frame, hits_replies, open_stream, publish, refused, requests_of
from support.programs import TOP
from support.servers import COSTLIEST, NEEDED, NO_END, SCAND, SECONDS, SERVER, ended

# The room of a read: the server holds the frame that has begun, up to a multiple of this number of its bytes.
ROOM = 4096
SESSIONS = 10000
# Sessions of a client of version 0.1.0, and the replies of its server.
FIRST_RELEASE = os.path.join(TOP, "tests", "cases", "frames_0_1")


def served(text, **how):
    """The status, replies and messages of the server for these bytes and their end."""
    if isinstance(text, bytes):
        how["input"] = text
    else:
        how["stdin"] = text
    how.setdefault("stdout", subprocess.PIPE)
    try:
        done = subprocess.run(SERVER, stderr=subprocess.PIPE, timeout=SECONDS, **how)
    except subprocess.TimeoutExpired as late:
        return NO_END, late.stdout, late.stderr
    return done.returncode, done.stdout, done.stderr


def frame_starts(text):
    """Where the frames of a text begin, up to the first that is not whole or has a bad length."""
    starts = [0]
    while True:
        size = 4 + int.from_bytes(text[starts[-1] : starts[-1] + 4], "big")
        if not 9 <= size <= min(65545, len(text) - starts[-1]):
            return starts
        starts.append(starts[-1] + size)


def pieces_of(text, sizes):
    """A text in pieces of some sizes, and its rest. A piece that a read has no room for is divided."""
    starts, at = frame_starts(text), 0
    for size in [*sizes, len(text)]:
        end = min(at + size, len(text))
        while at < end:
            begun = starts[bisect.bisect(starts, at) - 1]
            stop = min(end, at + ROOM - (at - begun) % ROOM)
            yield text[at:stop]
            at = stop


def in_pieces(text, sizes, **how):
    """The same for bytes that the server reads piece by piece."""
    near, far = socket.socketpair(socket.AF_UNIX, socket.SOCK_SEQPACKET)
    with near, far, tempfile.TemporaryFile() as out:
        with subprocess.Popen(SERVER, stdin=far, stdout=out, stderr=subprocess.PIPE, **how) as program:
            far.close()
            near.settimeout(SECONDS)
            try:
                for piece in pieces_of(text, sizes):
                    near.send(piece)
                near.shutdown(socket.SHUT_WR)
            except OSError:
                pass  # the server has left
            status, _, messages = ended(program)
        out.seek(0)
        return status, out.read(), messages


def outcome(text):
    """The status, replies and messages that the model gives for these bytes."""
    replies, ending = conversation(text)
    return int(ending != "clean"), b"".join(replies), b""


def words():
    """Words for which nothing is served."""
    for given, stderr in (
        ([], NEEDED),
        (["-z"], b"error: unexpected argument '-z' found"),
        (["--stdio", "x"], b"error: unexpected argument 'x' found"),
        (["--stdio=x"], b"error: unexpected value 'x' for '--stdio"),
        ([b"\xff"], b"scand: a word is not UTF-8\n"),
    ):
        done = subprocess.run([SCAND, *given], input=FIRST_THREE, capture_output=True, timeout=SECONDS)
        shown = done.stderr if stderr.endswith(b"\n") else done.stderr[: len(stderr)]
        yield f"scand {given}", (done.returncode, done.stdout, shown), (2, b"", stderr)
    done = subprocess.run([SCAND, "--help"], input=FIRST_THREE, capture_output=True, timeout=SECONDS)
    yield "scand --help", (done.returncode, done.stdout, b"--stdio" in done.stderr), (2, b"", True)


def model():
    """The model on the worked rows."""
    for name, text, replies, ending in session_cases.ROWS:
        got, ended = conversation(text)
        yield f"the model on {name}", (b"".join(got), ended), (replies, ending)


def recorded(name):
    """The bytes of a file of the first release's frames."""
    with open(os.path.join(FIRST_RELEASE, name), "rb") as file:
        return file.read()


def first_release():
    """A client of version 0.1.0, which knows nothing of sixteen buckets, gets the same replies as from that version."""
    for name, ending in ("bad_frame", "bad"), ("cat", "clean"), ("cut", "truncated"), ("refusals", "clean"), ("two_plans", "clean"):
        text, replies = recorded(f"{name}.requests"), recorded(f"{name}.replies")
        got, ended = conversation(text)
        yield f"the model on {name} of release 0.1", (b"".join(got), ended), (replies, ending)
        want = (int(ending != "clean"), replies, b"")
        yield f"{name} of release 0.1", served(text), want
        yield f"{name} of release 0.1, byte by byte", in_pieces(text, [1] * len(text)), want


def places(text):
    """Where a text is cut: everywhere, or near the ends of its frames where it is long."""
    if len(text) <= 130:
        return range(len(text) + 1)
    ends = [requests_of(text[:at])[1] for at in range(0, len(text) + 1, max(len(text) // 20, 1))]
    near = {end + step for end in ends for step in (-1, 0, 1, 3, 4, 5, 8, 9, 12)}
    return sorted(place for place in near if 0 <= place <= len(text))


def side_by_side(cases):
    """Cases of a name, a call and its right answer. Four calls run at once."""
    with concurrent.futures.ThreadPoolExecutor(4) as pool:
        for (name, _, want), got in zip(cases, pool.map(lambda case: case[1](), cases)):
            yield name, got, want


def row_cases():
    """Each worked row whole, byte by byte, in two pieces, and cut off; the last two for each of its places."""
    for name, text, replies, ending in session_cases.ROWS:
        want = (int(ending != "clean"), replies, b"")
        yield name, functools.partial(served, text), want
        yield f"{name}, byte by byte", functools.partial(in_pieces, text, [1] * len(text)), want
        for place in places(text):
            yield f"{name}, in two pieces at {place}", functools.partial(in_pieces, text, [place]), want
            yield f"{name}, cut off at {place}", functools.partial(served, text[:place]), outcome(text[:place])


def rows():
    """The worked rows, however they are cut."""
    yield from side_by_side(list(row_cases()))


def cuts():
    """Two frames that are cut off are clean at the end of each frame, and truncated elsewhere."""
    for place in range(len(CAT_IN_7) + 1):
        want = (int(place not in (0, 17, 34)), THEIR_REPLIES[: place // 17 * 17][:26], b"")
        yield f"two frames cut off at {place}", served(CAT_IN_7[:place]), want


class Talk:
    """The server, which is sent one piece after the other while it runs. Each piece is one read of it."""

    def __enter__(self):
        self.near, far = socket.socketpair(socket.AF_UNIX, socket.SOCK_SEQPACKET)
        self.program = subprocess.Popen(SERVER, stdin=far, stdout=subprocess.PIPE, stderr=subprocess.PIPE, bufsize=0)
        far.close()
        return self

    def __exit__(self, *_):
        self.near.close()
        self.program.kill()
        self.program.communicate()

    def says(self, text):
        """Sends part of a frame, or frames, in pieces that a read has room for."""
        for piece in pieces_of(text, []):
            self.near.send(piece)

    def hears(self, size, seconds=None):
        """The next bytes, this number of them, or those that come in time."""
        got = b""
        while len(got) < size and select.select([self.program.stdout], [], [], SECONDS if seconds is None else seconds)[0]:
            piece = self.program.stdout.read(size - len(got))
            if not piece:
                break
            got += piece
        return got

    def ends(self, is_closed=True):
        """The status, the last replies and the messages."""
        if is_closed:
            self.near.shutdown(socket.SHUT_WR)
        return ended(self.program)

    def peak(self):
        """The peak memory of the server, in KiB."""
        with open(f"/proc/{self.program.pid}/status") as file:
            return next(int(line.split()[1]) for line in file if line.startswith("VmHWM"))


def waits():
    """A client that waits for the replies to each frame before it sends the next one."""
    text = FIRST_THREE + SHOW_PLAN_7 + FEED_CONCAT + CLOSE_7 + CLOSE_7
    frames = [frame(*request) for request in requests_of(text)[0]]
    replied = [b"".join(conversation(b"".join(frames[:count]))[0]) for count in range(len(frames) + 1)]
    for size in 1, 5, 1000:
        with Talk() as talk:
            for place, sent in enumerate(frames):
                for at in range(0, len(sent), size):
                    seconds = 0.02 if at + size >= len(sent) else 0  # a reply takes some time
                    yield f"frame {place}, no reply before its end", talk.hears(1, seconds), b""
                    talk.says(sent[at : at + size])
                want = replied[place + 1][len(replied[place]) :]
                yield f"frame {place} in pieces of {size}, replied at once", talk.hears(len(want)), want
            yield f"the end of frames in pieces of {size}", talk.ends(), (0, b"", b"")


def halves():
    """Replies to whole frames come though the next frame has begun. Four bytes suffice for a bad length to be refused."""
    with Talk() as talk:
        talk.says(PUBLISH_CAT + OPEN_7 + FEED_CONCAT[:-1])
        yield "replies before a half frame", talk.hears(26), THEIR_REPLIES[:26]
        talk.says(FEED_CONCAT[-1:] + b"\0\0")
        yield "the reply to its end", talk.hears(38), THEIR_REPLIES[26:]
        talk.says(b"\0")
        yield "nothing for three bytes of a length", talk.hears(1, 0.05), b""
        talk.says(b"\4")
        yield "a bad length at once", talk.hears(12), refused(0, 11, 1)
        yield "the end after it", talk.ends(is_closed=False), (1, b"", b"")
    with Talk() as talk:
        talk.says(frame(9, 0, b"x")[:-1])
        yield "nothing for a bad kind that is not whole", talk.hears(1, 0.05), b""
        talk.says(b"x")
        yield "a bad kind once it is whole", talk.hears(12), refused(0, 11, 2)
        yield "the end after a bad kind", talk.ends(is_closed=False), (1, b"", b"")


def costliest():
    """The Feed with the most hits: 354 literals `a`, `aa` .. end at each of its 65,536 bytes. The server sends hits as it
    finds them, and needs no memory for them."""
    with Talk() as talk:
        for sent in publish(COSTLIEST), open_stream(1, 0):
            talk.says(sent)
        yield "the costliest plan", talk.hears(26)[-9:], frame(0x12, 1)
        before = talk.peak()
        talk.says(feed(1, b"a" * 65536))
        count, is_right = costliest_hits(talk)
        yield "the hits of the costliest Feed", (count, is_right), (23137263, True)
        yield "its place", talk.hears(17), fed(1, 65536)
        grown = talk.peak() - before
        yield f"memory for the costliest Feed, {grown} KiB", grown < 16384, True
        yield "the end of the costliest Feed", talk.ends(), (0, b"", b"")


def costliest_hits(talk):
    """How many hits come, and whether they are the hits of the costliest Feed, in full frames."""
    numbers = [number.to_bytes(2, "big") for number in range(354)]
    wanted, count, end = bytearray(), 0, 0
    while count < 23137263:
        head = talk.hears(11)
        size = int.from_bytes(head[9:], "big")
        while len(wanted) < 40960 and end < 65536:
            end += 1
            wanted += end.to_bytes(8, "big").join(numbers[: min(end, 354)] + [b""])
        hits = talk.hears(10 * size)
        is_full = size == min(4096, 23137263 - count)
        if head[:9] != frame(HITS, 1, bytes(2 + 10 * size))[:9] or not is_full or hits != wanted[: 10 * size]:
            return count, False
        del wanted[: 10 * size]
        count += size
    return count, True


def faults():
    """Standard streams that cannot be read or written."""
    text, gone = FIRST_THREE, (1, None, b"")
    with open("/dev/full", "wb") as full:
        yield "a full device", served(text, stdout=full), gone
        yield "a full device, not used", served(b"", stdout=full), (0, None, b"")
        yield "a full device and a bad frame", served(bytes(4), stdout=full), gone
    reader, writer = os.pipe()
    os.close(reader)
    yield "a pipe that nobody reads", served(text, stdout=writer), gone
    os.close(writer)
    no_output, no_input = {"preexec_fn": lambda: os.close(1)}, {"preexec_fn": lambda: os.close(0)}
    yield "a closed output", served(text, **no_output), (1, b"", b"")
    yield "a closed output, not used", served(b"", **no_output), (0, b"", b"")
    yield "a closed input", served(None, **no_input), (1, b"", b"")
    folder = os.open("/", os.O_RDONLY)
    yield "a folder as input", served(folder), (1, b"", b"")
    os.close(folder)
    for most in range(len(THEIR_REPLIES) + 1):
        with tempfile.TemporaryFile() as out:
            limit = {"preexec_fn": lambda: resource.setrlimit(resource.RLIMIT_FSIZE, (most, most)), "restore_signals": False}
            status = served(text, stdout=out, **limit)[0]
            out.seek(0)
            want = (int(most < len(THEIR_REPLIES)), THEIR_REPLIES[:most])
            yield f"a file that takes {most} bytes", (status, out.read()), want


def random_serving():
    """Random sessions in random pieces, compared with the model."""
    cases = []
    for text, sizes in session_cases.random_sessions(SESSIONS):
        name = f"a session {text.hex():.400} in pieces of {sizes!r:.60}"
        cases.append((name, functools.partial(in_pieces, text, sizes), outcome(text)))
    yield from side_by_side(cases)


def each_end_once():
    """Streams fed byte by byte: 100,000 bytes with a hit at each but the first, and 4,096 with the longest literal."""
    for literal, count in (b"aa", 100_000), (b"a" * 4095, 4096):
        text = publish([literal]) + OPEN_7 + feed(7, b"a") * count
        replies = [hits_replies(7, [(0, place)] if place >= len(literal) else []) + [fed(7, place)] for place in range(1, count + 1)]
        want = (0, THEIR_REPLIES[:26] + b"".join(itertools.chain.from_iterable(replies)), b"")
        yield f"{count} bytes one by one, for a literal of {len(literal)}", served(text) == want, True


# What the long streams are made of, from which the server tunes itself: words of lines, and figures.
LINE_WORDS = [b"con", b"nect", b"ion ", b"sess", b"the ", b"plan", b"ner ", b"of ", b"it", b"ation", b"search", b"ed\n"]
FIGURES = [b"0x", b"1f", b"07", b", ", b"00", b"\xff\xfe", b"con", b"7e3", b"ION "]


def text_of(rng, words, size):
    """About `size` bytes of some words."""
    return b"".join(rng.choices(words, k=size // 4))


def literals_from(rng, text, count, least):
    """A number of literals: pieces of a text. Every second one has one byte changed."""
    found = []
    for place in range(count):
        at, size = rng.randrange(len(text) - 20), rng.randint(least, least + 9)
        changed = rng.randrange(size) if place % 2 else size
        found.append(bytes(byte ^ (place == changed) for place, byte in enumerate(text[at : at + size])))
    return found


def in_turn(rng, texts, sizes):
    """Feeds of several streams in turn, in pieces of some sizes, until each text is fed."""
    places = dict.fromkeys(texts, 0)
    while places:
        for stream, at in list(places.items()):
            size = rng.choice(sizes)
            yield feed(stream, texts[stream][at : at + size])
            places[stream] += size
            if places[stream] >= len(texts[stream]):
                del places[stream]


def long_session(seed):
    """A session whose streams are long enough that the server tunes itself. It feeds two plans one after the other and in
    turn, and a plan of two literals. Texts change their kind, and a stream is opened again by another plan. An odd seed
    asks for sixteen buckets."""
    rng = random.Random(seed)
    lines, figures = text_of(rng, LINE_WORDS, 1 << 20), text_of(rng, FIGURES, 1 << 19)
    lists = [literals_from(rng, lines, 40, 5), literals_from(rng, figures, 40, 4), [b"search", b"ation"]]
    buckets = 16 if seed % 2 else 8
    yield b"".join(publish(literals, is_folded, buckets) for literals, is_folded in zip(lists, (False, True, False)))
    yield b"".join(open_stream(stream, number) for stream, number in ((1, 0), (2, 1), (3, 0), (4, 2)))
    yield from in_turn(rng, {1: lines}, [65536])
    yield from in_turn(rng, {2: figures * 4 + lines}, [65536])
    yield from in_turn(rng, {1: figures + lines, 2: lines, 3: lines + figures, 4: lines}, [65536, 65536, 30000, 1000, 61, 0])
    yield close(1) + open_stream(1, 1)
    yield from in_turn(rng, {1: lines}, [65536, 20000])


def long_streams():
    """Streams for which the server tunes itself, compared with the model."""
    for seed in range(3):
        text = b"".join(long_session(seed))
        status, replies, messages = served(text)
        yield f"long streams of seed {seed}", (status, replies, messages) == outcome(text), True
        yield f"hits in long streams of seed {seed}", len(replies) > 1 << 19, True


TESTS = (words, model, first_release, rows, cuts, waits, halves, costliest, each_end_once, long_streams, faults, random_serving)
