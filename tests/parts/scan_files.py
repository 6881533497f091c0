"""clients/python/scan_files.py: names, lists in hexadecimal and for several plans, loaded plans, failing outputs."""

import io
import os
import subprocess
import sys
import tempfile

from oracles import sessions
from parts.python_client import Cut
from support.programs import lay_out
from support.pyclient import PRONOUNS, PYTHON, plain_hits
from support.servers import SCAND, Server, lines

import scan_files

SCRIPT = os.path.join(PYTHON, "scan_files.py")
# More literals than one plan takes, with a repeated one, and literals that take more than a frame.
MANY = [*(b"%05d" % number for number in range(9000)), b"0", b"00000"]
LARGE = [b"%03d" % number + b"x" * (900 + number) for number in range(150)]
ODD = [b"a\nb", b"\0", b'"\\', b"\xc3\xa9x"]


def scanned(folder, *words, **how):
    """Status, output and messages of the script."""
    how = {"capture_output": True, **how}
    done = subprocess.run([sys.executable, SCRIPT, *words], cwd=folder, timeout=60, **how)
    return done.returncode, done.stdout, done.stderr


def lines_of(hits):
    """The lines for these hits."""
    return b"".join(b"%d %d\n" % hit for hit in hits)


def laid_out(**texts):
    """A folder with files of these names."""
    folder = tempfile.TemporaryDirectory()
    lay_out(folder.name, texts)
    return folder


def names():
    """Hits with the place where they start, and with their literal."""
    with laid_out(words=b"he\nhis\n\nshe\nhers", text=b"ushers HE", other=b"she", odd=b'a\nb \0 "\\ \xc3\xa9x') as folder:
        own = "--stdio", SCAND, "--names"
        want = b'0 2 "he"\n2 1 "she"\n3 2 "hers"\n'
        yield "names", scanned(folder, *own, "-f", "words", "text"), (0, want, b"")
        want = b'text:0 2 "he"\ntext:2 1 "she"\ntext:3 2 "hers"\ntext:0 7 "he"\nother:0 1 "he"\nother:2 0 "she"\n'
        yield "names of two files", scanned(folder, *own, "-i", "-f", "words", "text", "other"), (0, want, b"")
        lay_out(folder, {"hex": b"".join(word.hex().encode() + b"\n" for word in ODD)})
        want = b'2 0 "a\\x0ab"\n0 4 "\\x00"\n1 6 "\\"\\\\"\n3 9 "\\xc3\\xa9x"\n'
        yield "names that are escaped", scanned(folder, *own, "--hex", "hex", "odd"), (0, want, b"")


def hexadecimal():
    """Lists in hexadecimal: what no other list can hold, both cases of digits, and lines that are wrong."""
    text = b"a\nb\0 na\xef\xbf\nb"
    with laid_out(text=text, right=b"610A62\n\n00\nefBF") as folder:
        want = lines_of(plain_hits([b"a\nb", b"\0", b"\xef\xbf"], False, text))
        yield "newline and NUL", scanned(folder, "--stdio", SCAND, "--hex", "right", "text"), (0, want, b"")
        for wrong, line in (b"61\n6", 2), (b"cat\n", 1), (b"61\n\n61 62\n", 3), (b"61\r\n", 1):
            lay_out(folder, {"wrong": wrong})
            want = b"scan_files: wrong: line %d is not hexadecimal\n" % line
            yield f"the list {wrong}", scanned(folder, "--stdio", SCAND, "--hex", "wrong", "text"), (2, b"", want)


def long_lists():
    """Lists for several plans: the hits of all, in order, over one connection."""
    texts = {"first": b"00000 08999 1234500 x" * 3, "second": b" ".join(LARGE[::40]), "none": b"a" * 20000}
    lists = {"many": MANY, "large": LARGE, "again": [b"cat", b"0"] * 40000}
    files = {**texts, **{name: b"\n".join(words) for name, words in lists.items()}}
    with laid_out(**files, long=b"\n".join([*MANY, b"y" * 4096])) as folder:
        for name, words in lists.items():
            for text in texts:
                hits = plain_hits(words, False, texts[text])
                want = 0 if hits else 1, lines_of(hits), b""
                yield f"{name}: {text}", scanned(folder, "--stdio", SCAND, "-f", name, text), want
        with Server(2) as server, server.client() as first:
            port = "--port", str(server.port)
            counts = [b"%s:%d\n" % (name.encode(), len(plain_hits(MANY, False, text))) for name, text in texts.items()]
            want = 0, b"".join(counts), b""
            yield "counts over one connection", scanned(folder, *port, "-c", "-f", "many", *texts), want
            first.socket.close()
            yield "and it was one", server.ends()[:2], (0, lines(["clean", "clean"]))
        want = b"scan_files: long: a literal of 4096 bytes, where 4095 are the most\n"
        yield "a literal too long among many", scanned(folder, "--stdio", SCAND, "-f", "long", "first"), (2, b"", want)
    parts = scan_files.parts_of("words", [b"A", b"a", *MANY], True)
    yield "parts fold the case", (sum(map(len, parts)), parts[0][:2]), (9002, [b"0", b"a"])
    for words in MANY, LARGE, [b"%06d" % number for number in range(70000)]:
        parts = scan_files.parts_of("words", words, False)
        fit = all(len(sessions.publish(part)) <= 65545 and 0 < len(part) <= 4096 for part in parts)
        want = True, list(scan_files.ordered(words))
        yield f"{len(words)} literals in parts", (fit, [word for part in parts for word in part]), want
    yield "a list for one plan", scan_files.parts_of("words", [b"b", b"a", b"b"], False), [[b"b", b"a", b"b"]]


def lost():
    """A list for several plans, whose connection is lost on the way."""
    texts = [b"00000 08999 1234500 x" * 1000, b"0" * 5000]
    with laid_out(first=texts[0], second=texts[1]) as folder:
        for limits in ([], [(2000, None)], [(None, 60000)], [(None, 80000)], [(60000, None), (90000, None)]):
            way = Cut(*limits)
            joined = scan_files.Joined(way.dial, scan_files.parts_of("words", MANY, False), False, 6)
            got = []
            for name in "first", "second":
                joined.restart()
                with open(os.path.join(folder, name), "rb") as file:
                    got.append(list(joined.hits(file)))
            joined.close()
            yield f"hits, lost at {limits}", got, [plain_hits(MANY, False, text) for text in texts]
            yield f"connections, lost at {limits}", way.dialed, 1 + len(limits)
    way, words = Cut(), [b"%02d" % number for number in range(65)]
    joined = scan_files.Joined(way.dial, [[word] for word in words], False, 2)
    joined.restart()
    yield "more plans than a session publishes", list(joined.hits(io.BytesIO(b"07 64"))), plain_hits(words, False, b"07 64")
    yield "have a connection more", way.dialed, 2
    joined.close()


def loaded():
    """Plans that the server has already, with a list and without."""
    with laid_out(words=b"\n".join(PRONOUNS), text=b"ushers", other=b"a", wrong=b"he\nshe\n") as folder, Server(9) as server:
        with server.client() as first:
            first.asks(sessions.publish(PRONOUNS))
            port = "--port", str(server.port), "--plan"
            want = lines_of(plain_hits(PRONOUNS, False, b"ushers"))
            yield "a plan", scanned(folder, *port, "0", "text"), (0, want, b"")
            yield "a plan, files", scanned(folder, *port, "0", "-c", "text", "other"), (0, b"text:3\nother:0\n", b"")
            yield "a plan and its list", scanned(folder, *port, "0", "-f", "words", "text"), (0, want, b"")
            want = b'0 2 "he"\n2 1 "she"\n3 2 "hers"\n'
            yield "names of a plan", scanned(folder, *port, "0", "--names", "-f", "words", "text"), (0, want, b"")
            got = scanned(folder, *port, "0", "-f", "wrong", "text")
            yield "another list", (*got[:2], b"plan 0 is another one" in got[2]), (2, b"", True)
            want = 2, b"", b"scan_files: plan 1: NoSuchPlan (14), detail 0, stream 0\n"
            yield "a plan that is not there", scanned(folder, *port, "1", "text"), want
            yield "a plan that is not there, with a list", scanned(folder, *port, "1", "-f", "words", "text"), want
            want = 2, b"", b"scan_files: plan -1: the number of a plan is from 0 to 2^64 - 1\n"
            yield "a plan that cannot be", scanned(folder, "--stdio", SCAND, "--plan", "-1", "text"), want
            first.asks(sessions.publish(PRONOUNS, True))
            want = 0, lines_of(plain_hits(PRONOUNS, True, b"ushers")), b""
            yield "a plan and its list, case ignored", scanned(folder, *port, "1", "-i", "-f", "words", "text"), want
            for words, part in (
                (port[:2], b"is needed, or --plan NUMBER"), ((*port, "0", "--names"), b"is needed for --names"),
                ((*port, "1", "-i"), b"-i is for a list"),
            ):
                got = scanned(folder, *words, "text")
                yield f"no list: {part}", (*got[:2], part in got[2]), (2, b"", True)


def outputs():
    """Outputs that fail are not taken for inputs or servers."""
    text = b"he " * 100000
    with laid_out(words=b"he", first=text, second=text) as folder:
        words = "--stdio", SCAND, "-f", "words", "first", "second"
        with open("/dev/full", "wb") as full:
            for more in (), ("-c",):
                got = scanned(folder, *words, *more, capture_output=False, stdout=full, stderr=subprocess.PIPE)
                yield f"a full output {more}", got, (2, None, b"scan_files: standard output: No space left on device\n")
        reader, writer = os.pipe()
        os.close(reader)
        with os.fdopen(writer, "wb") as pipe:
            for more in (), ("-c",):
                got = scanned(folder, *words, *more, capture_output=False, stdout=pipe, stderr=subprocess.PIPE)
                yield f"a closed pipe {more}", got, (2, None, b"")
        for script, want in (
            ('"$0" "$@" | head -n 1; exit ${PIPESTATUS[0]}', (2, b"first:0 2\n", b"")),
            ('"$0" "$@" >&-', (2, b"", b"scan_files: standard output: Bad file descriptor\n")),
        ):
            started = ["bash", "-c", script, sys.executable, SCRIPT, *words]
            done = subprocess.run(started, cwd=folder, capture_output=True, timeout=60)
            yield script, (done.returncode, done.stdout, done.stderr), want
        with open(os.fsencode(folder) + b"/caf\xe9", "wb") as file:
            file.write(b"he")
        want = 0, b"caf\xe9:0 2\nwords:0 2\n", b""
        yield "a name that is not UTF-8", scanned(folder, *words[:4], b"caf\xe9", "words"), want


def messages():
    """Messages that cannot be written cost no file, no hit and no status, and stay out of the output."""
    with laid_out(words=b"he", text=b"ushers") as folder:
        own = "--stdio", SCAND, "-f"
        for words, want in (
            ((*own, "words", "none", "text", "none"), b"text:0 4\n"),
            ((*own, "none", "text"), b""),
            (("--stdio", "/none", "-f", "words", "text"), b""),
            ((*own, "words"), b""),
        ):
            for script in '"$0" "$@" 2>&-', '"$0" "$@" 2>/dev/full', 'exec 2> >(:); wait $!; "$0" "$@"':
                started = ["bash", "-c", script, sys.executable, SCRIPT, *words]
                how = {"stdout": subprocess.PIPE, "stderr": subprocess.DEVNULL}
                done = subprocess.run(started, cwd=folder, timeout=60, **how)
                yield f"{words[3:]}: {script}", (done.returncode, done.stdout), (2, want)
        broken = "import sys, scan_files; scan_files.scan_by_plans = None; sys.exit(scan_files.main())"
        started = [sys.executable, "-c", broken, *own, "words", "text"]
        env = {**os.environ, "PYTHONPATH": PYTHON}
        done = subprocess.run(started, cwd=folder, env=env, capture_output=True, timeout=60)
        yield "a fault of the script", (done.returncode, done.stdout, b"TypeError" in done.stderr), (2, b"", True)


TESTS = (names, hexadecimal, long_lists, lost, loaded, outputs, messages)
