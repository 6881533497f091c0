"""`litgrep` on odd streams: full, closed, endless, named pipes, and files that are also its output."""

import os
import random
import resource
import select
import subprocess
import tempfile

from support.programs import LITGREP, lay_out, run

UNREADABLE = b"litgrep: (standard input): cannot be read\n"
MANY = b"".join(b"%d cat\n%d dog\n" % (n, n) for n in range(9000))


def long_lines():
    """Lines that one read of 64 KiB does not hold, before, after and around its end, and without a newline at theirs."""
    for size in 65530, 65535, 65536, 65537, 131072, 300000:
        line = b"x" * (size - 3) + b"cat"
        for end in b"\n", b"":
            yield f"a line of {size} bytes, then {end}", run(["-n", "cat"], b"dog\n" + line + end), (0, b"2:" + line + b"\n", b"")
            yield f"a line of {size} bytes, then {end}, counted", run(["-c", "cat"], line + end), (0, b"1\n", b"")
            yield f"a line of {size} bytes, then {end}, with -v", run(["-v", "dog"], line + end), (0, line + b"\n", b"")
            yield f"a line of {size} bytes, then {end}, not selected", run(["-v", "cat"], b"a\n" + line + end), (0, b"a\n", b"")
            yield f"a line of {size} bytes before the whole line cat, then {end}", run(["-x", "cat"], line + b"\ncat" + end), (0, b"cat\n", b"")


def long_inputs():
    """32 MiB of lines."""
    lines = b"a cat\nno dog\nthe end\n"
    count = (32 << 20) // len(lines)
    yield "32 MiB, counted", run(["-c", "cat"], lines * count), (0, b"%d\n" % count, b"")


def long_lists():
    """Thousands of literals, few of which occur, in 15 MB: long enough for a search that changes its engine on the way."""
    rng = random.Random(7)
    words = ["".join(rng.choices("abcdefghijkl", k=rng.randint(3, 9))) for _ in range(2000)]
    lines = [" ".join(rng.choices(words, k=12)) for _ in range(3500)]
    text = "\n".join(lines) + "\n"
    literals = set()
    while len(literals) < 3000:
        literal = (rng.choice(words) + rng.choice(words))[1 : rng.randint(5, 12)]
        if literal not in text:
            literals.add(literal)
    found = [f"{place} {literal} {line}\n" for place, (literal, line) in enumerate(zip(sorted(literals)[::1000], lines))]
    with tempfile.TemporaryDirectory() as folder:
        lay_out(folder, {"p": "\n".join(sorted(literals)).encode(), "t": ("".join(found) + text).encode() * 50})
        yield "3,000 literals in 15 MB", run(["-f", "p", "t"], cwd=folder), (0, "".join(found * 50).encode(), b"")
        yield "the same, counted", run(["-c", "-f", "p", "t"], cwd=folder), (0, b"%d\n" % (len(found) * 50), b"")


def long_names():
    """Files of empty lines, one under a name of 2,000 bytes: all lines are shown, and the run holds a few MiB of them."""
    with tempfile.TemporaryDirectory() as folder:
        name = "/".join(["d" * 200] * 10) + "/f"
        os.makedirs(os.path.join(folder, os.path.dirname(name)))
        lay_out(folder, {"f": b"\n" * 150000, name: b"\n" * 20000})
        want = b"f:\n" * 150000 + (name.encode() + b":\n") * 20000
        got = run(["", "f", name], cwd=folder, preexec_fn=lambda: resource.setrlimit(resource.RLIMIT_AS, (ROOM // 4, ROOM // 4)))
        yield "a name of 2,000 bytes", got == (0, want, b""), True


# The bytes of a line that no memory holds, and the memory that a run may have.
ENDLESS, ROOM = 300 << 20, 64 << 20


def endless(before, after, words):
    """Runs `litgrep` with little memory on one line of 300 MiB, with these bytes before and after zeros."""
    script = f"printf '{before}'; head -c {ENDLESS} /dev/zero; printf '{after}'"
    with subprocess.Popen(["sh", "-c", script], stdout=subprocess.PIPE, stderr=subprocess.DEVNULL) as line:
        got = run(words, line.stdout, preexec_fn=lambda: resource.setrlimit(resource.RLIMIT_AS, (ROOM, ROOM)))
        line.stdout.close()
    return got


def unseen_lines():
    """Where no line is written, one takes no more memory than the longest literal and a piece."""
    starved = (2, b"", b"litgrep: out of memory\n")
    for before, after in ("a cat", ""), ("", "a cat"), ("", "a cat\\n"), ("c", "at"):
        is_there = (before + after).startswith("a")
        there, other = (int(not is_there), b"%d\n" % is_there, b""), (int(is_there), b"%d\n" % (not is_there), b"")
        for words, wanted in (
            (["-c", "cat"], there),
            (["-c", "-e", "dog", "-e", "cat", "-e", "a horse"], there),
            (["-c", "-i", "CAT"], there),
            (["-c", "-v", "cat"], other),
            (["-l", "cat"], (there[0], b"(standard input)\n" * is_there, b"")),
            (["-q", "cat"], (there[0], b"", b"")),
            (["-c", "-x", "cat"], (1, b"0\n", b"")),
            (["-c", "-x", "-v", "cat"], (0, b"1\n", b"")),
            (["-c", ""], (0, b"1\n", b"")),
            (["-c", "-f", "/dev/null"], (1, b"0\n", b"")),
            (["cat"], starved),
        ):
            yield f"{words} on a line of 300 MiB between {before!r} and {after!r}", endless(before, after, words), wanted


def edges():
    """Streams that are full, closed, very long, or a folder."""
    lines = b"".join(line + b"\n" for line in MANY.split(b"\n") if b"7 cat" in line)
    yield "a long input", run(["7 cat"], MANY), (0, lines, b"")
    mebibyte = b"x" * (1 << 20) + b" cat\n"
    yield "a line of a mebibyte", run(["cat"], mebibyte + b"dog\n"), (0, mebibyte, b"")
    yield from long_lines()
    yield from long_inputs()
    yield from long_lists()
    with open("/dev/full", "wb") as full:
        yield "a full device", run(["cat"], b"cat\n", stdout=full), (2, None, b"")
        yield "a folder, counted on a full device", run(["-c", "cat", "/"], stdout=full), (2, None, b"")
    no_output, no_input = {"preexec_fn": lambda: os.close(1)}, {"preexec_fn": lambda: os.close(0)}
    yield "a closed output", run(["cat"], b"cat\n", **no_output), (2, b"", b"")
    yield "a closed output, not used", run(["cat"], b"dog\n", **no_output), (1, b"", b"")
    yield "a closed input", run(["cat"], **no_input), (2, b"", UNREADABLE)
    folder = os.open("/", os.O_RDONLY)
    yield "a folder as input", run(["cat"], folder), (2, b"", UNREADABLE)
    os.close(folder)
    reader, writer = os.pipe()
    os.close(reader)
    yield "a pipe that nobody reads", run(["cat"], MANY, stdout=writer), (2, None, b"")
    os.close(writer)


def streams():
    """Inputs without an end: lines come at once, and `-q` and `-l` stop reading."""
    pipes = {"stdin": subprocess.PIPE, "stdout": subprocess.PIPE}
    with subprocess.Popen([LITGREP, "-n", "cat"], **pipes) as program:
        for line, shown in (b"a cat\nno dog\nhalf", b"1:a cat\n"), (b" a cat\n", b"3:half a cat\n"):
            program.stdin.write(line)
            program.stdin.flush()
            is_there = bool(select.select([program.stdout], [], [], 30)[0])
            yield f"{shown} at once", is_there and os.read(program.stdout.fileno(), 100), shown
        program.stdin.close()
        yield "the end of a stream", program.wait(30), 0
    for words, shown in (["-q", "cat"], b""), (["-l", "cat"], b"(standard input)\n"):
        with subprocess.Popen([LITGREP, *words], **pipes) as program:
            program.stdin.write(b"cat\n")
            program.stdin.flush()
            has_ended = bool(select.select([program.stdout], [], [], 30)[0])
            yield f"{words} of an input that stays open", has_ended and (program.stdout.read(), program.wait(30)), (shown, 0)
            program.stdin.close()
        with subprocess.Popen(["yes", "cat"], stdout=subprocess.PIPE, stderr=subprocess.DEVNULL) as endless:
            yield f"{words} of an endless input", run(words, endless.stdout), (0, shown, b"")
            endless.kill()


def at_once(program, shown):
    """Whether the program shows that text next, and before it ends."""
    got = b""
    while len(got) < len(shown) and select.select([program.stdout], [], [], 30)[0]:
        got += os.read(program.stdout.fileno(), 100) or b"the end"
    return got == shown


def prompt():
    """Lines are written in their place among messages, and before `litgrep` waits for more input."""
    with tempfile.TemporaryDirectory() as folder:
        lay_out(folder, {"f": b"cat\n", "000": b"cat\ndog\n", "long": b"cat\n" * 20000, "d": None})
        pipes = {"cwd": folder, "stdin": subprocess.PIPE, "stdout": subprocess.PIPE}
        mixed = run(["cat", "f", "none", "000"], cwd=folder, stderr=subprocess.STDOUT)
        yield "messages in their place", mixed[1], b"f:cat\nlitgrep: none: cannot be read\n000:cat\n"
        mixed = run(["-c", "cat", "f", "d", "000"], cwd=folder, stderr=subprocess.STDOUT)
        yield "a message after its file's count", mixed[1], b"f:1\nd:0\nlitgrep: d: cannot be read\n000:1\n"
        with subprocess.Popen([LITGREP, "cat", "f", "-", "000"], **pipes) as program:
            yield "a file before standard input", at_once(program, b"f:cat\n"), True
            program.stdin.close()
            yield "a file after it", (program.stdout.read(), program.wait(30)), (b"000:cat\n", 0)
        os.mkfifo(os.path.join(folder, "pipe"))
        with subprocess.Popen([LITGREP, "cat", "f", "pipe"], **pipes) as program:
            yield "a file before a named pipe that nobody opened", at_once(program, b"f:cat\n"), True
            with open(os.path.join(folder, "pipe"), "wb", 0) as pipe:
                pipe.write(b"cat\n")
                yield "the first line of a named pipe", at_once(program, b"pipe:cat\n"), True
                pipe.write(b"2 cat\n")
                yield "and the second", at_once(program, b"pipe:2 cat\n"), True
        yield "lines of a long file", run(["cat", "f", "long"], cwd=folder), (0, b"f:cat\n" + b"long:cat\n" * 20000, b"")


def own_outputs():
    """A file that is also standard output counts as missing, under any name and as standard input, where lines go there."""
    with tempfile.TemporaryDirectory() as folder:
        whole = os.path.join(folder, "all")
        refused = b"litgrep: %s: cannot be read\n"
        for words, status, messages, added in (
            (["cat", "f", "all", "g"], 2, refused % b"all", b"f:cat\ng:2 cat\n"),
            (["cat", "./all", "link"], 2, refused % b"./all" + refused % b"link", b""),
            (["-s", "-n", "cat", "all", "f"], 2, b"", b"f:1:cat\n"),
            (["-v", "-f", "all", "f"], 2, refused % b"all", b""),
            (["-c", "cat", "all", "f"], 0, b"", b"all:1\nf:1\n"),
            (["-l", "cat", "all", "f"], 0, b"", b"all\nf\n"),
            (["-q", "cat", "all"], 0, b"", b""),
            (["-v", "dog"], 2, UNREADABLE, b""),
            (["cat", "f", "-", "g"], 2, UNREADABLE, b"f:cat\ng:2 cat\n"),
            (["-s", "cat", "-", "f"], 2, b"", b"f:cat\n"),
            (["cat", "/dev/stdin"], 2, refused % b"/dev/stdin", b""),
            (["-c", "cat"], 0, b"", b"1\n"),
            (["-l", "cat", "-"], 0, b"", b"(standard input)\n"),
            (["-q", "cat"], 0, b"", b""),
        ):
            lay_out(folder, {"f": b"cat\n", "g": b"2 cat\n", "all": b"old cat\n"})
            if not os.path.exists(whole.replace("all", "link")):
                os.link(whole, os.path.join(folder, "link"))
            with open(whole, "rb") as given, open(whole, "ab") as out:
                got = run(words, given, cwd=folder, stdout=out)
            with open(whole, "rb") as file:
                yield f"{words} >> all", (*got, file.read()), (status, None, messages, b"old cat\n" + added)
        with open(os.path.join(folder, "f"), "rb") as given, open(whole, "ab") as out:
            yield "another file as input", run(["cat"], given, stdout=out), (0, None, b"")
        with open("/dev/null", "r+b") as both:
            yield "a device for both", run(["cat", "/dev/null"], both, stdout=both), (1, None, b"")
            yield "a device as input too", run(["cat"], both, stdout=both), (1, None, b"")


def batches():
    """Names from `find`, of which one is not UTF-8: all other files are searched."""
    with tempfile.TemporaryDirectory() as folder:
        lay_out(folder, {"f": b"cat\n", "caf\udce9": b"cat\n", "g": b"2 cat\n"})
        script = f"find . -type f -print0 | sort -z | xargs -0 '{LITGREP}' cat"
        shown = run(["-c", script], program="bash", cwd=folder)
        yield "a batch of names", shown, (123, b"./f:cat\n./g:2 cat\n", b"litgrep: ./caf\\xe9: cannot be read\n")


TESTS = (edges, long_names, unseen_lines, streams, prompt, own_outputs, batches)
