"""GNU parallel with `litgrep`, as docs/SCALE.md shows it: hosts that are this machine, and jobs that are killed."""

import os
import random
import shutil
import subprocess
import tempfile

from support.programs import LITGREP, TOP

PART = os.path.join(TOP, "deploy", "parallel", "part.sh")
PARALLEL = "parallel --will-cite -k --retries 3"
HOSTS = "-S 2/one,2/two --ssh ./shell"
# Runs a command line on "another host". It follows the options and the name of the host.
SHELL = '#!/bin/sh\nwhile [ "${1#-}" != "$1" ]; do shift; done\nshift\n[ "$1" = -- ] && shift\nexec sh -c "$*"\n'
# A program that is killed once, in the middle of its output: the third time that it starts, or the fourth.
DYING = """#!/bin/sh
mkdir {folder}/{name}.$$
if [ "$(ls -d {folder}/{name}.* | wc -l)" -ge 3 ] && mkdir {folder}/dead-{name} 2> /dev/null; then {program} "$@" | head -c 1000; kill -9 $$; fi
exec {program} "$@"
"""


def lay_out(folder):
    """A log of some megabytes, words to search for, some small files, and the programs for the tests."""
    source = random.Random(31)
    words = [b"error", b"timeout", b"17 ms", b"unreachable"]
    levels = [b"info", b"Error", b"error", b"debug"]
    lines = [b"%d %s request took %d ms" % (place, source.choice(levels), source.randrange(400)) for place in range(100000)]
    files = {"log": b"\n".join(lines), "words": b"\n".join(words) + b"\n", "shell": SHELL.encode()}
    files["long"] = b"error " * 100000 + b"\n" + b"x\n" * 20 + b"error" * 100000
    files["wide"] = b"".join(b"%d error %s\n" % (number, b"x" * source.randrange(3000, 9000)) for number in range(1000))
    files["empty"] = b""
    files.update({f"part{number}": b"\n".join(lines[number * 100 : number * 100 + number]) for number in range(40)})
    for name, program in ("litgrep", LITGREP), ("dd", shutil.which("dd")):
        files[name] = DYING.format(folder=folder, name=name, program=program).encode()
    for name, text in files.items():
        with open(os.path.join(folder, name), "wb") as file:
            file.write(text)
        os.chmod(os.path.join(folder, name), 0o755)


def run(folder, line, **env):
    """The status and output of a command line."""
    env = {**os.environ, "HOME": folder, "LITGREP": LITGREP, **env}
    done = subprocess.run(["bash", "-c", line], cwd=folder, capture_output=True, timeout=120, env=env)
    return done.returncode, done.stdout


def one_file():
    """One file in parts: lines in their order, counts summed."""
    with tempfile.TemporaryDirectory() as folder:
        lay_out(folder)
        total = "awk '{ sum += $1 } END { print sum }'"
        for where, given in ("on this machine", ""), ("over hosts", HOSTS):
            for flags in "", "-v", "-i", "-x", "-iv":
                got = run(folder, f"seq 7 | {PARALLEL} {given} {PART} {{}} 7 log {flags} -f words")
                yield f"lines with {flags or 'no option'} {where}", got, (0, run(folder, f"{LITGREP} {flags} -f words log")[1])
            got = run(folder, f"seq 7 | {PARALLEL} {given} {PART} {{}} 7 log -c -f words | {total}")
            yield f"a count {where}", got, run(folder, f"{LITGREP} -c -f words log")
        for parts in 1, 2, 40:
            got = run(folder, f"seq {parts} | {PARALLEL} {PART} {{}} {parts} long -f words")
            yield f"long lines in {parts} parts", got, run(folder, f"{LITGREP} -f words long")
            got = run(folder, f"seq {parts} | {PARALLEL} {PART} {{}} {parts} empty error")
            yield f"an empty file in {parts} parts", got, (0, b"")
        got = run(folder, f"seq -w 12 | {PARALLEL} {PART} {{}} 012 log -f words")
        yield "numbers that begin with 0", got, run(folder, f"{LITGREP} -f words log")
        yield "no line selected", run(folder, f"seq 7 | {PARALLEL} {PART} {{}} 7 log none"), (0, b"")


def grown():
    """A file that grows while its parts are searched: they are the file as it was when it was measured, cut anywhere."""
    source, line = random.Random(37), b"a line of the log\n"
    with tempfile.TemporaryDirectory() as folder:
        lay_out(folder)
        whole = line * 40
        for number in range(12):
            size, parts = source.randrange(len(whole)), source.randrange(1, 12)
            found = b""
            for part in range(1, parts + 1):
                with open(os.path.join(folder, "growing"), "wb") as file:
                    file.write(whole[: size + source.randrange(len(whole) - size)] if part > 1 else whole[:size])
                found += run(folder, f"{PART} {part} {parts} growing line", SIZE=str(size))[1]
            want = run(folder, f"head -c {size} growing | {LITGREP} line")[1]
            yield f"{parts} parts of {size} bytes, case {number}", found, want
        want = run(folder, f"{LITGREP} error log")
        given = f"seq 7 | {PARALLEL} {HOSTS} env SIZE=$size {PART} {{}} 7 log error"
        yield "a log that grows, over hosts", run(folder, f"size=$(stat -Lc %s log); echo error >> log; {given}"), want


def refused():
    """Words that are wrong and files that are shorter than they were: status 2, and nothing is written."""
    with tempfile.TemporaryDirectory() as folder:
        lay_out(folder)
        size = os.path.getsize(os.path.join(folder, "log"))
        for words, given in (
            ("1 9 log error", str(size + 1)), ("9 9 log error", str(size + 1)), ("1 1 log error", "x"), ("1 1 log error", "-1"),
            ("0 9 log error", ""), ("10 9 log error", ""), ("x 9 log error", ""), ("1 0 log error", ""),
            (f"1 {10**17} log error", ""), ("1 9 none error", ""),
            ("1 9 . error", ""), ("1 9 /dev/null error", ""), ("'a[$(touch wrong)]' 9 log error", ""), ("1 9 log", ""),
        ):
            yield f"part.sh {words}, SIZE={given}", run(folder, f"{PART} {words}", SIZE=given), (2, b"")
        yield "what a word wrote", os.path.exists(os.path.join(folder, "wrong")), False
        cuts = f"{LITGREP} error; truncate -s 100 log"
        with open(os.path.join(folder, "cutting"), "w") as file:
            file.write(f"#!/bin/sh\n{cuts}\n")
        os.chmod(os.path.join(folder, "cutting"), 0o755)
        yield "a file that becomes shorter", run(folder, f"{PART} 1 9 log error", LITGREP="./cutting")[0], 2


def killed():
    """A search, and a reading, that is killed in the middle: its part is searched again."""
    with tempfile.TemporaryDirectory() as folder:
        lay_out(folder)
        want = run(folder, f"{LITGREP} -f words log")
        search = f"seq 9 | parallel --will-cite -k -j 2 {PART} {{}} 9 log -f words"
        yield "a killed litgrep", run(folder, search.replace("-k", "-k --retries 3"), LITGREP="./litgrep"), want
        yield "litgrep started", sum(file.startswith("litgrep.") for file in os.listdir(folder)), 10
        run(folder, "rm -r litgrep.* dead-litgrep")
        status, lines = run(folder, search, LITGREP="./litgrep")
        yield "a killed litgrep, not tried again", (status, lines == want[1]), (1, False)
        # What a killed dd wrote ends in the middle of the first line: both where it looks for one and where it reads a part.
        env, wide = {"PATH": f"{folder}:{os.environ['PATH']}"}, search.replace("log", "wide")
        want = run(folder, f"{LITGREP} -f words wide")
        for jobs in 1, 2:
            given = wide.replace("-j 2", f"-j {jobs}")
            yield f"a killed dd, {jobs} jobs", run(folder, given.replace("-k", "-k --retries 3"), **env), want
            yield "it was killed", run(folder, "rm -r dead-dd dd.*")[0], 0
            status, lines = run(folder, given, **env)
            yield f"a killed dd, {jobs} jobs, not tried again", (status, lines == want[1]), (1, False)
            yield "it was killed", run(folder, "rm -r dead-dd dd.*")[0], 0
        yield "a list that is missing", run(folder, f"{search}x")[0], 9
        yield "a file that is missing", run(folder, search.replace("log", "none"))[0], 9
        yield "a litgrep that is missing", run(folder, search, LITGREP="none")[0], 9
        yield "no option", run(folder, f"{PART} 1 9 log"), (2, b"")


def many_files():
    """Many files, each searched whole, with its name."""
    with tempfile.TemporaryDirectory() as folder:
        lay_out(folder)
        want = run(folder, f"{LITGREP} -n -f words part* /dev/null")
        for given in "-m", HOSTS:
            line = f"{PARALLEL} {given} '{LITGREP} -n -f words {{}} /dev/null; test $? -le 1' ::: part*"
            yield f"files with {given}", run(folder, line), want


TESTS = (one_file, grown, refused, killed, many_files)
