"""tools/build.py, with a stand-in for the prover: the crates that it proves again, its lines, its endings."""

import os
import re
import shutil
import signal
import subprocess
import sys
import tempfile
import time

from support.programs import TOP, lay_out

# A small repository: a program on two libraries, which stand on a third.
FILES = {
    "crates.txt": b"low:\nleft: low\nright: low\napp: left right\n",
    "HANDLES": b"Handles allowed: none.\n",
    "tools": None,
    "tools/seconds.txt": b"low 600\nleft 300\n",
    "crates": None,
    **{f"crates/{name}{below}": None for name in ("low", "left", "right", "app") for below in ("", "/src")},
    **{f"crates/{name}/src/lib.rt": b"\n" for name in ("low", "left", "right")},
    "crates/app/src/main.rt": b"\n",
    "crates/app/args": b"-\nwords\n",
    "crates/app/data": None,
    "crates/app/data/words": b"\n",
    "crates/app/stdin": b"given\n",
    "crates/app/stdout": b"- data/words\ngiven\n",
}
# Makes a library, or a program, whose file names its level. Refuses the crate that REFUSED names, takes a minute for the crate
# that SLOW names, and runs the commands of MEANWHILE, which can edit a source. A program prints its words and its input.
PROVER = """#!/bin/sh
[ "$1" != version ] || { echo "kit $KIT"; exit; }
name=${PWD##*/}
case $1 in run) log=2;; *) log=1;; esac
echo "$1 of $name" >&$log
[ "$name" != "$REFUSED" ] || exit 1
eval "$MEANWHILE"
[ "$name" != "$SLOW" ] || exec sleep 60
[ "$1" != check ] || exit 0
[ "$name" != right ] || sleep 0.3
if [ $log = 1 ]; then mkdir -p out/rlib && echo > out/rlib/format && exit; fi
echo "$2" > out/app
while [ "$1" != -- ]; do shift; done
shift; echo "$*"; cat
"""
NO_KIT = 2
# The signals that end a build.
ENDING = signal.SIGTERM, signal.SIGHUP, signal.SIGINT


class Tree:
    """The repository with tools/build.py, and the stand-in."""

    def __init__(self, folder):
        self.folder, self.kit = os.path.join(folder, "tree"), os.path.join(folder, "kit")
        lay_out(folder, {"tree": None, "kit": None, "kit/rt": PROVER.encode()})
        os.chmod(os.path.join(self.kit, "rt"), 0o755)
        lay_out(self.folder, FILES)
        shutil.copy(os.path.join(TOP, "tools", "build.py"), os.path.join(self.folder, "tools"))

    def started(self, *words, has_kit=True, **env):
        """A build of the program with two processors, which runs."""
        env["PATH"] = f"{self.kit}{os.pathsep}{os.environ['PATH']}" if has_kit else ""
        build = [sys.executable, os.path.join(self.folder, "tools", "build.py"), "-j", "2", *words, "app"]
        how = {"stdout": subprocess.PIPE, "stderr": subprocess.PIPE, "text": True, "preexec_fn": with_signals}
        return subprocess.Popen(build, env={**os.environ, "TREE": self.folder, **env}, **how)

    def builds(self, *words, **how):
        """Builds the program. Answers the status, the lines and the messages."""
        with self.started(*words, **how) as build:
            lines, messages = build.communicate(timeout=60)
        return build.returncode, re.sub(r"\b\d+ s\b", "N s", lines).splitlines(), messages

    def proves(self, **how):
        """How many crates a build proves."""
        return len([line for line in self.builds(*V2, **how)[1] if " proved in " in line])

    def change(self, name):
        """Changes a file of the tree."""
        with open(os.path.join(self.folder, name), "a") as file:
            file.write("\n")

    def program(self, folder="bin"):
        """The program in a folder: here the word that named its level."""
        with open(os.path.join(self.folder, folder, "app")) as file:
            return file.read().strip()


def with_signals():
    """Gives a process the signals that this one may ignore, as it does below nohup."""
    for number in ENDING:
        signal.signal(number, signal.SIG_DFL)


V2, V3 = ("--cpu", "x86-64-v2"), ("--cpu", "x86-64-v3")


def first_builds(tree):
    """Each crate is proved once, with an estimate. Another level is linked from the same proof, and both are kept."""
    lines = [
        "4 crates to prove for x86-64-v2 with 2 processors, about 16 min",
        "[1/4] low proved in N s, about a minute left",
        "[2/4] left proved in N s, about a minute left",
        "[3/4] right proved in N s, about a minute left",
        "[4/4] app proved in N s",
    ]
    yield "a first build", tree.builds(*V2), (0, lines, "")
    yield "its program", tree.program(), "--cpu=x86-64-v2"
    yield "a second build", tree.builds(*V2), (0, [], "")
    lines = ["1 crate to prove for x86-64-v3 with 2 processors, about a minute", "[1/1] app proved in N s"]
    yield "a build for another level", tree.builds(*V3), (0, lines, "")
    yield "its program", tree.program(), "--cpu=x86-64-v3"
    yield "the first level again, without the kit", tree.builds(*V2, has_kit=False), (0, [], "")
    yield "the program of the first level again", tree.program(), "--cpu=x86-64-v2"
    other = os.path.join(tree.folder, "other")
    yield "into another folder", tree.builds(*V3, "--into", other), (0, [], "")
    yield "the program of each folder", (tree.program(), tree.program("other")), ("--cpu=x86-64-v2", "--cpu=x86-64-v3")


def later_builds(tree):
    """A change proves its crate and those above it. VERBOSE shows what the prover says of each."""
    tree.change("crates/right/src/lib.rt")
    status, lines, _ = tree.builds(*V2, "--verbose")
    shown = ["right: check of right", "right: lib of right", "[1/2] right proved in N s, about a minute left"]
    shown += ["app: check of app", "app: run of app", "[2/2] app proved in N s"]
    yield "a verbose build after a change", (status, lines[1:]), (0, shown)
    tree.change("crates/low/src/lib.rt")
    yield "crates after a change of the lowest", tree.proves(), 4
    tree.change("crates/app/data/words")
    yield "crates after a change of the stored run", tree.proves(), 1
    os.utime(os.path.join(tree.folder, "crates", "low", "src", "lib.rt"))
    yield "crates after no change", tree.proves(), 0


def other_changes(tree):
    """A source that is new or gone, another line of crates.txt, other HANDLES and another kit prove what they concern."""
    source = os.path.join(tree.folder, "crates", "right", "src", "more.rt")
    lay_out(tree.folder, {source: b""})
    yield "crates with another source", tree.proves(), 2
    os.remove(source)
    yield "crates with a source less", tree.proves(), 2
    lay_out(tree.folder, {"crates.txt": FILES["crates.txt"].replace(b"right: low", b"right may_wait=1: low")})
    yield "crates after a change of a line of crates.txt", tree.proves(), 2
    lay_out(tree.folder, {"HANDLES": b"Handles allowed: Net.\n"})
    yield "crates after a change of HANDLES", tree.proves(), 4
    yield "crates with another kit", tree.proves(KIT="of another version"), 4
    yield "crates with the first kit", tree.proves(), 4


def edited_builds(tree):
    """A source that is edited while its proof runs is not taken for proved, nor one that was proved as it stood for a while."""
    source = '"$TREE/crates/right/src/lib.rt"'
    tree.change("crates/right/src/lib.rt")
    edits = f"[ $name != right ] || echo new > {source}"
    yield "crates, one of them edited meanwhile", tree.proves(MEANWHILE=edits), 2
    yield "crates after that", tree.proves(), 2
    tree.change("crates/low/src/lib.rt")
    edits = f"case $name in low) echo other > {source};; right) echo new > {source};; esac"
    yield "crates, one of them edited before its proof and put back", tree.proves(MEANWHILE=edits), 4
    yield "crates after that", tree.proves(), 2


def ended_builds(tree):
    """A build that is told to end ends soon. What it had proved stays, and the next build does the rest."""
    kept = os.path.join(tree.folder, "crates", "right", "out", "rlib", "format")
    for number in ENDING:
        tree.change("crates/low/src/lib.rt")
        with tree.started(*V2, SLOW="right") as build:
            deadline = time.monotonic() + 30
            while os.path.exists(kept) and time.monotonic() < deadline:
                time.sleep(0.01)
            build.send_signal(number)
            build.communicate(timeout=30)
        yield f"status after {number.name}", build.returncode, 128 + number
        yield f"what an earlier build kept, after {number.name}", os.path.isfile(kept), True
        yield f"crates after {number.name}", tree.proves() < 4, True


def running_programs(tree):
    """A program in bin/ that runs is replaced."""
    program = os.path.join(tree.folder, "bin", "app")
    shutil.copy(shutil.which("sleep"), program)
    with subprocess.Popen([program, "60"]) as running:
        yield "a build beside a running program", tree.builds(*V2), (0, [], "")
        running.kill()
    yield "the program in its place", tree.program(), "--cpu=x86-64-v2"


def failing_builds(tree):
    """A refused proof, a program with other output, and no kit."""
    tree.change("crates/right/src/lib.rt")
    status, lines, messages = tree.builds(*V2, REFUSED="right")
    yield "a refused crate", (status, lines[1:], messages), (1, ["[1/2] right NOT proved, after N s"], "lib of right\n\n")
    status, lines, messages = tree.builds(*V2, has_kit=False)
    yield "without the kit", (status, lines, len(messages.splitlines())), (NO_KIT, [], 2)
    yield "what it says", ("rt" in messages.split(), "package" in messages.split()), (True, True)
    yield "the refused crate, proved", tree.builds(*V2)[0], 0
    lay_out(tree.folder, {"crates/app/stdout": b"other\n"})
    wrong = "its output is not that of crates/app/stdout\n"
    status, lines, messages = tree.builds(*V2)
    yield "other output", (status, lines[1:], messages), (1, ["[1/1] app NOT proved, after N s"], wrong)


def builds():
    """Builds in turn, in one tree."""
    with tempfile.TemporaryDirectory() as folder:
        tree = Tree(folder)
        for played in first_builds, later_builds, other_changes, edited_builds, ended_builds, running_programs, failing_builds:
            yield from played(tree)


TESTS = (builds,)
