#!/usr/bin/env python3
"""Tests a release in a bare Debian, without the kit: installs the packages, uses them, and purges them.

    python3 tests/dist.py [--dist DIR] [--suite NAME]

Needs root. It makes a root of Debian oldstable by mmdebstrap or debootstrap, which it installs where it may, and removes
it at the end. Prints what it leaves out, each check that fails, then 'N passed, M failed'. The status is 1 where a check
fails, or where there is no such root."""

import argparse
import contextlib
import functools
import glob
import os
import re
import shutil
import signal
import subprocess
import sys
import tempfile
import time

from parts.guide import commands_in, sections, sessions_in
from support.playing import played
from support.programs import TOP
from support.servers import SECONDS, free_port

SUITE = "bookworm"
# How many packages a release has.
PACKAGES = 4
# The programs that the checks use in addition to Debian's essential packages.
INCLUDED = "man-db", "bash-completion", "systemd", "python3", "gcc", "libc6-dev", "pkg-config"
# The only fault that lintian finds in a package: the repository states no licence.
LICENCE_FAULTS = {"no-copyright-file"}
# Folders that the package manager writes to.
UNWATCHED = ("var/lib/dpkg", "var/lib/apt", "var/cache", "var/log", "tmp", "run", "proc", "sys", "dev")
# Runs a command in a root that has /proc, and unmounts it however the command ends.
ENTER = 'mount -t proc proc "$0/proc" && exec chroot "$0" "$@"'
CLIENT = "/usr/share/fiolargu/clients/python/scan_files.py"
HITS = "0 4\n2 4\n3 6\n"


class Root:
    """A root of Debian, and the commands that run in it."""

    def __init__(self, folder):
        self.folder = folder
        self.env = {"PATH": "/usr/sbin:/usr/bin:/sbin:/bin", "HOME": "/root", "LC_ALL": "C.UTF-8", "DEBIAN_FRONTEND": "noninteractive"}

    def at(self, *names):
        """A path in the root, as seen from outside."""
        return os.path.join(self.folder, *names)

    def words(self, *words):
        """The words that run a command in the root."""
        return ["unshare", "--mount", "sh", "-c", ENTER, self.folder, *words]

    def run(self, script):
        """Runs a script of bash in a folder that has the programs in bin/. Answers its status and what it prints."""
        words = self.words("bash", "-c", f"cd /tmp/tried || exit\n{script}")
        how = {"stdin": subprocess.DEVNULL, "stdout": subprocess.PIPE, "stderr": subprocess.STDOUT, "env": self.env}
        done = subprocess.run(words, timeout=600, **how)
        return done.returncode, done.stdout.decode(errors="backslashreplace")

    def files(self):
        """The paths of all files and folders, except where the package manager keeps its own."""
        found = set()
        for parent, folders, names in os.walk(self.folder):
            below = os.path.relpath(parent, self.folder)
            folders[:] = [name for name in folders if os.path.normpath(os.path.join(below, name)) not in UNWATCHED]
            found |= {os.path.normpath(os.path.join(below, name)) for name in [*folders, *names]}
        return found


def bootstrapped(suite, folder):
    """Makes a root in a folder, by the first program that can. Answers what hinders it, if anything does."""
    ways = (
        ("mmdebstrap", ["mmdebstrap", "--quiet", "--variant=minbase", f"--include={','.join(INCLUDED)}", suite, folder]),
        ("debootstrap", ["debootstrap", "--variant=minbase", f"--include={','.join(INCLUDED)}", suite, folder]),
    )
    if os.geteuid() != 0:
        return "root"
    if not any(shutil.which(name) for name, _ in ways) and shutil.which("apt-get"):
        apt = ["apt-get", "-q", "-y", "-o", "DPkg::Lock::Timeout=300"]
        for words in (["update"], ["install", "--no-install-recommends", "mmdebstrap"]):
            subprocess.run([*apt, *words], check=False, stdout=subprocess.DEVNULL)
    for name, words in ways:
        if shutil.which(name):
            print(f"making a root of Debian {suite} by {name}", flush=True)
            done = subprocess.run(words, stdout=subprocess.PIPE, stderr=subprocess.STDOUT, text=True, check=False)
            if done.returncode == 0:
                return None
            print(f"{name}: {done.stdout[-500:]}")
            shutil.rmtree(folder, ignore_errors=True)
    return "a program that makes a root of Debian"


def lintian(packages):
    """lintian finds no error, except that there is no licence."""
    if not shutil.which("lintian"):
        print("left out: lintian, which is missing")
        return
    done = subprocess.run(["lintian", "--allow-root", *packages], capture_output=True, text=True)
    errors = set(re.findall(r"^E: \S+: (\S+)", done.stdout, re.M))
    yield f"errors that lintian finds: {done.stdout}", errors - LICENCE_FAULTS, set()


def installed(root, packages):
    """The packages install, with nothing but Debian's own packages."""
    for package in packages:
        shutil.copy(package, root.at("tmp/tried"))
    files = " ".join(f"./{os.path.basename(package)}" for package in packages)
    status, shown = root.run(f"apt-get install -y --no-install-recommends {files}")
    yield f"apt-get install: {shown[-300:]}", status, 0
    yield "files that differ from the packages'", root.run(f"dpkg -V {' '.join(names_of(packages))}"), (0, "")


def names_of(packages):
    """The names of packages, by those of their files."""
    return [os.path.basename(package).partition("_")[0] for package in packages]


def readme_example(root):
    """The first example of the README prints what the README shows."""
    section = dict(sections("README.md"))["Example"]
    for command, want in commands_in(sessions_in(section)):
        yield f"README.md: {command}", root.run(command), (0, want)


def manuals(root):
    """man finds each manual and can show it."""
    for page in sorted(os.listdir(os.path.join(TOP, "man"))):
        name, section = page.rsplit(".", 1)
        yield f"man -w {name}", root.run(f"man -w {name}"), (0, f"/usr/share/man/man{section}/{page}.gz\n")
        status, shown = root.run(f"MANWIDTH=80 man {name}")
        yield f"headings that man {name} shows", (status, {"NAME", "DESCRIPTION"} - set(shown.splitlines())), (0, set())


def completion(root):
    """bash loads each completion, which offers the words that begin so."""
    load = '. /usr/share/bash-completion/bash_completion; _completion_loader "$1" || [ $? = 124 ]; complete -p "$1"'
    offer = 'COMP_WORDS=("$@"); COMP_CWORD=$(($# - 1)); "_$1" 2> /dev/null; printf "%s\\n" "${COMPREPLY[@]}"'
    for words, want in (
        (["litgrep", "--fi"], ["--fixed-strings", "--file", "--files-with-matches"]),
        (["litplan", "p"], ["plan", "pack"]),
        (["scand", "--st"], ["--stdio"]),
    ):
        status, shown = root.run(f"set -- {' '.join(words)}; {load}; {offer}")
        yield f"completions of {words}", (status, shown.split("\n")[1:-1]), (0, want)


def programs_of(language):
    """The first program in a language of docs/LIBRARY.md, and what it prints."""
    with open(os.path.join(TOP, "docs", "LIBRARY.md"), encoding="utf-8") as file:
        program, printed = re.search(rf"^```{language}\n(.*?)^```\n.*?^```\w*\n(.*?)^```", file.read(), re.M | re.S).groups()
    return program, printed


def library(root):
    """The programs of docs/LIBRARY.md in C and Python, over the installed library."""
    for language, name, command in (
        ("c", "words.c", "cc -std=c99 -o words words.c $(pkg-config --cflags --libs fiolargu) && ./words"),
        ("python", "words.py", "python3 words.py"),
    ):
        program, printed = programs_of(language)
        with open(os.path.join(root.at("tmp/tried"), name), "w", encoding="utf-8") as file:
            file.write(program)
        yield f"the program of LIBRARY.md in {language}", root.run(command), (0, printed)


def client(root):
    """The Python client starts the installed server."""
    script = f"printf 'he\\nhis\\nshe\\nhers\\n' > words; printf ushers | python3 {CLIENT} --stdio /usr/bin/scand -f words -"
    yield "the Python client over a pipe", root.run(script), (0, HITS)


@contextlib.contextmanager
def activated(root, port):
    """systemd-socket-activate in the root, which starts a server for each connection."""
    listen = ["systemd-socket-activate", "--accept", "--inetd", "-l", f"127.0.0.1:{port}"]
    words = root.words(*listen, "/usr/bin/scand", "--stdio")
    quiet = dict.fromkeys(("stdin", "stdout", "stderr"), subprocess.DEVNULL)
    with subprocess.Popen(words, start_new_session=True, env=root.env, **quiet) as supervisor:
        try:
            yield
        finally:
            with contextlib.suppress(ProcessLookupError):
                os.killpg(supervisor.pid, signal.SIGKILL)


def server(root):
    """The server under systemd-socket-activate, asked by two clients in turn; and the units."""
    port = free_port()
    script = f"printf ushers | python3 {CLIENT} --port {port} -f words -"
    with activated(root, port):
        deadline = time.monotonic() + SECONDS
        while root.run(f"(exec 3<> /dev/tcp/127.0.0.1/{port}) 2> /dev/null")[0] and time.monotonic() < deadline:
            time.sleep(0.1)
        for number in 1, 2:
            yield f"client {number} of systemd-socket-activate", root.run(script), (0, HITS)
    for unit in sorted(os.listdir(os.path.join(TOP, "deploy", "systemd"))):
        status, text = root.run(f"cat /usr/lib/systemd/system/{unit}")
        programs = ["/usr/bin/scand"] * unit.endswith(".service")
        yield f"the program of {unit}", (status, re.findall(r"^ExecStart=(\S+)", text, re.M)), (0, programs)


def purged(root, packages, before):
    """The packages are purged, and nothing of them remains, though the server was enabled."""
    yield "a file of a package", "usr/bin/litgrep" in root.files() - before, True
    yield "systemctl enable", root.run("systemctl --quiet enable scand.socket scand-port@7001.service")[0], 0
    links = {"sockets.target.wants/scand.socket", "multi-user.target.wants/scand-port@7001.service"}
    yield "missing links", links - {name.removeprefix("etc/systemd/system/") for name in root.files()}, set()
    status, shown = root.run(f"apt-get purge -y {' '.join(names_of(packages))}")
    yield f"apt-get purge: {shown[-300:]}", status, 0
    yield "what remains", sorted(root.files() - before), []
    yield "what is lost", sorted(before - root.files()), []


def archived(root, archive):
    """install.sh of the archive installs into a folder, and the programs run there."""
    shutil.copy(archive, root.at("tmp/tried"))
    name = os.path.basename(archive)
    yield "install.sh", root.run(f"tar -xzf {name} && {name.removesuffix('.tar.gz')}/install.sh /opt/fiolargu"), (0, "")
    yield "a program of the archive", root.run("printf 'a\\ncat\\n' | /opt/fiolargu/bin/litgrep -n -e cat"), (0, "2:cat\n")
    yield "a manual of the archive", root.run("MANPATH=/opt/fiolargu/share/man man -w scand"), (0, "/opt/fiolargu/share/man/man1/scand.1\n")


def tests(root, packages, archive):
    """The tests, in order."""
    before = root.files()
    yield functools.partial(lintian, packages)
    yield functools.partial(installed, root, packages)
    for test in readme_example, manuals, completion, library, client, server:
        yield functools.partial(test, root)
    yield functools.partial(purged, root, packages, before)
    yield functools.partial(archived, root, archive)


def main():
    parser = argparse.ArgumentParser(description=__doc__.splitlines()[0])
    parser.add_argument("--dist", default=os.path.join(TOP, "dist"), metavar="DIR", help="the folder of the release (dist/)")
    parser.add_argument("--suite", default=SUITE, help=f"the release of Debian ({SUITE})")
    options = parser.parse_args()
    packages, archives = (sorted(glob.glob(os.path.join(options.dist, pattern))) for pattern in ("*_amd64.deb", "fiolargu-*.tar.gz"))
    if len(packages) != PACKAGES or len(archives) != 1:
        sys.exit(f"{options.dist} is to have {PACKAGES} packages and one archive: run make dist")
    with tempfile.TemporaryDirectory(prefix="check-dist-") as folder:
        hindrance = bootstrapped(options.suite, os.path.join(folder, "root"))
        if hindrance:
            print(f"left out: everything, for want of {hindrance}")
            return 1
        root = Root(os.path.join(folder, "root"))
        os.makedirs(root.at("tmp/tried"))
        os.symlink("/usr/bin", root.at("tmp/tried/bin"))
        passed, failed = played("dist", tests(root, packages, archives[0]))
    print(f"{passed} passed, {failed} failed")
    return 1 if failed else 0


if __name__ == "__main__":
    sys.exit(main())
