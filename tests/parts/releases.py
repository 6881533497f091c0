"""tools/dist.py with stand-ins for the programs: the same bytes twice, the files, install.sh, refusals; THIRD-PARTY.md."""

import os
import re
import shutil
import subprocess
import sys
import tempfile

from support import clibrary
from support.programs import TOP, lay_out

PROGRAMS = ("litgrep", "litplan", "scand")
SOURCE = '#include <stdio.h>\nint main(void) { puts(LEVEL); return 0; }\n'
DIST = os.path.join(TOP, "tools", "dist.py")
# A stand-in for systemctl that prints its words.
SYSTEMCTL = b"#!/bin/sh\necho \"$*\"\n"
# The folder of lib/ and include/, and whether the C library was built there, and so is packed too.
BUILT = os.path.dirname(os.path.dirname(clibrary.LIBRARY)) if clibrary.LIBRARY else TOP
HAS_LIBRARY = os.path.exists(os.path.join(BUILT, "lib", clibrary.NAME))
PACKAGES = [*(["libfiolargu-dev", "libfiolargu0"] if HAS_LIBRARY else []), "litgrep", "python3-fiolargu"]


def ran(*words, **how):
    """Runs a command. Answers its status and what it prints."""
    done = subprocess.run(words, stdout=subprocess.PIPE, stderr=subprocess.STDOUT, text=True, timeout=120, **how)
    return done.returncode, done.stdout


def stand_ins(folder, level, *flags):
    """Puts programs that print their level into a folder, and answers it."""
    os.mkdir(folder)
    for program in PROGRAMS:
        words = ["cc", f'-DLEVEL="{level}"', "-o", os.path.join(folder, program), "-xc", "-", *flags]
        subprocess.run(words, input=SOURCE, text=True, check=True)
    return folder


def packed(folder, name, *words, **how):
    """Packs the stand-ins of a folder into another one. Answers the end of the run and the folder."""
    into = os.path.join(folder, name)
    return ran(sys.executable, DIST, *words, "--into", into, **how), into


def contents(folder):
    """The files of a folder, with what they hold."""
    found = {}
    for name in sorted(os.listdir(folder)):
        with open(os.path.join(folder, name), "rb") as file:
            found[name] = file.read()
    return found


def v3_flags():
    """The flags by which the Makefile knows a processor of level x86-64-v3."""
    with open(os.path.join(TOP, "Makefile")) as file:
        return re.search(r"^V3_FLAGS = (.*)$", file.read(), re.M)[1]


def fast():
    """The level whose programs this machine gets."""
    with open("/proc/cpuinfo") as file:
        flags = re.search(r"^flags.*$", file.read(), re.M)[0].split()
    return "v3" if set(v3_flags().split()) <= set(flags) else "v2"


def releases():
    """Two runs in other surroundings give the same bytes, and these are whole."""
    if not os.path.isdir(os.path.join(TOP, ".git")):
        print("left out: releases, for want of a clone")
        return
    with tempfile.TemporaryDirectory() as folder:
        words = [word for level in ("v2", "v3") for word in (f"--programs-{level}", stand_ins(f"{folder}/{level}", level))]
        with open(f"{folder}/gate", "w") as file:
            file.write("a crate\n12 passed, 0 failed (all)\n")
        words += ["--gate", f"{folder}/gate", "--library", BUILT]
        (status, shown), one = packed(folder, "one", *words)
        yield "a release", (status, bool(re.search(r"need GLIBC_2\.\d+; Debian oldstable has 2\.\d+\n", shown))), (0, True)
        other, two = packed(folder, "two", *words, cwd="/", umask=0o077, env={**os.environ, "TZ": "Asia/Tokyo", "LC_ALL": "C"})
        first, second = contents(one), contents(two)
        yield "a second release", other[0], 0
        for name in sorted({**first, **second}):
            yield f"{name}, twice", first.get(name) == second.get(name), True
        yield "sums", ran("sha256sum", "--quiet", "-c", "SHA256SUMS", cwd=one), (0, "")
        yield "files without a sum", len(first) - len(first["SHA256SUMS"].splitlines()), 1
        info = first["BUILDINFO"].decode().splitlines()
        yield "lines of BUILDINFO", [line.split()[0] for line in info], ["fiolargu", "commit", "date", "glibc", "gate"]
        yield "the gate's last line", info[-1], "gate 12 passed, 0 failed (all)"
        name = next(name for name in first if name.endswith(".tar.gz"))
        yield from unpacked(folder, os.path.join(one, name))
        yield from debian(folder, one, first)


def unpacked(folder, path):
    """install.sh installs the archive into a folder, with the programs for this processor."""
    os.mkdir(f"{folder}/a b")
    yield "unpacking", ran("tar", "-xzf", path, "-C", f"{folder}/a b"), (0, "")
    (top,) = os.listdir(f"{folder}/a b")
    yield "programs for every processor", ran(f"{folder}/a b/{top}/bin/litgrep"), (0, "v2\n")
    with open(f"{folder}/a b/{top}/install.sh") as file:
        yield "the flags of install.sh", re.search("for flag in (.*);", file.read())[1].split("; do")[0], v3_flags()
    os.makedirs(f"{folder}/to/here/bin")
    os.chmod(f"{folder}/to/here/bin", 0o2770)
    os.mkdir(f"{folder}/elsewhere")
    os.symlink(f"{folder}/elsewhere", f"{folder}/to/here/share")
    for _ in range(2):
        yield "install.sh", ran(f"a b/{top}/install.sh", "to/here", cwd=folder, env={"PATH": os.environ["PATH"]}), (0, "")
    for program in PROGRAMS:
        yield f"{program} as installed", ran(f"{folder}/to/here/bin/{program}"), (0, f"{fast()}\n")
    with open(f"{folder}/to/here/lib/systemd/system/scand.socket") as unit:
        yield "a unit", "[Socket]" in unit.read(), True
    with open(f"{folder}/to/here/lib/systemd/system/scand@.service") as unit:
        yield "the program of a unit", re.search("^ExecStart=(.*) --stdio", unit.read(), re.M)[1], f"{folder}/to/here/bin/scand"
    for name in "a new", "a'b", 'a"b', "a\\b", "50%", "a$b", "a&b", "a|b":
        status, said = ran("sh", f"{folder}/a b/{top}/install.sh", f"{folder}/{name}")
        yield f"install.sh into {name}", (status, f"{folder}/{name}: the systemd units need" in said, os.path.exists(f"{folder}/{name}")), (2, True, False)
    with open(f"{folder}/a b/{top}/install.sh") as file, open(f"{folder}/a b/{top}/older.sh", "w") as older:
        older.write(file.read().replace("avx2", "no_such_flag"))
    yield "install.sh on an older processor", ran("sh", f"{folder}/a b/{top}/older.sh", f"{folder}/older", umask=0o077), (0, "")
    yield "rights of a new folder", oct(os.stat(f"{folder}/older").st_mode & 0o777), "0o755"
    yield "a program for it", ran(f"{folder}/older/bin/scand"), (0, "v2\n")
    yield "a manual", os.path.isfile(f"{folder}/to/here/share/man/man1/litgrep.1"), True
    yield "rights of a folder that was there", oct(os.stat(f"{folder}/to/here/bin").st_mode & 0o7777), "0o2770"
    yield "a link to a folder that was there", os.path.islink(f"{folder}/to/here/share"), True
    yield "a file by the link", os.path.isfile(f"{folder}/elsewhere/man/man1/litgrep.1"), True
    folders = ["bin", *(["include"] if HAS_LIBRARY else []), "lib", "share"]
    yield "folders", sorted(os.listdir(f"{folder}/to/here")), folders
    env = {"PATH": os.environ["PATH"], "MANPATH": f"{folder}/to/here/share/man"}
    if shutil.which("man"):
        yield "man -w", ran("man", "-w", "litgrep", env=env), (0, f"{folder}/to/here/share/man/man1/litgrep.1\n")


def debian(folder, into, files):
    """The packages install the programs for every processor, the library and its modules; all their files belong to root."""
    paths = {name.split("_")[0]: os.path.join(into, name) for name in files if name.endswith(".deb")}
    if not shutil.which("dpkg-deb"):
        print("left out: the Debian packages, for want of dpkg-deb")
        return
    yield "packages", list(paths), PACKAGES
    for name, path in paths.items():
        yield f"the version of {name}", ran("dpkg-deb", "-f", path, "Version")[1].strip() in os.path.basename(path), True
        listed = ran("dpkg-deb", "-c", path)[1].splitlines()
        yield f"owners in {name}", {line.split()[1] for line in listed}, {"root/root"}
        rights = {line.split()[0] for line in listed} - {"lrwxrwxrwx"}
        yield f"rights in {name}", rights <= {"drwxr-xr-x", "-rwxr-xr-x", "-rw-r--r--"}, True
        yield f"unpacking {name}", ran("dpkg-deb", "-x", path, f"{folder}/root"), (0, "")
    needed = ran("dpkg-deb", "-f", paths["litgrep"], "Depends")[1]
    yield "what litgrep needs", bool(re.fullmatch(r"libc6 \(>= 2\.\d+\)\n", needed)), True
    yield "a program", ran(f"{folder}/root/usr/bin/litplan"), (0, "v2\n")
    with open(f"{folder}/root/usr/lib/systemd/system/scand@.service") as unit:
        yield "the program of a unit", re.search("^ExecStart=(.*) --stdio", unit.read(), re.M)[1], "/usr/bin/scand"
    yield from removed(folder, paths["litgrep"])
    if HAS_LIBRARY:
        libraries = f"{folder}/root/usr/lib/x86_64-linux-gnu"
        yield "a header", os.path.isfile(f"{folder}/root/usr/include/fiolargu.h"), True
        yield "levels", [os.path.isfile(f"{libraries}/{level}libfiolargu.so.0") for level in ("", "glibc-hwcaps/x86-64-v3/")], [True] * 2
        env = {**os.environ, "PYTHONPATH": f"{folder}/root/usr/lib/python3/dist-packages", "LD_LIBRARY_PATH": libraries}
        words = "import fiolargu; print([*fiolargu.Plan([b'cat']).scan(b'concat')])"
        yield "the module", ran(sys.executable, "-c", words, env=env), (0, "[Hit(literal=0, start=3, end=6)]\n")


def removed(folder, path):
    """Before the package is removed, the server is disabled, and stopped where systemd runs; nothing happens at an upgrade."""
    yield "the scripts of litgrep", ran("dpkg-deb", "-e", path, f"{folder}/control"), (0, "")
    with open(f"{folder}/control/prerm") as file:
        script = re.sub("(?<= )/(usr|run)/", rf"{folder}/root/\1/", file.read())
    lay_out(folder, {"on_path": None, "on_path/systemctl": SYSTEMCTL})
    os.chmod(f"{folder}/on_path/systemctl", 0o755)
    env = {"PATH": f"{folder}/on_path{os.pathsep}{os.environ['PATH']}"}
    disabled = "--quiet disable scand.socket scand-port@.service\n"
    yield "at an upgrade", ran("sh", "-c", script, "prerm", "upgrade", "1", env=env), (0, "")
    yield "without systemd", ran("sh", "-c", script, "prerm", "remove", env=env), (0, disabled)
    os.makedirs(f"{folder}/root/run/systemd/system")
    stopped = "stop scand.socket scand@*.service scand-port@*.service\n"
    yield "with systemd", ran("sh", "-c", script, "prerm", "remove", env=env), (0, disabled + stopped)


def needs():
    """A release needs of glibc what the library needs, if that is more than the programs need."""
    with tempfile.TemporaryDirectory() as folder:
        v2 = stand_ins(f"{folder}/v2", "v2")
        lay_out(folder, {"library": None, "library/lib": None})
        words = ["cc", "-shared", "-o", f"{folder}/library/lib/{clibrary.NAME}", "-xc", "-"]
        subprocess.run(words, input="unsigned arc4random(void); unsigned any(void) { return arc4random(); }\n", text=True, check=True)
        words = ["--programs-v2", v2, "--programs-v3", v2, "--library", f"{folder}/library"]
        (status, shown), _ = packed(folder, "into", *words)
        yield "a library with newer symbols", (status, "need GLIBC_2.36" in shown), (0, True)


def refusals():
    """Programs that Debian oldstable could not start are refused."""
    with tempfile.TemporaryDirectory() as folder:
        v2 = stand_ins(f"{folder}/v2", "v2")
        other = stand_ins(f"{folder}/other", "v2", "-Wl,--no-as-needed", "-lgcc_s")
        (status, shown), into = packed(folder, "into", "--programs-v2", v2, "--programs-v3", other)
        yield "a program with another library", (status, "libgcc_s.so.1" in shown, os.path.exists(into)), (1, True, False)
        script = "import sys, dist; dist.OLDSTABLE_GLIBC = 2, 1; dist.newest_glibc(sys.argv[1:])"
        status, shown = ran(sys.executable, "-c", script, f"{v2}/litgrep", env={**os.environ, "PYTHONPATH": os.path.join(TOP, "tools")})
        yield "a program with newer symbols", (status, "too new" in shown), (1, True)


def crates_of_kit():
    """The crates of the kit that the programs stand on, by crates.txt."""
    with open(os.path.join(TOP, "crates.txt")) as file:
        lines = [line.partition(":") for line in file if not line.startswith("#")]
    uses = {head.split()[0]: tail.split() for head, _, tail in lines if head.strip()}
    found, todo = set(), list(PROGRAMS)
    while todo:
        name = todo.pop()
        found |= {name} - set(uses)
        todo += uses.get(name, [])
    return found


def licences():
    """THIRD-PARTY.md names each crate of the kit in the programs, with its licence, and `strsim`, on which `clap` stands."""
    with open(os.path.join(TOP, "THIRD-PARTY.md")) as file:
        rows = [[cell.strip() for cell in line.split("|")] for line in file if line.startswith("| `")]
    yield "crates of the kit", {row[1].split("`")[1] for row in rows}, crates_of_kit() | {"strsim"}
    yield "crates without a licence", [row[1] for row in rows if "MIT" not in row[3]], []


TESTS = (releases, needs, refusals, licences)
