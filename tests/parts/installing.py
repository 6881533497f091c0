"""make install and make uninstall, with stand-ins for the programs: which files, their rights, where units find `scand`."""

import os
import shutil
import subprocess
import sys
import tempfile

from support.programs import TOP, lay_out

PROGRAMS = ("litgrep", "litplan", "scand")
# What needs no list: folders of the repository, and where their files go.
WHOLE = {
    "completions/bash": "share/bash-completion/completions",
    "completions/zsh": "share/zsh/site-functions",
    "completions/fish": "share/fish/vendor_completions.d",
    "deploy/systemd": "lib/systemd/system",
    "deploy/dask": "share/fiolargu/deploy/dask",
    "deploy/haproxy": "share/fiolargu/deploy/haproxy",
    "deploy/nginx": "share/fiolargu/deploy/nginx",
    "deploy/rsyslog": "share/fiolargu/deploy/rsyslog",
    "clients/python/fiolargu": "share/fiolargu/clients/python/fiolargu",
    "clients/rust/src": "share/fiolargu/clients/rust/src",
    "clients/rust/tests": "share/fiolargu/clients/rust/tests",
    "docs": "share/doc/fiolargu/docs",
}
# The files of the C library, as tools/library.py makes them.
LIBRARY = (
    "include/fiolargu.h", "lib/libfiolargu.a", "lib/libfiolargu.so", "lib/libfiolargu.so.0",
    "lib/glibc-hwcaps/x86-64-v3/libfiolargu.so.0", "lib/pkgconfig/fiolargu.pc",
)
SCRIPTS = "share/fiolargu/deploy/parallel/part.sh", "share/fiolargu/deploy/rsyslog/tag_messages.py"
CLIENTS = (
    "c/find.c", "c/scan.c", "c/scand.h", "python/scan_files.py", "python/scand_client.py", "python/pyproject.toml", "rust/Cargo.toml", "rust/build.rs",
)


def ran(*words, **how):
    """Runs a command. Answers its status, output and messages."""
    done = subprocess.run(words, capture_output=True, text=True, timeout=120, **how)
    return done.returncode, done.stdout, done.stderr


def stand_ins(folder):
    """Puts a small program with symbols into a folder under the name of each program."""
    source = os.path.join(folder, "main.c")
    with open(source, "w") as file:
        file.write("int main(void) { return 0; }\n")
    for program in PROGRAMS:
        subprocess.run(["cc", "-g", "-o", os.path.join(folder, program), source], check=True)


def files_below(folder):
    """The files below a folder, each with its rights."""
    found = {}
    for parent, _, names in os.walk(folder):
        for name in names:
            path = os.path.join(parent, name)
            found[os.path.relpath(path, folder)] = oct(os.lstat(path).st_mode & 0o777)
    return found


def in_folder(name, *endings):
    """The names of a folder of the repository, or those that end so."""
    return [file for file in os.listdir(os.path.join(TOP, name)) if file.endswith(endings or "")]


def to_install():
    """The files to install, each with its rights."""
    share = {f"{to}/{name}" for folder, to in WHOLE.items() for name in in_folder(folder) if name != "__pycache__"}
    share |= {f"share/man/man{page[-1]}/{page}" for page in in_folder("man")}
    share |= {f"share/fiolargu/clients/{name}" for name in CLIENTS} | {"share/fiolargu/tools/scand.lua"}
    share |= {f"share/doc/fiolargu/{name}" for name in in_folder(".", ".md")}
    share |= {f"share/doc/fiolargu/bench/{name}" for name in in_folder("bench", ".md", ".svg")}
    executable = {f"bin/{program}" for program in PROGRAMS} | {*SCRIPTS}
    return {**dict.fromkeys(share, "0o644"), **dict.fromkeys(executable, "0o755")}


def without_libraries(files):
    """The files, except libraries."""
    return {name: mode for name, mode in files.items() if not name.startswith(("include/", "lib/of-this-machine/"))}


def has_symbols(*path):
    """Whether a program has symbols."""
    with open(os.path.join(*path), "rb") as file:
        return b".symtab\0" in file.read()


def text_of(*path):
    """The text of a file."""
    with open(os.path.join(*path)) as file:
        return file.read()


def installing():
    """make installs exactly these files, without symbols and for all users, and removes them with what Python compiled."""
    env = {name: value for name, value in os.environ.items() if not name.startswith("MAKE")}
    with tempfile.TemporaryDirectory() as folder:
        stand_ins(folder)
        below = os.path.join(folder, "a b", "usr")
        make = ["make", "-s", "-C", TOP, f"BIN={folder}", "PREFIX=/usr/", "LIBDIR=/usr/lib/of-this-machine", f"DESTDIR={folder}/a b"]
        for _ in range(2):
            yield "make install", ran(*make, "install", env=env, umask=0o077), (0, "", "")
            yield "what is installed", without_libraries(files_below(below)), to_install()
        yield "rights of folders", {oct(os.stat(parent).st_mode & 0o777) for parent, _, _ in os.walk(below)}, {"0o755"}
        yield "symbols", [has_symbols(below, "bin", program) for program in PROGRAMS], [False] * 3
        yield "make install with symbols", ran(*make, "INSTALL_STRIP=", "install", env=env), (0, "", "")
        yield "kept symbols", [has_symbols(below, "bin", program) for program in PROGRAMS], [True] * 3
        for name in in_folder("deploy/systemd", ".service"):
            yield f"the folder in {name}", "ExecStart=/usr/bin/scand " in text_of(below, "lib/systemd/system", name), True
        with open(os.path.join(below, "bin", "other"), "w"):
            os.chmod(os.path.join(below, "bin", "other"), 0o600)
        yield "compiling", ran(sys.executable, "-m", "compileall", "-q", f"{below}/share/fiolargu"), (0, "", "")
        yield "make uninstall", ran(*make, "uninstall", env=env), (0, "", "")
        yield "the remaining files", files_below(below), {"bin/other": "0o600"}
        folders = [name for name in ("fiolargu", "doc/fiolargu") if os.path.isdir(f"{below}/share/{name}")]
        yield "the remaining folders of its own", folders, []


def moved():
    """The folders can be chosen one by one."""
    env = {name: value for name, value in os.environ.items() if not name.startswith("MAKE")}
    with tempfile.TemporaryDirectory() as folder:
        stand_ins(folder)
        dirs = [f"{name}={folder}/to/{name}" for name in ("BINDIR", "UNITDIR", "DOCDIR", "PREFIX")]
        make = ["make", "-s", "-C", TOP, f"BIN={folder}", *dirs]
        yield "make install", ran(*make, "install", env=env), (0, "", "")
        yield "BINDIR", sorted(os.listdir(f"{folder}/to/BINDIR")), sorted(PROGRAMS)
        yield "UNITDIR", sorted(os.listdir(f"{folder}/to/UNITDIR")), sorted(in_folder("deploy/systemd"))
        unit = text_of(f"{folder}/to/UNITDIR", "scand@.service")
        yield "BINDIR in a unit", f"ExecStart={folder}/to/BINDIR/scand --stdio" in unit, True
        yield "DOCDIR", os.path.isfile(f"{folder}/to/DOCDIR/docs/GUIDE.md"), True
        yield "make uninstall", ran(*make, "uninstall", env=env), (0, "", "")
        yield "the remaining files", files_below(f"{folder}/to"), {}


def libraries():
    """The library is installed where it was built, and removed though the tree was cleaned meanwhile."""
    with tempfile.TemporaryDirectory() as folder:
        stand_ins(folder)
        for name in LIBRARY:
            os.makedirs(os.path.join(folder, "built", os.path.dirname(name)), exist_ok=True)
            lay_out(os.path.join(folder, "built"), {name: b""})
        words = [sys.executable, os.path.join(TOP, "tools", "install.py"), "--prefix", f"{folder}/to"]
        words += ["--programs", folder, "--library", f"{folder}/built", "--pythondir", f"{folder}/to/python"]
        yield "installing", ran(*words), (0, "", "")
        yield "missing files of the library", set(LIBRARY) - set(files_below(f"{folder}/to")), set()
        shutil.rmtree(f"{folder}/built")
        yield "removing", ran(*words, "--uninstall"), (0, "", "")
        yield "the remaining files", files_below(f"{folder}/to"), {}
        yield "the remaining folder of modules", os.listdir(f"{folder}/to/python"), []


def odd_folders():
    """A repository in a folder whose name is a pattern, links that an installation left, and a folder that is a link."""
    with tempfile.TemporaryDirectory() as folder:
        stand_ins(folder)
        os.symlink(TOP, f"{folder}/a[b]")
        for name in "to/bin", "to/lib/systemd/system", "to/share/doc", "built/lib", "docs":
            os.makedirs(f"{folder}/{name}")
        lay_out(folder, {"kept": b"kept"})
        os.symlink("libfiolargu.so.0", f"{folder}/built/lib/libfiolargu.so")
        lay_out(folder, {"built/lib/libfiolargu.so.0": b""})
        for name in "bin/scand", "lib/systemd/system/scand@.service", "lib/libfiolargu.so":
            os.symlink(f"{folder}/kept", f"{folder}/to/{name}.part")
        os.symlink(f"{folder}/docs", f"{folder}/to/share/doc/fiolargu")
        words = [sys.executable, f"{folder}/a[b]/tools/install.py", "--prefix", f"{folder}/to", "--programs", folder]
        words += ["--library", f"{folder}/built"]
        yield "installing", ran(*words), (0, "", "")
        docs = {f"share/doc/fiolargu/{name}" for name in files_below(f"{folder}/docs")}
        yield "missing files", set(to_install()) - set(files_below(f"{folder}/to")) - docs, set()
        yield "links that were left", [name for name in files_below(f"{folder}/to") if name.endswith(".part")], []
        yield "the size of the file that they named", os.path.getsize(f"{folder}/kept"), 4
        yield "the library's link", os.path.realpath(f"{folder}/to/lib/libfiolargu.so"), f"{folder}/to/lib/libfiolargu.so.0"
        yield "removing", ran(*words, "--uninstall"), (0, "", "")
        yield "the remaining files", (files_below(f"{folder}/to"), os.listdir(f"{folder}/docs")), ({}, [])
        yield "the link to a folder", os.path.islink(f"{folder}/to/share/doc/fiolargu"), True


def refused():
    """Folders that units cannot name are refused before anything is installed, and uninstalled as before."""
    with tempfile.TemporaryDirectory() as folder:
        stand_ins(folder)
        before = sorted(os.listdir(folder))
        words = [sys.executable, os.path.join(TOP, "tools", "install.py"), "--programs", folder, "--destdir", f"{folder}/to"]
        unnamed = "units of systemd cannot name a folder with a blank, a quote,"
        for given, message in (
            (["--prefix", "usr"], "--prefix usr: the folder must begin with /"),
            (["--unitdir", "lib"], "--unitdir lib: the folder must begin with /"),
            *((["--prefix", f"/{name}"], f"--bindir /{name}/bin: {unnamed}") for name in ("a b", 'a"', "a'", "50%")),
            (["--bindir", "/a$b"], f"--bindir /a$b: {unnamed}"),
        ):
            status, out, fault = ran(*words, *given, cwd=folder)
            yield f"installing with {given}: {fault[-200:]}", (status, out, message in fault), (2, "", True)
            yield f"what is installed with {given}", sorted(os.listdir(folder)), before
            yield f"removing with {given}", ran(*words, *given, "--uninstall", cwd=folder), (0, "", "")
        yield "programs elsewhere", ran(*words, "--prefix", "/a b", "--bindir", "/bin"), (0, "", "")


TESTS = (installing, moved, libraries, odd_folders, refused)
