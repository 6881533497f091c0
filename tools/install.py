#!/usr/bin/env python3
"""Installs the programs with manuals, completions, clients, systemd units and documents, or removes them again.

    tools/install.py [--prefix DIR] [--destdir DIR] [--programs DIR] [--library DIR] [--strip] [--uninstall]

`make install` and `make dist` call it. A file is written under another name and then renamed, so a running program can be
replaced."""

import argparse
import contextlib
import glob
import os
import re
import shutil
import subprocess
import sys

TOP = os.path.dirname(os.path.dirname(os.path.abspath(__file__)))
PROGRAMS = "litgrep", "litplan", "scand"
# The folders that an option can move: where each is below the prefix, and what it has.
FOLDERS = {
    "bindir": ("bin", "programs"),
    "libdir": ("lib", "libraries"),
    "zshdir": ("share/zsh/site-functions", "completions for zsh"),
    "unitdir": ("lib/systemd/system", "systemd units"),
    "pythondir": ("share/fiolargu/clients/python", "Python packages"),
    "docdir": ("share/doc/fiolargu", "documents"),
}
# Files of the repository by their patterns, each with its folder. `**` stands for a folder with all that is in it, which
# keeps its form.
FILES = (
    *((f"man/*.{section}", f"{{prefix}}/share/man/man{section}") for section in range(1, 9)),
    ("completions/bash/*", "{prefix}/share/bash-completion/completions"),
    ("completions/zsh/*", "{zshdir}"),
    ("completions/fish/*", "{prefix}/share/fish/vendor_completions.d"),
    ("deploy/systemd/*.s*", "{unitdir}"),
    ("clients/c/scan*", "{prefix}/share/fiolargu/clients/c"),
    ("clients/c/find.c", "{prefix}/share/fiolargu/clients/c"),
    ("clients/python/*.py", "{prefix}/share/fiolargu/clients/python"),
    ("clients/python/pyproject.toml", "{prefix}/share/fiolargu/clients/python"),
    ("clients/python/fiolargu/**", "{pythondir}/fiolargu"),
    ("clients/rust/*.toml", "{prefix}/share/fiolargu/clients/rust"),
    ("clients/rust/*.rs", "{prefix}/share/fiolargu/clients/rust"),
    ("clients/rust/src/*.rs", "{prefix}/share/fiolargu/clients/rust/src"),
    ("clients/rust/tests/*.rs", "{prefix}/share/fiolargu/clients/rust/tests"),
    ("deploy/dask/*.py", "{prefix}/share/fiolargu/deploy/dask"),
    ("deploy/haproxy/*.cfg", "{prefix}/share/fiolargu/deploy/haproxy"),
    ("deploy/nginx/*", "{prefix}/share/fiolargu/deploy/nginx"),
    ("deploy/rsyslog/*.*", "{prefix}/share/fiolargu/deploy/rsyslog"),
    ("deploy/parallel/*.sh", "{prefix}/share/fiolargu/deploy/parallel"),
    ("tools/scand.lua", "{prefix}/share/fiolargu/tools"),
    ("*.md", "{docdir}"),
    ("docs/*", "{docdir}/docs"),
    ("bench/*.md", "{docdir}/bench"),
    ("bench/*.svg", "{docdir}/bench"),
)
# The files of the C library, which may be missing, each with its folder.
LIBRARY = (
    ("include/fiolargu.h", "{prefix}/include"),
    ("lib/libfiolargu.a", "{libdir}"),
    ("lib/libfiolargu.so", "{libdir}"),
    ("lib/libfiolargu.so.0", "{libdir}"),
    ("lib/glibc-hwcaps/x86-64-v3/libfiolargu.so.0", "{libdir}/glibc-hwcaps/x86-64-v3"),
    ("lib/pkgconfig/fiolargu.pc", "{libdir}/pkgconfig"),
)
# What units name as the folder of the programs, and how fiolargu.pc finds the prefix from its own folder.
WRITTEN_BINDIR = b"/usr/local/bin/"
WRITTEN_PREFIX = b"prefix=${pcfiledir}/../.."


def listed(options):
    """The files to install or to remove: each source with its target, below the root of the file system."""
    folders = vars(options)
    for program in PROGRAMS:
        yield os.path.join(options.programs, program), os.path.join(options.bindir, program)
    for pattern, folder in FILES:
        base = os.path.join(TOP, pattern[:-2] if pattern.endswith("**") else os.path.dirname(pattern))
        for source in sorted(glob.glob(os.path.join(glob.escape(TOP), pattern), recursive=True)):
            if os.path.isfile(source) and "__pycache__" not in source:
                yield source, os.path.normpath(os.path.join(folder.format(**folders), os.path.relpath(source, base)))
    for name, folder in LIBRARY:
        source = os.path.join(options.library, name)
        # What was installed is removed, though the tree may have been cleaned since.
        if options.uninstall or os.path.isfile(source):
            yield source, os.path.join(folder.format(**folders), os.path.basename(name))


def put(source, target, options):
    """Installs a file. A unit starts the programs of the folder that they are installed into, and fiolargu.pc finds the
    prefix wherever its folder is."""
    os.makedirs(os.path.dirname(target), exist_ok=True)
    part = f"{target}.part"
    # An installation that was ended may have left one. Through a link, the file that it names would be written.
    with contextlib.suppress(FileNotFoundError):
        os.remove(part)
    if os.path.islink(source):
        os.symlink(os.readlink(source), part)
    elif target.endswith(".service"):
        with open(source, "rb") as file, open(part, "wb") as unit:
            unit.write(file.read().replace(WRITTEN_BINDIR, os.path.join(options.bindir, "").encode()))
    elif target.endswith(".pc"):
        up = os.path.relpath(options.prefix, os.path.join(options.libdir, "pkgconfig"))
        with open(source, "rb") as file, open(part, "wb") as module:
            module.write(file.read().replace(WRITTEN_PREFIX, f"prefix=${{pcfiledir}}/{up}".encode()))
    else:
        shutil.copyfile(source, part)
    if not os.path.islink(part):
        is_library = bool(re.search(r"\.so[.\d]*$", source))
        if options.strip and (is_library or os.path.dirname(source) == options.programs):
            subprocess.run(["strip", "--strip-unneeded", part], check=True)
        # A linker makes a shared library executable, which it need not be.
        os.chmod(part, 0o755 if os.stat(source).st_mode & 0o100 and not is_library else 0o644)
    os.replace(part, target)


def remove(target, options):
    """Removes a file, and then its folder and those above it while they are empty and only this program's."""
    if os.path.lexists(target):
        os.remove(target)
    folder = os.path.dirname(target)
    if target.endswith(".py"):
        shutil.rmtree(os.path.join(folder, "__pycache__"), ignore_errors=True)
    own = [options.docdir, f"{options.prefix}/share/fiolargu", f"{options.pythondir}/fiolargu"]
    own = [options.destdir + folder for folder in own]
    while any(f"{folder}/".startswith(f"{top}/") for top in own) and os.path.isdir(folder) and not os.listdir(folder):
        if os.path.islink(folder):
            # Somebody else made the link, and what it names may be used otherwise.
            return
        os.rmdir(folder)
        folder = os.path.dirname(folder)


def folder_fault(options):
    """Why nothing can be installed into these folders, or None."""
    for name in ("prefix", *FOLDERS):
        folder = getattr(options, name)
        if not os.path.isabs(folder):
            return f"--{name} {folder}: the folder must begin with /"
    # systemd reads blanks, quotes, backslashes, % and $ of a command as its own.
    if re.search(r"[\s\"'\\%$]", options.bindir):
        return f"--bindir {options.bindir}: units of systemd cannot name a folder with a blank, a quote, \\, % or $"
    return None


def parsed(words):
    """The options. Folders follow from the prefix, as in the GNU standards."""
    parser = argparse.ArgumentParser(description=__doc__.splitlines()[0])
    parser.add_argument("--prefix", default="/usr/local")
    for name, (below, what) in FOLDERS.items():
        parser.add_argument(f"--{name}", help=f"{what} (PREFIX/{below})")
    parser.add_argument("--destdir", default="", help="stands before all these folders")
    parser.add_argument("--programs", default=os.path.join(TOP, "bin"), help="where the programs are (bin/)")
    parser.add_argument("--library", default=TOP, help="where the library's lib/ and include/ are (the top of the repository)")
    parser.add_argument("--strip", action="store_true", help="install the programs without their symbols")
    parser.add_argument("--uninstall", action="store_true", help="remove the files that would be installed")
    options = parser.parse_args(words)
    options.prefix = os.path.normpath(options.prefix or "/")
    for name, (below, _) in FOLDERS.items():
        setattr(options, name, os.path.normpath(getattr(options, name) or os.path.join(options.prefix, below)))
    options.programs = os.path.abspath(options.programs)
    # What was installed so is removed nevertheless.
    fault = None if options.uninstall else folder_fault(options)
    if fault:
        parser.error(fault)
    return options


def main(words=None):
    options = parsed(words)
    os.umask(0o022)
    for source, target in listed(options):
        target = options.destdir + target
        if options.uninstall:
            remove(target, options)
        else:
            put(source, target, options)
    return 0


if __name__ == "__main__":
    sys.exit(main())
