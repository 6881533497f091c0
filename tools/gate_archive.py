#!/usr/bin/env python3
"""Compiles a static library over the libraries that the gate proved: tools/gate_archive.py CRATE

`rt ci` proves a static library and compiles no archive of it. `rt lib` would compile one, and prove every crate below once
more, since it does not take the libraries that the gate leaves. This proves the crate alone and leaves
crates/CRATE/out/libCRATE.a, for processors of level x86-64-v2."""

import os
import shutil
import subprocess
import sys

from build import all_crates, below, path


def kit():
    """The kit's folder."""
    rt = shutil.which("rt")
    if not rt:
        sys.exit("To compile the C library, make needs the Rattle kit's command rt on the PATH.")
    return os.path.dirname(os.path.dirname(os.path.realpath(rt)))


def rlib(name):
    """The library that the gate left of a crate."""
    return path("crates", name, "out", "rlib", f"{name}.rlib")


def words(name, crates, folder):
    """The words of the compiler, as `rt lib` has them."""
    listed = crates[name].line.partition(":")[2].split()
    yield from (os.path.join(folder, "bin", "rattle"), "build", "--crate-name", name, os.path.join("src", "lib.rt"))
    for library in ["std", *(library for library in listed if library not in crates)]:
        yield from ("--extern", f"{library}={os.path.join(folder, 'rlibs', library)}.rlib")
    yield from ("-L", f"dependency={os.path.join(folder, 'rlibs')}")
    for library in crates[name].uses:
        yield from ("--extern", f"{library}={rlib(library)}")
    for library in below(crates, crates[name].uses):
        yield from ("-L", f"dependency={os.path.dirname(rlib(library))}")
    yield from ("--antt-project", os.path.join(folder, "rattle", "logic", "antt-project.json"))
    yield from ("--logic-built", os.path.join(folder, "logic_built"), "--toolchain", os.path.join(folder, "toolchain"))
    yield from ("--links", f"{name}=", "--crate-type", "staticlib", "--backend", "llvm", "--cpu=x86-64-v2")
    yield from ("--jobs", str(min(len(os.sched_getaffinity(0)), 4)), "-o", os.path.join("out", f"lib{name}.a"))


def main():
    name, crates = sys.argv[1], all_crates()
    os.makedirs(path("crates", name, "out"), exist_ok=True)
    sys.exit(subprocess.run(list(words(name, crates, kit())), cwd=path("crates", name), check=False).returncode)


if __name__ == "__main__":
    main()
