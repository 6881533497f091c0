#!/usr/bin/env python3
"""Makes the C library of what tools/build.py built: tools/library.py --v2 DIR --v3 DIR [--into DIR]

The two folders have libfiolargu.a for the two processor levels. It makes, below the folder that it is told (the top of the
repository):

    include/fiolargu.h
    lib/libfiolargu.a                                   for level x86-64-v2
    lib/libfiolargu.so.0, lib/libfiolargu.so            for level x86-64-v2
    lib/glibc-hwcaps/x86-64-v3/libfiolargu.so.0         for level x86-64-v3, which the loader prefers where it can
    lib/pkgconfig/fiolargu.pc

Archive and shared objects show the functions of the header, and no other name. It needs the kit, gcc and binutils."""

import argparse
import os
import re
import shutil
import subprocess
import sys
import tempfile

TOP = os.path.dirname(os.path.dirname(os.path.abspath(__file__)))
HEADER = os.path.join(TOP, "clients", "c", "fiolargu.h")
NAME = "libfiolargu"
SONAME = f"{NAME}.so.0"
# The one object of the kit's archive that the library needs: what it allocates by.
HEAP = "heap.pic.o"
LINKED = ("-Wl,-z,relro,-z,now,-z,text,-z,noexecstack", "-Wl,--no-undefined", "-Wl,--build-id=none")
PKG_CONFIG = """prefix=${{pcfiledir}}/../..
libdir=${{pcfiledir}}/..
includedir=${{prefix}}/include

Name: fiolargu
Description: Search for many literals at once, proved
Version: {version}
Cflags: -I${{includedir}}
Libs: -L${{libdir}} -lfiolargu
"""


def run(*words, **options):
    """Runs a command that has to succeed, and answers its output."""
    return subprocess.run(words, check=True, stdout=subprocess.PIPE, **options).stdout.decode()


def kit_archive():
    """The kit's archive of C functions."""
    rt = shutil.which("rt")
    if not rt:
        sys.exit("To make the C library, make needs the Rattle kit's command rt on the PATH.")
    return os.path.join(os.path.dirname(os.path.dirname(os.path.realpath(rt))), "c", "liblibc_c.a")


def declared():
    """The functions that the header declares, and the version that it names."""
    with open(HEADER, encoding="utf-8") as file:
        text = re.sub(r"/\*.*?\*/", "", file.read(), flags=re.S)
    names = set(re.findall(r"^(?:int32_t|uint32_t|void) (fiolargu_\w+)\(", text, re.M))
    number = int(re.search(r"#define FIOLARGU_VERSION (\d+)", text)[1])
    return names, f"{number // 1000000}.{number // 1000 % 1000}.{number % 1000}"


def shown(path, *options):
    """The names that a file defines for others."""
    lines = run("nm", *options, "--defined-only", "--extern-only", path).splitlines()
    return {line.split()[2] for line in lines if len(line.split()) == 3}


def joined(archive, names, folder):
    """One object with the library and what it allocates by, in which these names alone are global."""
    run("ar", "x", os.path.abspath(archive), cwd=folder)
    run("ar", "x", kit_archive(), HEAP, cwd=folder)
    parts = [os.path.join(folder, name) for name in sorted(os.listdir(folder)) if name.endswith(".o")]
    whole = os.path.join(folder, "whole.o")
    run("ld", "-r", "-o", whole, *parts)
    run("objcopy", *(f"--keep-global-symbol={name}" for name in sorted(names)), whole)
    return whole


def checked(path, names, *options):
    """Ends with a message if a file does not show exactly these names."""
    found = shown(path, *options)
    if found != names:
        sys.exit(f"{path}: more or fewer names than in the header: {' '.join(sorted(found ^ names))}")


def make(archive, names, libdir, with_archive):
    """Makes the shared object of an archive, and the archive for users, in a folder."""
    os.makedirs(libdir, exist_ok=True)
    with tempfile.TemporaryDirectory(prefix="library-") as folder:
        whole = joined(archive, names, folder)
        shared = os.path.join(libdir, SONAME)
        run("gcc", "-shared", "-nostartfiles", "-o", f"{shared}.part", f"-Wl,-soname,{SONAME}", *LINKED, whole, "-lc")
        checked(f"{shared}.part", names, "--dynamic")
        os.replace(f"{shared}.part", shared)
        if with_archive:
            whole_archive = os.path.join(libdir, f"{NAME}.a")
            if os.path.exists(whole_archive):
                os.remove(whole_archive)
            run("ar", "rcsD", whole_archive, whole)
            checked(whole_archive, names)


def link(to, name):
    """Makes a symbolic link anew."""
    if os.path.lexists(name):
        os.remove(name)
    os.symlink(to, name)


def main():
    parser = argparse.ArgumentParser(description=__doc__.splitlines()[0])
    parser.add_argument("--v2", required=True, help="the folder of the archive for level x86-64-v2")
    parser.add_argument("--v3", required=True, help="the folder of the archive for level x86-64-v3")
    parser.add_argument("--into", default=TOP, help="the folder of lib/ and include/ (the top of the repository)")
    options = parser.parse_args()
    names, version = declared()
    libdir = os.path.join(options.into, "lib")
    make(os.path.join(options.v2, f"{NAME}.a"), names, libdir, with_archive=True)
    make(os.path.join(options.v3, f"{NAME}.a"), names, os.path.join(libdir, "glibc-hwcaps", "x86-64-v3"), with_archive=False)
    link(SONAME, os.path.join(libdir, f"{NAME}.so"))
    os.makedirs(os.path.join(options.into, "include"), exist_ok=True)
    shutil.copyfile(HEADER, os.path.join(options.into, "include", "fiolargu.h"))
    os.makedirs(os.path.join(libdir, "pkgconfig"), exist_ok=True)
    with open(os.path.join(libdir, "pkgconfig", "fiolargu.pc"), "w", encoding="ascii") as file:
        file.write(PKG_CONFIG.format(version=version))


if __name__ == "__main__":
    main()
