"""The C library: each function and status, random searches, refused allocations, threads, what the files show."""

import os
import re
import subprocess
import tempfile

from support import clibrary
from support.programs import TOP

SOURCES = os.path.join(TOP, "clients", "c")
LIBRARY = os.path.dirname(clibrary.LIBRARY or os.path.join(TOP, "lib", clibrary.NAME))
ARCHIVE = os.path.join(LIBRARY, "libfiolargu.a")
SHARED = "libfiolargu.so.0"
# What stands in the way of these tests, if anything does.
LACKS = None if os.path.exists(ARCHIVE) else "the C library, which `make library` makes"
RANDOM_LISTS = 10000
# A part of them beside a sanitizer.
GUARDED_LISTS = 1500
C99 = "-std=c99", "-Wall", "-Wextra", "-Werror", "-pedantic", "-Wconversion"
WRAPPED = "-Wl,--wrap=malloc,--wrap=realloc,--wrap=free"


def compiled(folder, source, *flags, compiler=("cc", *C99)):
    """Builds a program of clients/c with the archive, with every warning an error."""
    program = os.path.join(folder, f"{source}-{len(os.listdir(folder))}")
    words = [*compiler, "-O1", "-g", f"-I{SOURCES}", "-o", program, os.path.join(SOURCES, source), *flags, ARCHIVE]
    subprocess.run(words, check=True)
    return program


def ran(program, *words, stdin=b"", **environment):
    """The status, the output and the messages of a program."""
    done = subprocess.run(
        [program, *map(str, words)], input=stdin, capture_output=True, timeout=600, env={**os.environ, **environment}
    )
    return done.returncode, done.stdout.decode(), done.stderr.decode()


def calls():
    """Each function, each status, null handles, buffers of every size, and random lists beside a plain search."""
    with tempfile.TemporaryDirectory() as folder:
        program = compiled(folder, "test_library.c")
        yield f"{RANDOM_LISTS} lists", ran(program, 1, RANDOM_LISTS), (0, "0 faults\n", "")
        guarded = compiled(folder, "test_library.c", "-fsanitize=address,undefined", "-fno-sanitize-recover")
        yield "lists with sanitizers", ran(guarded, 2, GUARDED_LISTS), (0, "0 faults\n", "")


def shared_objects():
    """The same over the shared objects, each where the processor has its level. Each is linked into a folder of its own, since the
    loader prefers an object of a higher level below the folder that it is given."""
    with tempfile.TemporaryDirectory() as folder:
        program = os.path.join(folder, "shared")
        words = ["cc", *C99, f"-I{SOURCES}", "-o", program, os.path.join(SOURCES, "test_library.c"), f"-L{LIBRARY}", "-lfiolargu"]
        subprocess.run(words, check=True)
        for place, level in enumerate(shared_levels()):
            alone = os.path.join(folder, str(place))
            os.mkdir(alone)
            os.symlink(os.path.join(LIBRARY, level, SHARED), os.path.join(alone, SHARED))
            yield f"lists over {level or SHARED}", ran(program, 3, 300, LD_LIBRARY_PATH=alone), (0, "0 faults\n", "")


def shared_levels():
    """The folders that have a shared object which this processor runs, each below the archive's."""
    with open("/proc/cpuinfo", encoding="ascii") as file:
        has_v3 = {"avx2", "bmi1", "bmi2", "f16c", "fma", "abm", "movbe"} <= set(re.search(r"^flags.*", file.read(), re.M)[0].split())
    folders = ["", os.path.join("glibc-hwcaps", "x86-64-v3")]
    return [folder for folder in folders[: 1 + has_v3] if os.path.exists(os.path.join(LIBRARY, folder, SHARED))]


def refusals():
    """Each allocation refused in turn: the status, unchanged handles, nothing leaked."""
    with tempfile.TemporaryDirectory() as folder:
        status, output, messages = ran(compiled(folder, "test_refused.c", WRAPPED))
        count = re.fullmatch(r"(\d+) refusals, 0 faults\n", output)
        yield "allocations refused", (status, bool(count) and int(count[1]) > 40, messages), (0, True, "")


def threads():
    """Threads that share a plan, under ThreadSanitizer."""
    with tempfile.TemporaryDirectory() as folder:
        want = 0, "4 threads, each found all hits\n", ""
        yield "threads", ran(compiled(folder, "test_threads.c", "-pthread")), want
        yield "threads with a sanitizer", ran(compiled(folder, "test_threads.c", "-pthread", "-fsanitize=thread")), want


def example():
    """The example, as C and as C++, and what it answers to words that are no list."""
    with tempfile.TemporaryDirectory() as folder:
        text = b"the cat sat on the dog, and on a catalogue " * 3000
        want = [(w, e - 3, e) for e in range(len(text) + 1) for w, word in enumerate((b"cat", b"dog")) if text[:e][-3:] == word]
        program = compiled(folder, "find.c")
        status, output, messages = ran(program, "dog", "cat", stdin=text)
        yield "the example", (status, messages), (0, "")
        yield "its lines", output.splitlines() == ["%d %d %d" % hit for hit in want], True
        yield "no words", ran(program), (2, "", "find: no literals\n")
        yield "a long word", ran(program, "a" * 4096), (2, "", "find: a pattern of more than 4,095 bytes\n")
        with open("/dev/full", "wb") as full:
            done = subprocess.run([program, "cat"], input=text, stdout=full, stderr=subprocess.PIPE, timeout=60)
        yield "a full output", (done.returncode, done.stderr), (2, b"find: standard output cannot be written\n")
        unreadable = os.open(folder, os.O_RDONLY)
        done = subprocess.run([program, "cat"], stdin=unreadable, capture_output=True, timeout=60)
        os.close(unreadable)
        yield "an input that is a folder", (done.returncode, done.stderr), (2, b"find: standard input cannot be read\n")
        header = os.path.join(folder, "only.cc")
        with open(header, "w", encoding="ascii") as file:
            file.write('#include "fiolargu.h"\nint main() { fiolargu_plan plan = {}; fiolargu_plan_free(&plan); }\n')
        words = ["c++", "-Wall", "-Wextra", "-Werror", "-pedantic", f"-I{SOURCES}", "-o", header[:-3], header, ARCHIVE]
        subprocess.run(words, check=True)
        yield "the header in C++", ran(header[:-3]), (0, "", "")


def names_of(path, *options):
    """The names that a file defines for others."""
    output = subprocess.run(["nm", *options, "--defined-only", "--extern-only", path], check=True, capture_output=True).stdout
    return sorted({line.split()[2] for line in output.decode().splitlines() if len(line.split()) == 3})


def declared():
    """The functions of the header."""
    with open(os.path.join(SOURCES, "fiolargu.h"), encoding="utf-8") as file:
        text = re.sub(r"/\*.*?\*/", "", file.read(), flags=re.S)
    return sorted(re.findall(r"^(?:int32_t|uint32_t|void) (fiolargu_\w+)\(", text, re.M))


def files():
    """Archive and shared objects show the functions of the header alone; the shared objects need the C library alone."""
    yield "functions of the header", len(declared()), 18
    yield "names of the archive", names_of(ARCHIVE), declared()
    for folder in "", os.path.join("glibc-hwcaps", "x86-64-v3"):
        path = os.path.join(LIBRARY, folder, SHARED)
        yield f"names of {folder or SHARED}", names_of(path, "--dynamic"), declared()
        dynamic = subprocess.run(["readelf", "-d", "-l", "-W", path], check=True, capture_output=True).stdout.decode()
        yield "what it needs", re.findall(r"\(NEEDED\).*\[(.*)\]", dynamic), ["libc.so.6"]
        yield "its name", re.findall(r"\(SONAME\).*\[(.*)\]", dynamic), [SHARED]
        found = "TEXTREL" in dynamic, "GNU_RELRO" in dynamic, "BIND_NOW" in dynamic or "NOW" in dynamic
        yield "text relocations, relro, now", found, (False, True, True)
        yield "an executable stack", re.findall(r"GNU_STACK.* (R\S*) ", dynamic), ["RW"]


TESTS = (calls, shared_objects, refusals, threads, example, files)
