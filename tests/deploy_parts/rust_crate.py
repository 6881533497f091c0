"""clients/rust: its tests and the examples of its documentation, by cargo, over the archive and the shared library."""

import glob
import os
import re
import shutil
import subprocess
import tempfile

from support import clibrary
from support.programs import TOP

CRATE = os.path.join(TOP, "clients", "rust")


def crate():
    """cargo tests the crate, without a network and without a warning."""
    if not clibrary.is_there("rust_crate"):
        return
    with tempfile.TemporaryDirectory() as folder:
        copy, shared = os.path.join(folder, "rust"), os.path.join(folder, "lib")
        shutil.copytree(CRATE, copy, ignore=shutil.ignore_patterns("target", "Cargo.lock"))
        os.mkdir(shared)
        for name in "libfiolargu.so", clibrary.NAME:
            os.symlink(clibrary.LIBRARY, os.path.join(shared, name))
        with open(os.path.join(TOP, "docs", "LIBRARY.md")) as file:
            program = re.search(r"^```rust\n(use fiolargu::.*?)^```$", file.read(), re.M | re.S)[1]
        os.mkdir(os.path.join(copy, "examples"))
        with open(os.path.join(copy, "examples", "documented.rs"), "w") as file:
            file.write(program)
        folders = {"the shared library": shared}
        if os.path.exists(os.path.join(os.path.dirname(clibrary.LIBRARY), "libfiolargu.a")):
            folders["the archive"] = os.path.dirname(clibrary.LIBRARY)
        for name, lib in folders.items():
            env = {**os.environ, "FIOLARGU_LIB_DIR": lib, "LD_LIBRARY_PATH": shared, "RUSTFLAGS": "-D warnings"}
            env["CARGO_TARGET_DIR"] = os.path.join(folder, "target")
            done = subprocess.run(["cargo", "test", "--offline", "--quiet"], cwd=copy, env=env, capture_output=True, text=True)
            good = len(re.findall(r"test result: ok. [1-9]", done.stdout))
            yield f"cargo test over {name}: {done.stdout[-300:]}{done.stderr[-500:]}", (done.returncode, good), (0, 2)
            words = ["cargo", "run", "--offline", "--quiet", "--example", "documented"]
            done = subprocess.run(words, cwd=copy, env=env, capture_output=True, text=True)
            want = "".join(line + "\n" for line in re.findall(r"// (.*)$", program, re.M))
            yield f"the program of LIBRARY.md over {name}: {done.stderr[-300:]}", done.stdout, want


def built_before():
    """A build without the library looks again once the library is there. The library is a stand-in."""
    with tempfile.TemporaryDirectory() as folder:
        copy, lib = os.path.join(folder, "clients", "rust"), os.path.join(folder, "lib")
        shutil.copytree(CRATE, copy, ignore=shutil.ignore_patterns("target", "Cargo.lock"))
        env = {**os.environ, "CARGO_TARGET_DIR": os.path.join(folder, "target"), "PKG_CONFIG_LIBDIR": folder}
        env.pop("FIOLARGU_LIB_DIR", None)
        for is_there in False, True:
            if is_there:
                os.mkdir(lib)
                open(os.path.join(lib, "libfiolargu.so"), "wb").close()
            words = ["cargo", "build", "--offline", "--quiet"]
            done = subprocess.run(words, cwd=copy, env=env, capture_output=True, text=True)
            outputs = glob.glob(os.path.join(folder, "target", "debug", "build", "fiolargu-*", "output"))
            with open(outputs[0]) as file:
                got = f"rustc-link-search=native={lib}\n" in file.read()
            got = done.returncode, len(outputs), got
            yield f"a build, library {is_there}: {done.stderr[-300:]}", got, (0, 1, is_there)


TESTS = (crate, built_before)
