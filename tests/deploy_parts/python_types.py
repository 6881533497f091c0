"""The types of clients/python, checked by mypy for the oldest Python that it supports; its package, installed by pip."""

import os
import shutil
import subprocess
import tempfile

from support.pyclient import PYTHON

# The Python that Debian's packages are for.
DEBIAN = "/usr/bin/python3"


def types():
    """mypy finds no fault in clients/python."""
    files = [os.path.join(PYTHON, name) for name in sorted(os.listdir(PYTHON)) if name.endswith(".py")]
    words = ["mypy", "--strict", "--python-version", "3.9", "--cache-dir", os.devnull, *files, os.path.join(PYTHON, "fiolargu")]
    done = subprocess.run(words, capture_output=True, text=True)
    yield f"types of the client: {done.stdout}{done.stderr}", done.returncode, 0


def packaged():
    """pip installs the package from its folder, without a network, and it is typed."""
    with tempfile.TemporaryDirectory() as folder:
        source, target = os.path.join(folder, "source"), os.path.join(folder, "target")
        shutil.copytree(PYTHON, source, ignore=shutil.ignore_patterns("__pycache__"))
        words = [DEBIAN, "-m", "pip", "install", "--quiet", "--no-index", "--no-build-isolation", "--no-deps", "--target", target]
        done = subprocess.run([*words, source], capture_output=True, text=True)
        yield f"pip install clients/python: {done.stderr[-300:]}", done.returncode, 0
        with open(os.path.join(folder, "uses.py"), "w") as file:
            file.write("import fiolargu\nfrom fiolargu import scand\n\nreveal_type(fiolargu.Plan([b'a']).hits(b'a').ends)\nscand.Client.connect(7, 7)\n")
        words = ["mypy", "--strict", "--cache-dir", os.devnull, "uses.py"]
        env = {**os.environ, "MYPYPATH": target}
        done = subprocess.run(words, cwd=folder, env=env, capture_output=True, text=True)
        wrong = [line for line in done.stdout.splitlines() if ": error: " in line]
        yield "types of what it installed", ("memoryview" in done.stdout, len(wrong), "connect" in wrong[0]), (True, 1, True)
        env = {**os.environ, "PYTHONPATH": target}
        done = subprocess.run([DEBIAN, "-c", "import fiolargu; print(fiolargu.__file__)"], env=env, capture_output=True, text=True)
        yield "it is imported", done.stdout, os.path.join(target, "fiolargu", "__init__.py") + "\n"


TESTS = (types, packaged)
