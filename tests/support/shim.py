"""The shim refuse.c, which refuses calls of a program, and what the tests build of C."""

import os
import subprocess

HERE = os.path.dirname(os.path.abspath(__file__))


def built(folder, source, name, *how):
    """Builds a file of C of this folder, as a file in another folder."""
    path = os.path.join(folder, name)
    subprocess.run(["cc", *how, "-O1", "-o", path, os.path.join(HERE, source)], check=True)
    return path


def built_shim(folder):
    """Builds the shim, as a library to preload."""
    return built(folder, "refuse.c", "refuse.so", "-shared", "-fPIC")


def taken(path):
    """Removes a file. Answers its bytes, or None where there is no file."""
    if not os.path.exists(path):
        return None
    with open(path, "rb") as file:
        held = file.read()
    os.remove(path)
    return held
