"""The programs to test, in bin/ or the folder that PROGRAMS names, and how the tests run them."""

import os
import re
import subprocess
import tempfile

TOP = os.path.dirname(os.path.dirname(os.path.dirname(os.path.abspath(__file__))))
BIN = os.path.abspath(os.environ.get("PROGRAMS", os.path.join(TOP, "bin")))


def program_at(name):
    """Where a program is."""
    return os.path.join(BIN, name)


LITGREP, LITPLAN = program_at("litgrep"), program_at("litplan")


def version():
    """The version of the programs, in their source."""
    with open(os.path.join(TOP, "crates", "program_words", "src", "reading.rt"), encoding="utf-8") as file:
        return re.search(r'VERSION: &str = "(.*)"', file.read())[1]


def run(words, stdin=b"", **how):
    """Runs `litgrep`, or another `program`. Answers its status, output and messages."""
    if isinstance(stdin, bytes):
        how["input"] = stdin
    else:
        how["stdin"] = stdin
    how.setdefault("stdout", subprocess.PIPE)
    program = how.pop("program", LITGREP)
    how.setdefault("stderr", subprocess.PIPE)
    done = subprocess.run([program] + words, timeout=60, **how)
    return done.returncode, done.stdout, done.stderr


def lay_out(folder, files):
    """Puts files into a folder. A file whose text is None is a folder."""
    for name, text in files.items():
        path = os.path.join(folder, name)
        if text is None:
            os.mkdir(path)
        else:
            with open(path, "wb") as file:
                file.write(text)


def run_in_folder(files, words, stdin, **how):
    """Runs a program in a folder with these files."""
    with tempfile.TemporaryDirectory() as folder:
        lay_out(folder, files)
        return run(words, stdin, cwd=folder, **how)


def litplan(words, stdin=b"", **how):
    """Runs `litplan`."""
    return run(words, stdin, program=LITPLAN, **how)


def litplan_in_folder(files, words, stdin, **how):
    """Runs `litplan` in a folder with these files."""
    return run_in_folder(files, words, stdin, program=LITPLAN, **how)


def cut_to(ending, messages):
    """An ending of a run. Where the wanted messages end in "...", its own are cut to what stands before that."""
    if messages.endswith(b"..."):
        return ending[0], ending[1], ending[2][: len(messages) - 3] + b"..."
    return ending
