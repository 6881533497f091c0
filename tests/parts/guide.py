"""The sessions that README.md and docs/GUIDE.md show: each command must print what the document shows.

A session is a block of console, or an indented block that begins with a prompt. A command follows `$ `, its next lines
follow `> `, and then comes its output. The sessions of a section share a shell and a folder. The folder has bin/ and
clients/, the programs are on the PATH, and each block of Python is in the file that its fence names."""

import itertools
import os
import re
import subprocess
import tempfile

from support.programs import BIN, TOP

DOCUMENTS = ("README.md", "docs/GUIDE.md")
# Ends the output of a command, and leaves its status as it is.
MARK = 'mark() { local status=$?; printf "\\1"; return $status; }\n'


def sections(document):
    """The sections of a document, each with its heading."""
    with open(os.path.join(TOP, document)) as file:
        parts = re.split(r"^## (.*)\n", file.read(), flags=re.M)
    return zip(parts[1::2], parts[2::2])


def sessions_in(section):
    """The lines of all sessions of a section."""
    found = re.findall(r"^```console\n(.*?)^```$|^((?: {4}[^\n]*\n)+)", section, re.M | re.S)
    blocks = [fenced or re.sub("^ {4}", "", indented, flags=re.M) for fenced, indented in found]
    return [line for block in blocks if block.startswith("$ ") for line in block.splitlines()]


def commands_in(lines):
    """The commands of a session, each with its output."""
    commands = []
    for line in lines:
        if line.startswith("$ "):
            commands.append([line[2:], ""])
        elif line.startswith("> ") and not commands[-1][1]:
            commands[-1][0] += "\n" + line[2:]
        else:
            commands[-1][1] += line + "\n"
    return commands


def printed(section, commands):
    """What each command of a section prints, in a folder of its own."""
    with tempfile.TemporaryDirectory() as folder:
        os.symlink(BIN, os.path.join(folder, "bin"))
        os.symlink(os.path.join(TOP, "clients"), os.path.join(folder, "clients"))
        for name, text in re.findall(r"^```python (\S+)\n(.*?)^```$", section, re.M | re.S):
            with open(os.path.join(folder, name), "w") as file:
                file.write(text)
        env = dict(os.environ, PATH=BIN + os.pathsep + os.environ["PATH"])
        script = MARK + "".join(f"{command}\nmark\n" for command, _ in commands)
        how = {"cwd": folder, "env": env, "stdin": subprocess.DEVNULL, "stderr": subprocess.STDOUT}
        shown = subprocess.run(["bash", "-c", script], stdout=subprocess.PIPE, timeout=60, **how).stdout
        return shown.decode(errors="backslashreplace").split("\1")


def sessions():
    """Each command of the documents prints what they show."""
    for document in DOCUMENTS:
        count = 0
        for head, section in sections(document):
            commands = commands_in(sessions_in(section))
            count += len(commands)
            for (command, want), got in itertools.zip_longest(commands, printed(section, commands)[:-1], fillvalue=("", "")):
                yield f"{document}, {head}: {command}", got, want
        yield f"{document} has commands", count > 5, True


TESTS = (sessions,)
