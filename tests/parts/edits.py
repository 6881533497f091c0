"""Wrong bodies, and builds without a part of the search: the text that each edit replaces stands once in its file.
tools/mutants.py, with a stand-in for the prover, loses no wrong body."""

import collections
import glob
import os
import shutil
import subprocess
import sys
import tempfile

from support.programs import TOP, lay_out

# Where edits stand, and the folder that their file names start from: {} is the folder of the edit.
EDITS = (("crates/*/must-fail/*.edit", "crates/{}"), ("mutants/*/*.edit", "crates/{}"), ("bench/ablations/*.edit", "crates"))


def crate_of(edit):
    """The crate that an edit of must-fail/ or mutants/ belongs to."""
    folder = os.path.dirname(edit)
    return os.path.basename(os.path.dirname(folder) if os.path.basename(folder) == "must-fail" else folder)


def replacements(edit):
    """The lines of an edit: file, old, new, and again."""
    with open(edit, encoding="utf-8") as file:
        return [line.rstrip("\n").partition(": ")[::2] for line in file if line.startswith(("file: ", "old: ", "new: "))]


def counts(edit, folder):
    """How often each text that an edit replaces stands in its file, once the edits before it were made."""
    texts, name, old = {}, None, None
    for word, value in replacements(edit):
        if word == "file":
            name = value
            if name not in texts:
                with open(os.path.join(TOP, folder, name), encoding="utf-8") as file:
                    texts[name] = file.read()
        elif word == "old":
            old = value
            yield texts[name].count(old)
        else:
            texts[name] = texts[name].replace(old, value)


def edits():
    """Each stands once."""
    for pattern, folder in EDITS:
        for edit in sorted(glob.glob(os.path.join(TOP, pattern))):
            yield os.path.relpath(edit, TOP), set(counts(edit, folder.format(crate_of(edit)))), {1}


def names():
    """A crate has no two wrong bodies of one name."""
    paths = [path for pattern, _ in EDITS[:2] for path in glob.glob(os.path.join(TOP, pattern))]
    found = collections.Counter((crate_of(path), os.path.basename(path)) for path in paths)
    yield "wrong bodies of one name", [name for name, count in found.items() if count > 1], []


# Says of each edit that it was refused, but of `kept.edit` that it was not, and nothing of `lost.edit`.
PROVER = b"""#!/bin/sh
for edit in crates/low/must-fail/*; do
    case ${edit##*/} in
    lost.edit) ;;
    kept.edit) echo "rt: must-fail low/kept.edit: NOT REFUSED" ;;
    *) echo "rt: must-fail low/${edit##*/}: refused, as it must be" ;;
    esac
done
"""
FOLDERS = ("tools", "crates", "crates/low", "crates/low/must-fail", "mutants", "mutants/low")


def tried(gate, others):
    """The status of tools/mutants.py and its last line, where the crate `low` has these edits in must-fail/ and in mutants/."""
    with tempfile.TemporaryDirectory() as folder:
        files = {"crates.txt": b"low:\n", "HANDLES": b"Handles allowed: none.\n", "tools/rt": PROVER}
        paths = [f"crates/low/must-fail/{name}.edit" for name in gate] + [f"mutants/low/{name}.edit" for name in others]
        lay_out(folder, {**dict.fromkeys(FOLDERS), **files, **dict.fromkeys(paths, b"")})
        tools = os.path.join(folder, "tools")
        os.chmod(os.path.join(tools, "rt"), 0o755)
        script = shutil.copy(os.path.join(TOP, "tools", "mutants.py"), tools)
        env = dict(os.environ, PATH=f"{tools}{os.pathsep}{os.environ['PATH']}")
        done = subprocess.run([sys.executable, script], capture_output=True, text=True, timeout=60, env=env)
        return done.returncode, (done.stdout + done.stderr).splitlines()[-1]


def mutants():
    """It fails if an edit is not refused, if the prover reports nothing of it, and if two have one name."""
    for gate, others, status, line in (
        (["first"], ["second"], 0, "2 wrong bodies refused, 0 not, 0 not reported, in 0 minutes"),
        (["first"], ["kept"], 1, "1 wrong bodies refused, 1 not, 0 not reported, in 0 minutes"),
        (["first"], ["lost"], 1, "1 wrong bodies refused, 0 not, 1 not reported, in 0 minutes"),
        (["first"], ["first"], 1, "low has two edits of the name first.edit"),
    ):
        yield f"mutants.py for {gate} and {others}", tried(gate, others), (status, line)


TESTS = (edits, names, mutants)
