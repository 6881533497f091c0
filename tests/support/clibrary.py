"""The C library under test: the file that FIOLARGU_LIBRARY names, the one beside the tested programs, or the one of lib/."""

import os

from support.programs import BIN, TOP

NAME = "libfiolargu.so.0"


def found():
    """The library's file, or None."""
    given = os.environ.get("FIOLARGU_LIBRARY")
    paths = [given] if given else [os.path.join(folder, "lib", NAME) for folder in (os.path.dirname(BIN), TOP)]
    return next((os.path.abspath(path) for path in paths if os.path.exists(path)), None)


LIBRARY = found()
if LIBRARY:
    os.environ["FIOLARGU_LIBRARY"] = LIBRARY


def is_there(part):
    """Whether there is a library. Prints that a part is left out where there is none."""
    if LIBRARY is None:
        print(f"left out: {part}, for want of lib/{NAME} (make library)", flush=True)
    return LIBRARY is not None
