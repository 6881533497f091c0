"""The worked plan file of docs/FORMATS.md."""

import os
import re

from support.programs import TOP


def worked_file():
    """The bytes of the worked plan file. Each of its lines begins with the position of its first byte."""
    with open(os.path.join(TOP, "docs", "FORMATS.md"), encoding="utf-8") as file:
        section = file.read().split("\n## Plan file, version 2\n")[1].split("\n## ")[0]
    worked = b""
    for place, line in re.findall(r"^ *(\d+)  ((?:[0-9A-F]{2} )*[0-9A-F]{2})", section, re.M):
        if int(place) != len(worked):
            raise ValueError(f"the line at {place} stands after {len(worked)} bytes")
        worked += bytes.fromhex(line)
    return worked
