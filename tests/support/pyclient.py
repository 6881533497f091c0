"""The client of clients/python, and what tests of several clients use."""

import os
import sys

from oracles import sessions
from support.programs import TOP

PYTHON = os.path.join(TOP, "clients", "python")
sys.path.insert(0, PYTHON)
from fiolargu import scand as scand_client  # noqa: E402, F401
from fiolargu.scand import Client, ConnectionLost, Hit, PlanShown, Resumed  # noqa: E402, F401

PRONOUNS = [b"he", b"his", b"she", b"hers"]
# The hits of a full Feed by this list take more than pipes and sockets hold.
MANY = [b"a" * length for length in range(1, 13)]


def fault_of(call, *words, **named):
    """The name of the exception of a call, and its detail if it has one."""
    try:
        return "nothing", call(*words, **named)
    except Exception as fault:
        return type(fault).__name__, getattr(fault, "detail", None)


def plain_hits(literals, is_folded, text):
    """The hits of a list in a text, by the plain model."""
    return [Hit(*hit) for hit in sessions.Plan(literals, is_folded).hits(text, 0)]
