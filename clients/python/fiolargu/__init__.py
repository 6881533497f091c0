"""Fiolargu: search for many literals at once.

    from fiolargu import Plan

    plan = Plan([b"cat", b"dog"])
    for hit in plan.scan(b"concat"):
        print(plan.literals[hit.literal], hit.start, hit.end)      # b'cat' 3 6

`Plan` and `Stream` search in this process, by the C library `libfiolargu.so.0`. `fiolargu.scand` is a client of the scan
server, and needs no library. The library's calls let other threads of Python run, and read bytes, `memoryview`s and `mmap`s
where they lie. Each error is a `FiolarguError`. Standard library alone, CPython 3.9 and later.
"""

from .errors import (
    BadPlanFile, FiolarguError, LibraryMissing, ListTooLarge, LiteralTooLong, NoLiterals, NoSuchPlan, NullHandle, OutOfMemory, OutOfRange,
    Refusal, Refused, SmallBuffer, StreamTooLong, TooManyPatterns,
)
from .hits import Hit, Hits
from .plan import Plan, Stream, check, library_version

__all__ = [
    "BadPlanFile", "FiolarguError", "Hit", "Hits", "LibraryMissing", "ListTooLarge", "LiteralTooLong", "NoLiterals", "NoSuchPlan",
    "NullHandle", "OutOfMemory", "OutOfRange", "Plan", "Refusal", "Refused", "SmallBuffer", "Stream", "StreamTooLong",
    "TooManyPatterns", "check", "library_version",
]
