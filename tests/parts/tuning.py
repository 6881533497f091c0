"""The constants of the search: every price and threshold of a crate stands in its tuning.rt, with how it was chosen, or
that this is not recorded."""

import os
import re

from support.programs import TOP

CRATES = os.path.join(TOP, "crates")
# What else has a constant: contracts cite it, it bounds memory, or it follows from a data structure.
SHAPES = {
    "byte_lanes": {"skipping.rt": {"BLOCK"}},
    "flow_scan": {"boundary.rt": {"SHORT"}},
    "grep_run": {
        "names.rt": {"STANDARD_NAME"},
        "searcher.rt": {"LEAST_READ_SIZE", "MOST_HELD", "NUMBER_SIZE", "READ_SIZE", "UNUSED"},
    },
    "lane_filter": {"candidates.rt": {"MOST_COPIED"}, "pair.rt": {"CHOSEN_FROM"}},
    "line_pick": {"whole_lines.rt": {"LENGTHS", "SIZE"}},
    "list_index": {
        "suffixes/checks.rt": {"CHECK_BITS", "LEAST_CHECKED"},
        "suffixes/long_chains.rt": {"MOST_HASHED"},
    },
    "lit_plan": {},
    "nib_mask": {},
    "par_scan": {"parts.rt": {"MAX_WORKERS"}},
    "scan_core": {"bounded_vec.rt": {"ROOM"}, "limits.rt": {"MAX_PLANS", "MAX_STREAMS"}},
    "shift_search": {
        "blocks.rt": {"GROUP", "GROUPS"},
        "bucket_checks.rt": {"CHECK_BITS"},
        "entries.rt": {"ALL", "BUCKETS", "ENTRIES", "PLACES"},
        "runs.rt": {"WEIGHTS"},
        "shift_or.rt": {"UNPROBED"},
    },
    "prefilter_search": {},
    "text_automaton": {
        "reading.rt": {"BLOCK", "LANES", "ROOM"},
        "reporting.rt": {"STATES"},
        "tables.rt": {"CLASSES", "MOST_OUTPUTS", "MOST_STATES", "NONE"},
    },
    "text_ends": {},
    "text_lines": {"counting.rt": {"LANES", "STEPS", "STRETCH", "WIDE"}},
    "text_search": {},
    "factor_search": {
        "probing.rt": {"BLOCK", "BLOCK_BITS", "STEP", "UNFILTERED"},
        "counts.rt": {"MASKED"},
        "grouping.rt": {"BUCKETS", "POSITIONS"},
        "hash_bits.rt": {"MOST_OFFSET"},
        "widths.rt": {"HASH_BITS", "OFFSETS", "WIDTH"},
        "factor_ends.rt": {"REACH"},
    },
}
# How many prices and thresholds a crate has at least.
TUNED = {
    "byte_lanes": 5,
    "grep_run": 1,
    "line_pick": 3,
    "list_index": 1,
    "scan_core": 1,
    "shift_search": 6,
    "text_lines": 5,
    "text_search": 6,
    "factor_search": 6,
}
CONSTANT = re.compile(r"((?:^///.*\n)*)^(?:pub(?:\(crate\))? )?const (\w+):", re.M)
EVIDENCE = re.compile(r"[Mm]easured|[Nn]ot varied|[Cc]hosen")


def constants_of(crate, name):
    """The constants of a source file, each with its comment."""
    with open(os.path.join(CRATES, crate, "src", name), encoding="utf-8") as file:
        return {found[2]: found[1] for found in CONSTANT.finditer(file.read())}


def sources_of(crate):
    """The source files of a crate, without tests and tuning.rt."""
    top = os.path.join(CRATES, crate, "src")
    for folder, below, names in os.walk(top):
        below[:] = sorted(set(below) - {"tests"})
        for name in sorted(names):
            if name.endswith(".rt") and name not in ("tuning.rt", "tests.rt"):
                yield os.path.relpath(os.path.join(folder, name), top)


def places():
    """No other file has a constant but those of shape."""
    for crate, shapes in SHAPES.items():
        for name in sources_of(crate):
            yield f"constants of {crate}/{name}", set(constants_of(crate, name)), shapes.get(name, set())


def evidence():
    """Each price and threshold says how it was chosen, or that this is not recorded."""
    for crate, least in TUNED.items():
        found = constants_of(crate, "tuning.rt")
        yield f"{crate}/tuning.rt has constants", len(found) >= least, True
        for name, comment in found.items():
            yield f"{crate}: {name} says how it was chosen", bool(EVIDENCE.search(comment)), True


TESTS = (places, evidence)
