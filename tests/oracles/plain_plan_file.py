"""A plain writer and reader of plan files, as docs/FORMATS.md describes them. `plan_probe` is compared with the reader.

A certificate has a row of potentials for each bucket of its profile, so the number of its rows is 8 or 16.
Nothing here is fast, and nothing comes from the programs."""

from oracles import plain_plan

MAGIC, NEWEST = b"LPLF", 2
MOST_PLANS, LONGEST, MOST_BYTES = 64, 4095, 1048576
# Of each version: the greatest flags of an entry, and the most literals.
VERSIONS = {1: (1, 1024), 2: (3, 4096)}
# The flags: case is ignored, and a profile of sixteen buckets.
FOLDED, SIXTEEN = 1, 2
MASK = (1 << 64) - 1


class Wrong(Exception):
    """The first fault of a file: its position and its cause."""


def number(value, size):
    """A number as a field of this size."""
    return value.to_bytes(size, "big")


def entry_fields(literals, is_folded, certificate):
    """The fields of an entry, in order."""
    ends, price, rows = certificate
    flags = FOLDED * is_folded + SIXTEEN * (len(rows) == 16)
    fields = [number(flags, 1), number(len(literals), 2)]
    for literal in literals:
        fields += [number(len(literal), 2), literal]
    fields += [number(len(ends), 1), *(number(end, 2) for end in ends), number(price, 8)]
    return fields + [number(potential, 8) for row in rows for potential in row]


def file_fields(plans, version=NEWEST):
    """The fields of a file, in order. A plan is its literals, whether case is ignored, and its certificate."""
    return [MAGIC, number(version, 2), number(len(plans), 2), *(field for plan in plans for field in entry_fields(*plan))]


class Fields:
    """A file that is read field by field."""

    def __init__(self, text):
        self.text, self.at = text, 0

    def bytes(self, size):
        """The bytes of a field, and where it begins."""
        at = self.at
        if len(self.text) - at < size:
            raise Wrong(at, "Short")
        self.at += size
        return self.text[at : self.at], at

    def number(self, size, passes=lambda value: True, cause=None):
        """The number in a field, which must pass a test."""
        text, at = self.bytes(size)
        value = int.from_bytes(text, "big")
        if not passes(value):
            raise Wrong(at, cause)
        return value

    def literal(self, before, room, is_folded):
        """A literal that is greater than the one before, and fits into the room."""
        start = self.at
        size = self.number(2, lambda size: 1 <= size <= min(LONGEST, room), "Literal")
        literal, at = self.bytes(size)
        unfolded = [place for place, byte in enumerate(literal) if is_folded and byte in b"ABCDEFGHIJKLMNOPQRSTUVWXYZ"]
        if unfolded:
            raise Wrong(at + unfolded[0], "Literal")
        if (len(before), before) >= (len(literal), literal):
            raise Wrong(start, "Order")
        return literal

    def literals(self, is_folded, most):
        """The literals of an entry, at most this number."""
        count = self.number(2, lambda count: 1 <= count <= most, "Count")
        literals, room = [b""], MOST_BYTES
        for _ in range(count):
            literals.append(self.literal(literals[-1], room, is_folded))
            room -= len(literals[-1])
        return literals[1:]

    def certificate(self, count, buckets):
        """The certificate of this number of literals, right or wrong."""
        runs = self.number(1, lambda runs: 1 <= runs <= buckets, "Runs")
        ends = [self.number(2) for _ in range(runs)]
        price = self.number(8)
        return ends, price, [[self.number(8) for _ in range(count)] for _ in range(buckets)]

    def plan(self, version):
        """A plan whose certificate passes the check."""
        start = self.at
        greatest, most = VERSIONS[version]
        flags = self.number(1, lambda flags: flags <= greatest, "Flags")
        is_folded = bool(flags & FOLDED)
        literals = self.literals(is_folded, most)
        certificate = self.certificate(len(literals), 16 if flags & SIXTEEN else 8)
        reason = plain_plan.failure(literals, certificate)
        if reason:
            raise Wrong(start, f"NotCertified {reason}")
        return literals, is_folded, certificate

    def plans(self):
        """All plans of the file."""
        if self.bytes(len(MAGIC))[0] != MAGIC:
            raise Wrong(0, "Magic")
        version = self.number(2, lambda version: version in VERSIONS, "Version")
        count = self.number(2, lambda count: count <= MOST_PLANS, "Count")
        plans = [self.plan(version) for _ in range(count)]
        if self.at < len(self.text):
            raise Wrong(self.at, "Trailing")
        return plans


def digest(numbers):
    """The digest of some numbers that `plan_probe` prints."""
    value = 0xCBF29CE484222325
    for number in numbers:
        value = (value ^ number) * 0x100000001B3 & MASK
    return value


def numbers_of(literals, certificate):
    """The numbers of a plan by whose digest `plan_probe` identifies it."""
    ends, _, rows = certificate
    return [*(part for literal in literals for part in (len(literal), *literal)), *ends, *(number for row in rows for number in row)]


def line_of(plans):
    """The line that `plan_probe` writes about the file of some plans: what it reads, and what it writes of that."""
    words = ["ok", len(plans)]
    for literals, is_folded, certificate in plans:
        profile = "Eight" if len(certificate[2]) == 8 else "Sixteen"
        words += ["Ascii" if is_folded else "No", profile, len(literals), certificate[1], f"{digest(numbers_of(literals, certificate)):x}"]
    written = b"".join(file_fields(plans))
    return " ".join(map(str, [*words, "written", len(written), f"{digest(written):x}"]))


def answer(text):
    """The line that `plan_probe` writes about a file, right or wrong."""
    try:
        plans = Fields(text).plans()
    except Wrong as wrong:
        return "%d %s" % wrong.args
    return line_of(plans)
