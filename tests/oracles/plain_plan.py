"""A plain model of `litplan plan` and `litplan check`: plans, certificates, and the check of a certificate.

A certificate has a row of potentials for each bucket of its profile, so the number of its rows is 8 or 16.

A plan is the least of all cuts, built up from the last literal. A certificate is read by splitting lines and words.
Nothing here is fast, and nothing comes from the program."""

import re

BUCKETS = 8
NUMBER_MAX = (1 << 64) - 1
MOST_LITERALS = 4096
# The first lines of the texts of certificates, each with the number of buckets.
VERSIONS = {"litcert 1": 8, "litcert 2": 16}


def literals_of(patterns, is_folded):
    """The literals of a list of patterns, in their order."""
    folded = {pattern.lower() if is_folded else pattern for pattern in patterns} - {b""}
    return sorted(folded, key=lambda literal: (len(literal), literal))


def cost(literals, start, end):
    """The cost of the run of literals from one position to another."""
    weight = 4096 // min(len(literals[start]), 8) ** 3
    return 200 + (end - start) ** 2 * weight


def first_cuts(literals, buckets=BUCKETS):
    """For at most 1, 2 .. runs, up to the buckets, and for each position, the first cut of the literals from there on. A cut
    is its price, the number of its runs, and their ends; cuts are ordered by these three."""
    n = len(literals)
    costs = [[cost(literals, start, end) for end in range(start + 1, n + 1)] for start in range(n)]
    rows = []
    for most in range(1, buckets + 1):
        row = [(0, 0, ())] * (n + 1)
        for start in range(n):
            found = [(costs[start][-1], 1, (n,))]
            for end in range(start + 1, n) if most > 1 else ():
                price, runs, ends = rows[-1][end]
                found.append((costs[start][end - start - 1] + price, runs + 1, (end, *ends)))
            row[start] = min(found)
        rows.append(row)
    return rows


def certificate_of(rows):
    """The certificate by the rows of first cuts: its ends, its cost, and its rows of potentials, one for each bucket."""
    price, _, ends = rows[-1][0]
    return list(ends), price, [[price for price, _, _ in row[:-1]] for row in rows]


def plan_of(literals, buckets=BUCKETS):
    """The certificate of some literals."""
    return certificate_of(first_cuts(literals, buckets))


def even_price(count, length, most):
    """The least price of this number of literals of one length in at most some runs, which are then as even as they can be."""
    prices = []
    for runs in range(1, min(most, count) + 1):
        small, more = divmod(count, runs)
        weight = 4096 // min(length, 8) ** 3
        prices.append(200 * runs + weight * ((runs - more) * small**2 + more * (small + 1) ** 2))
    return min(prices)


def even_plan_of(literals, buckets=BUCKETS):
    """The certificate of many literals of one length, in runs of one size: what `plan_of` answers, without its search."""
    n, length = len(literals), len(literals[0])
    rows = [[even_price(n - start, length, most) for start in range(n)] for most in range(1, buckets + 1)]
    return [n * (run + 1) // buckets for run in range(buckets)], rows[-1][0], rows


def spelled(certificate):
    """The text of a certificate."""
    ends, price, rows = certificate
    first = next(line for line, buckets in VERSIONS.items() if buckets == len(rows))
    lines = [first, f"literals {len(rows[0])}", " ".join(["ends", *map(str, ends)]), f"cost {price}"]
    lines += [" ".join(map(str, [number, *row])) for number, row in enumerate(rows, 1)]
    return "".join(line + "\n" for line in [*lines, "end"]).encode()


def numbers_of(words, greatest):
    """The numbers that words spell, or None where a word spells no number up to the greatest."""
    if not all(re.fullmatch("0|[1-9][0-9]{0,19}", word, re.ASCII) for word in words):
        return None
    numbers = [int(word) for word in words]
    return numbers if all(number <= greatest for number in numbers) else None


def line_of(line, front, greatest):
    """The numbers of a line that begins with this word, or None."""
    words = line.split(" ")
    return numbers_of(words[1:], greatest) if words[0] == front else None


def read_certificate(text):
    """The certificate in a text, or None where the text is no certificate."""
    lines = text.decode("latin-1").split("\n")
    buckets = VERSIONS.get(lines[0], 0)
    if not buckets or len(lines) != buckets + 6 or lines[-2:] != ["end", ""]:
        return None
    count, ends = line_of(lines[1], "literals", MOST_LITERALS), line_of(lines[2], "ends", 65535)
    price = line_of(lines[3], "cost", NUMBER_MAX)
    rows = [line_of(line, str(number), NUMBER_MAX) for number, line in enumerate(lines[4:-2], 1)]
    if None in (count, ends, price, *rows) or len(count) != 1 or count[0] < 1 or len(ends) > buckets or len(price) != 1:
        return None
    return (ends, price[0], rows) if all(len(row) == count[0] for row in rows) else None


def is_cut(ends, n):
    """Whether these are the ends of runs of n literals."""
    return ends == sorted(set(ends)) and ends[:1] > [0] and ends[-1] == n


def failure(literals, certificate):
    """The first condition of a certificate that fails, or None."""
    ends, price, rows = certificate
    n = len(literals)
    if n == 0 or len(rows[0]) != n:
        return "length"
    if not is_cut(ends, n) or len(ends) > len(rows):
        return "ends"
    if sum(cost(literals, start, end) for start, end in zip([0, *ends], ends)) != price or rows[-1][0] != price:
        return "total"
    for r, row in enumerate(rows, 1):
        for p in range(n):
            if row[p] > cost(literals, p, n):
                return f"end row {r} {p}"
    for r in range(2, len(rows) + 1):
        for p in range(n):
            for q in range(p + 1, n):
                if rows[r - 1][p] > cost(literals, p, q) + rows[r - 2][q]:
                    return f"step {r} {p} {q}"
    return None


def answer(literals, text):
    """The status, output and messages of the check of a certificate's text."""
    certificate = read_certificate(text)
    if certificate is None:
        return 2, b"", b"litplan: refused (9)\n"
    reason = failure(literals, certificate)
    if reason is None:
        return 0, b"optimal %d\n" % certificate[1], b""
    return 1, f"not certified: {reason}\n".encode(), b""
