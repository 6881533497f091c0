"""A plain model of `litplan explain`: the table and the drawing of a plan, from the patterns of a file."""

from xml.sax.saxutils import escape

from oracles import plain_plan

# What even parts are called, by their number.
EVEN = {8: "even eighths", 16: "even sixteenths"}
HEADING = "bucket  literals  shortest  bytes  weight        cost    %   endings  first and last literal\n"


def shown(literal):
    """A literal in quotes, in printable ASCII, cut to 24 bytes."""
    text = ""
    for byte in literal[:24]:
        if byte in b'"\\':
            text += "\\" + chr(byte)
        else:
            text += chr(byte) if 32 <= byte < 127 else f"\\x{byte:02x}"
    return f'"{text}"' + (".." if len(literal) > 24 else "")


def cases(byte, is_folded):
    """A byte of a literal, and its capital where case is ignored."""
    letter = bytes([byte])
    return letter + letter.upper() if is_folded else letter


def endings(run, is_folded):
    """How many endings of three bytes pass a bucket's filter. At each position the filter looks up both halves of the byte,
    and each half may come from another literal."""
    width, count = min(3, len(run[0])), 1
    for back in range(1, 4):
        if back > width:
            count *= 256
        else:
            found = b"".join(cases(literal[-back], is_folded) for literal in run)
            count *= len({byte % 16 for byte in found}) * len({byte // 16 for byte in found})
    return count


def other_costs(literals, buckets):
    """The cost of a list in one bucket, and in as many even parts as there are buckets."""
    count, starts = len(literals), [k * len(literals) // buckets for k in range(buckets + 1)]
    even = sum(plain_plan.cost(literals, start, end) for start, end in zip(starts, starts[1:]) if start < end)
    return plain_plan.cost(literals, 0, count), even


def repeats(patterns, is_folded):
    """The lines that repeat an earlier line, each with the first line of this text."""
    first, found = {}, []
    for line, pattern in enumerate(patterns, 1):
        key = pattern.lower() if is_folded else pattern
        if key and key in first:
            found.append((line, first[key]))
        first.setdefault(key, line)
    return found


def runs_of(ends):
    """The runs that end there, each by its start and its end."""
    return list(zip([0, *ends], ends))


def weight(shortest):
    return 4096 // min(shortest, 8) ** 3


def text_of(patterns, is_folded, buckets=8, planned=plain_plan.plan_of):
    """The text that `explain` prints for these patterns, by the plain planner or a faster one."""
    literals = plain_plan.literals_of(patterns, is_folded)
    ends, total, _ = planned(literals, buckets)
    single, even = other_costs(literals, buckets)
    lines = [HEADING]
    for number, (start, end) in enumerate(runs_of(ends), 1):
        run = literals[start:end]
        shortest, cost = len(run[0]), plain_plan.cost(literals, start, end)
        lines.append(f"{number:6}{end - start:10}{shortest:10}{min(3, shortest):7}{weight(shortest):8}{cost:12}")
        lines.append(f"{cost * 100 // total:5}{endings(run, is_folded):10}  {shown(run[0])} to {shown(run[-1])}\n")
    for name, cost in ("total", total), ("one bucket for all", single), (EVEN[buckets], even):
        lines.append(f"{name:41}{cost:12} {cost * 100 // total:4}\n")
    found = repeats(patterns, is_folded)
    lines.append(f"equal to an earlier line: {len(found)}\n")
    lines += [f"  line {later} is line {first} again\n" for later, first in found[:10]]
    lines.append(f"null patterns: {patterns.count(b'')}\n")
    return "".join(lines).encode()


HEAD = """<svg xmlns="http://www.w3.org/2000/svg" viewBox="0 0 720 %d" font-family="sans-serif" font-size="13">
<style>text { fill: #24292f } rect { fill: #4f8fd0; stroke: #fff } path { stroke: #24292f }
@media (prefers-color-scheme: dark) { text { fill: #e6edf3 } rect { stroke: #0d1117 } path { stroke: #e6edf3 } }</style>
"""
FOOT = """<path d="M40 260H680"/>
<text x="40" y="300">literals by length; below a bucket the bytes of its shortest, above it its cost</text>
"""


def numbers(literals, number, start, end, total):
    """What a title and the legend say of a bucket."""
    cost = plain_plan.cost(literals, start, end)
    return f"bucket {number}: literals {end - start}, shortest {len(literals[start])}, cost {cost}, % of all {cost * 100 // total}"


def bar(literals, number, start, end, total, highest):
    """A bucket of the drawing."""
    shortest, cost = len(literals[start]), plain_plan.cost(literals, start, end)
    left, right = (640 * place // len(literals) for place in (start, end))
    high, width = 200 * cost // highest, right - left
    title = numbers(literals, number, start, end, total) + f"  {shown(literals[start])} to {shown(literals[end - 1])}"
    text = f'<g><title>{escape(title)}</title>\n<rect x="{40 + left}" y="{260 - high}" width="{width}" height="{high}"/>\n'
    if width >= 48:
        text += f'<text x="{43 + left}" y="{255 - high}">{cost}</text>\n<text x="{43 + left}" y="275">{shortest}</text>\n'
    return text + "</g>\n"


def drawing_of(patterns, is_folded, buckets=8, planned=plain_plan.plan_of):
    """The drawing that `explain --svg` prints for these patterns, by the plain planner or a faster one."""
    literals = plain_plan.literals_of(patterns, is_folded)
    ends, total, _ = planned(literals, buckets)
    single, even = other_costs(literals, buckets)
    runs = runs_of(ends)
    highest = max(plain_plan.cost(literals, *run) for run in runs)
    text = HEAD % (316 + 18 * len(runs)) + f'<text x="40" y="24">cost {total}; one bucket for all {single}; {EVEN[buckets]} {even}</text>\n'
    text += "".join(bar(literals, number, *run, total, highest) for number, run in enumerate(runs, 1))
    lines = [numbers(literals, number, *run, total) for number, run in enumerate(runs, 1)]
    legend = "".join(f'<text x="40" y="{324 + 18 * place}">{line}</text>\n' for place, line in enumerate(lines))
    return (text + FOOT + legend + "</svg>\n").encode()
