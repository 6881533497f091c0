"""A plot of ratios as bars, written as SVG: how far ahead, on a scale of powers of two, and which side is the better one.

    python3 bench/plot.py        draws the plots of the tables PROGRAMS.md, LISTS.md, TUNED.md and SCANNING.md again
"""
import itertools
import math
import os

HEIGHT = 11          # of one bar
TITLE, SIDES, SCALE, BARS = 16, 34, 50, 60
LEFT, RIGHT = 290, 780
LEAST, MOST = -3.0, 5.0
AHEAD, BEHIND = ("#1b7f4b", "#7cc7a0"), ("#b3372b", "#e39a92")
SUMMARY = ["log: one rare", "log: -n frequent", "log: -f 100 rare", "english: -i -f 1000 rare", "log: -x -f 1000",
           "10,000 small files"]      # six of the eight rows that README shows
HERE = os.path.dirname(os.path.abspath(__file__))


def place(ratio):
    """Where on the plot a ratio stands."""
    power = max(LEAST, min(MOST, math.log2(max(ratio, 1e-6))))
    return LEFT + (power - LEAST) / (MOST - LEAST) * (RIGHT - LEFT)


def escaped(text):
    return text.replace("&", "&amp;").replace("<", "&lt;")


def bar(y, ratio, series):
    zero, end = place(1.0), place(ratio)
    colour = (AHEAD if ratio >= 1 else BEHIND)[series]
    return ('<rect x="%.1f" y="%d" width="%.1f" height="%d" fill="%s"/><text x="%.1f" y="%d">%.2f</text>' % (
        min(zero, end), y, max(abs(end - zero), 1), HEIGHT - 2, colour, max(end, zero) + 4, y + HEIGHT - 3, ratio))


def scale(bottom):
    """A line at each power of two."""
    lines = []
    for power in range(int(LEAST), int(MOST) + 1):
        x = place(2.0 ** power)
        lines.append('<line x1="%.1f" y1="%d" x2="%.1f" y2="%d" stroke="%s"/><text x="%.1f" y="%d" text-anchor="middle">%s</text>' % (
            x, SCALE + 4, x, bottom, "#666" if power == 0 else "#ddd", x, SCALE, "%g" % 2.0 ** power))
    return lines


def sides(ours, others):
    """Says on which side of 1 the better one stands."""
    one = place(1.0)
    text = '<text x="%.1f" y="%d" text-anchor="%s" fill="%s" font-weight="bold">%s</text>'
    return [text % (one - 10, SIDES, "end", BEHIND[0], "&#8592; %s faster" % escaped(others)),
            text % (one + 10, SIDES, "start", AHEAD[0], "%s faster &#8594;" % escaped(ours))]


def as_svg(title, ours, others, names, rows):
    """The plot of rows, each a name and a ratio (or None) for each of one or two series."""
    parts, y = sides(ours, others), BARS
    for name, ratios in rows:
        parts.append('<text x="%d" y="%d" text-anchor="end">%s</text>' % (LEFT - 8, y + HEIGHT * len(ratios) / 2 + 3, escaped(name)))
        for series, ratio in enumerate(ratios):
            if ratio is not None:
                parts.append(bar(y, ratio, series))
            y += HEIGHT
        y += 5
    legend = "" if len(names) < 2 else " (dark: %s, light: %s)" % tuple(escaped(n) for n in names[:2])
    head = '<text x="%d" y="%d">%s%s</text>' % (8, TITLE, escaped(title), legend)
    return ('<svg xmlns="http://www.w3.org/2000/svg" width="%d" height="%d" font-family="sans-serif" font-size="10">'
            '<rect width="100%%" height="100%%" fill="white"/>%s%s%s</svg>\n' % (
                RIGHT + 50, y + 10, head, "".join(scale(y)), "".join(parts)))


def programs_plot(names, rows):
    return as_svg("processor time of the best other grep / that of litgrep", "litgrep", "the best other grep", names, rows)


def scanning_plot(names, rows):
    return as_svg("GB/s of whole texts / those of Hyperscan's block mode", "ours", "Hyperscan", names, rows)


def table_of(path, title):
    """The heads and the rows of the first table of a file, or of the first behind a title."""
    with open(os.path.join(HERE, path)) as file:
        text = file.read()
    text = text[text.index(title):]
    lines = list(itertools.takewhile(lambda line: line.startswith("|"),
                                     itertools.dropwhile(lambda line: not line.startswith("|"), text.splitlines())))
    cells = [[cell.strip() for cell in line.strip().strip("|").split("|")] for line in lines]
    return cells[0], cells[2:]


def ratios_of(path, is_ratio, title=""):
    """Each row's name, with the cells of the columns whose heads are ratios."""
    heads, rows = table_of(path, title)
    columns = [k for k, head in enumerate(heads) if is_ratio(head)]
    return [(row[0], [float(row[k]) if row[k] else None for k in columns]) for row in rows]


def plot_of_lists():
    """The plot of the kinds of lists in LISTS.md, for the builds that were measured."""
    is_ratio = lambda head: head.startswith("ahead")
    heads, _ = table_of("LISTS.md", "## By kind")
    builds = [head.replace("ahead", "litgrep").strip() for head in heads if is_ratio(head)]
    return as_svg("processor time of the best other grep / that of litgrep, medians over lists", "litgrep", "the best other grep",
                  builds, ratios_of("LISTS.md", is_ratio, "## By kind"))


def plot_of_tuned():
    """The plot of the kinds of lists in TUNED.md, texts at hand, for the builds that were measured."""
    with open(os.path.join(HERE, "TUNED.md")) as file:
        titles = [line for line in file.read().splitlines() if line.startswith("## By kind, at hand")]
    is_ratio = lambda head: head == "Hyperscan / tuned"
    tables = [ratios_of("TUNED.md", is_ratio, title) for title in titles]
    rows = [(same[0][0], [ratio for _, ratios in same for ratio in ratios]) for same in zip(*tables)]
    return as_svg("time of Hyperscan's block mode / that of the scan that tunes itself, medians over lists", "ours", "Hyperscan",
                  [title.rsplit(", ", 1)[-1] for title in titles], rows)


def main():
    programs = ratios_of("PROGRAMS.md", lambda head: head.startswith("ahead"))
    scanning = ratios_of("SCANNING.md", lambda head: head.endswith("/ Hyperscan block"))
    levels = ["x86-64-v2", "x86-64-v3"]
    with open(os.path.join(HERE, "programs.svg"), "w") as out:
        out.write(programs_plot(levels, programs))
    with open(os.path.join(HERE, "summary.svg"), "w") as out:
        out.write(programs_plot(levels, [row for row in programs if row[0] in SUMMARY]))
    with open(os.path.join(HERE, "lists.svg"), "w") as out:
        out.write(plot_of_lists())
    with open(os.path.join(HERE, "tuned.svg"), "w") as out:
        out.write(plot_of_tuned())
    with open(os.path.join(HERE, "scanning.svg"), "w") as out:
        out.write(scanning_plot(levels, scanning))


if __name__ == "__main__":
    main()
