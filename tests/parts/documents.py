"""The documents: every Markdown link leads somewhere, a table cell has 40 words at most, and README.md has 900."""

import functools
import os
import re
import urllib.parse

from support.programs import TOP

README_WORDS, CELL_WORDS = 900, 40

FENCED = re.compile(r"^ {0,3}(```|~~~).*?^ {0,3}\1[`~]*[ ]*$", re.M | re.S)
INDENTED = re.compile(r"^(?: {4}|\t).*$", re.M)
CODE = re.compile(r"(`+)(?!`)[^\n]*?(?<!`)\1(?!`)")
# The targets of links and images, of definitions of links, and of HTML.
TARGETS = (
    re.compile(r"\]\(\s*<?([^)>\s]+)"),
    re.compile(r"^ {0,3}\[[^\]]+\]:\s*<?([^>\s]+)", re.M),
    re.compile(r'\b(?:href|src)="([^"]+)"'),
)
HEADING = re.compile(r"^ {0,3}#{1,6}[ ]+(.*?)[ ]*#*$", re.M)
NAMED = re.compile(r'<[^>]*\b(?:id|name)="([^"]+)"')
EXTERNAL = re.compile(r"[a-zA-Z][a-zA-Z0-9+.-]*:|//")
SOURCE_LINE = re.compile(r"L\d+(?:-L\d+)?")


def read(document):
    """The text of a document."""
    with open(os.path.join(TOP, document), encoding="utf-8") as file:
        return file.read()


@functools.lru_cache
def ignored():
    """The names of files and folders that are no part of the repository."""
    return {".git", *(line.strip("/") for line in read(".gitignore").split())}


def documents():
    """The names of all Markdown files of the repository."""
    for folder, below, files in os.walk(TOP):
        below[:] = sorted(set(below) - ignored())
        yield from (os.path.relpath(os.path.join(folder, name), TOP) for name in sorted(files) if name.endswith(".md"))


def prose(text):
    """A text without its blocks of code, with "x" in place of code in a line."""
    return CODE.sub("x", INDENTED.sub("", FENCED.sub("", text)))


def targets_in(text):
    """The targets of all links in a text, except those outside the repository."""
    found = [target for pattern in TARGETS for target in pattern.findall(prose(text))]
    return [target for target in found if not EXTERNAL.match(target)]


def anchor_of(heading):
    """The anchor that GitHub gives a heading."""
    shown = re.sub(r"!?\[([^\]]*)\]\([^)]*\)", r"\1", heading)
    return re.sub(r"[^\w\- ]", "", shown.lower()).strip().replace(" ", "-")


def anchors_in(text):
    """The anchors of a document. A heading that comes again has a number after its anchor."""
    text, found = FENCED.sub("", text), set()
    for heading in HEADING.findall(text):
        anchor, number = anchor_of(heading), 0
        while (f"{anchor}-{number}" if number else anchor) in found:
            number += 1
        found.add(f"{anchor}-{number}" if number else anchor)
    return found.union(NAMED.findall(text))


def leads_somewhere(document, target):
    """Whether the target of a link in a document is a file of the repository, and its anchor is one of that file."""
    path, _, anchor = urllib.parse.unquote(target).partition("#")
    base = "" if path.startswith("/") else os.path.dirname(document)
    name = os.path.normpath(os.path.join(base, path.lstrip("/"))) if path else document
    parts = name.split(os.sep)
    if parts[0] == ".." or ignored().intersection(parts) or not os.path.exists(os.path.join(TOP, name)):
        return False
    if not anchor:
        return True
    return anchor in anchors_in(read(name)) if name.endswith(".md") else bool(SOURCE_LINE.fullmatch(anchor))


def cells_in(text):
    """The cells of all tables in a text."""
    rows = [line for line in prose(text).splitlines() if line.lstrip().startswith("|")]
    return [cell for row in rows for cell in re.split(r"(?<!\\)\|", row)]


def rules():
    """Links, headings and tables are read as Markdown has them."""
    text = "# A `b`, c\n\n## A b c\n\n[x\ny](a.md#b) ![z](b.svg) `[n](n.md)` [h](https://h)\n\n    [n](n.md)\n\n```\n[n](n.md)\n# n\n```\n"
    text += '[r]: <c.md> "title"\n\n| a `b | c` | d \\| e |\n'
    yield "targets", targets_in(text), ["a.md#b", "b.svg", "c.md"]
    yield "anchors", anchors_in(text), {"a-b-c", "a-b-c-1"}
    yield "cells", cells_in(text), ["", " a x ", " d \\| e ", ""]
    for target, is_there in (
        ("LIBRARY.md", True), ("../README.md#", True), ("/README.md", True), ("#none", False), ("none.md", False),
        ("../..", False), ("../bin/litgrep", False), ("../README.md#none", False), ("../tests/run.py#L1", True),
    ):
        yield f"a link of docs/GUIDE.md to {target}", leads_somewhere("docs/GUIDE.md", target), is_there


def links():
    """Every link of every document."""
    names = list(documents())
    yield "README.md is a document", "README.md" in names, True
    for document in names:
        for target in targets_in(read(document)):
            yield f"the link of {document} to {target}", leads_somewhere(document, target), True


def lengths():
    """Table cells, and README.md, are not too long."""
    for document in documents():
        long = [cell.strip() for cell in cells_in(read(document)) if len(cell.split()) > CELL_WORDS]
        yield f"table cells of {document} of more than {CELL_WORDS} words", long, []
    count = len(read("README.md").split())
    yield f"README.md has {count} words, of {README_WORDS} at most", count <= README_WORDS, True


TESTS = (rules, links, lengths)
